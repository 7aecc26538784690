"""A factor held against its matrix: everyday mistakes are told, and what rounding explains is not."""

import math
import random
import unittest

from redstartgilt import Factor, FactorMismatch, LdlFactor, Refused, WholeFactor
from redstartgilt.check import LEAST, UNIT, rounding

from .given import columns_of, precision, random_order, random_triplets


def cholesky(n, matrix):
    """The entries of the lower factor, in floats."""
    lower = [[0.0] * n for _ in range(n)]
    for column in range(n):
        for row in range(column, n):
            total = matrix.get((row, column), 0.0) - sum(lower[row][k] * lower[column][k] for k in range(column))
            lower[row][column] = math.sqrt(total) if row == column else total / lower[column][column]
    return [(row, column, lower[row][column]) for column in range(n) for row in range(column, n) if lower[row][column]]


def field(side):
    """The precision of a field on a grid of cells."""
    n = side * side
    matrix = {}
    for cell in range(n):
        matrix[cell, cell] = 4.3 + (cell % 7) / 10
        for other in ([cell + 1] if (cell + 1) % side else []) + ([cell + side] if cell + side < n else []):
            matrix[cell, other] = matrix[other, cell] = -1.1
    return n, matrix


def reordered(matrix, order):
    """The matrix in factor order: place k is cell order[k]."""
    place = {cell: k for k, cell in enumerate(order)}
    return {(place[row], place[column]): value for (row, column), value in matrix.items()}


class CheckAgainst(unittest.TestCase):
    def test_the_factor_of_the_matrix_passes(self):
        for seed in range(5):
            n, matrix = field(3 + seed)
            order = random_order(n, seed)
            triplets = cholesky(n, reordered(matrix, order))
            factor = Factor.from_triplets(n, triplets, place_to_cell=order)
            factor.check_against(columns_of(n, matrix))
            # One half says the same.
            for half in (lambda row, column: row >= column, lambda row, column: row <= column):
                kept = {pair: value for pair, value in matrix.items() if half(*pair)}
                factor.check_against(columns_of(n, kept))

    def test_everyday_mistakes_are_told(self):
        n, matrix = field(5)
        order = random_order(n, 1)
        triplets = cholesky(n, reordered(matrix, order))
        given = columns_of(n, matrix)
        lower = {(row, column): value for (row, column), value in matrix.items() if row >= column}
        squares = [(row, column, value * value if row == column else value) for row, column, value in triplets]
        for name, wrong in [
            ("no permutation", lambda: Factor.from_triplets(n, triplets)),
            ("the other direction", lambda: Factor.from_triplets(n, triplets, cell_to_place=order)),
            ("half of the matrix itself", lambda: Factor(columns_of(n, lower))),
            ("pivots on the diagonal", lambda: Factor.from_triplets(n, squares, place_to_cell=order)),
            ("an entry lost", lambda: Factor.from_triplets(n, triplets[:-2] + triplets[-1:], place_to_cell=order)),
        ]:
            with self.assertRaises(FactorMismatch, msg=name):
                wrong().check_against(given)

    def test_the_worst_entry_is_told(self):
        factor = Factor(([0, 2, 3], [0, 1, 1], [1.0, 2.0, 1.0]), cell_to_place=[1, 0])
        # Q is (5, 2; 2, 1) in the user's order.
        factor.check_against(([0, 2, 4], [0, 1, 0, 1], [5.0, 2.0, 2.0, 1.0]))
        with self.assertRaises(FactorMismatch) as told:
            factor.check_against(([0, 2, 4], [0, 1, 0, 1], [5.5, 2.0, 2.125, 1.0]))
        worst = told.exception
        self.assertEqual((worst.row, worst.column, worst.product, worst.precision), (0, 0, 5.0, 5.5))
        self.assertEqual(worst.bound, 2 * (2 + 128) * UNIT * 5.0 + 6 * LEAST)
        with self.assertRaises(FactorMismatch) as told:
            factor.check_against(([0, 2, 4], [0, 1, 0, 1], [5.0, 2.0, 2.125, 1.0]))
        self.assertEqual((told.exception.row, told.exception.column), (0, 1))
        # Where either has no entry.
        with self.assertRaises(FactorMismatch) as told:
            factor.check_against(([0, 1, 2], [0, 1], [5.0, 1.0]))
        self.assertEqual((told.exception.row, told.exception.column, told.exception.precision), (1, 0, 0))
        with self.assertRaises(FactorMismatch) as told:
            Factor(([0, 1, 2], [0, 1], [1.0, 1.0])).check_against(([0, 2, 3], [0, 1, 1], [1.0, 1e-300, 1.0]))
        self.assertEqual((told.exception.product, told.exception.bound), (0, 2 * LEAST))
        self.assertIn("rounding does not make them differ", str(told.exception))
        with self.assertRaises(FactorMismatch):
            factor.check_against(([0, 2, 4], [0, 1, 0, 1], [5.0, 2.0, float("nan"), 1.0]))

    def test_the_bound_is_near_rounding(self):
        factor = Factor(([0, 1], [0], [1.0]))
        factor.check_against(([0, 1], [0], [1.0 + 258 * UNIT]))
        with self.assertRaises(FactorMismatch):
            factor.check_against(([0, 1], [0], [1.0 + 260 * UNIT]))
        # A sum below the least float is lost, times the diagonal by which the entry was divided.
        self.assertEqual(rounding(3, 0.0, 1024.0), 8 * 1024 * LEAST)
        # Sums that are too large for floats are within no bound.
        with self.assertRaises(FactorMismatch):
            Factor(([0, 1], [0], [1e200])).check_against(([0, 1], [0], [float("inf")]))

    def test_with_pivots(self):
        chosen = random.Random(3)
        for seed in range(5):
            n = 6 + seed
            triplets = [(row, column, value / 3) for row, column, value in random_triplets(n, seed) if row != column]
            pivots = [chosen.uniform(0.1, 9.0) for _ in range(n)]
            order = random_order(n, seed)
            whole = triplets + [(cell, cell, 1.0) for cell in range(n)]
            given = columns_of(n, precision(n, whole, order, pivots))
            for stored in (triplets, whole):
                LdlFactor.from_triplets(n, stored, pivots, place_to_cell=order).check_against(given)
            with self.assertRaises(FactorMismatch):
                LdlFactor.from_triplets(n, triplets, pivots[::-1], place_to_cell=order).check_against(given)

    def test_whole_numbers_exactly(self):
        n = 8
        triplets = random_triplets(n, 2)
        order = random_order(n, 3)
        starts, rows, values = columns_of(n, precision(n, triplets, order))
        factor = WholeFactor.from_triplets(n, triplets, place_to_cell=order)
        factor.check_against((starts, rows, values))
        values[3] += 1
        with self.assertRaises(FactorMismatch) as told:
            factor.check_against((starts, rows, values))
        self.assertEqual(abs(told.exception.product - told.exception.precision), 1)

    def test_matrices_that_are_refused(self):
        factor = Factor(([0, 1], [0], [1.0]))
        for number, bad in [
            (4, ([0, 1, 2], [0, 1], [1.0, 1.0])),
            (2, ([1, 1], [0], [1.0])),
            (2, ([0, 1], [0], [])),
            (3, ([0, 1], [1], [1.0])),
            (3, ([0, 2], [0, 0], [1.0, 1.0])),
        ]:
            with self.assertRaises(Refused) as refused:
                factor.check_against(bad)
            self.assertEqual(refused.exception.number, number)


if __name__ == "__main__":
    unittest.main()
