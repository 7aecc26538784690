"""Factors for tests, and what is right about them, computed in another way."""

import random
from fractions import Fraction

F2 = ([0, 2, 3], [0, 1, 1], [1.0, 2.0, 1.0])
"""Columns (1, 2) and (1); the inverse is (5, -2; -2, 1)."""

F3 = ([0, 3, 4, 5], [0, 1, 2, 1, 2], [1.0, 2.0, 3.0, 1.0, 1.0])
"""Columns (1, 2, 3), (1) and (1)."""


def random_triplets(n, seed, per_column=3):
    """The entries of a lower factor whose numbers are small whole ones, its diagonal 1."""
    chosen = random.Random(seed)
    entries = [(cell, cell, 1) for cell in range(n)]
    for column in range(n):
        rows = range(column + 1, n)
        for row in chosen.sample(rows, min(per_column, len(rows))):
            entries.append((row, column, chosen.choice([-2, -1, 1, 2])))
    return entries


def random_order(n, seed):
    order = list(range(n))
    random.Random(seed).shuffle(order)
    return order


def precision(n, triplets, cells=None, pivots=None):
    """L·D·Lᵀ as a dictionary of both halves, exact; row k of L is that of cell cells[k]."""
    cells = range(n) if cells is None else cells
    columns = {}
    for row, column, value in triplets:
        columns.setdefault(column, []).append((cells[row], Fraction(value)))
    found = {}
    for column, entries in columns.items():
        for row, value in entries:
            for other, factor in entries:
                term = value * factor * (1 if pivots is None else Fraction(pivots[column]))
                found[row, other] = found.get((row, other), 0) + term
    return found


def inverse(n, matrix):
    """The exact inverse, by Gauss and Jordan."""
    rows = [
        [Fraction(matrix.get((i, j), 0)) for j in range(n)] + [Fraction(i == j) for j in range(n)] for i in range(n)
    ]
    for column in range(n):
        pivot = next(row for row in range(column, n) if rows[row][column])
        rows[column], rows[pivot] = rows[pivot], rows[column]
        rows[column] = [value / rows[column][column] for value in rows[column]]
        for row in range(n):
            if row != column and rows[row][column]:
                times = rows[row][column]
                rows[row] = [a - times * b for a, b in zip(rows[row], rows[column])]
    return [row[n:] for row in rows]


def columns_of(n, matrix):
    """A dictionary of entries as the triple of compressed columns."""
    starts, rows, values = [0], [], []
    for column in range(n):
        for row in range(n):
            if (row, column) in matrix:
                rows.append(row)
                values.append(matrix[row, column])
        starts.append(len(rows))
    return starts, rows, [float(value) for value in values]
