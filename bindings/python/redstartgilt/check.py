"""Whether a factor is that of a precision matrix.

The library is proved; what is handed to it is not. An upper factor, the matrix itself, a permutation in the other direction
or none give variances that look like right ones. So L·Lᵀ is compared with Q, entry by entry, as `check_against` of the Rust
crate does: they may differ by

    2·(t + 128)·u·s + 2·(t + 1)·2^-1074·max(1, d),    u = 2^-53,

t being the number of products that the entry is a sum of, s the sum of their sizes, and d the diagonal, or the pivot, of the
column in which the factor has the entry. A factorisation in floats has an error of at most γ(t + 1)·s at the entry, whatever
the order of its sums (Higham, theorem 10.3), and the sum here one of γ(t)·s more, γ(m) being m·u / (1 − m·u); the rest is for
numbers that were written with 15 digits or more, and for products below the least float. Where the product has no term, Q
must have 0, but for that.

Q has both halves, or one of them alone. Its entries and those of L·Lᵀ count wherever either has one.
"""

from __future__ import annotations

import math
from typing import Any, Callable, Dict, Iterable, Iterator, List, Optional, Tuple

from ._columns import Columns, is_sparse, lists_of
from ._lists import take
from .errors import FactorMismatch, Refused

UNIT = 2.0**-53
LEAST = 2.0**-1074

Pair = Tuple[int, int]


def rounding(terms: Any, size: Any, divisor: Any) -> Any:
    """What rounding may make an entry differ by; of numbers, or of arrays of them, with divisors of 1 or more."""
    return 2.0 * (terms + 128.0) * UNIT * size + 2.0 * (terms + 1.0) * LEAST * divisor


def _divisors(columns: Columns, pivots: Optional[memoryview], cells: Any) -> List[Tuple[int, float]]:
    """Of each cell its place in the factor, and what the entries of that column are quotients by, 1 at least."""
    divisors = [1.0] * columns.n
    for row, column, value in columns.kept():
        if row == column:
            divisors[column] = value
    found = [(0, 1.0)] * columns.n
    for place in range(columns.n):
        divisor = divisors[place] if pivots is None else pivots[place]
        found[cells[place]] = (place, max(1.0, abs(divisor)))
    return found


def _entries(columns: Columns, pivots: Optional[memoryview], cells: Any) -> Iterator[Tuple[int, int, Any]]:
    """The entries (cell, column, value) of L; with pivots the diagonals that are not stored too, which are 1."""
    stored = set()
    for row, column, value in columns.kept():
        if row == column:
            stored.add(column)
        yield cells[row], column, value
    if pivots is not None:
        yield from ((cells[column], column, 1.0) for column in range(columns.n) if column not in stored)


def check_product(columns: Columns, pivots: Optional[memoryview], cells: Any, matrix: Any) -> None:
    """Compares L·Lᵀ, or L·D·Lᵀ, with a matrix in the user's order of cells; raises FactorMismatch."""
    n = columns.n
    entries = list(_entries(columns, pivots, cells))
    divisors = _divisors(columns, pivots, cells)
    if is_sparse(matrix):
        _refuse_dimension(n, matrix.shape)
        _check_sparse(n, entries, pivots, divisors, matrix.tocsc())
        return
    products = _products(n, entries, [1.0] * n if pivots is None else pivots)

    def found(pair: Pair) -> Tuple[Any, Any]:
        value, size, terms = products.get(pair, (0.0, 0.0, 0))
        return value, rounding(terms, size, min(divisors[pair[0]], divisors[pair[1]])[1])

    _compare(products, found, _given(n, matrix, "d"))


def check_whole_product(columns: Columns, cells: Any, matrix: Any) -> None:
    """Compares L·Lᵀ with a matrix exactly."""
    n = columns.n
    products = _products(n, list(_entries(columns, None, cells)), [1] * n)
    _compare(products, lambda pair: (products.get(pair, (0, 0, 0))[0], 0), _given(n, matrix, "q"))


def _refuse_dimension(n: int, shape: Tuple[int, ...]) -> None:
    if tuple(shape) != (n, n):
        raise Refused(4)


def _products(n: int, entries: List[Tuple[int, int, Any]], pivots: Any) -> Dict[Pair, Tuple[Any, Any, int]]:
    """Of each pair of cells, the first not less than the second: the sum, the sum of sizes and the number of terms."""
    columns: List[List[Tuple[int, Any]]] = [[] for _ in range(n)]
    for cell, column, value in entries:
        columns[column].append((cell, value))
    found: Dict[Pair, Tuple[Any, Any, int]] = {}
    for listed, pivot in zip(columns, pivots):
        listed.sort()
        for place, (row, value) in enumerate(listed):
            for other, factor in listed[: place + 1]:
                term = value * pivot * factor
                total, size, terms = found.get((row, other), (0, 0, 0))
                found[row, other] = (total + term, size + abs(term), terms + 1)
    return found


def _given(n: int, matrix: Any, kind: str) -> Dict[Pair, Any]:
    """The entries of a matrix, of one that has one half alone those of the other too."""
    dimension, starts, rows, values = lists_of(matrix)
    _refuse_dimension(n, (dimension, dimension))
    columns = Columns(n, take("I", starts, "starts"), take("I", rows, "rows"), take(kind, values, "values"))
    _refuse_broken(columns)
    given = {(row, column): value for row, column, value in columns.entries()}
    if not (any(row > column for row, column in given) and any(row < column for row, column in given)):
        given.update({(column, row): value for (row, column), value in given.items()})
    return given


def _refuse_broken(columns: Columns) -> None:
    starts, rows = columns.starts.view, columns.rows.view
    counts = list(starts)
    if len(counts) != columns.n + 1 or counts[0] or counts[-1] != len(rows) or counts != sorted(counts):
        raise Refused(2)
    if len(rows) != columns.values.length:
        raise Refused(2)
    for column in range(columns.n):
        listed = list(rows[counts[column] : counts[column + 1]])
        if any(row >= columns.n for row in listed) or any(a >= b for a, b in zip(listed, listed[1:])):
            raise Refused(3)


def _compare(pairs: Iterable[Pair], found: Callable[[Pair], Tuple[Any, Any]], given: Dict[Pair, Any]) -> None:
    """Compares the product's entries, each with its bound, with those given, at all pairs of either."""
    worst: Optional[FactorMismatch] = None
    most = 0.0
    both = set(pairs) | {(column, row) for row, column in pairs} | set(given)
    for column, row in sorted((column, row) for row, column in both):
        product, bound = found((max(row, column), min(row, column)))
        value = given.get((row, column), 0)
        difference = abs(product - value)
        # Sums that are too large for floats are within no bound.
        if difference <= bound < math.inf:
            continue
        times = difference / bound if 0 < bound < math.inf else math.inf
        if worst is None or not times <= most:
            worst, most = FactorMismatch(row, column, product, value, bound), times
    if worst is not None:
        raise worst


def _check_sparse(
    n: int,
    entries: List[Tuple[int, int, float]],
    pivots: Optional[memoryview],
    divisors: List[Tuple[int, float]],
    matrix: Any,
) -> None:
    """The same comparison by SciPy's products."""
    import numpy
    from scipy import sparse

    lower, upper = sparse.tril(matrix, -1), sparse.triu(matrix, 1)
    if not (lower.nnz and upper.nnz):
        matrix = matrix + (lower + upper).T
    positions = [cell for cell, _, _ in entries], [column for _, column, _ in entries]
    factor = sparse.csc_matrix(([value for _, _, value in entries], positions), shape=(n, n), dtype=float)
    scaled = factor if pivots is None else factor @ sparse.diags(numpy.asarray(pivots))
    ones = sparse.csc_matrix((numpy.ones(len(entries)), positions), shape=(n, n))
    product = _keyed(n, scaled @ factor.T)
    sizes, terms = _keyed(n, abs(scaled) @ abs(factor).T), _keyed(n, ones @ ones.T)
    given = _keyed(n, matrix)
    keys = numpy.union1d(product[0], given[0])
    products, values = _at(keys, product), _at(keys, given)
    places = numpy.array([place for place, _ in divisors])
    by_place = numpy.array([divisor for _, divisor in sorted(divisors)])
    columns, rows = numpy.divmod(keys, n)
    divisor = by_place[numpy.minimum(places[columns], places[rows])]
    bounds = rounding(_at(keys, terms), _at(keys, sizes), divisor)
    differences = abs(products - values)
    wrong = numpy.flatnonzero(~((differences <= bounds) & numpy.isfinite(bounds)))
    if not len(wrong):
        return
    with numpy.errstate(divide="ignore", invalid="ignore", over="ignore"):
        times = numpy.nan_to_num(differences[wrong] / bounds[wrong], nan=numpy.inf, posinf=numpy.inf)
    worst = wrong[numpy.argmax(times)]
    column, row = divmod(int(keys[worst]), n)
    raise FactorMismatch(row, column, float(products[worst]), float(values[worst]), float(bounds[worst]))


def _keyed(n: int, matrix: Any) -> Tuple[Any, Any]:
    """The entries of a sparse matrix by the key column · n + row, ascending."""
    import numpy

    columns = matrix.tocsc()
    if not columns.has_canonical_format:
        columns = columns.copy()
        columns.sum_duplicates()
    keys = numpy.repeat(numpy.arange(n, dtype=numpy.int64), numpy.diff(columns.indptr)) * n + columns.indices
    return keys, columns.data


def _at(keys: Any, keyed: Tuple[Any, Any]) -> Any:
    """The values at keys; 0 where there is none."""
    import numpy

    found = numpy.zeros(len(keys))
    places = numpy.searchsorted(keys, keyed[0])
    there = places < len(keys)
    there[there] = keys[places[there]] == keyed[0][there]
    found[places[there]] = keyed[1][there]
    return found
