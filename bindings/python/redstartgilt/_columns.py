"""Compressed columns: the layout of a factor, from what a user has."""

from __future__ import annotations

import math
from array import array
from typing import Any, Iterable, Iterator, List, NamedTuple, Tuple

from . import lent
from ._lists import Lent, take, word
from .errors import NOT_FINITE_ENTRY, NotLower, Refused, check
from .workspace import MAX_DIMENSION


class Columns(NamedTuple):
    """n columns: n + 1 starts, then each column's row indices, ascending, and values."""

    n: int
    starts: Lent
    rows: Lent
    values: Lent

    def entries(self) -> Iterator[Tuple[int, int, Any]]:
        """The entries (row, column, value), by column then row, of columns that were checked."""
        starts, rows, values = self.starts.view, self.rows.view, self.values.view
        for column in range(self.n):
            for place in range(starts[column], starts[column + 1]):
                yield rows[place], column, values[place]

    def kept(self) -> Iterator[Tuple[int, int, Any]]:
        """Those that are on or below the diagonal and not 0."""
        return ((row, column, value) for row, column, value in self.entries() if row >= column and value != 0)


def is_sparse(matrix: Any) -> bool:
    """Whether it is a scipy.sparse matrix or array, without SciPy being looked for."""
    return hasattr(matrix, "tocsc") and hasattr(matrix, "tocsr")


def lists_of(matrix: Any) -> Tuple[int, Any, Any, Any]:
    """The number of rows and the three lists of a sparse matrix, a dense one, or a triple (starts, rows, values)."""
    if is_sparse(matrix):
        columns = matrix.tocsc()
        if not columns.has_sorted_indices:
            columns = columns.sorted_indices()
        _refuse_oblong(columns.shape)
        return columns.shape[0], columns.indptr, columns.indices, columns.data
    if getattr(matrix, "ndim", 1) == 2:
        _refuse_oblong(matrix.shape)
        transposed = matrix.T
        columns, rows = transposed.nonzero()
        return matrix.shape[0], columns.searchsorted(range(matrix.shape[0] + 1)), rows, transposed[columns, rows]
    if isinstance(matrix, (tuple, list)) and len(matrix) == 3:
        starts, rows, values = matrix
        return max(len(starts) - 1, 0), starts, rows, values
    raise TypeError(
        "a matrix is a scipy.sparse one, an array of two dimensions or the triple (starts, rows, values) of compressed "
        f"columns, and not {type(matrix).__name__}"
    )


def _refuse_oblong(shape: Tuple[int, ...]) -> None:
    if shape[0] != shape[1]:
        raise ValueError(f"the matrix must be square, and has {shape[0]} rows and {shape[1]} columns")


def of_triplets(n: int, triplets: Iterable[Tuple[int, int, Any]]) -> Tuple[array, array, List[Any]]:
    """Starts, rows and values of entries (row, column, value) in any order. Two at one position, or a row outside, are left
    for the check to refuse; a column outside and a dimension that is too large are refused here, before lists are made.
    """
    if n > MAX_DIMENSION:
        raise Refused(1)
    entries = sorted(((column, row, value) for row, column, value in triplets), key=lambda entry: entry[:2])
    if any(not 0 <= column < n for column, _, _ in entries):
        raise Refused(3)
    starts = [0] * (n + 1)
    for column, _, _ in entries:
        starts[column + 1] += 1
    for column in range(n):
        starts[column + 1] += starts[column]
    return array("I", starts), array("I", [word(row) for _, row, _ in entries]), [value for _, _, value in entries]


_CHECKS = {"d": "check_factor", "q": "check_whole_factor"}


def checked(lists: Tuple[int, Any, Any, Any], kind: str, copy: bool) -> Columns:
    """A lower factor: refused as the library does, and with NotLower where an entry above the diagonal would be dropped."""
    n, starts, rows, values = lists
    columns = Columns(
        n, take("I", starts, "starts", copy), take("I", rows, "rows", copy), take(kind, values, "values", copy)
    )
    refusal = lent.call(_CHECKS[kind], *columns)
    if refusal == NOT_FINITE_ENTRY:
        row, column = next((row, column) for row, column, value in columns.kept() if not math.isfinite(value))
        raise Refused(NOT_FINITE_ENTRY, f"entry ({row}, {column}) of the factor is not finite")
    check(refusal)
    _refuse_upper(columns)
    return columns


def _refuse_upper(columns: Columns) -> None:
    starts, rows, values = columns.starts.view, columns.rows.view, columns.values.view
    for column in range(columns.n):
        # Rows ascend, so those above the diagonal come first.
        for place in range(starts[column], starts[column + 1]):
            if rows[place] >= column:
                break
            if values[place] != 0:
                raise NotLower(rows[place], column, _hint(columns))


def _hint(columns: Columns) -> str:
    if any(row > column for row, column, _ in columns.kept()):
        return (
            "the factor must be lower triangular, and has entries on both sides, as the matrix itself has; where those "
            "above are to be dropped, drop them first, as scipy.sparse.tril does"
        )
    return "this is an upper factor R of Rᵀ·R, or its lists go by rows; give its transpose, the lower factor L of L·Lᵀ"
