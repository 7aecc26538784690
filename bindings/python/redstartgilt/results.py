"""What calls answer: variances, entries of the inverse, and their counts."""

from __future__ import annotations

import math
import operator
from array import array
from typing import Any, Generic, Iterator, List, NamedTuple, Optional, Tuple, TypeVar

from . import lent
from ._library import FUNCTIONS
from ._lists import Lent, copied, room
from .errors import NOT_COVERED, ClosureTooLarge, NotCovered, check
from .permutation import Permutation

Number = TypeVar("Number", float, int)

COMPLETE = 0


class SelectedInverseDiagnostics(NamedTuple):
    """The counts of an answer."""

    requested_pairs: int
    """Distinct requested pairs."""
    closure_pairs: int
    """Pairs of the closed set: the requests and all that the recurrence needs for them; past the limit, limit + 1."""
    factor_pairs: int
    """Entries of the factor on or below its diagonal that are not 0; with pivots, those below it and one a column."""
    closure_over_factor: float
    """closure_pairs / max(factor_pairs, 1)."""
    closure_limit: int
    """The limit that was applied."""


def answered(reply: Any) -> SelectedInverseDiagnostics:
    """The counts of an answer that has entries; a refusal, and a closed set above the limit, are raised."""
    check(reply.refusal)
    diagnostics = SelectedInverseDiagnostics(
        reply.requested_pairs,
        reply.closure_pairs,
        reply.factor_pairs,
        reply.closure_over_factor,
        reply.closure_limit,
    )
    if reply.status != COMPLETE:
        raise ClosureTooLarge(diagnostics)
    return diagnostics


class Values:
    """Numbers in order, with the counts of the call that gave them.

    `values` has them as floats of 64 bits; NumPy takes it, or this, without a copy.
    """

    __slots__ = ("values", "diagnostics")

    def __init__(self, values: array, diagnostics: Optional[SelectedInverseDiagnostics]):
        self.values = values
        self.diagnostics = diagnostics

    def __len__(self) -> int:
        return len(self.values)

    def __getitem__(self, index: Any) -> Any:
        if isinstance(index, slice):
            return [self[place] for place in range(*index.indices(len(self)))]
        return self._item(index)

    def _item(self, index: int) -> Optional[float]:
        return self.values[index]

    def __iter__(self) -> Iterator[Optional[float]]:
        return (self[index] for index in range(len(self)))

    def tolist(self) -> List[Optional[float]]:
        """The numbers as a list."""
        return list(self)

    def __array__(self, dtype: Any = None, copy: Optional[bool] = None) -> Any:
        import numpy

        found = numpy.frombuffer(self.values, dtype=float) if len(self.values) else numpy.empty(0)
        return found.astype(dtype) if dtype is not None else found.copy() if copy else found

    def __repr__(self) -> str:
        return f"{type(self).__name__}({self.tolist()})"


class Covariances(Values):
    """The covariance of each row pair."""

    __slots__ = ()


class Variances(Values):
    """Variances, those of cells in the user's order. One that was not computed is None here, NaN in `values` and 0 in
    `mask`, which alone tells it from a NaN that was computed.

    >>> from redstartgilt import Factor
    >>> found = Factor(([0, 2, 3], [0, 1, 1], [1.0, 2.0, 1.0])).selected_inverse([(1, 1)]).variances()
    >>> found.tolist(), list(found.mask)
    ([None, 1.0], [0, 1])
    """

    __slots__ = ("mask",)

    def __init__(self, values: array, mask: bytes, diagnostics: Optional[SelectedInverseDiagnostics]):
        super().__init__(values, diagnostics)
        self.mask = mask

    def _item(self, index: int) -> Optional[float]:
        return self.values[index] if self.mask[index] else None

    @property
    def num_negative(self) -> int:
        """How many variances are below 0."""
        return lent.call("count_and_least", self.values).num_negative

    @property
    def min_value(self) -> float:
        """The least variance; infinity where none was computed, 0.0 for no cells."""
        return lent.call("count_and_least", self.values).min_value


class _Entries(Generic[Number]):
    """Entries of the inverse on a closed set of pairs, in the factor's layout and order; cells are the user's."""

    __slots__ = ("_n", "_lists", "_order", "_crossing", "_get", "diagnostics")

    _lookup = ""

    def __init__(self, n: int, lists: Tuple[Lent, Lent, Lent], order: Optional[Permutation], diagnostics: Any):
        pairs = diagnostics.closure_pairs
        self._n = n
        lengths = (n + 1, pairs, pairs)
        self._lists = tuple(Lent(lent.kind, memoryview(copied(lent, length))) for lent, length in zip(lists, lengths))
        self._order = order
        self.diagnostics: SelectedInverseDiagnostics = diagnostics
        self._crossing = [part for lent in self._lists for part in (lent.address, lent.length)]
        self._get = FUNCTIONS[self._lookup].call

    @property
    def dimension(self) -> int:
        """The dimension of the factor."""
        return self._n

    @property
    def lists(self) -> Tuple[memoryview, memoryview, memoryview]:
        """Starts, rows and values of the entries in the factor's layout and order; read-only."""
        starts, rows, values = (lent.view.toreadonly() for lent in self._lists)
        return starts, rows, values

    def __len__(self) -> int:
        return self._lists[1].length

    def _found(self, i: int, j: int) -> Any:
        row, column = operator.index(i), operator.index(j)
        if not (0 <= row < self._n and 0 <= column < self._n):
            return None
        if self._order is not None:
            row, column = self._order.place(row), self._order.place(column)
        reply = self._get(*self._crossing, row, column)
        if reply.refusal == NOT_COVERED:
            return None
        check(reply.refusal)
        return reply

    def get(self, i: int, j: int, default: Any = None) -> Any:
        """The entry at a pair of cells, in either order; `default` for a pair that was not computed."""
        reply = self._found(i, j)
        return default if reply is None else reply.value

    def __getitem__(self, pair: Tuple[int, int]) -> Number:
        i, j = pair
        reply = self._found(i, j)
        if reply is None:
            raise NotCovered(NOT_COVERED)
        return reply.value

    def __contains__(self, pair: Tuple[int, int]) -> bool:
        i, j = pair
        return self._found(i, j) is not None

    def entries(self) -> Iterator[Tuple[int, int, Number]]:
        """The entries (cell, cell, value), each pair once, by the factor's column then row."""
        starts, rows, values = (lent.view for lent in self._lists)
        cells = range(self._n) if self._order is None else self._order.place_to_cell
        for column in range(self._n):
            for place in range(starts[column], starts[column + 1]):
                yield cells[rows[place]], cells[column], values[place]

    def __iter__(self) -> Iterator[Tuple[int, int, Number]]:
        return self.entries()

    def to_scipy(self) -> Any:
        """The entries as a symmetric scipy.sparse array in compressed columns, in the user's order.

        What it does not store was not computed, though SciPy reads it as 0; an entry that is 0 is stored.
        """
        import numpy
        from scipy import sparse

        starts, rows, values = (numpy.asarray(lent.view) for lent in self._lists)
        columns = numpy.repeat(numpy.arange(self._n), numpy.diff(starts.astype(numpy.int64)))
        if self._order is not None:
            cells = numpy.asarray(self._order.place_to_cell)
            rows, columns = cells[rows], cells[columns]
        below = rows != columns
        both = (numpy.concatenate([rows, columns[below]]), numpy.concatenate([columns, rows[below]]))
        compressed = getattr(sparse, "csc_array", sparse.csc_matrix)
        return compressed((numpy.concatenate([values, values[below]]), both), shape=(self._n, self._n))

    def __repr__(self) -> str:
        return f"{type(self).__name__}({len(self)} entries of dimension {self._n})"


class SparseSelectedInverse(_Entries[float]):
    """Entries of the inverse of L·Lᵀ, or of L·D·Lᵀ, at the requested pairs and at all that the recurrence needs for them.

    `inverse[i, j]` and `inverse.get(i, j)` take cells in the user's order, in either order of the two. It holds nothing of
    the factor.

    >>> from redstartgilt import Factor
    >>> inverse = Factor(([0, 2, 3], [0, 1, 1], [1.0, 2.0, 1.0])).selected_inverse([(1, 1)])
    >>> inverse[1, 1], inverse.get(0, 0), (0, 0) in inverse
    (1.0, None, False)
    """

    __slots__ = ()

    # Nothing but the library has written to these lists, so their form needs no check at each lookup.
    _lookup = "get_well_formed"

    def variances(self) -> Variances:
        """The diagonal: the variance of each cell that was computed, in the user's order."""
        values, marks = room("d", self._n), room("B", self._n)
        check(lent.call("diag", *self._lists, values, marks))
        if self._order is not None:
            moved, moved_marks = room("d", self._n), room("B", self._n)
            order = self._order.cells_places()
            check(lent.call("permute_factor_to_original_marked", order, values, marks, moved, moved_marks))
            values, marks = moved, moved_marks
        found, mask = copied(values, self._n), marks.view.tobytes()
        cell = mask.find(0)
        while cell >= 0:
            found[cell] = math.nan
            cell = mask.find(0, cell + 1)
        return Variances(found, mask, self.diagnostics)
