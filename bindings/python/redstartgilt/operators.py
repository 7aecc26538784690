"""Operators whose rows are weighted sums of cells."""

from __future__ import annotations

from typing import Any, Iterable, List, Tuple

from . import lent
from ._columns import is_sparse
from ._lists import Lent, room, take
from .errors import TOO_SHORT, check
from .permutation import Permutation
from .requests import Requests
from .workspace import MAX_DIMENSION, mark_words, pair_total


class SparseRowOperator:
    """An operator whose rows are sparse weighted sums of cells: `ncols` cells, the start of each row and last the number
    of terms, then each term's cell and weight. A cell may come twice in a row, and then counts twice. Weights are not
    looked at: one that is not finite gives a variance that is not finite.

    Refuses with 1, and with 9 for lists that are broken or a cell outside.

    >>> from redstartgilt import SparseRowOperator
    >>> mean_of_two = SparseRowOperator.of_rows(3, [[(0, 0.5), (1, 0.5)]])
    >>> mean_of_two.nrows
    1
    """

    __slots__ = ("ncols", "_row_starts", "_columns", "_weights")

    def __init__(self, ncols: int, row_starts: Iterable[int], columns: Iterable[int], weights: Iterable[float]):
        self.ncols = ncols
        self._row_starts = take("I", row_starts, "row_starts")
        self._columns = take("I", columns, "columns")
        self._weights = take("d", weights, "weights")
        # The pattern list checks the operator first and its scratch, which is short on purpose, after it.
        refusal = lent.call("from_transformed_operator", *self.lists(None), *(room("I", 0) for _ in range(3))).refusal
        if refusal != TOO_SHORT:
            check(refusal)

    @classmethod
    def of_rows(cls, ncols: int, rows: Iterable[Iterable[Tuple[int, float]]]) -> SparseRowOperator:
        """An operator from the terms (cell, weight) of each row."""
        starts, columns, weights = [0], [], []
        for row in rows:
            for cell, weight in row.items() if isinstance(row, dict) else row:
                columns.append(cell)
                weights.append(weight)
            starts.append(len(columns))
        return cls(ncols, starts, columns, weights)

    @classmethod
    def of(cls, ncols: int, operator: Any) -> SparseRowOperator:
        """What a call takes as an operator: one of this class, a scipy.sparse matrix or a dense array with a row for each
        sum and a column for each cell, or the terms (cell, weight) of each row."""
        if isinstance(operator, SparseRowOperator):
            return operator
        if is_sparse(operator):
            rows = operator.tocsr()
            return cls(rows.shape[1], rows.indptr, rows.indices, rows.data)
        if getattr(operator, "ndim", 1) == 2:
            rows, columns = operator.nonzero()
            starts = rows.searchsorted(range(operator.shape[0] + 1))
            return cls(operator.shape[1], starts, columns, operator[rows, columns])
        return cls.of_rows(ncols, operator)

    @property
    def nrows(self) -> int:
        """The number of rows."""
        return self._row_starts.length - 1

    def lists(self, order: Any) -> Tuple[int, Lent, Lent, Lent]:
        """The lists to be lent, with the cells at their places in the factor's order. An operator of another dimension
        stays as it is, for the call to refuse."""
        columns = self._columns
        if isinstance(order, Permutation) and order.dimension == self.ncols:
            columns = order.places(columns)
        return self.ncols, self._row_starts, columns, self._weights

    def rows(self) -> List[List[Tuple[int, float]]]:
        """The terms (cell, weight) of each row."""
        starts, columns, weights = self._row_starts.view, self._columns.view, self._weights.view
        places = [range(starts[row], starts[row + 1]) for row in range(self.nrows)]
        return [[(columns[place], weights[place]) for place in row] for row in places]

    def requests(self) -> Requests:
        """All pairs of two cells, also equal ones, of each row, each pair once: what the variances of the rows need."""
        terms = [self._row_starts.view[row + 1] - self._row_starts.view[row] for row in range(self.nrows)]
        most = min(sum(pair_total(count) for count in terms), pair_total(min(self.ncols, MAX_DIMENSION)))
        rows, columns = room("I", most), room("I", most)
        reply = lent.call(
            "from_transformed_operator", *self.lists(None), room("I", mark_words(self.ncols)), rows, columns
        )
        check(reply.refusal)
        return Requests(self.ncols, rows.view[: reply.pairs], columns.view[: reply.pairs])

    def __repr__(self) -> str:
        return f"SparseRowOperator({self.nrows} rows, {self.ncols} cells)"
