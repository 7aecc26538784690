"""What the three kinds of factor share: lists, the user's order, and selected entries."""

from __future__ import annotations

import os
from array import array
from typing import Any, Iterable, List, Optional, Sized, Tuple, Union

from . import lent
from ._columns import Columns, checked, lists_of
from ._lists import Lent
from .errors import Refused
from .permutation import Permutation
from .requests import Requests
from .results import answered
from .workspace import Workspace, default_limit, in_use, result_places, scratch_words

PathLike = Union[str, os.PathLike]


def order_of(
    dimension: int,
    permutation: Optional[Permutation],
    cell_to_place: Optional[Iterable[int]],
    place_to_cell: Optional[Iterable[int]],
) -> Optional[Permutation]:
    """The permutation that a factor is given, in one of the ways to say it."""
    if cell_to_place is not None or place_to_cell is not None:
        if permutation is not None:
            raise TypeError("a permutation is given by permutation= or by its direction, and not by both")
        # Another length is refused as such, whatever is in the list.
        for given in (cell_to_place, place_to_cell):
            if isinstance(given, Sized) and len(given) != dimension:
                raise Refused(4)
        permutation = Permutation(cell_to_place=cell_to_place, place_to_cell=place_to_cell)
    if permutation is None:
        return None
    if not isinstance(permutation, Permutation):
        raise TypeError(
            "which direction the list goes is not guessed: say cell_to_place= or place_to_cell= (help(Permutation) has a "
            "table of what factorisers give)"
        )
    if permutation.dimension != dimension:
        raise Refused(4)
    return permutation


class BaseFactor:
    """A sparse lower factor in compressed columns, with the permutation that its order comes from."""

    __slots__ = ("_columns", "_order", "_identity")

    _kind = "d"

    _columns: Columns
    _order: Optional[Permutation]
    _identity: Optional[Lent]

    def _take(self, matrix: Any, copy: bool) -> None:
        self._columns = checked(lists_of(matrix), self._kind, copy)
        self._identity = None

    @property
    def dimension(self) -> int:
        """The dimension n, which is the number of cells."""
        return self._columns.n

    @property
    def nnz(self) -> int:
        """The number of stored entries; those of 0 are counted."""
        return self._columns.rows.length

    @property
    def permutation(self) -> Permutation:
        """The permutation of the factor's order; the identity where none was given."""
        return Permutation.identity(self.dimension) if self._order is None else self._order

    def lower_triplets(self) -> List[Tuple[int, int, Any]]:
        """The entries (row, column, value) that are not 0, by column then row, in the factor's order."""
        return list(self._columns.kept())

    def __repr__(self) -> str:
        return f"{type(self).__name__}({self.nnz} entries of dimension {self.dimension})"

    def _requests(self, pairs: Any) -> Tuple[int, Lent, Lent]:
        """Requests in the factor's order."""
        requests = Requests.of(self.dimension, pairs)
        rows, columns = requests.lists()
        # Requests of another dimension stay as they are, for the call to refuse.
        if self._order is not None and requests.dimension == self.dimension:
            rows, columns = self._order.places(rows), self._order.places(columns)
        return requests.dimension, rows, columns

    def _places(self) -> Lent:
        """The place of each cell, to be lent."""
        if self._order is not None:
            return self._order.cells_places()
        if self._identity is None:
            self._identity = Lent("I", memoryview(array("I", range(self.dimension))))
        return self._identity

    def _cells(self) -> Any:
        return range(self.dimension) if self._order is None else self._order.place_to_cell

    def _result_lists(self, space: Workspace, limit: Optional[int]) -> List[Lent]:
        """The lists that a call fills: starts, rows and values of the result, and scratch; in whole numbers work too."""
        n, kind = self.dimension, self._kind
        places = result_places(n, default_limit(self.nnz) if limit is None else max(limit, 0))
        lists = [
            space.list("starts", "I", n + 1),
            space.list("rows", "I", places),
            space.list("values", kind, places),
            space.list("scratch", "I", scratch_words(n)),
        ]
        return lists + [space.list("work", "q", places)] if kind == "q" else lists

    def _select(
        self,
        name: str,
        result: Any,
        before: Tuple[Any, ...],
        pairs: Any,
        limit: Optional[int],
        workspace: Optional[Workspace],
    ) -> Any:
        """Selected entries by the call of this name, as `result` keeps them; `before` stands before the requests."""
        requests = self._requests(pairs)
        given = () if limit is None else (limit,)
        with in_use(workspace) as space:
            lists = self._result_lists(space, limit)
            called = name if limit is None else name + "_with_limit"
            reply = lent.call(called, *self._columns, *before, *requests, *given, *lists)
            diagnostics = answered(reply)
            return result(self.dimension, (lists[0], lists[1], lists[2]), self._order, diagnostics)
