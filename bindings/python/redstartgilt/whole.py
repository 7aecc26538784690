"""Factors of whole numbers, whose entries of the inverse are exact."""

from __future__ import annotations

from typing import Any, Iterable, List, NamedTuple, Optional, Tuple

from . import lent
from ._base import BaseFactor, PathLike, order_of
from ._columns import of_triplets
from ._lists import Lent, room, take
from .errors import check
from .permutation import Permutation
from .requests import Requests
from .results import _Entries
from .workspace import Workspace, track_runs


class VarianceBounds(NamedTuple):
    """Bounds on the variance of a row whose weights are known within ranges. Every choice of weights within them, fractions
    too, has its variance from `low` to `high`; the bounds need not be the variance of one choice."""

    low: int
    high: int


class WholeSelectedInverse(_Entries[int]):
    """Exact entries of the inverse of L·Lᵀ at the requested pairs and at all that the recurrence needs for them, as
    integers; cells are in the user's order."""

    __slots__ = ()

    _lookup = "get_whole"

    def variances(self) -> List[Optional[int]]:
        """The diagonal: the variance of each cell, in the user's order; None for one that was not computed."""
        return [self.get(cell, cell) for cell in range(self.dimension)]

    def _places(self, cells: Iterable[int], name: str) -> Lent:
        taken = take("I", cells, name)
        return taken if self._order is None else self._order.places(taken)

    def variance_bounds(self, ranges: Iterable[Tuple[int, int, int]]) -> VarianceBounds:
        """Bounds on the variance of a row whose weights are known within ranges: each cell of the row with the low and the
        high end of its weight. Refuses with 9, 21, 8 and 20.

        >>> from redstartgilt import WholeFactor
        >>> inverse = WholeFactor(([0, 2, 3], [0, 1, 1], [1, -3, 1])).selected_inverse([(0, 0), (1, 1)])
        >>> inverse.variance_bounds([(0, 1, 1), (1, -1, -1)])
        VarianceBounds(low=5, high=5)
        >>> inverse.variance_bounds([(0, -1, 2), (1, 1, 1)])
        VarianceBounds(low=-5, high=53)
        """
        listed = list(ranges)
        cells = self._places([cell for cell, _, _ in listed], "ranges")
        lows = take("q", [low for _, low, _ in listed], "ranges")
        highs = take("q", [high for _, _, high in listed], "ranges")
        reply = lent.call("variance_bounds_whole", *self._lists, cells, lows, highs)
        check(reply.refusal)
        return VarianceBounds(reply.low, reply.high)

    def track_variances(self, track: Iterable[int], width: int) -> List[int]:
        """The variance of each run of `width` consecutive cells along a track, such as a fairway. A cell that is listed
        twice counts twice. Refuses with 22, 8 and 20.

        >>> from redstartgilt import WholeFactor
        >>> inverse = WholeFactor(([0, 2, 3], [0, 1, 1], [1, -3, 1])).selected_inverse([(0, 0), (1, 1)])
        >>> inverse.track_variances([0, 1, 1], 2)
        [17, 4]
        """
        cells = self._places(track, "track")
        output = room("q", track_runs(cells.length, width))
        check(lent.call("track_variances_whole", *self._lists, cells, width, output))
        return output.view.tolist()


class WholeFactor(BaseFactor):
    """A sparse lower factor L of whole numbers whose diagonal is 1, for entries of the inverse that are exact.

    `L`, the permutation, `copy` and the order of cells are as those of Factor; values are integers of 64 bits, or floats
    that are whole. Refuses with 1, 2 and 3; that the diagonal is 1 in each column is checked by the calls, which refuse with
    19 and 6.

    >>> from redstartgilt import Refused, WholeFactor
    >>> inverse = WholeFactor(([0, 2, 3], [0, 1, 1], [1, -3, 1])).selected_inverse([(0, 0)])
    >>> inverse[0, 0], inverse[0, 1], inverse.variances()
    (10, 3, [10, 1])
    >>> try:
    ...     WholeFactor(([0, 2, 3], [0, 1, 1], [1, 2**27, 1])).selected_inverse([(0, 0)])
    ... except Refused as refused:
    ...     print(refused.number)
    20
    """

    __slots__ = ()

    _kind = "q"

    def __init__(
        self,
        L: Any,
        permutation: Optional[Permutation] = None,
        *,
        cell_to_place: Optional[Iterable[int]] = None,
        place_to_cell: Optional[Iterable[int]] = None,
        copy: bool = False,
    ):
        self._take(L, copy)
        self._order = order_of(self.dimension, permutation, cell_to_place, place_to_cell)

    @classmethod
    def from_triplets(cls, n: int, triplets: Iterable[Tuple[int, int, int]], **order: Any) -> WholeFactor:
        """A factor from entries (row, column, value) in any order; two at one position, or one outside, give 3."""
        return cls(of_triplets(n, triplets), **order)

    @classmethod
    def read(cls, path: PathLike, **order: Any) -> WholeFactor:
        """The factor of a Matrix Market file, `coordinate integer general`."""
        from .files import read_factor

        return cls.from_triplets(*read_factor(path, "q"), **order)

    def check_against(self, Q: Any) -> None:
        """Compares L·Lᵀ with the precision matrix Q, entry by entry and exactly; FactorMismatch where they differ."""
        from .check import check_whole_product

        check_whole_product(self._columns, self._cells(), Q)

    def selected_inverse(
        self, pairs: Any, limit: Optional[int] = None, *, workspace: Optional[Workspace] = None
    ) -> WholeSelectedInverse:
        """The exact entries at pairs of cells, and at all pairs that the recurrence needs for them; as
        `Factor.selected_inverse`. Refuses with 1, 4, 5, 19 and 6, and last with 20 where a number is beyond 2^53 in size:
        nothing is ever rounded."""
        name = "selected_inverse_entries_whole"
        return self._select(name, WholeSelectedInverse, (), pairs, limit, workspace)

    def variances(self, *, limit: Optional[int] = None, workspace: Optional[Workspace] = None) -> List[Optional[int]]:
        """The exact variances of all cells, in the user's order; ClosureTooLarge where they need more entries than the
        limit."""
        return self.selected_inverse(Requests.diagonal(self.dimension), limit, workspace=workspace).variances()
