"""Factors with pivots, L·D·Lᵀ."""

from __future__ import annotations

from typing import Any, Iterable, Optional, Tuple

from . import lent
from ._base import BaseFactor, PathLike, order_of
from ._columns import of_triplets
from ._lists import room, take
from .errors import TOO_SHORT, check
from .permutation import Permutation
from .requests import Requests
from .results import SparseSelectedInverse, Variances
from .workspace import Workspace


class LdlFactor(BaseFactor):
    """A sparse lower factor L with ones on its diagonal, stored or not, and the pivots D of L·D·Lᵀ.

    Of L·Lᵀ the diagonal of L is stored and positive, and it is a Factor. `L`, the permutation, `copy` and the order of
    cells are as there. It is checked when it is made: refuses as Factor does; then pivots that are not n with 4, one that is
    not finite with 18, a diagonal other than 1 with 23, and a pivot at most 0.0 with 6.

    A diagonal that is not stored does not count in the default limit, 10 times the stored entries: where L has few, give
    a limit.

    >>> from redstartgilt import Factor, LdlFactor
    >>> LdlFactor(([0, 1, 1], [1], [2.0]), [4.0, 1.0]).variances().tolist()
    [4.25, 1.0]
    >>> Factor(([0, 2, 3], [0, 1, 1], [2.0, 4.0, 1.0])).variances().tolist()
    [4.25, 1.0]
    """

    __slots__ = ("_pivots",)

    def __init__(
        self,
        L: Any,
        pivots: Iterable[float],
        permutation: Optional[Permutation] = None,
        *,
        cell_to_place: Optional[Iterable[int]] = None,
        place_to_cell: Optional[Iterable[int]] = None,
        copy: bool = False,
    ):
        self._take(L, copy)
        self._pivots = take("d", pivots, "pivots", copy)
        self._check_pivots()
        self._order = order_of(self.dimension, permutation, cell_to_place, place_to_cell)

    def _check_pivots(self) -> None:
        # The call checks the factor and its pivots first, and last its scratch, which is short on purpose.
        n, words = self.dimension, room("I", 0)
        name = "selected_inverse_entries_ldl_with_limit"
        none = (n, words, words, 0, room("I", n + 1), words, room("d", 0), words)
        refusal = lent.call(name, *self._columns, self._pivots, *none).refusal
        if refusal != TOO_SHORT:
            check(refusal)

    @classmethod
    def from_triplets(
        cls, n: int, triplets: Iterable[Tuple[int, int, float]], pivots: Iterable[float], **order: Any
    ) -> LdlFactor:
        """A factor from entries (row, column, value) in any order, and its pivots."""
        return cls(of_triplets(n, triplets), pivots, **order)

    @classmethod
    def read(cls, path: PathLike, pivots: Iterable[float], **order: Any) -> LdlFactor:
        """The factor of a Matrix Market file, as `Factor.read` reads it, and its pivots."""
        from .files import read_factor

        n, triplets = read_factor(path, "d")
        return cls.from_triplets(n, triplets, pivots, **order)

    @classmethod
    def from_splu(cls, lu: Any) -> LdlFactor:
        """The factor of `scipy.sparse.linalg.splu(Q, permc_spec="MMD_AT_PLUS_A", diag_pivot_thresh=0.0,
        options={"SymmetricMode": True})`, whose U is D·Lᵀ where Q is symmetric; `check_against(Q)` tells where it is not.

        Rows that were exchanged otherwise than columns give a ValueError.
        """
        if lu.perm_r.tolist() != lu.perm_c.tolist():
            raise ValueError(
                "splu has exchanged rows otherwise than columns: symmetric mode with diag_pivot_thresh=0.0 is needed, and a "
                "positive definite matrix"
            )
        return cls(lu.L, lu.U.diagonal(), cell_to_place=lu.perm_c)

    @property
    def pivots(self) -> memoryview:
        """The pivot of each column, in the factor's order; read-only."""
        return self._pivots.view.toreadonly()

    def check_against(self, Q: Any) -> None:
        """Compares L·D·Lᵀ with the precision matrix Q, as `Factor.check_against` does."""
        from .check import check_product

        check_product(self._columns, self._pivots.view, self._cells(), Q)

    def selected_inverse(
        self, pairs: Any, limit: Optional[int] = None, *, workspace: Optional[Workspace] = None
    ) -> SparseSelectedInverse:
        """The entries of the inverse of L·D·Lᵀ at pairs of cells, and at all pairs that the recurrence needs for them; as
        `Factor.selected_inverse`.

        >>> from redstartgilt import LdlFactor
        >>> LdlFactor(([0, 0], [], []), [4.0]).selected_inverse([(0, 0)], limit=1)[0, 0]
        0.25
        """
        name = "selected_inverse_entries_ldl"
        return self._select(name, SparseSelectedInverse, (self._pivots,), pairs, limit, workspace)

    def variances(self, *, limit: Optional[int] = None, workspace: Optional[Workspace] = None) -> Variances:
        """The variances of all cells, in the user's order; ClosureTooLarge where they need more entries than the limit."""
        return self.selected_inverse(Requests.diagonal(self.dimension), limit, workspace=workspace).variances()
