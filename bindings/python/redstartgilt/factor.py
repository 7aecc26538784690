"""Cholesky factors L of L·Lᵀ."""

from __future__ import annotations

from array import array
from typing import Any, Iterable, List, Optional, Tuple

from . import lent
from ._base import BaseFactor, PathLike, order_of
from ._columns import of_triplets
from ._lists import copied, room, word
from .errors import check
from .operators import SparseRowOperator
from .permutation import Permutation
from .requests import Requests, pair_lists
from .results import Covariances, SparseSelectedInverse, Variances, answered
from .workspace import Workspace, chain_places, chain_words, in_use, mark_words


class Factor(BaseFactor):
    """A sparse lower Cholesky factor L, for entries of the inverse of L·Lᵀ.

    `L` is a scipy.sparse matrix, an array of two dimensions, or the triple (starts, rows, values) of compressed columns:
    n + 1 starts, then for each column its row indices, ascending, and its values. Buffers of the right type, integers of
    32 bits and floats of 64, are used as they are, others are copied once; `copy=True` always copies. A factor sees what
    is written to the buffers that it uses, and nothing may write to them while a call runs.

    The permutation of its order is `permutation=`, a Permutation, or is given by its direction: `cell_to_place=`, the place
    of each cell, or `place_to_cell=`, the cell at each place; `help(Permutation)` has what factorisers give. All cells and
    pairs that calls take and give are in the user's order.

    Refuses with 1, 2, 3 and 18 as include/redstartgilt.h has it, a permutation with 4, 10, 11 and 12. An entry above the
    diagonal that is not 0 is NotLower: the library would drop it, and an upper factor would give wrong variances without a
    word. That each column has a diagonal entry above 0.0 is checked by the calls, which refuse with 6.

    >>> from redstartgilt import Factor
    >>> factor = Factor(([0, 2, 3], [0, 1, 1], [1.0, 2.0, 1.0]))
    >>> factor.variances().tolist()
    [5.0, 1.0]
    >>> Factor(([0, 2, 3], [0, 1, 1], [1.0, 2.0, 1.0]), cell_to_place=[1, 0]).variances().tolist()
    [1.0, 5.0]
    """

    __slots__ = ()

    def __init__(
        self,
        L: Any,
        permutation: Optional[Permutation] = None,
        *,
        cell_to_place: Optional[Iterable[int]] = None,
        place_to_cell: Optional[Iterable[int]] = None,
        copy: bool = False,
    ):
        self._take(L, copy)
        self._order = order_of(self.dimension, permutation, cell_to_place, place_to_cell)

    @classmethod
    def from_triplets(cls, n: int, triplets: Iterable[Tuple[int, int, float]], **order: Any) -> Factor:
        """A factor from entries (row, column, value) in any order; two at one position, or one outside, give 3.

        >>> from redstartgilt import Factor
        >>> Factor.from_triplets(2, [(1, 1, 1.0), (1, 0, 2.0), (0, 0, 1.0)]).variances().tolist()
        [5.0, 1.0]
        """
        return cls(of_triplets(n, triplets), **order)

    @classmethod
    def read(cls, path: PathLike, **order: Any) -> Factor:
        """The factor of a Matrix Market file, `coordinate real general` or `coordinate integer general`."""
        from .files import read_factor

        return cls.from_triplets(*read_factor(path, "d"), **order)

    def check_against(self, Q: Any) -> None:
        """Compares L·Lᵀ with the precision matrix Q, in the user's order, entry by entry; FactorMismatch has the entry that
        differs most where one differs by more than rounding explains. `redstartgilt.check` says by how much that is.

        >>> from redstartgilt import Factor, FactorMismatch
        >>> factor = Factor(([0, 2, 3], [0, 1, 1], [1.0, 2.0, 1.0]))
        >>> factor.check_against(([0, 2, 4], [0, 1, 0, 1], [1.0, 2.0, 2.0, 5.0]))
        >>> try:
        ...     factor.check_against(([0, 2, 4], [0, 1, 0, 1], [1.0, 2.0, 2.0, 5.5]))
        ... except FactorMismatch as mismatch:
        ...     print(mismatch)
        entry (1, 1) of Q is 5.5, but of the factor multiplied out it is 5.0, and rounding may make them differ by 1.443e-13
        """
        from .check import check_product

        check_product(self._columns, None, self._cells(), Q)

    def selected_inverse(
        self, pairs: Any, limit: Optional[int] = None, *, workspace: Optional[Workspace] = None
    ) -> SparseSelectedInverse:
        """The entries of the inverse at pairs of cells, and at all pairs that the recurrence needs for them.

        `pairs` are pairs (cell, cell), Requests, or a scipy.sparse matrix, whose stored positions are meant. Where they need
        more than `limit` entries, 10 times the stored ones where none is given, it is ClosureTooLarge. Refuses with 1
        above 1,048,576 requests, then with 4, 5 and 6.

        >>> from redstartgilt import Factor
        >>> inverse = Factor(([0, 2, 3], [0, 1, 1], [1.0, 2.0, 1.0])).selected_inverse([(0, 0)])
        >>> inverse[0, 0], inverse[0, 1], len(inverse)
        (5.0, -2.0, 3)
        """
        return self._select("selected_inverse_entries", SparseSelectedInverse, (), pairs, limit, workspace)

    def variances(self, *, limit: Optional[int] = None, workspace: Optional[Workspace] = None) -> Variances:
        """The variances of all cells, in the user's order.

        Refuses with 6, and with 8 where all diagonals need more than `limit` entries, 10 times the stored ones where none is
        given. Those of some cells, which may need fewer, are `selected_inverse([(c, c), ...]).variances()`.
        """
        name = "selected_inverse_diag_with_diagnostics" if limit is None else "selected_inverse_diag_with_limit"
        values, diagnostics = self._fill(name, (self._places(),), self.dimension, limit, workspace)
        return Variances(values, b"\1" * self.dimension, diagnostics)

    def operator_variances(
        self, A: Any, *, limit: Optional[int] = None, workspace: Optional[Workspace] = None
    ) -> Variances:
        """The variances of weighted sums of cells, one for each row of A: a scipy.sparse matrix, an array of two
        dimensions, a SparseRowOperator, or the terms (cell, weight) of each row.

        ClosureTooLarge where they need more entries than the limit; refuses with 1, 4, 9 and 6.

        >>> from redstartgilt import Factor
        >>> Factor(([0, 2, 3], [0, 1, 1], [1.0, 2.0, 1.0])).operator_variances([[(0, 1.0), (1, 1.0)]]).tolist()
        [2.0]
        """
        rows = SparseRowOperator.of(self.dimension, A)
        name = "selected_inverse_transformed_diag"
        values, diagnostics = self._fill(_limited(name, limit), rows.lists(self._order), rows.nrows, limit, workspace)
        return Variances(values, b"\1" * len(values), diagnostics)

    def covariances(
        self,
        A: Any,
        B: Any,
        pairs: Iterable[Tuple[int, int]],
        *,
        limit: Optional[int] = None,
        workspace: Optional[Workspace] = None,
    ) -> Covariances:
        """The covariance of a row of A with a row of B, for each pair (row of A, row of B); as `operator_variances`
        otherwise. A and B may be one operator, and a row with itself gives its variance.

        >>> from redstartgilt import Factor
        >>> factor = Factor(([0, 2, 3], [0, 1, 1], [1.0, 2.0, 1.0]))
        >>> areas = [[(0, 1.0)], [(1, 3.0)]]
        >>> factor.covariances(areas, areas, [(0, 0), (1, 1), (0, 1)]).tolist()
        [5.0, 9.0, -6.0]
        """
        a, b = SparseRowOperator.of(self.dimension, A), SparseRowOperator.of(self.dimension, B)
        a_rows, b_rows = pair_lists(pairs)
        before = (*a.lists(self._order), *b.lists(self._order), a_rows, b_rows)
        name = _limited("selected_inverse_transformed_covariances", limit)
        values, diagnostics = self._fill(name, before, len(a_rows), limit, workspace)
        return Covariances(values, diagnostics)

    def _fill(
        self, name: str, before: Tuple[Any, ...], length: int, limit: Optional[int], workspace: Optional[Workspace]
    ) -> Tuple[array, Any]:
        """The output of a call that fills one beside result lists, and its counts."""
        given = () if limit is None else (limit,)
        with in_use(workspace) as space:
            output = room("d", length)
            reply = lent.call(name, *self._columns, *before, *given, *self._result_lists(space, limit), output)
            diagnostics = answered(reply)
            return copied(output, length), diagnostics

    def why(
        self, i: int, j: int, pairs: Any, *, workspace: Optional[Workspace] = None
    ) -> Optional[List[Tuple[int, int]]]:
        """Why the entry at cells i and j is computed where `pairs` are requested: a chain of pairs of cells from a requested
        one to it, each needed for the one before, and none shorter. None where it is not computed.

        No limit is applied and no entry is computed; the cost is that of the whole closed set. In each pair of the chain
        the cell that stands later in the factor's order comes first.

        >>> from redstartgilt import Factor
        >>> factor = Factor(([0, 3, 4, 5], [0, 1, 2, 1, 2], [1.0, 2.0, 3.0, 1.0, 1.0]))
        >>> factor.why(2, 1, [(0, 0)])
        [(0, 0), (1, 0), (2, 1)]
        >>> factor.why(2, 1, [(1, 1)]) is None
        True
        """
        n, requests = self.dimension, self._requests(pairs)
        # An index that no place has is refused as such.
        row, column = self._place(i), self._place(j)
        with in_use(workspace) as space:
            scratch = space.list("scratch", "I", chain_words(n))
            rows = space.list("rows", "I", chain_places(n))
            columns = space.list("starts", "I", chain_places(n))
            reply = lent.call("dependency_chain", *self._columns, *requests, row, column, scratch, rows, columns)
            check(reply.refusal)
            cells = self._cells()
            found = [(cells[rows.view[k]], cells[columns.view[k]]) for k in range(reply.pairs)]
        return found or None

    def _place(self, cell: int) -> int:
        index = word(cell)
        return index if self._order is None else self._order.place(index)

    def requests(self) -> Requests:
        """The pairs of cells of the factor's entries that are not 0, each once."""
        n, most = self.dimension, self.nnz
        rows, columns = room("I", most), room("I", most)
        reply = lent.call("from_cholesky_factor", *self._columns, room("I", mark_words(n)), rows, columns)
        check(reply.refusal)
        cells = self._cells()
        found = range(reply.pairs)
        return Requests(
            n,
            array("I", [cells[rows.view[k]] for k in found]),
            array("I", [cells[columns.view[k]] for k in found]),
        )


def _limited(name: str, limit: Optional[int]) -> str:
    """The call of this name, or the one that takes a limit."""
    return name if limit is None else name + "_with_limit"
