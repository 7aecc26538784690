"""Permutations between the user's order of cells and the factor's order of places."""

from __future__ import annotations

from array import array
from typing import Any, Iterable, Optional

from . import lent
from ._lists import TOP_WORD, Lent, room, take
from .errors import check


class Permutation:
    """A permutation with its inverse: `cell_to_place[i]` is the place of cell i in the factor's order, `place_to_cell[k]`
    the cell at place k. Either is given by name, and the other computed; where both are, they must be inverses.

    A direction is never guessed. What factorisers give:

    | from | what it gives | say |
    |---|---|---|
    | CHOLMOD, `L->Perm` | the row of A at each place | `place_to_cell=` |
    | scikit-sparse, `f.P()` | P with L·Lᵀ = A[P][:, P] | `place_to_cell=f.P()` |
    | SciPy, `splu(Q, ...)` | `perm_c`, the place of each column | `cell_to_place=lu.perm_c`; `LdlFactor.from_splu` |
    | R, Matrix, `ch <- Cholesky(Q)` | `ch@perm`, counted from 0 | `place_to_cell=` |
    | R, Matrix, `expand(ch)$P@perm` | the same, counted from 1 | `place_to_cell=` that less 1 |
    | R, `chol(Q, pivot = TRUE)` | `attr(, "pivot")`, counted from 1; an upper factor | `place_to_cell=` that less 1 |
    | MATLAB, `[L, ~, p] = chol(Q, 'lower', 'vector')` | p with L·Lᵀ = Q(p, p), counted from 1 | `place_to_cell=` p less 1 |
    | gmrf-rs, `Permutation` | `orig_to_perm`, `perm_to_orig` | `cell_to_place=`, `place_to_cell=` |

    Refuses with 1 above 4,096 cells, with 10 or 11 for an index outside or there twice, with 12 for two lists that are not
    each other's inverses.

    >>> from redstartgilt import Permutation
    >>> permutation = Permutation(cell_to_place=[2, 0, 1])
    >>> permutation.place_to_cell.tolist()
    [1, 2, 0]
    >>> Permutation(place_to_cell=[1, 2, 0]) == permutation
    True
    """

    __slots__ = ("_cell_to_place", "_place_to_cell")

    def __init__(self, *, cell_to_place: Optional[Iterable[int]] = None, place_to_cell: Optional[Iterable[int]] = None):
        if cell_to_place is None and place_to_cell is None:
            raise TypeError("a permutation is cell_to_place=, place_to_cell= or both")
        # Copies: what was checked here stays as it is.
        if cell_to_place is not None and place_to_cell is not None:
            self._cell_to_place = take("I", cell_to_place, "cell_to_place", copy=True)
            self._place_to_cell = take("I", place_to_cell, "place_to_cell", copy=True)
            check(lent.call("validate", self._cell_to_place, self._place_to_cell))
        elif cell_to_place is not None:
            self._cell_to_place = take("I", cell_to_place, "cell_to_place", copy=True)
            self._place_to_cell = _inverse(self._cell_to_place)
        else:
            self._place_to_cell = take("I", place_to_cell, "place_to_cell", copy=True)
            self._cell_to_place = _inverse(self._place_to_cell)

    @classmethod
    def identity(cls, dimension: int) -> Permutation:
        """The permutation that moves nothing."""
        return cls(cell_to_place=range(dimension))

    @property
    def dimension(self) -> int:
        """The number of cells."""
        return self._cell_to_place.length

    @property
    def cell_to_place(self) -> memoryview:
        """The place in the factor's order of each cell; read-only."""
        return self._cell_to_place.view.toreadonly()

    @property
    def place_to_cell(self) -> memoryview:
        """The cell at each place of the factor's order; read-only."""
        return self._place_to_cell.view.toreadonly()

    def __eq__(self, other: Any) -> bool:
        return isinstance(other, Permutation) and self.cell_to_place == other.cell_to_place

    def __hash__(self) -> int:
        return hash(self._cell_to_place.view.tobytes())

    def __repr__(self) -> str:
        return f"Permutation(cell_to_place={self.cell_to_place.tolist()})"

    def cells_places(self) -> Lent:
        """The place of each cell, to be lent."""
        return self._cell_to_place

    def places(self, cells: Lent) -> Lent:
        """The places of cells; a cell outside stays outside."""
        order, n = self._cell_to_place.view, self.dimension
        return Lent("I", memoryview(array("I", [order[cell] if 0 <= cell < n else TOP_WORD for cell in cells.view])))

    def place(self, cell: int) -> int:
        """The place of a cell; a cell outside stays outside."""
        return self._cell_to_place.view[cell] if 0 <= cell < self.dimension else TOP_WORD


def _inverse(given: Lent) -> Lent:
    inverse = room("I", given.length)
    check(lent.call("from_orig_to_perm", given, inverse))
    return inverse
