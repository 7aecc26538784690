"""Requested pairs of cells, and their Matrix Market files."""

from __future__ import annotations

import os
from array import array
from pathlib import Path
from typing import Any, Iterable, Iterator, List, Tuple, Union

from . import lent
from ._columns import is_sparse
from ._lists import Lent, room, take, word
from ._request_faults import HEADER, fault_of
from .errors import Refused, check
from .workspace import MAX_DIMENSION, MAX_ENTRIES, mark_words, request_file_bytes, request_places

REQUEST_FILE_HEADER = HEADER.decode()
"""The first line of a request file."""


class Requests:
    """Requested pairs of cells: two lists of equal length, in any order, with repeats or without.

    >>> from redstartgilt import Requests
    >>> requests = Requests(3, rows=[2, 1, 0], columns=[0, 1, 2])
    >>> list(requests)
    [(2, 0), (1, 1), (0, 2)]
    >>> print(requests.to_matrix_market().decode())
    %%MatrixMarket matrix coordinate pattern symmetric
    3 3 2
    3 1
    2 2
    <BLANKLINE>
    >>> list(Requests.from_matrix_market(requests.to_matrix_market()))
    [(2, 0), (1, 1)]
    """

    __slots__ = ("dimension", "_rows", "_columns")

    def __init__(self, dimension: int, rows: Iterable[int], columns: Iterable[int]):
        self.dimension = dimension
        self._rows = take("I", rows, "rows")
        self._columns = take("I", columns, "columns")

    @classmethod
    def of_pairs(cls, dimension: int, pairs: Iterable[Tuple[int, int]]) -> Requests:
        """The requests of pairs (cell, cell)."""
        rows, columns = pair_lists(pairs)
        return cls(dimension, rows, columns)

    @classmethod
    def diagonal(cls, dimension: int) -> Requests:
        """Every cell with itself."""
        cells = array("I", range(dimension))
        return cls(dimension, cells, cells)

    @classmethod
    def of(cls, dimension: int, pairs: Any) -> Requests:
        """What a call takes as pairs: requests, the stored positions of a scipy.sparse matrix, or pairs (cell, cell)."""
        if isinstance(pairs, Requests):
            return pairs
        if is_sparse(pairs):
            found = pairs.tocoo()
            if found.shape[0] != found.shape[1]:
                raise Refused(4)
            return cls(found.shape[0], found.row, found.col)
        return cls.of_pairs(dimension, pairs)

    @classmethod
    def from_matrix_market(cls, text: bytes) -> Requests:
        """The requests of a Matrix Market file's bytes, in its order and with its repeats, counted from 0; the file counts
        from 1. A file without entries means every cell with itself. Refuses with 15, 16 and 17, by RequestFileFault, which
        has the line and the reason.

        >>> from redstartgilt import REQUEST_FILE_HEADER, Refused, Requests
        >>> try:
        ...     Requests.from_matrix_market(f"{REQUEST_FILE_HEADER}\\n8 8 2\\n5 5\\n9 3\\n".encode())
        ... except Refused as refused:
        ...     print(refused)
        refusal 17: line 4: row 9 is beyond the dimension 8
        """
        places = request_places(text)
        rows, columns = room("I", places), room("I", places)
        reply = lent.call("read_requests", text, rows, columns)
        if reply.refusal:
            raise fault_of(bytes(text), reply.refusal)
        return cls(reply.dimension, array("I", rows.view[: reply.requests]), array("I", columns.view[: reply.requests]))

    @classmethod
    def read(cls, path: Union[str, os.PathLike]) -> Requests:
        """The requests of a Matrix Market file by its path."""
        return cls.from_matrix_market(Path(path).read_bytes())

    def to_matrix_market(self) -> bytes:
        """The requests as a Matrix Market file: each pair once, by column then row, so that equal sets of one dimension
        are equal bytes. Refuses with 1, 4, 5, and with 24 for no requests of a dimension above 0, whose file would mean
        every cell with itself."""
        listed = zip(map(word, self._rows.view), map(word, self._columns.view))
        ordered = [(max(pair), min(pair)) for pair in listed]
        rows: Any = array("I", [row for row, _ in ordered])
        columns: Any = array("I", [column for _, column in ordered])
        if self._rows.length != self._columns.length:
            rows, columns = self._rows, self._columns
        small = 0 <= self.dimension <= MAX_DIMENSION and len(rows) <= MAX_ENTRIES
        scratch = room("I", mark_words(self.dimension) if small else 0)
        output = room("B", request_file_bytes(len(rows)) if small else 0)
        reply = lent.call("write_requests", self.dimension, rows, columns, output, scratch)
        check(reply.refusal)
        return bytes(output.view[: reply.bytes])

    def write(self, path: Union[str, os.PathLike]) -> None:
        """Writes the requests to a file by its path, as `to_matrix_market` has it. Nothing is written where it is
        refused."""
        Path(path).write_bytes(self.to_matrix_market())

    @property
    def rows(self) -> memoryview:
        """One cell of each pair; read-only."""
        return self._rows.view.toreadonly()

    @property
    def columns(self) -> memoryview:
        """The other cell of each pair; read-only."""
        return self._columns.view.toreadonly()

    def lists(self) -> Tuple[Lent, Lent]:
        """Both lists, to be lent."""
        return self._rows, self._columns

    def __len__(self) -> int:
        return self._rows.length

    def __iter__(self) -> Iterator[Tuple[int, int]]:
        return zip(self._rows.view, self._columns.view)

    def __repr__(self) -> str:
        return f"Requests({len(self)} pairs of dimension {self.dimension})"


def pair_lists(pairs: Iterable[Tuple[int, int]]) -> Tuple[array, array]:
    """The first and the second of each pair, as words."""
    listed: List[Any] = pairs.tolist() if hasattr(pairs, "tolist") else list(pairs)
    firsts, seconds = array("I"), array("I")
    for pair in listed:
        first, second = pair
        firsts.append(word(first))
        seconds.append(word(second))
    return firsts, seconds


def read_requests(path: Union[str, os.PathLike]) -> Requests:
    """The requests of a Matrix Market file by its path: `Requests.read`."""
    return Requests.read(path)


def write_requests(path: Union[str, os.PathLike], dimension: int, pairs: Any) -> None:
    """Writes pairs of cells to a Matrix Market file by its path: `Requests.write`."""
    Requests.of(dimension, pairs).write(path)
