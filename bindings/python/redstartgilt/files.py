"""Factors and operators from Matrix Market coordinate files."""

from __future__ import annotations

import os
import re
from pathlib import Path
from typing import Any, Dict, Iterator, List, Tuple, Union

from ._lists import word
from .errors import MalformedFile, NotLower
from .operators import SparseRowOperator
from .workspace import MAX_DIMENSION

PathLike = Union[str, os.PathLike]

# A number of digits, with a point and an exponent or without; not nan or inf, not 0x10, not 1_000.
_FLOAT = re.compile(r"[+-]?([0-9]+\.?[0-9]*|\.[0-9]+)([eE][+-]?[0-9]+)?\Z")
_WHOLE = re.compile(r"[+-]?[0-9]+\Z")
_INDEX = re.compile(r"[0-9]+\Z")


class _Reader:
    """A file's lines, with their numbers, blank ones and comments left out."""

    def __init__(self, path: PathLike):
        self.path = str(path)
        try:
            text = Path(path).read_bytes().decode("utf-8")
        except UnicodeDecodeError:
            raise MalformedFile(self.path, None, "the file is not text") from None
        self.lines: Iterator[Tuple[int, str]] = iter(enumerate(text.split("\n"), 1))

    def fault(self, line: Any, reason: str) -> MalformedFile:
        return MalformedFile(self.path, line, reason)

    def next_filled(self) -> Tuple[int, List[str]]:
        for number, line in self.lines:
            if line.strip() and not line.startswith("%"):
                return number, line.split()
        return 0, []


def _header(reader: _Reader, whole: bool) -> bool:
    """Whether the file's values are whole numbers."""
    number, line = next(reader.lines)
    words = line.lower().split()
    if len(words) != 5 or words[0] != "%%matrixmarket":
        raise reader.fault(
            number, "the first line must be a header such as %%MatrixMarket matrix coordinate real general"
        )
    if words[1:3] != ["matrix", "coordinate"]:
        raise reader.fault(number, f'a header with "matrix coordinate" is needed, not "{words[1]} {words[2]}"')
    if words[3] not in ("real", "integer") or (whole and words[3] == "real"):
        kinds = "integer" if whole else "real or integer"
        raise reader.fault(number, f"values must be {kinds}, not {words[3]}")
    if words[4] != "general":
        reason = "; a symmetric file has the matrix itself, and no factor of it" if words[4] == "symmetric" else ""
        raise reader.fault(number, f"the matrix must be general, not {words[4]}{reason}")
    return words[3] == "integer"


def _value(reader: _Reader, number: int, text: str, integer: bool, whole: bool) -> Any:
    if integer:
        if not _WHOLE.match(text) or not -(2**63) <= int(text) < 2**63:
            raise reader.fault(number, f"value {text} is not a whole number of 64 bits")
        if whole:
            return int(text)
        if float(int(text)) != int(text):
            raise reader.fault(number, f"value {text} has too many digits for a 64-bit float")
        return float(int(text))
    if not _FLOAT.match(text):
        raise reader.fault(number, f"value {text} is not a finite number")
    value = float(text)
    if value in (float("inf"), float("-inf")):
        raise reader.fault(number, f"value {text} is not finite")
    return value


def _read(path: PathLike, whole: bool) -> Tuple[int, int, Dict[Tuple[int, int], Tuple[Any, int]]]:
    """Rows, columns, and of each (column, row), counted from 0, the value and its line."""
    reader = _Reader(path)
    integer = _header(reader, whole)
    number, words = reader.next_filled()
    if not words:
        raise reader.fault(None, "the line with rows, columns and entries is missing")
    if len(words) != 3 or not all(_INDEX.match(text) for text in words):
        raise reader.fault(number, "rows, columns and entries must be three whole numbers")
    rows, columns, count = (int(text) for text in words)
    entries: Dict[Tuple[int, int], Tuple[Any, int]] = {}
    while True:
        number, words = reader.next_filled()
        if not words:
            break
        if len(entries) == count:
            raise reader.fault(number, f"more entries than the {count} that the file says it has")
        if len(words) != 3:
            raise reader.fault(number, f"an entry is row, column and value, but this line has {len(words)} words")
        for name, size, text in (("row", rows, words[0]), ("column", columns, words[1])):
            if not _INDEX.match(text):
                raise reader.fault(number, f"{name} {text} is not a whole number from 1")
            if not 1 <= int(text) <= size:
                raise reader.fault(number, f"{name} {int(text)} is not from 1 to {size}")
        place = int(words[1]) - 1, int(words[0]) - 1
        if place in entries:
            twice = f"entry ({words[0]}, {words[1]}) is there twice, first in line {entries[place][1]}"
            raise reader.fault(number, twice)
        entries[place] = _value(reader, number, words[2], integer, whole), number
    if len(entries) < count:
        raise reader.fault(None, f"the file says it has {count} entries, but has {len(entries)}")
    return rows, columns, entries


def read_factor(path: PathLike, kind: str) -> Tuple[int, List[Tuple[int, int, Any]]]:
    """The dimension and the entries (row, column, value) of a factor's file; d is a factor of floats, q of whole numbers.

    NotLower for an entry above the diagonal, with the line that it stands in.
    """
    rows, columns, entries = _read(path, kind == "q")
    if rows != columns:
        raise MalformedFile(str(path), None, f"a factor is square, but this has {rows} rows and {columns} columns")
    below = any(row > column for column, row in entries)
    for (column, row), (value, line) in entries.items():
        if row < column and value != 0:
            hint = "the matrix itself is no factor of it" if below else "this is an upper factor; write its transpose"
            raise NotLower(row, column, f"{path}:{line}: a factor's file must have a lower factor, and {hint}")
    return rows, [(row, column, value) for (column, row), (value, _) in entries.items()]


def read_operator(path: PathLike) -> SparseRowOperator:
    """The operator of a Matrix Market file, `coordinate real general` or `coordinate integer general`, with a row for each
    sum and a column for each cell; the terms of each row by cell."""
    rows, columns, entries = _read(path, False)
    # More rows than are allowed are refused without lists for each of them.
    terms: List[List[Tuple[int, float]]] = [[] for _ in range(min(rows, MAX_DIMENSION + 1))]
    for (column, row), (value, _) in sorted(entries.items()):
        if row < len(terms):
            terms[row].append((word(column), value))
    return SparseRowOperator.of_rows(columns, terms)
