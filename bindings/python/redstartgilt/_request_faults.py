"""Why a request file is refused, in words: the first line with a fault of the library's number.

The library decides whether a file is refused, and by which number. What stands here is run after a refusal alone, and says
nothing of other faults.
"""

from __future__ import annotations

import re
from typing import Iterator, List, NamedTuple, Optional, Tuple

from .errors import REASONS, RequestFileFault
from .workspace import MAX_DIMENSION, MAX_ENTRIES

HEADER = b"%%MatrixMarket matrix coordinate pattern symmetric"
OTHER_HEADER, MALFORMED_FILE, INDEX_OUTSIDE = 15, 16, 17

_BLANKS = b" \t"


class _Fault(Exception):
    def __init__(self, line: Optional[int], reason: str):
        super().__init__(line, reason)
        self.line, self.reason = line, reason


def fault_of(text: bytes, number: int) -> RequestFileFault:
    """The fault of a text that the library refuses with a number."""
    checks = {OTHER_HEADER: _check_header, MALFORMED_FILE: _check_form, INDEX_OUTSIDE: _check_indices}
    try:
        checks[number](text)
    except _Fault as fault:
        return RequestFileFault(number, fault.line, fault.reason)
    # Nothing is found here, but the library decides.
    return RequestFileFault(number, None, REASONS[number])


def first_fault(text: bytes) -> Optional[Tuple[int, Optional[int]]]:
    """The number and the line that the checks here find by themselves, for tests that hold them to the library."""
    for number, check in (
        (OTHER_HEADER, _check_header),
        (MALFORMED_FILE, _check_form),
        (INDEX_OUTSIDE, _check_indices),
    ):
        try:
            check(text)
        except _Fault as fault:
            return number, fault.line
    return None


def _fields(line: bytes) -> List[bytes]:
    return [field for field in re.split(rb"[ \t]", line) if field]


def _quoted(part: bytes) -> str:
    """Printable ASCII as it is, other bytes escaped, no more than the first 60."""
    shown = repr(part[:60])[2:-1].replace('"', '\\"')
    return f'"{shown}{"..." if len(part) > 60 else ""}"'


def _counted(count: int, name: str) -> str:
    return f"{count} {name}{'' if count == 1 else 's'}"


def _check_header(text: bytes) -> None:
    line = text.split(b"\n", 1)[0]
    if line == HEADER:
        return
    exactly = f'exactly "{HEADER.decode()}"'
    if not text:
        reason = f"the file is empty; its first line must be {exactly}"
    elif line == HEADER + b"\r":
        reason = "a carriage return (CR) follows the header; lines must end in LF alone"
    elif line == b"\xef\xbb\xbf" + HEADER:
        reason = "a byte order mark stands before the header"
    elif _fields(line) == _fields(HEADER):
        reason = "the header must have single spaces between its words and none around them"
    else:
        reason = f"the first line must be {exactly}, and is {_quoted(line)}"
    raise _Fault(1, reason)


def _lines(text: bytes) -> Iterator[Tuple[int, bytes]]:
    """The size line and the lines after it, each with its number; blank lines are left out."""
    before_sizes = True
    for number, line in enumerate(text.split(b"\n"), 1):
        if number == 1 or not line.strip(_BLANKS):
            continue
        if before_sizes and line.startswith(b"%"):
            continue
        before_sizes = False
        yield number, line


class _Digits(NamedTuple):
    """The digits of a number without leading zeros; none for 0."""

    digits: bytes

    @property
    def value(self) -> int:
        # Of a very long number no more than that it is large matters.
        return int(self.digits[:30] or b"0")

    def __str__(self) -> str:
        if len(self.digits) > 20:
            return f"{self.digits[:8].decode()}... (a number of {len(self.digits)} digits)"
        return self.digits.decode() or "0"


def _numbers(number: int, line: bytes, count: int, must: str) -> List[_Digits]:
    if b"\r" in line:
        raise _Fault(number, "a carriage return (CR) is in the line; lines must end in LF alone")
    fields = _fields(line)
    if len(fields) != count:
        raise _Fault(number, f"{must}, and this line has {_counted(len(fields), 'field')}")
    for field in fields:
        if not re.fullmatch(rb"[0-9]+", field):
            raise _Fault(number, f"{must}, and {_quoted(field)} is not digits alone")
    return [_Digits(field.lstrip(b"0")) for field in fields]


def _sizes(number: int, line: bytes) -> Tuple[int, int]:
    if line.lstrip(_BLANKS).startswith(b"%"):
        raise _Fault(number, "a comment line must have % as its first byte, and a space or tab stands before it")
    must = "the size line is three numbers, rows, columns and entries"
    rows, columns, entries = _numbers(number, line, 3, must)
    if rows != columns:
        raise _Fault(number, f"the sizes must be equal, and are {rows} rows and {columns} columns")
    if rows.value > MAX_DIMENSION:
        raise _Fault(number, f"the size {rows} is above {MAX_DIMENSION}")
    if entries.value > MAX_ENTRIES:
        raise _Fault(number, f"the entry count {entries} is above {MAX_ENTRIES}")
    return rows.value, entries.value


def _entry(number: int, line: bytes) -> List[_Digits]:
    if line.lstrip(_BLANKS).startswith(b"%"):
        raise _Fault(number, "a comment is among the entries; comment lines must stand before the size line")
    return _numbers(number, line, 2, "an entry is two numbers")


def _check_form(text: bytes) -> None:
    lines = _lines(text)
    size_line, line = next(lines, (0, b""))
    if not size_line:
        raise _Fault(None, "the file ends before its size line, the line with rows, columns and entries")
    _, entries = _sizes(size_line, line)
    found = sum(1 for number, entry in lines if _entry(number, entry))
    if found != entries:
        lines_found = _counted(found, "entry line")
        raise _Fault(size_line, f"the entry count is {entries}, and the file has {lines_found}")


def _check_indices(text: bytes) -> None:
    lines = _lines(text)
    dimension, _ = _sizes(*next(lines))
    for number, line in lines:
        row, column = _entry(number, line)
        for name, index in (("row", row), ("column", column)):
            if index.value == 0:
                raise _Fault(number, f"{name} 0 is outside: indices count from 1")
            if index.value > dimension:
                raise _Fault(number, f"{name} {index} is beyond the dimension {dimension}")
        if row.value < column.value:
            outside = f"entry ({row}, {column}) is above the diagonal: its row must be at least its column"
            raise _Fault(number, outside)
