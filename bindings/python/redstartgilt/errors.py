"""Refusals and faults, as exceptions."""

from __future__ import annotations

from typing import TYPE_CHECKING, Optional

if TYPE_CHECKING:
    from .results import SelectedInverseDiagnostics

TOO_SHORT = 7
NOT_COVERED = 8
NOT_FINITE_ENTRY = 18

REASONS = {
    1: "too large: a dimension, a permutation or a number of operator rows above 4,096, or more than 1,048,576 stored "
    "entries, requests, operator terms, row pairs or variances",
    2: "broken starts: there must be n + 1 of them, from 0, never falling, to the number of rows, and as many values as "
    "rows",
    3: "broken rows: the row indices of each column must be below n and ascend",
    4: "dimensions do not match: requests, permutation, pivots, operator or vector are of another dimension than the "
    "factor, or two lists that go together differ in length",
    5: "an index of a request, or of the pair whose chain is asked for, is outside: it must be below the dimension",
    6: "not positive definite: a column of the factor has no diagonal entry, or one that is at most 0, or a pivot is at "
    "most 0",
    7: "a list lent for results, requests, a chain, scratch or output is too short",
    8: "not covered: the pair is not among the selected entries, or all diagonals need more entries than the limit of 10 "
    "times the stored entries",
    9: "broken operator: its row starts must go from 0, never falling, to the number of columns, with as many weights, "
    "its columns must be below the dimension, row pairs must name its rows, and a row with ranges must have each column "
    "once",
    10: "an index of the permutation is not below its length",
    11: "the permutation has an index twice",
    12: "the two permutations are not each other's inverses",
    13: "a variance is not finite",
    14: "the scale of the floor is not finite, or is below 0",
    15: "another header: the first line of a request file must be exactly %%MatrixMarket matrix coordinate pattern "
    "symmetric",
    16: "malformed request file: after comments it must have a line with two equal sizes of at most 4,096 and the number "
    "of entries, at most 1,048,576, then so many lines of two numbers",
    17: "an index of the request file is outside: indices go from 1 to the size, and a row must be at least its column",
    18: "an entry of the factor, on or below its diagonal, or a pivot is not finite",
    19: "a diagonal entry of a factor of whole numbers is not 1",
    20: "a number is too large in size to be exact: beyond 2^53 an entry of a factor of whole numbers, or a product, a "
    "running sum or an entry of the recurrence; beyond 2^30 an entry at cells of a row with ranges; beyond 2^40 one at "
    "cells of a track's run",
    21: "bad weights: a low one is above its high one, one is beyond 1,024 in size, or there are more than 64",
    22: "bad width: it must be from 1 to 1,024, and no more than the length of the track",
    23: "a diagonal entry of a factor with pivots is not 1",
    24: "no requests: a file without entries would mean all diagonals, so an empty list is not written as one",
}
"""What each number says, in the words of every language."""


class Refused(ValueError):
    """The library refuses a call, by a number. No result is given, and nothing is written.

    The library checks in a fixed order, and the first check that fails decides. The numbers are those of
    include/redstartgilt.h.

    >>> from redstartgilt import Factor, Refused
    >>> try:
    ...     Factor(([0, 2, 3], [1, 0, 1], [2.0, 1.0, 1.0]))
    ... except Refused as refused:
    ...     print(refused.number, refused)
    3 refusal 3: broken rows: the row indices of each column must be below n and ascend
    """

    number: int
    """The refusal's number."""
    reason: str
    """What is wrong, in words."""

    def __init__(self, number: int, reason: Optional[str] = None):
        self.number = number
        self.reason = REASONS[number] if reason is None else reason
        super().__init__(number, self.reason)

    def __str__(self) -> str:
        return f"refusal {self.number}: {self.reason}"


class NotCovered(Refused, KeyError):
    """A pair that is not among the selected entries: refusal 8. It was not computed, which does not mean 0.0."""


class RequestFileFault(Refused):
    """A request file that the library refuses, with the line at fault, counted from 1; None where a line is missing."""

    def __init__(self, number: int, line: Optional[int], reason: str):
        super().__init__(number, reason if line is None else f"line {line}: {reason}")
        self.line = line
        self.args = (number, line, reason)


class ClosureTooLarge(ValueError):
    """The closed set of the requests passes the limit, so no entries are given. A larger `limit=` may give them."""

    def __init__(self, diagnostics: SelectedInverseDiagnostics):
        self.diagnostics = diagnostics
        super().__init__(diagnostics)

    def __str__(self) -> str:
        limit = self.diagnostics.closure_limit
        return f"closure too large: the requests need more entries than the limit of {limit}; limit= may give another"


class NotLower(ValueError):
    """A factor with an entry above its diagonal, at `row` and `column`, which the library would drop without a word."""

    def __init__(self, row: int, column: int, hint: str):
        self.row, self.column, self.hint = row, column, hint
        super().__init__(row, column, hint)

    def __str__(self) -> str:
        return f"entry ({self.row}, {self.column}) of the factor is above the diagonal: {self.hint}"


class FactorMismatch(ValueError):
    """A factor that is not that of a precision matrix Q. Cells `row` and `column` are where the two differ most, measured by
    the bound: `product` is the entry of L·Lᵀ, or of L·D·Lᵀ, `precision` that of Q."""

    def __init__(self, row: int, column: int, product: float, precision: float, bound: float):
        self.row, self.column = row, column
        self.product, self.precision, self.bound = product, precision, bound
        super().__init__(row, column, product, precision, bound)

    def __str__(self) -> str:
        told = (
            f"entry ({self.row}, {self.column}) of Q is {self.precision!r}, but of the factor multiplied out it is "
            f"{self.product!r}"
        )
        if self.bound < 2.0**-1022:
            return f"{told}, and rounding does not make them differ"
        return f"{told}, and rounding may make them differ by {self.bound:.3e}"


class MalformedFile(ValueError):
    """A file that is not read, with its path, the line at fault and the reason."""

    def __init__(self, path: str, line: Optional[int], reason: str):
        self.path, self.line, self.reason = path, line, reason
        super().__init__(path, line, reason)

    def __str__(self) -> str:
        place = self.path if self.line is None else f"{self.path}:{self.line}"
        return f"{place}: {self.reason}"


def check(number: int) -> None:
    """Nothing for 0, the refusal for another number."""
    if number and number not in REASONS:
        raise RuntimeError(f"the library refuses with {number}, which this package does not know")
    if number:
        raise Refused(number)
