"""How long the lists of a call must be, and memory that calls use again."""

from __future__ import annotations

import threading
from contextlib import contextmanager
from typing import Dict, Iterator, List, Optional

from ._lists import Lent, room

MAX_DIMENSION = 4_096
"""The largest dimension, permutation and number of operator rows."""

MAX_ENTRIES = 1_048_576
"""The largest number of stored entries, requests, operator terms, row pairs and variances."""


def pair_total(n: int) -> int:
    """The pairs (row, column) with row >= column in dimension n."""
    return n * (n + 1) // 2


def result_places(n: int, limit: int) -> int:
    """The result places that suffice for a dimension and a limit."""
    return min(limit, pair_total(n))


def mark_words(n: int) -> int:
    """The scratch words of a pattern list, one bit for each pair."""
    return (pair_total(n) + 31) // 32


def scratch_words(n: int) -> int:
    """The scratch words of a call that fills result lists."""
    return mark_words(n) + pair_total(n) + 4 * n


def chain_words(n: int) -> int:
    """The scratch words of a chain."""
    return 2 * pair_total(n) + 4 * n


def chain_places(n: int) -> int:
    """The places that suffice for every chain."""
    return max(2 * n - 1, 0)


def default_limit(stored_entries: int) -> int:
    """The limit that a call without one applies."""
    return 10 * stored_entries


def request_places(text: bytes) -> int:
    """The places that suffice for the requests of a file."""
    return min(max(text.count(b"\n"), MAX_DIMENSION), MAX_ENTRIES)


def request_file_bytes(pairs: int) -> int:
    """The bytes that suffice for a file of so many distinct pairs."""
    return 69 + 10 * pairs


def track_runs(cells: int, width: int) -> int:
    """The runs of `width` cells that a track has; 0 for a width that a call refuses."""
    return cells - width + 1 if 0 < width <= cells else 0


class Workspace:
    """Result lists and scratch for one call after another, as `workspace=` of each call that computes entries.

    A call makes them longer where it needs to and never shorter; in dimension 4,096 they take up to 135 megabytes, 168
    once a chain was asked for and 134 more once entries were asked for in whole numbers. Answers do not depend on what a
    workspace was used for before, and hold nothing of it. A call without one uses what such a call left, up to 32 MiB, or
    makes its own.

    One call at a time uses a workspace: where another thread's call does, a RuntimeError says so, and nothing is computed.

    >>> from redstartgilt import Factor, Workspace
    >>> workspace = Workspace()
    >>> for diagonal in [1.0, 2.0]:
    ...     print(Factor(([0, 1], [0], [diagonal])).variances(workspace=workspace)[0])
    1.0
    0.25
    """

    __slots__ = ("_lists", "_use")

    def __init__(self) -> None:
        self._lists: Dict[str, Lent] = {}
        self._use = threading.Lock()

    @property
    def nbytes(self) -> int:
        """The bytes that it holds."""
        return sum(lent.view.nbytes for lent in self._lists.values())

    def list(self, name: str, kind: str, length: int) -> Lent:
        """At least so many places, under a name and a kind."""
        lent = self._lists.get(name + kind)
        if lent is None or lent.length < length:
            # The shorter one is given back first.
            self._lists.pop(name + kind, None)
            lent = self._lists[name + kind] = room(kind, length)
        return lent


_KEPT_BYTES = 2**25

# A workspace that a call without one left, for the next such call.
_left: List[Workspace] = []


@contextmanager
def in_use(workspace: Optional[Workspace]) -> Iterator[Workspace]:
    """A workspace while a call uses it; where none is given, one that nothing else uses."""
    if workspace is None:
        try:
            own = _left.pop()
        except IndexError:
            own = Workspace()
        try:
            yield own
        finally:
            if not _left and own.nbytes <= _KEPT_BYTES:
                _left.append(own)
        return
    if not workspace._use.acquire(blocking=False):
        raise RuntimeError("the workspace is in use by another call: each thread needs its own")
    try:
        yield workspace
    finally:
        workspace._use.release()
