"""Floors under variances."""

from __future__ import annotations

from array import array
from typing import Iterable, NamedTuple, Optional

from . import lent
from ._lists import room, take
from .errors import check


class StabilizedVariance(NamedTuple):
    """Variances with a floor under them."""

    values: array
    """Each value, or the floor where the value was not above it."""
    floor: float
    floor_hits: int
    """Values that were not above the floor."""


def stabilize_variances(variances: Iterable[float], scale: Optional[float] = None) -> StabilizedVariance:
    """Puts a floor under variances: 0.0, or with a scale max(|mean of the positive values|, 1) · scale.

    Refuses with 1 above 1,048,576 values, with 13 for a value that is not finite, then with 14 for a bad scale.

    >>> from redstartgilt import stabilize_variances
    >>> stabilize_variances([4.0, -2.0, 0.0], scale=0.5)
    StabilizedVariance(values=array('d', [4.0, 2.0, 2.0]), floor=2.0, floor_hits=2)
    """
    values = take("d", getattr(variances, "values", variances), "variances")
    output = room("d", values.length)
    if scale is None:
        reply = lent.call("stabilize_variances_zero", values, output)
    else:
        reply = lent.call("stabilize_variances_positive_mean", values, scale, output)
    check(reply.refusal)
    return StabilizedVariance(array("d", output.view), reply.floor, reply.floor_hits)
