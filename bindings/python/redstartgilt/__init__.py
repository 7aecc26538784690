"""A proved selected inverse of a sparse Cholesky factor.

From a sparse factor L of a precision matrix Q = L·Lᵀ this library gives the entries of the inverse of Q that Takahashi's
recurrence gives, without computing the rest: the marginal variances of a Gaussian field, and covariances of what is asked
for. What it promises is proved by machine; this package links it, and adds lists, names and checks of what it is handed.

>>> from redstartgilt import Factor
>>> factor = Factor(([0, 2, 3], [0, 1, 1], [1.0, 2.0, 1.0]))  # columns (1, 2) and (1): starts, rows, values
>>> factor.variances().tolist()
[5.0, 1.0]
>>> factor.selected_inverse([(0, 1)])[0, 1]
-2.0

Cells are counted from 0, in the user's order everywhere. A call that the library refuses raises Refused, whose number is
the same in every language, and gives nothing.

Threads: a call releases the interpreter's lock, so calls run at once. Factors, requests, operators and results are not
written to by calls, and may be used by many threads; a Workspace serves one call at a time. Buffers that a factor uses
without a copy must not be written to while a call runs. A call needs up to STACK_BYTES of stack, free where it is made: as
a rule threads have it, but one that is made after `threading.stack_size` of little more is ended by the system, with the
whole program; 512 KiB are enough.
"""

from . import lent
from ._library import PATH as LIBRARY_PATH
from .errors import (
    ClosureTooLarge,
    FactorMismatch,
    MalformedFile,
    NotCovered,
    NotLower,
    Refused,
    RequestFileFault,
)
from .factor import Factor
from .files import read_operator
from .floors import StabilizedVariance, stabilize_variances
from .ldl import LdlFactor
from .operators import SparseRowOperator
from .permutation import Permutation
from .requests import REQUEST_FILE_HEADER, Requests, read_requests, write_requests
from .results import Covariances, SelectedInverseDiagnostics, SparseSelectedInverse, Variances
from .whole import VarianceBounds, WholeFactor, WholeSelectedInverse
from .workspace import MAX_DIMENSION, MAX_ENTRIES, Workspace

__version__ = "0.1.0"

STACK_BYTES = 128 * 1024
"""The stack that a call of the library needs at most, in bytes, whatever the dimension."""

__all__ = [
    "ClosureTooLarge",
    "Covariances",
    "Factor",
    "FactorMismatch",
    "LIBRARY_PATH",
    "LdlFactor",
    "MAX_DIMENSION",
    "MAX_ENTRIES",
    "MalformedFile",
    "NotCovered",
    "NotLower",
    "Permutation",
    "REQUEST_FILE_HEADER",
    "Refused",
    "RequestFileFault",
    "Requests",
    "STACK_BYTES",
    "SelectedInverseDiagnostics",
    "SparseRowOperator",
    "SparseSelectedInverse",
    "StabilizedVariance",
    "VarianceBounds",
    "Variances",
    "WholeFactor",
    "WholeSelectedInverse",
    "Workspace",
    "lent",
    "read_operator",
    "read_requests",
    "stabilize_variances",
    "write_requests",
]
