"""The library, called through `lent`, on the cases of program `replay`: every answer, and every place of every lent list, is
that of crates/replay/stdout. Then the same cases through the package's classes, as far as these take them."""

import unittest
from array import array

from redstartgilt import lent

from .replay_cases import Case, cases, listed, shown

FACTOR = ["starts", "rows", "values"]
WHOLE_FACTOR = ["starts", "rows", "wvalues"]
REQUESTS = ["rrows", "rcols"]
RESULT = [("lstarts", "I", 4_608), ("lrows", "I", 33_024), ("lvalues", "d", 33_024), ("lscratch", "I", 67_072)]
WHOLE_RESULT = RESULT[:2] + [("lwvalues", "q", 33_024), RESULT[3], ("lwork", "q", 33_024)]
OUTPUT = ("lout", "d", 4_608)
PAIRS = [("lscratch", "I", 33_024), ("lprows", "I", 33_024), ("lpcols", "I", 33_024)]
CHAIN = [("lscratch", "I", 67_072), ("lcrows", "I", 33_024), ("lccols", "I", 33_024)]

# The call of a kind, what it takes, by name and in order, and the lists that it is lent for writing. Between the two a limit
# may stand, which is then that of the call `_with_limit`.
CALLS = {
    "entries": ("selected_inverse_entries", ["n", *FACTOR, "rdim", *REQUESTS], RESULT),
    "ldl": ("selected_inverse_entries_ldl", ["n", *FACTOR, "pivots", "rdim", *REQUESTS], RESULT),
    "wentries": ("selected_inverse_entries_whole", ["n", *WHOLE_FACTOR, "rdim", *REQUESTS], WHOLE_RESULT),
    "bounds": ("variance_bounds_whole", [*WHOLE_FACTOR, "cols", "lows", "highs"], []),
    "track": ("track_variances_whole", [*WHOLE_FACTOR, "cells", "width"], [("lwout", "q", 4_608)]),
    "diag": ("diag", FACTOR, [OUTPUT, ("lmarks", "B", 4_608)]),
    "patfactor": ("from_cholesky_factor", ["n", *FACTOR], PAIRS),
    "patoperator": ("from_transformed_operator", ["ncols", "ostarts", "ocols", "oweights"], PAIRS),
    "permvalidate": ("validate", ["perm", "inv"], []),
    "permfrom": ("from_orig_to_perm", ["perm"], [("linv", "I", 4_608)]),
    "permapply": ("permute_factor_to_original", ["perm", "input"], [OUTPUT]),
    "permmarked": ("permute_factor_to_original_marked", ["perm", "input", "marks"], [OUTPUT, ("lmarks", "B", 4_608)]),
    "diagorig": ("selected_inverse_diag_with_diagnostics", ["n", *FACTOR, "perm"], RESULT + [OUTPUT]),
    "opvar": (
        "selected_inverse_transformed_diag",
        ["n", *FACTOR, "ncols", "ostarts", "ocols", "oweights"],
        RESULT + [OUTPUT],
    ),
    "covar": (
        "selected_inverse_transformed_covariances",
        ["n", *FACTOR, "ancols", "astarts", "acols", "aweights", "bncols", "bstarts", "bcols", "bweights"]
        + ["arows", "brows"],
        RESULT + [OUTPUT],
    ),
    "chain": ("dependency_chain", ["n", *FACTOR, "rdim", *REQUESTS, "prow", "pcol"], CHAIN),
    "least": ("count_and_least", ["input"], []),
    "mmread": ("read_requests", ["file"], [("lrrows", "I", 4_608), ("lrcols", "I", 4_608)]),
    "mmwrite": ("write_requests", ["rdim", *REQUESTS], [("lfile", "B", 65_536), ("lscratch", "I", 67_072)]),
}
SCALARS = {"n", "rdim", "limit", "width", "ncols", "ancols", "bncols", "prow", "pcol"}
STATUSES = {0: "Complete", 1: "ClosureTooLarge"}
# The order of the lists in an answer, where it is not that of the call.
ANSWER_ORDER = {"mmwrite": ["lscratch", "lfile"]}
REPLY_FIELDS = {
    "bounds": [("low", "low"), ("high", "high")],
    "patfactor": [("pairs", "pairs")],
    "patoperator": [("pairs", "pairs")],
    "mmread": [("rdim", "dimension"), ("requests", "requests")],
    "mmwrite": [("bytes", "bytes")],
}


def counts(reply):
    return [
        f"status {STATUSES[reply.status]}",
        f"requested {reply.requested_pairs}",
        f"closure {reply.closure_pairs}",
        f"factor {reply.factor_pairs}",
        f"limit {reply.closure_limit}",
        f"ratio {shown(reply.closure_over_factor)}",
    ]


def replied(kind, reply):
    """The lines of a reply."""
    refusal = reply if isinstance(reply, int) else reply.refusal
    if refusal:
        others = [] if isinstance(reply, int) else [getattr(reply, name) for name, _ in reply._fields_[1:]]
        assert not any(others), others
        return [f"reply {refusal}"]
    lines = ["reply ok"]
    if hasattr(reply, "closure_pairs"):
        lines += counts(reply)
    elif kind == "chain":
        lines.append(f"chain {reply.pairs or 'none'}")
    return lines + [f"{name} {getattr(reply, field)}" for name, field in REPLY_FIELDS.get(kind, [])]


def gets(call, lists, case):
    """A lookup for each pair of the case."""
    items = []
    for row, column in zip(case.list("prows"), case.list("pcols")):
        reply = lent.call(call, *lists, row, column)
        value = str(reply.value) if call == "get_whole" else shown(reply.value)
        items.append({0: value, 8: "none"}.get(reply.refusal, f"refused-{reply.refusal}"))
    return " ".join(["gets", str(len(items)), *items])


def search(case):
    """The search, by lookups in column 0 of a result; the order of the rows takes the place of rows too large for a
    dimension, and the value of each entry is its place."""
    rows, sought = case.list("rows"), case.list("sought")
    ranks = {number: rank for rank, number in enumerate(sorted({*rows, *sought}))}
    starts = array("I", [0] + [len(rows)] * len(ranks))
    lists = starts, array("I", [ranks[row] for row in rows]), array("d", range(len(rows)))
    replies = [lent.call("get_counted", *lists, ranks[row], 0) for row in sought]
    assert all(reply.refusal in (0, 8) for reply in replies)
    places = ["none" if reply.refusal else str(int(reply.value)) for reply in replies]
    return [
        "reply ok",
        " ".join(["places", str(len(places)), *places]),
        " ".join(["looks", str(len(places)), *(str(reply.looks) for reply in replies)]),
    ]


def floor(case):
    output = case.lent(*OUTPUT)
    if case.word("floor") == "zero":
        reply = lent.call("stabilize_variances_zero", case.list("input"), output)
    else:
        reply = lent.call("stabilize_variances_positive_mean", case.list("input"), case.value("scale"), output)
    lines = [f"reply {reply.refusal}"] if reply.refusal else ["reply ok"]
    if not reply.refusal:
        lines += [f"floor {shown(reply.floor)}", f"hits {reply.floor_hits}"]
    return lines + [listed("out", output)]


def answer(case):
    kind = case.kind
    if kind in ("get", "wget"):
        names, call = (FACTOR, "get") if kind == "get" else (WHOLE_FACTOR, "get_whole")
        return ["reply ok", gets(call, [case.list(name) for name in names], case)]
    if kind == "search":
        return search(case)
    if kind == "floor":
        return floor(case)
    if kind == "least":
        reply = lent.call("count_and_least", case.list("input"))
        return ["reply ok", f"negative {reply.num_negative}", f"least {shown(reply.min_value)}"]
    name, taken, written = CALLS[kind]
    if "limit" in case and case.word("limit") != "default":
        name = {"diagorig": "selected_inverse_diag"}.get(kind, name) + "_with_limit"
        taken = [*taken, "limit"]
    arguments = [case.number(field) if field in SCALARS else case.list(field) for field in taken]
    lists = {field: case.lent(field, form, length) for field, form, length in written}
    reply = lent.call(name, *arguments, *lists.values())
    lines = replied(kind, reply)
    lines += [listed(field[1:], lists[field]) for field in ANSWER_ORDER.get(kind, lists)]
    if kind in ("entries", "ldl", "wentries") and lines[:2] == ["reply ok", "status Complete"] and "prows" in case:
        starts, rows, values = list(lists.values())[:3]
        call = "get_whole" if kind == "wentries" else "get"
        lines.append(gets(call, (starts[: case.number("n") + 1], rows, values), case))
    return lines


class Replay(unittest.TestCase):
    def test_every_answer_is_that_of_the_proved_program(self):
        asked, expected = cases("stdin"), cases("stdout")
        self.assertEqual(len(asked), len(expected))
        self.assertGreaterEqual(len(asked), 4_033)
        for lines, answered in zip(asked, expected):
            case = Case(lines)
            self.assertEqual([case.head, *answer(case), "end"], answered, case.head)


if __name__ == "__main__":
    unittest.main()
