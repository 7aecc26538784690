"""The cases of program `replay` through the package's classes, as far as these take them: the same refusals, the same
entries, variances and chains, bit for bit."""

import unittest
from collections import Counter

from redstartgilt import ClosureTooLarge, Factor, LdlFactor, NotLower, Refused, Requests, SparseRowOperator, WholeFactor

from .replay_cases import Case, cases, shown

KINDS = {"entries", "ldl", "wentries", "diagorig", "opvar", "covar", "chain", "mmread", "mmwrite"}


# A factor is checked when it is made, and so are pivots and operators. So where two things are wrong, a class may refuse with
# another number than the call, which takes all at once: the call's, then the class's.
EARLIER = {
    "opvar": {(1, 2), (1, 18), (4, 1), (4, 9)},
    "covar": {(1, 2), (1, 18), (4, 1), (4, 9)},
    "ldl": {(4, 23), (5, 23), (5, 6)},
}


def expanded(answered, name):
    """The items of a list of an answer."""
    words = next(line.split() for line in answered if line.split()[0] == name)[2:]
    items = []
    for word in words:
        item, _, times = word.partition("*")
        items += [item] * int(times or 1)
    return items


def factor_of(case):
    values = "wvalues" if case.kind == "wentries" else "values"
    lists = case.list("starts"), case.list("rows"), case.list(values)
    if case.kind == "ldl":
        return LdlFactor(lists, case.list("pivots"))
    return WholeFactor(lists) if case.kind == "wentries" else Factor(lists)


def requests_of(case):
    return Requests(case.number("rdim"), case.list("rrows"), case.list("rcols"))


def limit_of(case):
    return None if "limit" not in case or case.word("limit") == "default" else case.number("limit")


def operator_of(case, mark):
    names = ("ncols", "starts", "cols", "weights")
    if mark == "o":
        names = ("ncols", "ostarts", "ocols", "oweights")
    else:
        names = tuple(mark + name for name in names)
    return SparseRowOperator(case.number(names[0]), *(case.list(name) for name in names[1:]))


def found_by(case):
    """What the classes give: names of lists of the answer, each with its items as they are written."""
    kind = case.kind
    if kind == "mmread":
        read = Requests.from_matrix_market(bytes(case.list("file")))
        return {"rrows": [str(row) for row in read.rows], "rcols": [str(column) for column in read.columns]}
    if kind == "mmwrite":
        return {"file": [f"{byte:02x}" for byte in requests_of(case).to_matrix_market()]}
    factor = factor_of(case)
    if kind in ("entries", "ldl", "wentries"):
        starts, rows, values = factor.selected_inverse(requests_of(case), limit_of(case)).lists
        written = {"starts": list(map(str, starts)), "rows": list(map(str, rows))}
        if kind == "wentries":
            return {**written, "wvalues": list(map(str, values))}
        return {**written, "values": [shown(value) for value in values]}
    if kind == "diagorig":
        found = Factor(
            (case.list("starts"), case.list("rows"), case.list("values")), cell_to_place=case.list("perm")
        ).variances(limit=limit_of(case))
        return {"out": [shown(value) for value in found]}
    if kind == "opvar":
        found = factor.operator_variances(operator_of(case, "o"), limit=limit_of(case))
        return {"out": [shown(value) for value in found.values]}
    if kind == "covar":
        pairs = list(zip(case.list("arows"), case.list("brows")))
        found = factor.covariances(operator_of(case, "a"), operator_of(case, "b"), pairs, limit=limit_of(case))
        return {"out": [shown(value) for value in found.values]}
    chain = factor.why(case.number("prow"), case.number("pcol"), requests_of(case)) or []
    return {"crows": [str(row) for row, _ in chain], "ccols": [str(column) for _, column in chain]}


def is_taken(case):
    """Whether a case says nothing that the classes leave no room for: a dimension other than that of the starts, lists of
    row pairs of unequal length, or pairs above the diagonal in a file, which are written in order."""
    if "n" in case and case.number("n") != len(case.list("starts")) - 1:
        return False
    if case.kind == "mmwrite" and any(row < column for row, column in zip(case.list("rrows"), case.list("rcols"))):
        return False
    return "arows" not in case or len(case.list("arows")) == len(case.list("brows"))


class ReplayClasses(unittest.TestCase):
    def test_classes_answer_as_the_proved_program(self):
        counted = Counter()
        for lines, answered in zip(cases("stdin"), cases("stdout")):
            case = Case(lines)
            # Lists are always long enough here.
            if case.kind not in KINDS or answered[1] == "reply 7" or not is_taken(case):
                continue
            try:
                found = found_by(case)
            except NotLower:
                counted["not lower"] += 1
                continue
            except ClosureTooLarge:
                self.assertEqual(answered[1:3], ["reply ok", "status ClosureTooLarge"], case.head)
                counted["past the limit"] += 1
                continue
            except Refused as refused:
                number = int(answered[1].split()[1].replace("ok", "0"))
                if (number, refused.number) not in EARLIER.get(case.kind, ()):
                    self.assertEqual(number, refused.number, case.head)
                    counted["refused"] += 1
                continue
            self.assertEqual(answered[1], "reply ok", case.head)
            for name, items in found.items():
                self.assertEqual(items, expanded(answered, name)[: len(items)], case.head)
            counted[case.kind] += 1
        self.assertGreaterEqual(min(counted[kind] for kind in KINDS), 20, counted)
        self.assertGreaterEqual(min(counted["refused"], counted["past the limit"]), 50, counted)


if __name__ == "__main__":
    unittest.main()
