#!/usr/bin/env python3
"""Makes crates/replay/stdin and crates/replay/stdout from the Rust's own functions and a reader of files.

    replay/make.py PROGRAMS                            writes both files and prints the counts
    replay/make.py PROGRAMS --compare REPLAY [SEED]    runs the program REPLAY on every case that it can hold

PROGRAMS is bindings/oracle/target/release, the folder with the programs `generate`, which writes cases,
and `oracle`, which answers them by the Rust's functions; bindings/oracle/README.md says how to build
them. See replay/README.md for the text form.

First come the cases of replay/cases.txt, all of them, then those taken from the sets below in this
order. Which are taken is fixed: each set is grouped by kind and answer; every group gives its share
of the set's number and at least so many as SETS says (or all it has), spread evenly over it. A generated case of
kind `defaultlimit` becomes one of `entries` with no requests and the default limit.

What the answers file holds is the Rust's answer with these changes:
- `reply err ..` becomes `reply N`, document 01's number;
- where document 01 refuses, or document 02 a kept entry that is not finite with 18, which `refusal`
  below reads from their text and not from our code, the answer is that number, whatever the Rust says
  (it panics, cannot be fed, or accepts). For a refused case of cases.txt the Rust is not asked;
- a lookup is document 01's where the Rust's columns cannot hold the lists;
- the lists lent for writing are whole: what the Rust gives stands in front, and the rest is what
  document 01 says is left;
- of `least`, two zeros count as equal, and document 01's is written;
- the marks of a diagonal list are 1 where the Rust's lookup of the diagonal finds a value; marks that are
  moved with their values go where the permutation says, and the Rust moves the values alone;
- the Rust has no covariances of two operators: of `covar` it is asked for the entries of the requests, with the
  default limit, and the outputs are summed here from these;
- `route` and `finish`, which a call does not tell, are left out.

The Rust has no reader of Matrix Market files. The answers of kind `mmread` are those of `read_file`
below, which follows document 02's text, and the files of the set `mmread` are made here too. Nor has it a
writer: those of kind `mmwrite` are `write_file`'s, each of which `read_file` must read back as the set that was
written, and the lists of the set are made here. Nor does it
count the places that a search looks at: of kind `search` places and looks are those of `search` below,
and the columns of the set are made here. Nor has it a chain to a pair: the answers of kind `chain` are those
of `chain_of` below, which follows document 02's text, and the set is made here. Nor does it compute in whole
numbers: the answers of kinds `wentries` and `wget` are those of `whole_answer` and `lookups` below, with Python's
numbers, which have no bound, and both sets are made here. Where the answer to `wentries` is Complete, the Rust is
asked for the entries of the same factor as doubles; its entries must be equal as numbers, and the rest of its answer the same.
Nor has it weights in ranges or variances along a track: the answers of kinds `bounds` and `track` are those of
`variance_bounds` and `track_variances` below, and both sets are made here. Nor does it take a factor with pivots: the
answers of kind `ldl` are those of `ldl_answer` below, and its set is made here. Where every pivot is a power of 4 and no
number is very large or small, the Rust is asked for the entries of L with each column times its pivot's root, which has
the same numbers to a power of 2; its answer must be the same bit for bit.
"""
import collections, fractions, itertools, math, os, random, re, struct, subprocess, sys

# set: how many cases, the largest case in bytes, and the least number of a group
SETS = {
    "worked": (100, 120000, 12),
    "tiny": (120, 2000, 12),
    "random": (70, 7000, 12),
    "special": (90, 2000, 12),
    "exact": (80, 3000, 12),
    "grid": (24, 60000, 6),
    "lookup": (100, 3000, 12),
    "search": (60, 1500, 12),
    "default": (60, 6000, 12),
    "refuse": (140, 2000, 12),
    "diagorig": (60, 4000, 12),
    "opvar": (80, 4000, 12),
    "covar": (56, 2000, 4),
    "chain": (60, 1500, 4),
    "ldl": (160, 2500, 12),
    "wentries": (160, 2500, 12),
    "wget": (60, 1500, 8),
    "bounds": (100, 2500, 12),
    "track": (100, 2500, 12),
    "floor": (90, 2000, 12),
    "least": (60, 2000, 12),
    "perm": (90, 2000, 12),
    "permmarked": (60, 2000, 12),
    "pattern": (70, 4000, 12),
    "mmread": (100, 420, 12),
    "mmwrite": (100, 1500, 12),
}

# ---- the text form

FACTOR = ("n", "starts", "rows", "values")
WHOLE_FACTOR = ("n", "starts", "rows", "wvalues")
OPERATOR = ("ncols", "ostarts", "ocols", "oweights")
OPERATOR_A = ("ancols", "astarts", "acols", "aweights")
OPERATOR_B = ("bncols", "bstarts", "bcols", "bweights")
# the lists lent for writing, by kind, each with the length that it has where the case does not give it
ROOM, ENTRIES = 4608, 33024
RESULT = {"lstarts": ROOM, "lrows": ENTRIES, "lvalues": ENTRIES, "lscratch": 67072}
OUTPUT = {"lout": ROOM}
MARKED = {"lout": ROOM, "lmarks": ROOM}
PATTERN = {"lscratch": ENTRIES, "lprows": ENTRIES, "lpcols": ENTRIES}
CHAIN = {"lscratch": 67072, "lcrows": ENTRIES, "lccols": ENTRIES}
WHOLE = {"lstarts": ROOM, "lrows": ENTRIES, "lwvalues": ENTRIES, "lscratch": 67072, "lwork": ENTRIES}
LENT = {
    "entries": RESULT,
    "ldl": RESULT,
    "get": {},
    "wentries": WHOLE,
    "wget": {},
    "bounds": {},
    "track": {"lwout": ROOM},
    "search": {},
    "diag": MARKED,
    "patfactor": PATTERN,
    "patoperator": PATTERN,
    "permvalidate": {},
    "permfrom": {"linv": ROOM},
    "permapply": OUTPUT,
    "permmarked": MARKED,
    "diagorig": {**RESULT, **OUTPUT},
    "opvar": {**RESULT, **OUTPUT},
    "covar": {**RESULT, **OUTPUT},
    "chain": CHAIN,
    "floor": OUTPUT,
    "least": {},
    "mmread": {"lrrows": ROOM, "lrcols": ROOM},
    "mmwrite": {"lscratch": 67072, "lfile": 65536},
}
# the fields after the lists lent
READ = {
    "entries": FACTOR + ("rdim", "rrows", "rcols", "limit", "prows", "pcols"),
    "ldl": FACTOR + ("pivots", "rdim", "rrows", "rcols", "limit", "prows", "pcols"),
    "get": FACTOR[1:] + ("prows", "pcols"),
    "wentries": WHOLE_FACTOR + ("rdim", "rrows", "rcols", "limit", "prows", "pcols"),
    "wget": WHOLE_FACTOR[1:] + ("prows", "pcols"),
    "bounds": WHOLE_FACTOR[1:] + ("cols", "lows", "highs"),
    "track": WHOLE_FACTOR[1:] + ("cells", "width"),
    "search": ("rows", "sought"),
    "diag": FACTOR[1:],
    "patfactor": FACTOR,
    "patoperator": OPERATOR,
    "permvalidate": ("perm", "inv"),
    "permfrom": ("perm",),
    "permapply": ("perm", "input"),
    "permmarked": ("perm", "input", "marks"),
    "diagorig": FACTOR + ("perm",),
    "opvar": FACTOR + OPERATOR,
    "covar": FACTOR + OPERATOR_A + OPERATOR_B + ("arows", "brows"),
    "chain": FACTOR + ("rdim", "rrows", "rcols", "prow", "pcol"),
    "floor": ("floor", "scale", "input"),
    "least": ("input",),
    "mmread": ("file",),
    "mmwrite": ("rdim", "rrows", "rcols"),
}
FIELDS = {kind: (*LENT[kind], *READ[kind]) for kind in READ}
SCALARS = ("n", "rdim", "limit", "ncols", "ancols", "bncols", "prow", "pcol", "width", "floor", "scale")
VALUES = ("values", "pivots", "oweights", "aweights", "bweights", "input", "lvalues", "lout")
WHOLES = ("wvalues", "lwvalues", "lwork", "lows", "highs", "lwout")
BYTES = ("file", "lfile")
MARKS = ("marks", "lmarks")
# what the program has room for: ROOM items of a list, so many pairs, bytes of a case, and this dimension where it lends its own lists
PAIRS, LONGEST, DIMENSION = 64, 1048576, 256
SEVENS = struct.pack(">d", 7777.0).hex()


def blocks(text):
    """The cases or answers of a text: (id, kind, lines without the first and the last)."""
    head, lines = None, []
    for line in text.split("\n"):
        words = line.split()
        if not words or line.startswith("#"):
            continue
        if words[0] == "case":
            head, lines = words[1:], []
        elif words[0] == "end":
            yield head[0], head[1], lines
        else:
            lines.append(line)


def scalar(name, word):
    return word if name in ("floor", "scale") or word == "default" else int(word)


def fields(lines):
    """A case's fields: a number or a word, or a list of words or of the digits of values or bytes."""
    f = {}
    for line in lines:
        name, *words = line.split()
        if name in SCALARS:
            f[name] = scalar(name, words[0])
        elif name != "expect":
            assert int(words[0]) == len(words) - 1, line
            f[name] = words[1:] if name in VALUES + BYTES else [int(w) for w in words[1:]]
    return f


def block(name, kind, lines):
    return "\n".join(["case %s %s" % (name, kind)] + lines + ["end"]) + "\n"


def case_text(name, kind, f):
    assert all(x in FIELDS[kind] for x in f), name
    lines = []
    for x in FIELDS[kind]:
        if x in f:
            words = [f[x]] if x in SCALARS else [len(f[x])] + f[x]
            lines.append(" ".join([x] + [str(w) for w in words]))
    return block(name, kind, lines)


# A list is kept as its runs, (item, how many).


def runs(items):
    return [(x, 1) for x in items]


def size(held):
    return sum(k for _, k in held)


def written_over(front, held):
    """The front's items in the first places of a list, the others as they are."""
    out, skip = list(front), size(front)
    for x, k in held:
        out.append((x, max(k - skip, 0)))
        skip = max(skip - k, 0)
    return out


def is_value(x):
    """Whether it is a value's digits, or nan: a byte has two digits."""
    return isinstance(x, str) and len(x) > 2


def is_nan(bits):
    return bits == "nan" or int(bits, 16) % 2**63 > 0x7FF0 << 48


def is_zero(x):
    """Of a value's digits, zeros of either sign; of a whole number, 0."""
    return (x != "nan" and int(x, 16) % 2**63 == 0) if is_value(x) else x == 0


def list_line(name, held):
    """A list of an answer: its length and its items, equal ones in a row as item*k; zeros and NaNs among values one by one."""
    words = [name, str(size(held))]
    shown = (("nan" if is_value(x) and is_nan(x) else x, k) for x, k in held if k)
    for x, group in itertools.groupby(shown, key=lambda run: run[0]):
        k = sum(run[1] for run in group)
        if is_value(x) and (is_nan(x) or is_zero(x)):
            words += [x] * k
        else:
            words.append("%s*%d" % (x, k) if k > 1 else str(x))
    return " ".join(words)


# ---- the readable form of replay/cases.txt


def value_bits(word):
    """A value's digits: from its 0x.. bits, from a power such as -2^-1074, or from its decimal, nan or inf."""
    if word.startswith("0x"):
        assert len(word) == 18
        return word[2:]
    if "^" in word:
        sign, power = word.split("2^")
        x = math.ldexp(-1.0 if sign else 1.0, int(power))
    else:
        x = float(word)
    return struct.pack(">d", x).hex()


def whole_of(word):
    """A whole number: from its decimal, or from a power with what is added to it, such as -2^63 or 2^53+1."""
    power = re.fullmatch(r"(-?)2\^(\d+)([+-]\d+)?", word)
    return int(power[1] + str(2 ** int(power[2]))) + int(power[3] or 0) if power else int(word)


def number_of(bits):
    """The value of its digits."""
    return math.nan if bits == "nan" else struct.unpack(">d", bytes.fromhex(bits))[0]


def items(word):
    """The items that a word stands for: item*k is k of them, a..b all from a to b, either way."""
    word, _, times = word.partition("*")
    first, dots, last = word.partition("..")
    if not dots:
        return [word] * int(times or 1)
    a, b = float(first), float(last)
    count = int(abs(b - a)) + 1
    steps = [a + k if b >= a else a - k for k in range(count)]
    return [str(x) if "." in first else str(int(x)) for x in steps]


HEADER = b"%%MatrixMarket matrix coordinate pattern symmetric"


def file_bytes(text):
    """The bytes of a readable file: H is the header, / is LF, {9*400} is 400 nines, and backslashes are Python's."""
    text = re.sub(r"\{(.)\*(\d+)\}", lambda m: m[1] * int(m[2]), text)
    text = text.replace("H", HEADER.decode()).replace("/", "\n")
    return text.encode("latin-1").decode("unicode_escape").encode("latin-1")


def byte_items(data):
    """A file's bytes as the items of its list."""
    return ["%02x" % byte for byte in data]


def expected_words(kind, words):
    """What a case of cases.txt expects: of ldl the refusal and the digits of values, else numbers; or that the set is past the limit."""
    if words == ["past"]:
        return words
    if kind == "ldl":
        return [whole_of(words[0])] + ["nan" if x == "nan" else value_bits(x) for x in words[1:]]
    return [whole_of(x) for x in words]


def readable_fields(lines):
    """The fields of a case of cases.txt, and the words of what it expects."""
    f, expect = {}, []
    for line in lines:
        name, *words = line.split("#")[0].split()
        if name == "file":
            f[name] = byte_items(file_bytes(line[len(name) + 1 :]))
        elif name == "expect":
            expect = [x for w in words for x in items(w)]
        elif name in SCALARS:
            f[name] = value_bits(words[0]) if name == "scale" else scalar(name, words[0])
        else:
            long = [x for w in words for x in items(w)]
            read = value_bits if name in VALUES else whole_of if name in WHOLES else str if name in BYTES else int
            f[name] = [read(x) for x in long]
    return f, expect


# ---- document 01, with document 02's 18: what each call refuses, in its order; the first number decides

MOST_COLUMNS, MOST_ENTRIES = 4096, 1048576


def at_most_zero(bits):
    return not is_nan(bits) and (is_zero(bits) or int(bits, 16) >= 2**63)


def finite(bits):
    return int(bits, 16) % 2**63 < 0x7FF0 << 48


def triangle(n):
    return n * (n + 1) // 2


def mark_words(n):
    """A bit for each pair."""
    return -(-triangle(n) // 32)


def scratch_words(n):
    return mark_words(n) + triangle(n) + 4 * n


def chain_words(n):
    return 2 * triangle(n) + 4 * n


def room(kind, f, name):
    """The length of a lent list."""
    return len(f[name]) if name in f else LENT[kind][name]


def broken(starts, indices, values):
    """What 2 says of starts but for their number, and 9 of row starts."""
    return (
        starts[0] != 0
        or any(a > b for a, b in zip(starts, starts[1:]))
        or starts[-1] != len(indices)
        or len(indices) != len(values)
    )


def values_of(f):
    """The values of a factor or a result: digits, or whole numbers."""
    return f["wvalues"] if "wvalues" in f else f["values"]


def factor_list_refusals(f):
    n, starts, rows = f["n"], f["starts"], f["rows"]
    if len(starts) != n + 1 or broken(starts, rows, values_of(f)):
        yield 2
    for c in range(n):
        for p in range(starts[c], starts[c + 1]):
            if rows[p] >= n or (p > starts[c] and rows[p] <= rows[p - 1]):
                yield 3


def factor_refusals(f):
    n = f["n"]
    yield from factor_list_refusals(f)
    if not all(finite(v) for c in range(n) for _, v in kept(f, c)):
        yield 18


def operator_refusals(f, columns, names=OPERATOR):
    starts, cols, weights = (f[x] for x in names[1:])
    if not starts or broken(starts, cols, weights) or any(c >= columns for c in cols):
        yield 9


def kept(f, c):
    """The kept entries of a column, (row, value)."""
    entries = ((f["rows"][p], values_of(f)[p]) for p in range(f["starts"][c], f["starts"][c + 1]))
    return [(r, v) for r, v in entries if r >= c and not is_zero(v)]


def diagonal_refusals(f):
    for c in range(f["n"]):
        entries = kept(f, c)
        if not entries or entries[0][0] != c or at_most_zero(entries[0][1]):
            yield 6


def room_refusals(kind, f, limit, values="lvalues"):
    n, entries = f["n"], min(limit, triangle(f["n"]))
    if (
        room(kind, f, "lstarts") < n + 1
        or room(kind, f, "lrows") < entries
        or room(kind, f, values) < entries
        or room(kind, f, "lscratch") < scratch_words(n)
    ):
        yield 7


def permutation_refusals(perm, inverse=None):
    seen = set()
    for i, x in enumerate(perm):
        if x >= len(perm):
            yield 10
        if x in seen:
            yield 11
        if inverse is not None and inverse[x] != i:
            yield 12
        seen.add(x)


def limit_of(f):
    """The limit of a call: 10 times the stored entries where none is given."""
    return f["limit"] if f.get("limit", "default") != "default" else 10 * len(f["rows"])


def closed_set(f, requests, limit):
    """The closed set; of one that has more pairs than the limit, some, which are more too."""
    below = [[r for r, _ in kept(f, c) if r > c] for c in range(f["n"])]
    found, queue = set(requests), list(requests)
    while queue and len(found) <= limit:
        r, c = queue.pop()
        for d in below[c]:
            pair = (max(r, d), min(r, d))
            if pair not in found:
                found.add(pair)
                queue.append(pair)
    return found


def past_limit(f, requests, limit):
    """Whether the closed set has more pairs than the limit."""
    return len(closed_set(f, requests, limit)) > limit


def factor_pattern(f):
    return {(r, c) for c in range(f["n"]) for r, _ in kept(f, c)}


def operator_pattern(f):
    rows = (f["ocols"][a:b] for a, b in zip(f["ostarts"], f["ostarts"][1:]))
    return {(max(a, b), min(a, b)) for row in rows for a in row for b in row}


def bound_refusals(f):
    if f["n"] > MOST_COLUMNS or len(f["rows"]) > MOST_ENTRIES or len(f["rrows"]) > MOST_ENTRIES:
        yield 1


def pair_refusals(f):
    rows, cols = f["rrows"], f["rcols"]
    if f["rdim"] != f["n"] or len(rows) != len(cols):
        yield 4
    if any(i >= f["n"] for i in rows + cols):
        yield 5


def request_refusals(f):
    """The steps before 7 where a factor and requests are given."""
    yield from bound_refusals(f)
    yield from factor_refusals(f)
    yield from pair_refusals(f)
    yield from diagonal_refusals(f)


def entries_refusals(f):
    yield from request_refusals(f)
    yield from room_refusals("entries", f, limit_of(f))


def column_refusals(starts, rows, values, c):
    """The lookup's 2 and 3 for a column of a result."""
    a, e = starts[c], starts[c + 1]
    if e < a or e > len(rows) or e > len(values):
        yield 2
    if any(rows[p] <= rows[p - 1] for p in range(a + 1, e)):
        yield 3


def result_refusals(f):
    """The lookup's 2 and 3 for every column, one after the other."""
    if not f["starts"]:
        yield 2
    for c in range(len(f["starts"]) - 1):
        yield from column_refusals(f["starts"], f["rows"], values_of(f), c)


def diag_refusals(f):
    yield from result_refusals(f)
    if min(room("diag", f, "lout"), room("diag", f, "lmarks")) < len(f["starts"]) - 1:
        yield 7


def pattern_refusals(kind, f, n, pattern):
    if room(kind, f, "lscratch") < mark_words(n):
        yield 7
    pairs = len(pattern(f))
    if room(kind, f, "lprows") < pairs or room(kind, f, "lpcols") < pairs:
        yield 7


def patfactor_refusals(f):
    if f["n"] > MOST_COLUMNS or len(f["rows"]) > MOST_ENTRIES:
        yield 1
    yield from factor_refusals(f)
    yield from pattern_refusals("patfactor", f, f["n"], factor_pattern)


def patoperator_refusals(f):
    if f["ncols"] > MOST_COLUMNS or len(f["ostarts"]) - 1 > MOST_COLUMNS or len(f["ocols"]) > MOST_ENTRIES:
        yield 1
    yield from operator_refusals(f, f["ncols"])
    yield from pattern_refusals("patoperator", f, f["ncols"], operator_pattern)


def permvalidate_refusals(f):
    if len(f["perm"]) > MOST_COLUMNS or len(f["inv"]) > MOST_COLUMNS:
        yield 1
    if len(f["perm"]) != len(f["inv"]):
        yield 12
    yield from permutation_refusals(f["perm"], f["inv"])


def permfrom_refusals(f):
    if len(f["perm"]) > MOST_COLUMNS:
        yield 1
    yield from permutation_refusals(f["perm"])
    if room("permfrom", f, "linv") < len(f["perm"]):
        yield 7


def permapply_refusals(f):
    if len(f["perm"]) > MOST_COLUMNS or len(f["input"]) > MOST_COLUMNS:
        yield 1
    if len(f["input"]) != len(f["perm"]):
        yield 4
    yield from permutation_refusals(f["perm"])
    if room("permapply", f, "lout") < len(f["perm"]):
        yield 7


def permmarked_refusals(f):
    perm, input, marks = f["perm"], f["input"], f["marks"]
    if max(len(perm), len(input), len(marks)) > MOST_COLUMNS:
        yield 1
    if len(input) != len(perm) or len(marks) != len(perm):
        yield 4
    yield from permutation_refusals(perm)
    if min(room("permmarked", f, "lout"), room("permmarked", f, "lmarks")) < len(perm):
        yield 7


def diagorig_refusals(f):
    n = f["n"]
    if n > MOST_COLUMNS or len(f["rows"]) > MOST_ENTRIES:
        yield 1
    yield from factor_refusals(f)
    if len(f["perm"]) != n:
        yield 4
    yield from permutation_refusals(f["perm"])
    yield from diagonal_refusals(f)
    yield from room_refusals("diagorig", f, limit_of(f))
    if room("diagorig", f, "lout") < n:
        yield 7
    if past_limit(f, [(i, i) for i in range(n)], limit_of(f)):
        yield 8


def opvar_refusals(f):
    n, rows = f["n"], len(f["ostarts"]) - 1
    if n > MOST_COLUMNS or len(f["rows"]) > MOST_ENTRIES or rows > MOST_COLUMNS or len(f["ocols"]) > MOST_ENTRIES:
        yield 1
    yield from factor_refusals(f)
    if f["ncols"] != n:
        yield 4
    yield from operator_refusals(f, n)
    yield from diagonal_refusals(f)
    yield from room_refusals("opvar", f, limit_of(f))
    if room("opvar", f, "lout") < rows:
        yield 7


def covar_refusals(f):
    n, arows, brows = f["n"], f["arows"], f["brows"]
    rows = {"arows": len(f["astarts"]) - 1, "brows": len(f["bstarts"]) - 1}
    entries = max(len(f["rows"]), len(f["acols"]), len(f["bcols"]), len(arows))
    if max(n, *rows.values()) > MOST_COLUMNS or entries > MOST_ENTRIES:
        yield 1
    yield from factor_refusals(f)
    if f["ancols"] != n or f["bncols"] != n or len(arows) != len(brows):
        yield 4
    yield from operator_refusals(f, n, OPERATOR_A)
    yield from operator_refusals(f, n, OPERATOR_B)
    if any(row >= count for name, count in rows.items() for row in f[name]):
        yield 9
    yield from diagonal_refusals(f)
    yield from room_refusals("covar", f, limit_of(f))
    if room("covar", f, "lout") < len(arows):
        yield 7


def floor_refusals(f):
    if len(f["input"]) > MOST_ENTRIES:
        yield 1
    if not all(finite(x) for x in f["input"]):
        yield 13
    if f["floor"] == "mean" and not (finite(f["scale"]) and (is_zero(f["scale"]) or int(f["scale"], 16) < 2**63)):
        yield 14
    if room("floor", f, "lout") < len(f["input"]):
        yield 7


# ---- document 02: selected entries in whole numbers, here with numbers that have no bound

MOST_SIZE = 2**53
# to this dimension the entries are held to the inverse too
EVERY_INVERSE = 12


def ordered(row, col):
    return max(row, col), min(row, col)


def asked_pairs(f):
    """The requested pairs, put in order, each once."""
    return {ordered(*pair) for pair in zip(f["rrows"], f["rcols"], strict=True)}


def inverse_of(f, read, firsts):
    """The inverse of L times D times L's transpose, row by row, for ones on L's diagonal: the rows of L's inverse first, by
    substitution. `read` gives the numbers of L, and `firsts` the inverses of D's."""
    n, rows = f["n"], []
    columns = [{r: read(x) for r, x in kept(f, c) if r > c} for c in range(n)]
    for r in range(n):
        row = [int(c == r) for c in range(n)]
        for k in range(r):
            row = [x - columns[k].get(r, 0) * y for x, y in zip(row, rows[k])]
        rows.append(row)
    weighted = [[first * x for x in row] for first, row in zip(firsts, rows)]
    return [[sum(one[i] * other[j] for one, other in zip(weighted, rows)) for j in range(n)] for i in range(n)]


def whole_inverse(f):
    """The inverse of L times its transpose, for ones on the diagonal."""
    return inverse_of(f, int, [1] * f["n"])


def recurrence(f, pairs, read, firsts):
    """The entries over a closed set for ones on L's diagonal, and all products, sums and entries; each column's diagonal is its
    first number less a sum. They are numbers of the kind that `read` and `firsts` give."""
    entry, met = {}, []

    def total(below, pair_of, zero):
        running = zero
        for k, l in below:
            product = l * entry[pair_of(k)]
            running += product
            met.extend((product, running))
        return running

    for j in reversed(range(f["n"])):
        below, zero = [(k, read(l)) for k, l in kept(f, j) if k > j], type(firsts[j])(0)
        for i in sorted(i for i, c in pairs if c == j and i > j):
            entry[i, j] = -total(below, lambda k, i=i: ordered(i, k), zero)
        if (j, j) in pairs:
            entry[j, j] = firsts[j] - total(below, lambda k, j=j: (k, j), zero)
    return entry, met + list(entry.values())


def exact_recurrence(f, pairs, read, firsts):
    """The same in numbers that are never rounded."""
    entry, met = recurrence(f, pairs, read, firsts)
    if f["n"] <= EVERY_INVERSE:
        inverse = inverse_of(f, read, firsts)
        assert all(z == inverse[i][j] for (i, j), z in entry.items()), f
    return entry, met


def whole_recurrence(f, pairs):
    """The entries of the exact recurrence over a closed set, and all its products, sums and entries."""
    return exact_recurrence(f, pairs, int, [1] * f["n"])


def exceeds(f, pairs):
    """What 20 says of a closed set."""
    stored = [l for c in range(f["n"]) for _, l in kept(f, c)]
    return any(abs(x) > MOST_SIZE for x in stored + whole_recurrence(f, pairs)[1])


def wentries_refusals(f):
    yield from bound_refusals(f)
    yield from factor_list_refusals(f)
    yield from pair_refusals(f)
    diagonals = [dict(kept(f, c)).get(c) for c in range(f["n"])]
    if any(d not in (None, 1) for d in diagonals):
        yield 19
    if None in diagonals:
        yield 6
    limit = limit_of(f)
    yield from room_refusals("wentries", f, limit, "lwvalues")
    if room("wentries", f, "lwork") < min(limit, triangle(f["n"])):
        yield 7
    pairs = closed_set(f, asked_pairs(f), limit)
    if len(pairs) <= limit and exceeds(f, pairs):
        yield 20


def selected_answer(f, factor, name, entries):
    """The answer to an accepted case, as the Rust tells those of other kinds: so many kept pairs, and values of that name, which
    `entries` gives for the pairs of a closed set."""
    n, limit = f["n"], limit_of(f)
    pairs = closed_set(f, asked_pairs(f), limit)
    complete = len(pairs) <= limit
    closure = len(pairs) if complete else limit + 1
    counts = {"requested": len(asked_pairs(f)), "closure": closure, "factor": factor, "limit": limit}
    got = {"reply": ["ok"], "status": ["Complete" if complete else "ClosureTooLarge"]}
    got.update({x: [str(count)] for x, count in counts.items()})
    got["ratio"] = [struct.pack(">d", closure / max(factor, 1)).hex()]
    if complete:
        entry = entries(pairs)
        columns = [sorted(i for i, c in pairs if c == j) for j in range(n)]
        lists = {
            "starts": [0, *itertools.accumulate(map(len, columns))],
            "rows": [i for column in columns for i in column],
            name: [entry[i, j] for j, column in enumerate(columns) for i in column],
        }
        got.update({x: [str(len(held))] + [str(item) for item in held] for x, held in lists.items()})
        if "prows" in f:
            found = [lookup_word(x) for x in lookups({**lists, "prows": f["prows"], "pcols": f["pcols"]})]
            got["gets"] = [str(len(found))] + found
    return got


def whole_answer(f):
    factor = sum(len(kept(f, c)) for c in range(f["n"]))
    return selected_answer(f, factor, "wvalues", lambda pairs: whole_recurrence(f, pairs)[0])


def check_doubles(f, got, doubles):
    """Holds an accepted case to the Rust's answer for the same factor as doubles."""
    same = ("reply", *DIAGNOSIS, "starts", "rows")
    assert all(got.get(name) == doubles.get(name) for name in same), f
    for name, other in (("wvalues", "values"), ("gets", "gets")):
        wholes, digits = (answer.get(x, ["0"])[1:] for answer, x in ((got, name), (doubles, other)))
        for whole, value in zip(wholes, digits, strict=True):
            assert value == whole if "none" in (whole, value) else int(whole) == number_of(value), f


# ---- document 02: selected entries of a unit lower factor with pivots

ONE = value_bits("1.0")
# the largest root of a pivot, and the largest number, for which the Rust is asked about a factor with roots; their inverses are the least
MOST_ROOT, MOST_NUMBER = 2.0**60, 2.0**900


def ldl_refusals(f):
    n, pivots = f["n"], f["pivots"]
    yield from bound_refusals(f)
    yield from factor_refusals(f)
    if len(pivots) != n:
        yield 4
    if not all(finite(d) for d in pivots):
        yield 18
    yield from pair_refusals(f)
    if any(dict(kept(f, c)).get(c, ONE) != ONE for c in range(n)):
        yield 23
    if any(at_most_zero(d) for d in pivots):
        yield 6
    yield from room_refusals("ldl", f, limit_of(f))


def ldl_recurrence(f, pairs):
    """The entries of an accepted case over a closed set, and all its numbers. Where the exact ones are doubles too, they are equal."""
    pivots = [number_of(d) for d in f["pivots"]]
    firsts = [1.0 / d for d in pivots]
    entry, met = recurrence(f, pairs, number_of, firsts)
    if f["n"] <= EVERY_INVERSE:
        exact_firsts = [1 / fractions.Fraction(d) for d in pivots]
        exact, numbers = exact_recurrence(f, pairs, lambda x: fractions.Fraction(number_of(x)), exact_firsts)
        if all(abs(x) < MOST_NUMBER and float(x) == x for x in numbers + exact_firsts):
            assert entry == exact, f
    return entry, met + firsts


def ldl_answer(f):
    n = f["n"]
    factor = n + sum(r > c for c in range(n) for r, _ in kept(f, c))
    digits = lambda entry: {pair: "nan" if math.isnan(z) else struct.pack(">d", z).hex() for pair, z in entry.items()}
    return selected_answer(f, factor, "values", lambda pairs: digits(ldl_recurrence(f, pairs)[0]))


def rooted(f):
    """An accepted case as one of entries, with each column times its pivot's root; None where a pivot is no power of 4, or a number
    is so large or small that a power of 2 more may round it."""
    roots = [math.sqrt(number_of(d)) for d in f["pivots"]]
    pairs = closed_set(f, asked_pairs(f), limit_of(f))
    numbers = [number_of(x) for c in range(f["n"]) for _, x in kept(f, c)]
    numbers += ldl_recurrence(f, pairs)[1] if len(pairs) <= limit_of(f) else []
    if any(math.frexp(root)[0] != 0.5 or not 1 / MOST_ROOT <= root <= MOST_ROOT for root in roots):
        return None
    if not all(x == 0 or 1 / MOST_NUMBER < abs(x) < MOST_NUMBER for x in numbers):
        return None
    columns = [{c: root, **{r: number_of(x) * root for r, x in kept(f, c) if r > c}} for c, root in enumerate(roots)]
    factor = {"n": f["n"], "starts": [0, *itertools.accumulate(map(len, columns))], "rows": [r for column in columns for r in column]}
    factor["values"] = [struct.pack(">d", x).hex() for column in columns for x in column.values()]
    return {**factor, **{x: f[x] for x in ("rdim", "rrows", "rcols", "prows", "pcols") if x in f}, "limit": limit_of(f)}


def check_rooted(f, got, rust):
    """Holds an accepted case to the Rust's answer for the factor with roots."""
    for name in ("reply", *DIAGNOSIS, "starts", "rows", "values", "gets"):
        assert got.get(name) == rust.get(name), (f, name)


# ---- document 02: a result of whole numbers: the bounds on a row's variance with weights in ranges, and the variances along a track

MOST_TERMS, MOST_WEIGHT, MOST_ROW_ENTRY = 64, 1024, 2**30
MOST_WIDTH, MOST_TRACK_ENTRY = 1024, 2**40
# to this number of terms every choice of ends is made too
EVERY_CORNER = 6


def result_entries(f):
    """The entries of a result by their pairs; rows above the diagonal or from n on are of no pair."""
    n, starts = len(f["starts"]) - 1, f["starts"]
    places = ((f["rows"][p], c, p) for c in range(n) for p in range(starts[c], starts[c + 1]))
    return {(r, c): f["wvalues"][p] for r, c, p in places if c <= r < n}


def entry_refusals(f, pairs, most):
    """8 and 20 for the pairs that a call needs."""
    entry = result_entries(f)
    if any(pair not in entry for pair in pairs):
        yield 8
    if any(abs(entry[pair]) > most for pair in pairs):
        yield 20


def bounds_refusals(f):
    cols, lows, highs = (f[x] for x in ("cols", "lows", "highs"))
    yield from result_refusals(f)
    outside = any(c >= len(f["starts"]) - 1 for c in cols)
    if not len(cols) == len(lows) == len(highs) or len(set(cols)) < len(cols) or outside:
        yield 9
    if len(cols) > MOST_TERMS or any(a > b or max(abs(a), abs(b)) > MOST_WEIGHT for a, b in zip(lows, highs)):
        yield 21
    yield from entry_refusals(f, {ordered(a, b) for a in cols for b in cols}, MOST_ROW_ENTRY)


def variance(entry, cols, weights):
    """The sum over ordered pairs of columns, each weight as often as its column stands there."""
    terms = list(zip(cols, weights))
    return sum(v * w * entry[ordered(a, b)] for a, v in terms for b, w in terms)


def variance_bounds(f):
    """The bounds of an accepted case: of a square every weight in the range is tried, of other terms the ends."""
    entry, cols, ends = result_entries(f), f["cols"], list(zip(f["lows"], f["highs"]))
    low = high = 0
    for i, a in enumerate(cols):
        for j, b in enumerate(cols):
            if i == j:
                products = [w * w for w in range(ends[i][0], ends[i][1] + 1)]
            else:
                products = [v * w for v in ends[i] for w in ends[j]]
            term = [x * entry[ordered(a, b)] for x in products]
            low, high = low + min(term), high + max(term)
    if len(cols) <= EVERY_CORNER:
        corners = [variance(entry, cols, weights) for weights in itertools.product(*ends)]
        assert low <= min(corners) and max(corners) <= high, f
        assert f["lows"] != f["highs"] or [low, high] == [corners[0]] * 2, f
    return low, high


def bounds_answer(f):
    """The answer to an accepted case, as the Rust tells those of other kinds."""
    low, high = variance_bounds(f)
    return {"reply": ["ok"], "low": [str(low)], "high": [str(high)]}


def track_runs(f):
    """The cells of each run along a track."""
    cells, width = f["cells"], f["width"]
    return [cells[i : i + width] for i in range(len(cells) - width + 1)]


def track_refusals(f):
    yield from result_refusals(f)
    if not 0 < f["width"] <= min(MOST_WIDTH, len(f["cells"])):
        yield 22
    pairs = {ordered(a, b) for run in map(set, track_runs(f)) for a in run for b in run}
    yield from entry_refusals(f, pairs, MOST_TRACK_ENTRY)
    if room("track", f, "lwout") < len(track_runs(f)):
        yield 7


def track_variances(f):
    """The full sum of each run of an accepted case."""
    entry = result_entries(f)
    return [variance(entry, run, [1] * len(run)) for run in track_runs(f)]


def track_answer(f):
    """The answer to an accepted case, as the Rust tells those of other kinds."""
    found = track_variances(f)
    return {"reply": ["ok"], "wout": [str(len(found))] + [str(x) for x in found]}


# ---- document 02: the search in a column


def search(rows, sought):
    """The place of a row, None where it is absent, and how many places are looked at; what is left is from low to below high."""
    low, high, looks = 0, len(rows), 0
    while low < high:
        middle = low + (high - low) // 2
        for place in (low, middle):
            looks += 1
            if rows[place] == sought:
                return place, looks
        low, high = (low, middle) if sought < rows[middle] else (middle + 1, high)
    return None, looks


def searches(f):
    assert all(a < b for a, b in zip(f["rows"], f["rows"][1:]))
    return [search(f["rows"], row) for row in f["sought"]]


def search_answer(f):
    found = searches(f)
    places = ["none" if place is None else str(place) for place, _ in found]
    looks = [str(count) for _, count in found]
    return ["reply ok"] + [" ".join([name, str(len(found))] + words) for name, words in (("places", places), ("looks", looks))]


# ---- document 02: the covariances of rows of two operators


def row_terms(f, names, row):
    """The terms of an operator's row, (column, weight)."""
    starts, cols, weights = (f[x] for x in names[1:])
    return [(cols[p], weights[p]) for p in range(starts[row], starts[row + 1])]


def covar_terms(f):
    """The terms of each row pair: of A's row, and of B's."""
    for a, b in zip(f["arows"], f["brows"], strict=True):
        yield row_terms(f, OPERATOR_A, a), row_terms(f, OPERATOR_B, b)


def covar_requests(f):
    """Every column of A's row with every column of B's row, put in order, each pair once."""
    return {(max(a, b), min(a, b)) for one, other in covar_terms(f) for a, _ in one for b, _ in other}


def covar_answer(f, got):
    """The Rust's answer to the request for entries, with the outputs where it is Complete."""
    if got["status"] != ["Complete"]:
        return got
    starts, rows = ([int(w) for w in got[x][1:]] for x in ("starts", "rows"))
    places = ((rows[p], c, p) for c in range(f["n"]) for p in range(starts[c], starts[c + 1]))
    entry = {(r, c): number_of(got["values"][1 + p]) for r, c, p in places}
    out = []
    for one, other in covar_terms(f):
        total = 0.0
        for a, v in one:
            for b, w in other:
                total += (number_of(v) * number_of(w)) * entry[max(a, b), min(a, b)]
        out.append("nan" if math.isnan(total) else struct.pack(">d", total).hex())
    return {**got, "out": [str(len(out))] + out}


# ---- document 02: the chain to a pair. A chain is its pairs (row, column), from the requested one on.

# to this dimension every chain is made too
EVERY_CHAIN = 5


def chain_ends(f):
    """The requested pairs, each once, and the pair that is asked about."""
    return asked_pairs(f), ordered(f["prow"], f["pcol"])


def dependencies(f):
    """The dependencies of a pair, as a function."""
    below = [[r for r, _ in kept(f, c) if r > c] for c in range(f["n"])]
    return lambda pair: [ordered(pair[0], d) for d in below[pair[1]]]


def preference(chain):
    """What document 02 compares: how many pairs, then the pair before the last by column and row, the one before that, and so on."""
    return len(chain), [(col, row) for row, col in reversed(chain[:-1])]


def chosen_chain(f):
    """The preferred one of all chains to the pair that have as few pairs as any: all chains from the requests, one pair longer
    each time, until some of them end with the pair, or none can be made longer."""
    requests, sought = chain_ends(f)
    after = dependencies(f)
    chains = [[pair] for pair in requests]
    while chains:
        found = [chain for chain in chains if chain[-1] == sought]
        if found:
            return min(found, key=preference)
        chains = [[*chain, pair] for chain in chains for pair in after(chain[-1])]
    return []


def swept_chains(f):
    """The preferred chain to each pair of the set. A dependency's row and column have a larger sum than those of its pair, so
    with rising sums the chain to a pair is known before it is made longer."""
    after, best = dependencies(f), {pair: [pair] for pair in chain_ends(f)[0]}
    for pair in sorted(((r, c) for r in range(f["n"]) for c in range(r + 1)), key=sum):
        for dependency in after(pair) if pair in best else ():
            chain = [*best[pair], dependency]
            if dependency not in best or preference(chain) < preference(best[dependency]):
                best[dependency] = chain
    return best


def chain_of(f):
    """The chain of an accepted case, no pairs where the pair is not in the set."""
    chain = swept_chains(f).get(chain_ends(f)[1], [])
    assert f["n"] > EVERY_CHAIN or chain == chosen_chain(f), f
    return chain


def chain_refusals(f):
    n = f["n"]
    yield from request_refusals(f)
    if room("chain", f, "lscratch") < chain_words(n):
        yield 7
    if max(f["prow"], f["pcol"]) >= n:
        yield 5
    if min(room("chain", f, "lcrows"), room("chain", f, "lccols")) < len(chain_of(f)):
        yield 7


def chain_answer(f):
    """The answer to an accepted case, as the Rust tells those of other kinds."""
    chain = chain_of(f)
    rows, cols = ([str(pair[k]) for pair in chain] for k in (0, 1))
    count = str(len(chain))
    return {"reply": ["ok"], "chain": [count if chain else "none"], "crows": [count] + rows, "ccols": [count] + cols}


# ---- document 02: the requests of a file


def is_blank(line):
    return not line.strip(b" \t")


def numbers(line, count):
    """The numbers of a line that has so many and nothing else, or None."""
    words = re.split(b"[ \t]+", line.strip(b" \t"))
    good = len(words) == count and all(re.fullmatch(b"[0-9]+", w) for w in words)
    return [int(w) for w in words] if good else None


def read_file(data):
    """The dimension and the pairs of a file, or the number of its refusal."""
    first, *rest = data.split(b"\n")
    if first != HEADER:
        return 15
    lines = itertools.dropwhile(lambda x: x.startswith(b"%"), (x for x in rest if not is_blank(x)))
    size = numbers(next(lines, b""), 3)
    entries = [numbers(x, 2) for x in lines]
    if size is None or None in entries:
        return 16
    n, other, count = size
    if n != other or n > MOST_COLUMNS or count > MOST_ENTRIES or count != len(entries):
        return 16
    if not all(1 <= column <= row <= n for row, column in entries):
        return 17
    # a file without entries means every diagonal cell
    return n, [(row, column) for row, column in entries] or [(k, k) for k in range(1, n + 1)]


def read_case(f):
    return read_file(bytes(int(x, 16) for x in f["file"]))


def mmread_refusals(f):
    read = read_case(f)
    if isinstance(read, int):
        yield read
    elif min(room("mmread", f, "lrrows"), room("mmread", f, "lrcols")) < len(read[1]):
        yield 7


def mmread_answer(f):
    """The answer to an accepted case, as the Rust tells those of other kinds."""
    n, pairs = read_case(f)
    rows, cols = ([str(pair[k] - 1) for pair in pairs] for k in (0, 1))
    count = str(len(pairs))
    return {"reply": ["ok"], "rdim": [str(n)], "requests": [count], "rrows": [count] + rows, "rcols": [count] + cols}


def write_file(n, pairs):
    """The file of a set of pairs, counted from 0: each once, by column then row."""
    entries = sorted({(column, row) for row, column in pairs})
    lines = [(n, n, len(entries))] + [(row + 1, column + 1) for column, row in entries]
    data = HEADER + b"\n" + b"".join(b" ".join(b"%d" % x for x in line) + b"\n" for line in lines)
    read = read_file(data)
    assert read == (n, [(row + 1, column + 1) for column, row in entries])
    return data


def write_case(f):
    return write_file(f["rdim"], zip(f["rrows"], f["rcols"]))


def mmwrite_refusals(f):
    n, rows, cols = f["rdim"], f["rrows"], f["rcols"]
    if n > MOST_COLUMNS or len(rows) > MOST_ENTRIES:
        yield 1
    if len(rows) != len(cols):
        yield 4
    if any(not col <= row < n for row, col in zip(rows, cols)):
        yield 5
    if not rows and n:
        yield 24
    if room("mmwrite", f, "lscratch") < mark_words(n) or room("mmwrite", f, "lfile") < len(write_case(f)):
        yield 7


def mmwrite_answer(f):
    """The answer to an accepted case, as the Rust tells those of other kinds."""
    data = write_case(f)
    return {"reply": ["ok"], "bytes": [str(len(data))], "file": [str(len(data))] + byte_items(data)}


def no_refusals(f):
    return iter(())


REFUSALS = {
    "entries": entries_refusals,
    "ldl": ldl_refusals,
    "get": no_refusals,
    "wentries": wentries_refusals,
    "wget": no_refusals,
    "bounds": bounds_refusals,
    "track": track_refusals,
    "search": no_refusals,
    "diag": diag_refusals,
    "patfactor": patfactor_refusals,
    "patoperator": patoperator_refusals,
    "permvalidate": permvalidate_refusals,
    "permfrom": permfrom_refusals,
    "permapply": permapply_refusals,
    "permmarked": permmarked_refusals,
    "diagorig": diagorig_refusals,
    "opvar": opvar_refusals,
    "covar": covar_refusals,
    "chain": chain_refusals,
    "floor": floor_refusals,
    "least": no_refusals,
    "mmread": mmread_refusals,
    "mmwrite": mmwrite_refusals,
}


def refusal(kind, f):
    """The documents' refusal of a call, 0 for none."""
    return next(REFUSALS[kind](f), 0)


def lookup(f, row, col):
    """Document 01's lookup of a pair: the refusal's number, 0 for none, and the value's digits or the whole number."""
    starts, rows, values = f["starts"], f["rows"], values_of(f)
    r, c = ordered(row, col)
    if not starts:
        return 2, None
    n = len(starts) - 1
    if c >= n:
        return 8, None
    fault = next(column_refusals(starts, rows, values, c), 0)
    if fault:
        return fault, None
    found = [values[p] for p in range(starts[c], starts[c + 1]) if rows[p] == r]
    return (0, found[0]) if r < n and found else (8, None)


def lookup_word(found):
    number, x = found
    if number:
        return "none" if number == 8 else "refused-%d" % number
    return "nan" if is_value(x) and is_nan(x) else str(x)


def lookups(f):
    return [lookup(f, r, c) for r, c in zip(f["prows"], f["pcols"])]


def earlier_zero(f):
    """The first zero of a list, 0.0 where it has no values."""
    return next((x for x in f["input"] if is_zero(x)), "0" * 16)


# ---- the answers

ERRORS = {
    "NonPositiveDefinite": 6,
    "SelectedInversePatternNotCovered": 8,
    "selected-inverse-pattern-dimension-must-match-factor-dimension": 4,
    "operator-columns-must-match-factor-dimension": 4,
    "vector-length-must-match-factor-dimension": 4,
    "permutation-index-exceeds-dimension": 10,
    "permutation-contains-duplicate-entries": 11,
    "permutation-arrays-must-have-the-same-length": 12,
    "permutation-arrays-are-not-inverses": 12,
    "variance-vector-contains-non-finite-entries": 13,
    "variance-floor-scale-must-be-finite-and-nonnegative": 14,
}
DIAGNOSIS = ("status", "requested", "closure", "factor", "limit", "ratio")
# the answer's lines that the Rust gives in front of the lists
TOLD = {
    "entries": DIAGNOSIS,
    "ldl": DIAGNOSIS,
    "wentries": DIAGNOSIS,
    "diagorig": DIAGNOSIS,
    "opvar": DIAGNOSIS,
    "covar": DIAGNOSIS,
    "chain": ("chain",),
    "bounds": ("low", "high"),
    "floor": ("floor", "hits"),
    "least": ("negative", "least"),
    "mmread": ("rdim", "requests"),
    "mmwrite": ("bytes",),
}


def error_number(kind, word):
    if word == "symmetric-pattern-index-exceeds-dimension":
        return 5 if kind == "entries" else 9
    return ERRORS.get(word)


def cleared(kind, f, number):
    """How many words of the scratch end 0."""
    pattern = kind in ("patfactor", "patoperator", "mmwrite")
    needed = mark_words if pattern else chain_words if kind == "chain" else scratch_words
    words = needed(f[READ[kind][0]])
    # the pairs, or the file's bytes, alone have no room
    short = number == 7 and (pattern or kind == "chain") and room(kind, f, "lscratch") >= words
    return words if number in (0, 8, 20) or short else 0


def filled(kind, name, got):
    """What the Rust puts into the front of a list; of marks, whether its lookup finds the pair."""
    if kind == "diag" and name == "marks":
        return runs([0 if word == "none" else 1 for word in got["gets"][1:]])
    words = got["diag" if kind == "diag" else name][1:]
    return runs(words if "l" + name in VALUES + BYTES else [int(w) for w in words])


def lists_after(kind, f, number, got):
    """The lines of the lent lists after a call."""
    complete = number == 0 and got.get("status", ["Complete"]) == ["Complete"]
    lines = []
    for field, length in LENT[kind].items():
        name = field[1:]
        blank = SEVENS if field in VALUES else "77" if field in BYTES else 77 if field in MARKS else 7777
        held = runs(f[field]) if field in f else [(blank, length)]
        if name == "scratch":
            held = written_over([(0, cleared(kind, f, number))], held)
        elif name == "work":
            places = min(limit_of(f), triangle(f["n"])) if number in (0, 20) else 0
            held = written_over([(0, places)], held)
        elif complete and kind == "permmarked" and name == "marks":
            held = written_over(runs([f["marks"][k] for k in f["perm"]]), held)
        elif complete:
            held = written_over(filled(kind, name, got), held)
        lines.append(list_line(name, held))
    return lines


def told(kind, f, got):
    """The lines in front of the lists where a call is accepted."""
    lines = [" ".join([name] + got[name]) for name in TOLD.get(kind, ())]
    if kind in ("patfactor", "patoperator"):
        lines.append("pairs " + got["prows"][0])
    if kind == "least" and is_zero(got["least"][0]):
        lines[-1] = "least " + earlier_zero(f)
    return lines


def gets_line(f):
    found = [lookup_word(x) for x in lookups(f)]
    return " ".join(["gets", str(len(found))] + found)


def get_answer(f, got):
    """The lookups, and how the Rust's first other one differs."""
    found, difference = [lookup_word(x) for x in lookups(f)], None
    if got["reply"] != ["ok"]:
        difference = "lookup: the Rust: " + " ".join(got["reply"])
    else:
        for document, rust in zip(found, got["gets"][1:], strict=True):
            if document != rust and not difference:
                difference = "lookup: document 01 gives %s, the Rust %s" % (document, "none" if rust == "none" else "a value")
    return ["reply ok", gets_line(f)], difference


# the answers to accepted cases of which the Rust is not asked
ANSWERS = {"mmread": mmread_answer, "mmwrite": mmwrite_answer, "chain": chain_answer, "bounds": bounds_answer, "track": track_answer}


def expected(kind, f, answer):
    """The lines of the answer that the program must write, and how the Rust differs; the answer is None where the Rust was not asked."""
    got = {x.split()[0]: x.split()[1:] for x in answer or []}
    if kind == "get":
        return get_answer(f, got)
    if kind == "search":
        return search_answer(f), None
    if kind == "wget":
        return ["reply ok", gets_line(f)], None
    number, difference = refusal(kind, f), None
    if kind in ANSWERS and not number:
        got = ANSWERS[kind](f)
    if kind == "covar" and not number:
        got = covar_answer(f, got)
    if kind == "wentries" and not number:
        doubles, got = got, whole_answer(f)
        check_doubles(f, got, doubles)
    if kind == "ldl" and not number:
        rust, got = got, ldl_answer(f)
        if rust:
            check_rooted(f, got, rust)
    reply = got.get("reply", [])
    said = 0 if reply == ["ok"] else error_number(kind, reply[-1]) if reply else number
    if said != number:
        what = "refuse with %d" % number if number else "accept"
        difference = "%s: the documents %s, the Rust: %s" % (kind, what, " ".join(reply))
    if number:
        return ["reply %d" % number] + lists_after(kind, f, number, got), difference
    assert reply == ["ok"], difference
    lines = ["reply ok"] + told(kind, f, got)
    if kind == "least" and lines[-1].split()[1:] != got["least"]:
        difference = "least: of two zeros the Rust keeps the later"
    gets = [" ".join(["gets"] + got["gets"])] if "gets" in got and kind != "diag" else []
    return lines + lists_after(kind, f, number, got) + gets, difference


# ---- the cases

# the group is kind and answer
Case = collections.namedtuple("Case", "name text answer group difference")


def run(program, *args, text=""):
    return subprocess.run([program, *args], input=text, capture_output=True, text=True, check=True).stdout


def asked(name, kind, f):
    """What the Rust is asked for a case: of values with marks the values alone, of covariances the entries that they need, of
    whole numbers the same as doubles, of a factor with pivots the one with roots."""
    if kind == "permmarked":
        return name, "permapply", {x: f[x] for x in READ["permapply"]}
    if kind == "covar":
        rows, cols = ([pair[k] for pair in sorted(covar_requests(f))] for k in (0, 1))
        factor = {x: f[x] for x in FACTOR}
        return name, "entries", {**factor, "rdim": f["n"], "rrows": rows, "rcols": cols, "limit": "default"}
    if kind == "wentries":
        doubles = {x: f[x] for x in READ["entries"] if x in f}
        return name, "entries", {**doubles, "values": [struct.pack(">d", x).hex() for x in f["wvalues"]]}
    if kind == "ldl":
        return name, "entries", rooted(f)
    return name, kind, f


def is_asked(kind, f):
    """Whether the Rust is asked for an accepted case of a kind that it is asked about."""
    return kind != "ldl" or rooted(f) is not None


def answers(programs, cases):
    """The Rust's answers to cases (id, kind, fields)."""
    questions = [asked(*case) for case in cases]
    text = run(os.path.join(programs, "oracle"), text="".join(case_text(*c) for c in questions))
    out = []
    for (name, kind, _), (i, other, answer) in zip(questions, blocks(text), strict=True):
        assert (name, kind) == (i, other)
        out.append(answer)
    return out


def group(kind, lines):
    """Kind and reply, with the status, whether a chain has more than three pairs or there is none, or the refusal that a lookup met."""
    status = [x for x in lines if x.startswith("status") or x == "chain none"]
    status += ["far" for x in lines if re.match("chain ([4-9]|[1-9][0-9])", x)]
    refused = [w for x in lines if x.startswith("gets") for w in x.split() if w.startswith("refused")]
    return " ".join([kind, lines[0]] + status + refused[:1])


def finished(name, kind, f, answer):
    lines, difference = expected(kind, f, answer)
    return Case(name, case_text(name, kind, f), block(name, kind, lines), group(kind, lines), difference)


def fits(kind, f):
    """Whether the program has room for the case."""
    for name, words in f.items():
        if name not in SCALARS and len(words) > (PAIRS if name in ("prows", "pcols") else ROOM):
            return False
        if name in WHOLES:
            assert all(-(2**63) <= x < 2**63 for x in words)
        elif name not in SCALARS + VALUES + BYTES and max(words, default=0) >= 2**32:
            return False
    return f.get("n", f.get("ncols", 0)) <= DIMENSION or refusal(kind, f) > 0


# how many files the set mmread has
FILES = 3000
# bytes that a reader may take for others, or not expect
ODD = b" \t\n\r%0129+-.x\0\x0b\x0c\xa0"


class Chance:
    """Random choices; a seed gives the same with every version of Python."""

    def __init__(self, seed):
        self.next = random.Random(seed).random

    def below(self, end):
        return int(self.next() * end)

    def one_of(self, count):
        return self.below(count) == 0

    def pick(self, items):
        return items[self.below(len(items))]

    def blanks(self, least):
        return bytes(self.pick(b"  \t") for _ in range(least + self.pick((0, 0, 0, 0, 1, 2))))

    def line(self, numbers):
        words = [b"0" * self.pick((0, 0, 0, 0, 0, 0, 1, 3)) + b"%d" % x for x in numbers]
        return self.blanks(0) + words[0] + b"".join(self.blanks(1) + w for w in words[1:]) + self.blanks(0)


def some_file(chance):
    """A file with no fault, one or several."""
    n, count = chance.pick((0, 1, 2, 3, 3, 5, 9, 2049, MOST_COLUMNS)), chance.pick((0, 1, 2, 2, 3, 4))
    size = chance.pick((MOST_COLUMNS + 1, 2**32 + n, 2**64 + n)) if chance.one_of(20) else n
    other = size + 1 if chance.one_of(30) else size
    told = chance.pick((max(count - 1, 0), count + 1, count + 2**32, count + 2**64)) if chance.one_of(20) else count
    lines = [chance.pick((b"%", b"%c", b"% 1 1", b"%%\xff\r")) for _ in range(chance.pick((0, 0, 0, 1, 2)))]
    lines.append(chance.line([size, other, told]))
    for _ in range(count):
        row = 1 + chance.below(max(n, 1))
        column = 1 + chance.below(row)
        if chance.one_of(12):
            column = chance.pick((0, row + 1, 2**64 + 1))
        elif chance.one_of(12):
            row = chance.pick((0, n + 1, 2**32 + row))
        lines.append(chance.line([row, column]))
    if chance.one_of(12):
        lines[chance.below(len(lines))] = chance.pick((b"1", b"1 1 1", b"x", b" %", b"%", b"\r", b"+1 1", b"1 -1", b"1.0 1"))
    for _ in range(chance.pick((0, 0, 0, 1, 2))):
        lines.insert(chance.below(len(lines) + 1), chance.blanks(0))
    others = (HEADER[1:], HEADER + b" ", HEADER + b"\r", HEADER.lower(), b"\n" + HEADER)
    data = b"\n".join([chance.pick(others) if chance.one_of(25) else HEADER] + lines) + chance.pick((b"", b"\n"))
    if chance.one_of(10):
        at = len(HEADER) + chance.below(len(data) - len(HEADER) + 1)
        data = data[:at] + bytes([chance.pick(ODD)]) * chance.below(2) + data[at + chance.below(2) :]
    return data


def some_files(seed=1):
    """Cases of mmread, some with lists lent, mostly short ones."""
    chance = Chance(int(seed))
    for k in range(FILES):
        f = {"file": byte_items(some_file(chance))}
        if chance.one_of(3):
            f.update({x: [7777] * chance.below(6) for x in LENT["mmread"]})
        yield "mmread-%d" % k, f


# how many lists the set mmwrite has
LISTS = 1000


def some_list_written(chance):
    """Requests to be written: a few, most pairs of a small dimension, or its diagonal, in any order, some repeated; now and then
    with a fault. One in two is lent lists, as long as needed, a few places more, or one less."""
    n = chance.pick((0, 1, 2, 3, 3, 4, 5, 7, 8, 9, 10, 63, 64, 99, 100, 1000, 2071, 2072, MOST_COLUMNS))
    ends = (0, 8, 9, 98, 99, 998, 999, n - 1)
    index = lambda: min(chance.pick(ends), n - 1) if chance.one_of(3) else chance.below(n)
    if n == 0:
        pairs = []
    elif n <= 10 and chance.one_of(3):
        pairs = [(row, col) for row in range(n) for col in range(row + 1) if not chance.one_of(4)] or [(0, 0)]
    elif n <= 10 and chance.one_of(4):
        pairs = [(k, k) for k in range(n)]
    else:
        pairs = [ordered(index(), index()) for _ in range(chance.pick((1, 2, 3, 5, 8)))]
    if pairs:
        pairs += [chance.pick(pairs) for _ in range(chance.pick((0, 0, 1, 2, 5)))]
    order = sorted((chance.next(), pair) for pair in pairs)
    rows, cols = [pair[0] for _, pair in order], [pair[1] for _, pair in order]
    f = {"rdim": n, "rrows": rows, "rcols": cols}
    if chance.one_of(2):
        lengths = mark_words(n), len(write_file(n, pairs))
        words, count = (max(x + (-1 if chance.one_of(6) else chance.pick((0, 0, 1, 3))), 0) for x in lengths)
        f.update({"lscratch": [chance.pick((7777, 5)) for _ in range(words)], "lfile": ["77"] * count})
    if chance.one_of(5):
        which = chance.below(6)
        if which == 0:
            f["rdim"] = chance.pick((MOST_COLUMNS + 1, 2**32 + n, 2**64 - 1))
        elif which == 1:
            name = chance.pick(("rrows", "rcols"))
            f[name] = f[name][:-1] if f[name] and chance.one_of(2) else f[name] + [0]
        elif which == 2:
            f["rrows"] = f["rrows"] + [chance.pick((n, 2**32 - 1))]
            f["rcols"] = f["rcols"] + [0]
        elif which == 3 and n > 1:
            f["rrows"] = [0] + f["rrows"]
            f["rcols"] = [1 + chance.below(n - 1)] + f["rcols"]
        else:
            f["rrows"], f["rcols"] = [], []
    return f


def some_lists_written(seed=1):
    chance = Chance(int(seed))
    for k in range(LISTS):
        yield "mmwrite-%d" % k, some_list_written(chance)


# how many columns the set search has
COLUMNS = 1000


def some_rows(chance):
    """The rows of a column: one after the other, with small gaps, or with gaps of any size; some of them to the largest number."""
    count = chance.pick((0, 1, 2, 3, 4, 5, 6, 7, 8, 9, 15, 16, 17, 31, 32, 33, chance.below(130)))
    gap = chance.pick((1, 1, 2, 3, 9, 2**32 // (count + 2)))
    rows, row = [], chance.pick((0, 0, 1, chance.below(50)))
    for _ in range(count):
        rows.append(row)
        row += 1 + chance.below(gap)
    more = 2**32 - row if chance.one_of(10) else 0
    return [row + more for row in rows]


def some_sought(chance, rows):
    """Rows of a column, those beside them, and any."""
    for _ in range(chance.pick((1, 2, 4, 8, 12))):
        row = chance.pick(rows) if rows and not chance.one_of(8) else chance.pick((0, 2**32 - 1, chance.below(2**32)))
        beside = chance.pick((-1, 1)) if chance.one_of(3) else 0
        yield min(max(row + beside, 0), 2**32 - 1)


def some_searches(seed=1):
    """Cases of search; every third seeks each row of its column."""
    chance = Chance(int(seed))
    for k in range(COLUMNS):
        rows = some_rows(chance)
        yield "search-%d" % k, {"rows": rows, "sought": rows if k % 3 == 2 else list(some_sought(chance, rows))}


# how many cases the set chain has
CHAINS = 3000


def some_descendants(chance, n):
    """The rows below the diagonal of each column, of one of several forms; long chains come of few descendants."""
    form, percent = chance.below(8), chance.pick((10, 20, 30, 60, 100))
    band, far = chance.pick((1, 1, 2, 3)), 1 + chance.below(max(n - 1, 1))
    for c in range(n):
        if form == 0:
            rows = {c + 1, c + band}
        elif form == 1:
            rows = range(c + 1, n) if c == 0 else {c + band}
        elif form == 2:
            rows = {c + 1, c + far}
        elif form == 3:
            rows = {c + 1 + chance.below(max(n - c - 1, 1))}
        else:
            rows = {r for r in range(c + 1, n) if chance.below(100) < percent}
        yield sorted(r for r in rows if r < n)


def some_column(chance, c, below):
    """The stored entries of a column: the descendants given, now and then one of 0.0 or above the diagonal, which are dropped."""
    entries = {r: value_bits("1.0") for r in below}
    entries[c] = value_bits(chance.pick(("1.0", "2.0", "0.5")))
    if below and chance.one_of(8):
        entries[chance.pick(below)] = value_bits(chance.pick(("0.0", "-0.0", "-1e-300")))
    if c and chance.one_of(8):
        entries[chance.below(c)] = value_bits(chance.pick(("1.0", "nan", "inf")))
    return sorted(entries.items())


def spoil_chain(chance, f):
    """One fault, or something that looks like one."""
    n, which = min(f["n"], 2**32 - 2), chance.below(9)
    if which == 0:
        f[chance.pick(("prow", "pcol"))] = chance.pick((n, n + 1, 2**32 - 1))
    elif which == 1:
        f["rdim"] = chance.pick((n + 1, max(n - 1, 0), 2**32 + n))
    elif which == 2:
        name = chance.pick(("rrows", "rcols"))
        f[name] = f[name][:-1] if f[name] and chance.one_of(2) else f[name] + [0]
    elif which == 3:
        name = chance.pick(("rrows", "rcols"))
        f[name] = [*f[name][:-1], chance.pick((n, 2**32 - 1))]
    elif which == 4 and f["values"]:
        at = chance.below(len(f["values"]))
        bits = value_bits(chance.pick(("0.0", "-1.0", "nan", "-inf")))
        f["values"] = [*f["values"][:at], bits, *f["values"][at + 1 :]]
    elif which == 5:
        f["starts"] = chance.pick((f["starts"][:-1], [1] + f["starts"][1:], f["starts"] + [0], f["starts"][::-1]))
    elif which == 6:
        f["rows"] = f["rows"][::-1]
    elif which == 7:
        f["n"] = chance.pick((MOST_COLUMNS + 1, n + 1, 2**64 - 1))
    else:
        f["values"] = f["values"][1:]


def some_chain(chance):
    """A factor, requests and a pair, which mostly is in the set; some faults; some lists lent, exact, longer or one place short."""
    n = chance.pick((0, 1, 2, 3, 4, 5, 5, 6, 7, 8, 9, 10, 12, 14, 20, chance.below(34)))
    columns = [some_column(chance, c, below) for c, below in enumerate(some_descendants(chance, n))]
    starts = [0, *itertools.accumulate(map(len, columns))]
    rows, values = ([entry[k] for column in columns for entry in column] for k in (0, 1))
    count = chance.pick((0, 1, 1, 1, 2, 2, 3, 6)) if n else 0
    # low indices reach more pairs
    index = lambda: min(chance.below(n), chance.below(n))
    f = {"n": n, "starts": starts, "rows": rows, "values": values, "rdim": n}
    f["rrows"], f["rcols"] = ([index() for _ in range(count)] for _ in range(2))
    if count and chance.one_of(2):
        # of which most pairs come, many of them by several chains
        f["rrows"], f["rcols"] = [0], [0]
    f["prow"], f["pcol"] = (chance.below(n) if n else 0 for _ in range(2))
    if count and not chance.one_of(5):
        # a pair of the set, the farthest of some
        chains = list(swept_chains(f).values())
        far = max((chance.pick(chains) for _ in range(chance.pick((1, 2, 4, 9)))), key=len)[-1]
        f["prow"], f["pcol"] = far if chance.one_of(2) else far[::-1]
    for _ in range(chance.pick((0, 0, 0, 0, 0, 1, 1, 2))):
        spoil_chain(chance, f)
    if chance.one_of(2):
        most = dict.fromkeys(CHAIN, [7777] * CHAIN["lscratch"])
        pairs = len(chain_of(f)) if not refusal("chain", {**f, **most}) else 3
        needs = {"lscratch": chain_words(n), "lcrows": pairs, "lccols": pairs}
        for name, need in needs.items():
            f[name] = [7777] * max(need + (-1 if chance.one_of(8) else chance.pick((0, 0, 1, 3))), 0)
    return f


def some_chains(seed=1):
    chance = Chance(int(seed))
    for k in range(CHAINS):
        yield "chain-%d" % k, some_chain(chance)


# how many cases the sets wentries and wget have
WHOLE_CASES, WHOLE_LOOKUPS = 3000, 1000
# sizes at and beside the bound, factors of it, and whole numbers beyond it
EDGES = (2**53, 2**53 - 1, 2**53 + 1, 2**52, 2**27, 2**26, 2**26 + 1, 94906265, 94906266, 2**31, 2**32 + 1)
BEYOND = (2**54, 2**62, 2**63 - 1, -(2**63), -(2**63) + 1)


def some_whole(chance, odd):
    """A whole number other than 0: small, now and then one that products of two or three take to the bound, at odd ones any."""
    if chance.one_of(odd):
        return chance.pick(EDGES) * chance.pick((1, -1)) if not chance.one_of(4) else chance.pick(BEYOND)
    if chance.one_of(12):
        return chance.pick((2**9, 2**13, 2**17, 2**18, 2**21)) * chance.pick((1, -1))
    return (1 + chance.below(chance.pick((1, 3, 9, 30)))) * chance.pick((1, 1, -1))


def some_whole_column(chance, c, below, odd):
    """The stored entries of a column with 1 on its diagonal; now and then one of 0 or above the diagonal, which are dropped."""
    entries = {r: some_whole(chance, odd) for r in below}
    entries[c] = 1
    if below and chance.one_of(8):
        entries[chance.pick(below)] = 0
    if c and chance.one_of(8):
        entries[chance.below(c)] = chance.pick((1, 7, *BEYOND))
    return sorted(entries.items())


def some_edge_columns(chance, n):
    """The stored entries of columns of which the entry at the last row and column 0 is a sum of up to n - 2 products at the bound: a
    product or a running sum may pass it alone."""
    near = (2**53, 2**53 - 1, 2**52, 2**52 + 1, (2**53 + 1) // 3, 5, 1)
    first = [(0, 1)] + [(k, chance.pick((1, 1, 2, 3)) * chance.pick((1, -1))) for k in range(1, n - 1)]
    return [first] + [[(c, 1), (n - 1, chance.pick(near) * chance.pick((1, -1)))] for c in range(1, n - 1)] + [[(n - 1, 1)]]


def spoil_whole(chance, f, values="wvalues"):
    """One fault, or something that looks like one; of other values than whole numbers, of the lists alone."""
    n, which = min(f["n"], 2**32 - 2), chance.below(9)
    if which == 0:
        f["rdim"] = chance.pick((n + 1, max(n - 1, 0), 2**32 + n))
    elif which == 1:
        name = chance.pick(("rrows", "rcols"))
        f[name] = f[name][:-1] if f[name] and chance.one_of(2) else f[name] + [0]
    elif which == 2:
        name = chance.pick(("rrows", "rcols"))
        f[name] = [*f[name][:-1], chance.pick((n, 2**32 - 1))]
    elif which == 3:
        f["starts"] = chance.pick((f["starts"][:-1], [1] + f["starts"][1:], f["starts"] + [0], f["starts"][::-1]))
    elif which == 4:
        f["rows"] = f["rows"][::-1]
    elif which == 5:
        f["n"] = chance.pick((MOST_COLUMNS + 1, n + 1, 2**64 - 1))
    elif which == 6:
        f[values] = f[values][1:]
    elif f.get("wvalues"):
        # mostly a diagonal: another number, or dropped
        ones = [p for p, x in enumerate(f["wvalues"]) if x == 1]
        at = chance.pick(ones) if ones else 0
        f["wvalues"] = [*f["wvalues"][:at], chance.pick((0, 0, -1, 2, *BEYOND)), *f["wvalues"][at + 1 :]]


def some_whole_lists(chance, f):
    """The lists lent, as long as needed, a few places more, or now and then one less."""
    n, entries = min(f["n"], 64), min(limit_of(f), triangle(min(f["n"], 64)))
    needs = {"lstarts": n + 1, "lrows": entries, "lwvalues": entries, "lscratch": scratch_words(n), "lwork": entries}
    lists = {}
    for name, need in needs.items():
        length = max(need + (-1 if chance.one_of(20) else chance.pick((0, 0, 1, 3))), 0)
        item = chance.pick((7777, -7777, 2**63 - 1, -(2**63))) if name in WHOLES else 7777
        lists[name] = [item] * length
    return lists


def some_whole_case(chance):
    """A factor with ones on its diagonal, requests, a limit, mostly pairs; some faults; some lists lent."""
    n, odd = chance.pick((0, 1, 2, 3, 3, 4, 4, 5, 6, 8, 12, chance.below(24))), chance.pick((10**9, 10**9, 20, 6))
    columns = [some_whole_column(chance, c, below, odd) for c, below in enumerate(some_descendants(chance, n))]
    edge = chance.one_of(8)
    if edge:
        n = 3 + chance.below(4)
        columns = some_edge_columns(chance, n)
    f = {"n": n, "starts": [0, *itertools.accumulate(map(len, columns))], "rdim": n}
    f["rows"], f["wvalues"] = ([entry[k] for column in columns for entry in column] for k in (0, 1))
    count = chance.pick((0, 1, 1, 1, 2, 3, 6)) if n else 0
    f["rrows"], f["rcols"] = ([chance.below(n) for _ in range(count)] for _ in range(2))
    if edge or count and chance.one_of(2):
        f["rrows"], f["rcols"] = [n - 1 if edge else 0], [0]
    for _ in range(chance.pick((0, 0, 0, 0, 0, 1, 1, 2))):
        spoil_whole(chance, f)
    closed = 3
    if f["n"] == n and not next(factor_list_refusals(f), 0) and not next(pair_refusals(f), 0):
        closed = len(closed_set(f, asked_pairs(f), triangle(n)))
    f["limit"] = chance.pick(("default", closed, closed, max(closed - 1, 0), closed + 1, triangle(n), 2**64 - 1))
    if chance.one_of(2):
        f.update(some_whole_lists(chance, f))
    if chance.one_of(2):
        f["prows"], f["pcols"] = ([chance.below(n + 2) for _ in range(chance.pick((1, 3, 6)))] for _ in range(2))
        f["pcols"] = (f["pcols"] + [0] * 6)[: len(f["prows"])]
    return f


def some_wholes(seed=1):
    chance = Chance(int(seed))
    for k in range(WHOLE_CASES):
        yield "wentries-%d" % k, "wentries", some_whole_case(chance)


# how many cases the set ldl has
PIVOT_CASES = 3000
# values that a sum may take for others, or not expect
ODD_VALUES = ("0.1", "-0.3", "1e16", "-2^53", "2^-1074", "-1e-300", "1e300", "-1e200")


def some_pivot(chance, plain):
    """A power of 4; where not plain any number above 0, the least and the largest too."""
    if plain or chance.one_of(2):
        return value_bits("2^%d" % (2 * (chance.below(9) - 4)))
    return value_bits(chance.pick(("2.0", "3.0", "0.1", "0.7", "1e-5", "1e10", "2^-1074", "0x7fefffffffffffff", "1e-310")))


def some_pivoted_column(chance, c, below, plain):
    """The stored entries of a column: its diagonal stored, absent, or dropped; now and then another dropped one."""
    entries = {r: value_bits(chance.pick(("1.0", "-1.0", "2.0", "-0.5", "3.0", "0.25", "7.0"))) for r in below}
    if below and not plain and chance.one_of(3):
        entries[chance.pick(below)] = value_bits(chance.pick(ODD_VALUES))
    if not chance.one_of(3):
        entries[c] = ONE
    elif chance.one_of(3):
        entries[c] = value_bits(chance.pick(("0.0", "-0.0")))
    if below and chance.one_of(8):
        entries[chance.pick(below)] = value_bits(chance.pick(("0.0", "-0.0")))
    if c and chance.one_of(8):
        entries[chance.below(c)] = value_bits(chance.pick(("1.0", "nan", "inf")))
    return sorted(entries.items())


def spoil_pivoted(chance, f):
    """One fault, or something that looks like one."""
    which, pivots = chance.below(12), f["pivots"]
    at = chance.below(max(len(pivots), 1))
    if which == 0:
        f["pivots"] = pivots[:-1] if pivots and chance.one_of(2) else pivots + [ONE]
    elif which in (1, 2) and pivots:
        f["pivots"] = [*pivots[:at], value_bits(chance.pick(("nan", "inf", "-inf"))), *pivots[at + 1 :]]
    elif which in (3, 4) and pivots:
        f["pivots"] = [*pivots[:at], value_bits(chance.pick(("0.0", "-0.0", "-1.0", "-2^-1074"))), *pivots[at + 1 :]]
    elif which < 8 and f["values"]:
        # of a diagonal 1 another
        ones = [p for p, x in enumerate(f["values"]) if x == ONE]
        at = chance.pick(ones) if ones and not chance.one_of(4) else chance.below(len(f["values"]))
        other = value_bits(chance.pick(("-1.0", "2.0", "0x3ff0000000000001", "0.0", "nan", "-inf")))
        f["values"] = [*f["values"][:at], other, *f["values"][at + 1 :]]
    else:
        spoil_whole(chance, f, "values")


def some_pivoted_lists(chance, f):
    """The lists lent, as long as needed, a few places more, or now and then one less."""
    n, entries = min(f["n"], 64), min(limit_of(f), triangle(min(f["n"], 64)))
    needs = {"lstarts": n + 1, "lrows": entries, "lvalues": entries, "lscratch": scratch_words(n)}
    lengths = {x: max(need + (-1 if chance.one_of(16) else chance.pick((0, 0, 1, 3))), 0) for x, need in needs.items()}
    return {x: [SEVENS if x in VALUES else 7777] * length for x, length in lengths.items()}


def some_pivoted_case(chance):
    """A factor with pivots, requests, a limit, mostly pairs; some faults; some lists lent."""
    n, plain = chance.pick((0, 1, 2, 3, 3, 4, 4, 5, 6, 8, 12, chance.below(24))), not chance.one_of(3)
    columns = [some_pivoted_column(chance, c, below, plain) for c, below in enumerate(some_descendants(chance, n))]
    f = {"n": n, "starts": [0, *itertools.accumulate(map(len, columns))], "rdim": n}
    f["rows"], f["values"] = ([entry[k] for column in columns for entry in column] for k in (0, 1))
    f["pivots"] = [some_pivot(chance, plain) for _ in range(n)]
    count = chance.pick((0, 1, 1, 1, 2, 3, 6)) if n else 0
    f["rrows"], f["rcols"] = ([chance.below(n) for _ in range(count)] for _ in range(2))
    if count and chance.one_of(2):
        f["rrows"], f["rcols"] = [0], [0]
    for _ in range(chance.pick((0, 0, 0, 0, 0, 1, 1, 2))):
        spoil_pivoted(chance, f)
    closed = 3
    if f["n"] == n and not next(factor_refusals(f), 0) and not next(pair_refusals(f), 0):
        closed = len(closed_set(f, asked_pairs(f), triangle(n)))
    f["limit"] = chance.pick(("default", closed, closed, max(closed - 1, 0), closed + 1, triangle(n), 2**64 - 1))
    if chance.one_of(2):
        f.update(some_pivoted_lists(chance, f))
    if chance.one_of(2):
        looked = chance.pick((1, 3, 6))
        f["prows"], f["pcols"] = ([chance.below(n + 2) for _ in range(looked)] for _ in range(2))
    return f


def some_pivoted(seed=1):
    chance = Chance(int(seed))
    for k in range(PIVOT_CASES):
        yield "ldl-%d" % k, "ldl", some_pivoted_case(chance)


def some_whole_lookup(chance):
    """A result, mostly well formed, and pairs in it and beside it."""
    n = chance.pick((0, 1, 2, 3, 4, 6))
    columns = [sorted({chance.below(n + 1) for _ in range(chance.below(5))}) for _ in range(n)]
    f = {"starts": [0, *itertools.accumulate(map(len, columns))], "rows": [r for column in columns for r in column]}
    f["wvalues"] = [chance.pick((0, some_whole(chance, 3), some_whole(chance, 3))) for _ in f["rows"]]
    spoil_result(chance, f, 12)
    count = chance.pick((0, 1, 3, 6, 9))
    index = lambda: 2**32 - 1 if chance.one_of(9) else chance.below(n + 1)
    f["prows"], f["pcols"] = ([index() for _ in range(count)] for _ in range(2))
    return f


def spoil_result(chance, f, odds):
    """Four times in so many, a fault of the lists."""
    which = chance.below(odds)
    if which == 0:
        f["starts"] = chance.pick(([], f["starts"][::-1], f["starts"][:-1], f["starts"] + [2**32 - 1], f["starts"] + [0]))
    elif which == 1:
        f["rows"] = chance.pick((f["rows"][::-1], f["rows"][:-1], f["rows"] + [0]))
    elif which == 2:
        f["wvalues"] = chance.pick((f["wvalues"][:-1], f["wvalues"] + [0]))
    elif which == 3 and len(f["rows"]) > 1:
        at = 1 + chance.below(len(f["rows"]) - 1)
        f["rows"][at] = f["rows"][at - 1]


def some_whole_lookups(seed=1):
    chance = Chance(int(seed))
    for k in range(WHOLE_LOOKUPS):
        yield "wget-%d" % k, some_whole_lookup(chance)


# how many cases each of the sets bounds and track has
RESULT_CASES = 3000


def some_entry(chance, most, odd):
    """An entry of a result: small, now and then at the bound, at odd ones beyond it."""
    if chance.one_of(odd):
        return chance.pick((most + 1, -most - 1, 2**53, *BEYOND))
    if chance.one_of(6):
        return chance.pick((most, -most, most - 1, 1 - most))
    return chance.below(41) - 20


def some_inverse(chance, n):
    """The result with every pair of a factor with 1 on its diagonal."""
    factor = {"n": n, "rows": [], "wvalues": [], "starts": [0]}
    for c in range(n):
        factor["rows"] += range(c, n)
        factor["wvalues"] += [1] + [chance.below(7) - 3 for _ in range(c + 1, n)]
        factor["starts"].append(len(factor["rows"]))
    inverse = whole_inverse(factor)
    return {**{x: factor[x] for x in ("starts", "rows")}, "wvalues": [inverse[i][c] for c in range(n) for i in range(c, n)]}


def some_result(chance, n, most):
    """A result with most of its pairs, now and then a row above the diagonal or from n on, and places past the last start."""
    if n <= EVERY_INVERSE and chance.one_of(4):
        return some_inverse(chance, n)
    gap, odd = chance.pick((10**9, 10**9, 10**9, 30, 4)), chance.pick((10**9, 10**9, 10**9, 20))
    columns = []
    for c in range(n):
        rows = {r for r in range(c, n) if not chance.one_of(gap)}
        if chance.one_of(8):
            rows.add(chance.pick((chance.below(c + 1), n, n + 1 + chance.below(9), 2**32 - 1)))
        columns.append(sorted(rows))
    f = {"starts": [0, *itertools.accumulate(map(len, columns))], "rows": [r for column in columns for r in column]}
    f["wvalues"] = [some_entry(chance, most, odd) for _ in f["rows"]]
    for name in ("rows", "wvalues"):
        if chance.one_of(12):
            f[name] += [chance.pick((0, 2**32 - 1))] * (1 + chance.below(2))
    return f


def some_of(chance, cells, count):
    """So many different ones of the cells, in any order; all where there are not so many."""
    rest = list(cells)
    return [rest.pop(chance.below(len(rest))) for _ in range(min(count, len(rest)))]


def some_ends(chance):
    """The ends of a weight's range: small ones, often equal, now and then at the bound."""
    edge = chance.one_of(6)
    ends = [chance.pick((1024, -1024, 1023, 0)) if edge else chance.below(13) - 6 for _ in range(2)]
    return (ends[0], ends[0]) if chance.one_of(4) else (min(ends), max(ends))


def spoil_row(chance, f, n):
    """One fault of the row, or something that looks like one."""
    which, name = chance.below(6), chance.pick(("cols", "lows", "highs"))
    if which == 0:
        f[name] = f[name][:-1] if f[name] and chance.one_of(2) else f[name] + [0]
    elif which == 1 and f["cols"]:
        f["cols"][chance.below(len(f["cols"]))] = chance.pick((n, n + 1, 2**32 - 1, 0, 0))
    elif which == 2 and f["lows"] and f["highs"]:
        f["lows"][-1], f["highs"][-1] = f["highs"][-1], f["lows"][-1]
    elif f["lows"] and f["highs"]:
        ends = f[chance.pick(("lows", "highs"))]
        ends[chance.below(len(ends))] = chance.pick((1025, -1025, 1024, -1024, 2**32, 2**63 - 1, -(2**63)))


def some_row(chance):
    """A result and a row with weights in ranges."""
    n = chance.pick((0, 1, 1, 2, 2, 3, 3, 4, 5, 6, 7, 9)) if not chance.one_of(40) else chance.pick((63, 64, 65, 66))
    f = some_result(chance, n, MOST_ROW_ENTRY)
    f["cols"] = some_of(chance, range(n), n if n > 60 else chance.pick((0, 1, 2, 2, 3, 4, 6, 8)))
    ends = [some_ends(chance) for _ in f["cols"]]
    f["lows"], f["highs"] = ([end[k] for end in ends] for k in (0, 1))
    spoil_result(chance, f, 40)
    for _ in range(chance.pick((0, 0, 0, 0, 0, 1, 1, 2))):
        spoil_row(chance, f, n)
    return f


def some_row_cases(seed=1):
    chance = Chance(int(seed))
    for k in range(RESULT_CASES):
        yield "bounds-%d" % k, some_row(chance)


def some_track(chance):
    """A result, a track over its cells, also with repeats, a width, and often an output, mostly as long as needed or longer."""
    n = chance.pick((0, 1, 1, 2, 3, 4, 5, 6, 8, 12))
    f = some_result(chance, n, MOST_TRACK_ENTRY)
    length = chance.pick((0, 1, 2, 3, 4, 6, 9, 15, 30)) if n else chance.pick((0, 0, 1))
    f["cells"] = [chance.below(max(n, 1)) for _ in range(length)]
    if chance.one_of(2):
        f["cells"] = [k % max(n, 1) for k in range(length)]
    if f["cells"] and chance.one_of(16):
        f["cells"][chance.below(length)] = chance.pick((n, n + 1, 2**32 - 1))
    f["width"] = min(1 + chance.below(chance.pick((1, 2, 3, 4, 30))), max(length, 1))
    if chance.one_of(10):
        f["width"] = chance.pick((0, length, length + 1, 1024, 1025, 2**32, 2**32 + 1, 2**32 + length, 2**64 - 1))
    spoil_result(chance, f, 40)
    if not chance.one_of(3):
        count = max(length - f["width"] + 1, 0)
        places = max(count + (-1 if chance.one_of(6) else chance.pick((0, 0, 1, 3))), 0)
        f["lwout"] = [chance.pick((7777, -7777)) for _ in range(places)]
    return f


def some_tracks(seed=1):
    chance = Chance(int(seed))
    for k in range(RESULT_CASES):
        yield "track-%d" % k, some_track(chance)


# the sets that are made here, of the kind of the same name, of which the Rust is not asked
MADE = {
    "mmread": some_files,
    "mmwrite": some_lists_written,
    "search": some_searches,
    "chain": some_chains,
    "wget": some_whole_lookups,
    "bounds": some_row_cases,
    "track": some_tracks,
}


def some_marked(programs, *seed):
    """Cases of permmarked: those of the set perm that apply a permutation, with marks, most of them as many as elements."""
    chance = Chance(int(seed[0]) if seed else 1)
    for i, kind, lines in blocks(run(os.path.join(programs, "generate"), "perm", *seed)):
        if kind == "permapply":
            f = fields(lines)
            count = len(f["perm"]) + (chance.pick((-1, 1)) if chance.one_of(8) else 0)
            f["marks"] = [chance.pick((0, 1, 1, chance.below(256))) for _ in range(max(count, 0))]
            if chance.one_of(2):
                length = len(f["perm"]) + chance.pick((0, 0, 1, 3)) - (1 if chance.one_of(6) else 0)
                f.update({"lout": [SEVENS] * (len(f["perm"]) + chance.below(2)), "lmarks": [77] * max(length, 0)})
            yield "permmarked-" + i, "permmarked", f


# weights that a sum may take for others, or not expect
ODD_WEIGHTS = ["nan", "inf", "-inf", "0.0", "-0.0", "1e200", "1e-300", "2^53", "-2^-1074"]


def some_weight(chance, others):
    """A weight of the operator at hand, a whole number, now and then an odd one."""
    if chance.one_of(30):
        return value_bits(chance.pick(ODD_WEIGHTS))
    return chance.pick(others) if others and not chance.one_of(3) else value_bits(str(float(chance.below(9) - 4)))


def some_operator(chance, n, weights):
    """The lists of an operator of up to four rows of up to five terms, in the order of OPERATOR."""
    starts, cols = [0], []
    for _ in range(chance.pick((0, 1, 1, 2, 2, 2, 2, 3, 3, 3, 3, 4))):
        cols += [chance.below(n) for _ in range(chance.below(6) if n else 0)]
        starts.append(len(cols))
    return [n, starts, cols, [some_weight(chance, weights) for _ in cols]]


def some_row_pairs(chance, rows, others):
    """Row pairs, some of them twice, all within but for a few; none where an operator has no rows."""
    count = chance.pick((0, 1, 1, 2, 2, 3, 3, 3, 5, 8)) if rows and others else 0
    pairs = [(chance.below(rows), chance.below(others)) for _ in range(count)]
    if pairs and chance.one_of(4):
        pairs.append(chance.pick(pairs))
    if chance.one_of(15):
        pairs.append(chance.pick(((rows, 0), (0, others), (2**32 - 1, 0), (0, 2**32 - 1))))
    return [a for a, _ in pairs], [b for _, b in pairs]


def spoil_covar(chance, f):
    """One fault, or something that looks like one."""
    which = chance.below(8)
    if which == 0:
        f[chance.pick(("ancols", "bncols"))] = f["n"] + (chance.pick((-1, 1)) if f["n"] else 1)
    elif which == 1:
        name = chance.pick(("arows", "brows"))
        f[name] = f[name][:-1] if f[name] and chance.one_of(2) else f[name] + [0]
    elif which == 2:
        name = chance.pick(("acols", "bcols"))
        f[name] = [*f[name][:-1], f["n"]]
    elif which == 3:
        name = chance.pick(("aweights", "bweights"))
        f[name] = f[name][1:]
    elif which == 4:
        name = chance.pick(("astarts", "bstarts"))
        f[name] = chance.pick(([], f[name][1:], f[name] + [0], [1] + f[name]))
    elif which == 5 and f["values"]:
        f["values"] = f["values"][:-1] + [value_bits(chance.pick(("0.0", "-1.0", "nan", "-inf")))]
    elif which == 6:
        f["starts"] = f["starts"][:-1]
    else:
        f["rows"] = f["rows"][::-1]


def some_covar(programs, *seed):
    """Cases of covar: the factors and operators of the sets opvar and default, with a second operator, which now and then is
    the same, and row pairs."""
    chance = Chance(int(seed[0]) if seed else 1)
    texts = (run(os.path.join(programs, "generate"), name, *seed) for name in ("opvar", "default"))
    for i, kind, lines in itertools.chain.from_iterable(map(blocks, texts)):
        f = fields(lines)
        # operators without rows have no row pairs: a few are enough
        if kind != "opvar" or (len(f["ostarts"]) == 1 and not chance.one_of(8)):
            continue
        first = [f[x] for x in OPERATOR]
        # the first row of a star with itself may pass the limit
        star = f["n"] > 32 and not chance.one_of(4)
        other = list(first) if star or chance.one_of(6) else some_operator(chance, f["n"], f["oweights"])
        one, two = (first, other) if chance.one_of(2) else (other, first)
        case = {x: f[x] for x in FACTOR}
        case.update(zip(OPERATOR_A + OPERATOR_B, one + two))
        case["arows"], case["brows"] = some_row_pairs(chance, len(one[1]) - 1, len(two[1]) - 1)
        if star:
            case["arows"], case["brows"] = [0] + case["arows"], [0] + case["brows"]
        for _ in range(chance.pick((0, 0, 0, 0, 0, 1, 1, 2))):
            spoil_covar(chance, case)
        if chance.one_of(3):
            case.update(some_lists(chance, case))
        yield "covar-" + i, "covar", case


def some_lists(chance, f):
    """Result lists, scratch and output as long as needed, a few places more, or now and then one less."""
    n, entries = f["n"], min(10 * len(f["rows"]), triangle(f["n"]))
    needs = {"lstarts": n + 1, "lrows": entries, "lvalues": entries, "lscratch": scratch_words(n), "lout": len(f["arows"])}
    lists = {}
    for name, need in needs.items():
        length = max(need + (-1 if chance.one_of(20) else chance.pick((0, 0, 1, 3))), 0)
        lists[name] = [SEVENS if name in VALUES else 7777] * length
    return lists


def answered(programs, cases):
    """The cases (id, kind, fields) with the Rust's answers; of refused ones it is not asked."""
    questions = [case for case in cases if not refusal(*case[1:]) and is_asked(*case[1:])]
    said = {case[0]: answer for case, answer in zip(questions, answers(programs, questions))}
    return [finished(*case, said.get(case[0])) for case in cases]


def generated(programs, name, *seed):
    """Every case of a set that the program can hold."""
    if name in MADE:
        return [finished(i, name, f, None) for i, f in MADE[name](*seed) if fits(name, f)]
    if name == "covar":
        return answered(programs, [c for c in some_covar(programs, *seed) if fits(*c[1:])])
    if name == "wentries":
        return answered(programs, [c for c in some_wholes(*seed) if fits(*c[1:])])
    if name == "ldl":
        return answered(programs, [c for c in some_pivoted(*seed) if fits(*c[1:])])
    if name == "permmarked":
        cases = [c for c in some_marked(programs, *seed) if fits(*c[1:])]
        return [finished(*c, answer) for c, answer in zip(cases, answers(programs, cases))]
    cases = []
    for i, kind, lines in blocks(run(os.path.join(programs, "generate"), name, *seed)):
        f = fields(lines)
        if kind == "defaultlimit":
            kind, f = "entries", {**f, "rdim": f["n"], "rrows": [], "rcols": [], "limit": "default"}
        if kind in FIELDS and fits(kind, f):
            cases.append((i, kind, f))
    return [finished(*c, answer) for c, answer in zip(cases, answers(programs, cases))]


def given(programs):
    """The cases of cases.txt; what each expects must be the documents'."""
    with open(os.path.join(os.path.dirname(os.path.abspath(__file__)), "cases.txt")) as file:
        text = file.read()
    cases, questioned, names = [], [], set()
    for name, kind, lines in blocks(text):
        f, words = readable_fields(lines)
        expect = expected_words(kind, words)
        assert name not in names and fits(kind, f), name
        names.add(name)
        if kind == "search":
            number = [looks for _, looks in searches(f)]
        elif kind == "chain":
            number = [refusal(kind, f)]
            number += [] if number[0] else [index for pair in chain_of(f) for index in pair]
        elif kind in ("bounds", "track"):
            number = [refusal(kind, f)]
            number += [] if number[0] else variance_bounds(f) if kind == "bounds" else track_variances(f)
        elif kind == "mmwrite":
            number = [refusal(kind, f)]
            number += [] if number[0] else [int(word) for word in write_case(f).split(b"\n", 1)[1].split()]
        elif kind in ("wentries", "ldl"):
            number = [refusal(kind, f)]
            if not number[0]:
                got = whole_answer(f) if kind == "wentries" else ldl_answer(f)
                entries = map(int, got.get("wvalues", [])[1:]) if kind == "wentries" else got.get("values", [])[1:]
                number = [0, *entries] if got["status"] == ["Complete"] else ["past"]
        else:
            number = [number for number, _ in lookups(f)] if kind in ("get", "wget") else [refusal(kind, f)]
        assert number == expect, "%s: expects %s, document 01 gives %s" % (name, expect, number)
        lent = [x in f for x in LENT[kind]]
        assert all(lent) or not any(lent) or kind == "diag", name
        cases.append((name, kind, f))
        if kind not in MADE and (kind == "get" or number[0] in (0, 8, "past")) and is_asked(kind, f):
            questioned.append((name, kind, f))
    said = {c[0]: answer for c, answer in zip(questioned, answers(programs, questioned))}
    return [finished(*c, said.get(c[0])) for c in cases]


def spread(cases, count):
    """So many of the cases, evenly spread, the first and the last among them."""
    if count >= len(cases):
        return cases
    return [cases[k * (len(cases) - 1) // max(count - 1, 1)] for k in range(count)]


def chosen(cases, count, most, least):
    groups = {}
    for case in cases:
        if len(case.text) + len(case.answer) <= most:
            groups.setdefault(case.group, []).append(case)
    total = sum(len(g) for g in groups.values())
    names = set()
    for g in groups.values():
        names.update(case.name for case in spread(g, max(least, count * len(g) // max(total, 1))))
    return [case for case in cases if case.name in names]


def put_differences(cases):
    names = {}
    for case in cases:
        if case.difference:
            names.setdefault(case.difference, []).append(case.name)
    for what, which in sorted(names.items()):
        print("%s: %d, as %s" % (what[:300], len(which), which[0]))


def write_list(programs):
    top = os.path.join(os.path.dirname(os.path.abspath(__file__)), "..", "crates", "replay")
    parts = {"cases.txt": given(programs)}
    for name, numbers in SETS.items():
        parts[name] = chosen(generated(programs, name), *numbers)
    cases = [case for part in parts.values() for case in part]
    stdin, stdout = "".join(case.text for case in cases), "".join(case.answer for case in cases)
    assert len({case.name for case in cases}) == len(cases)
    assert max(len(case.text) for case in cases) <= LONGEST
    for name, text in (("stdin", stdin), ("stdout", stdout)):
        with open(os.path.join(top, name), "w") as file:
            file.write(text)
    for name, part in parts.items():
        counts = collections.Counter(case.group for case in part)
        print(name, len(part), "; ".join("%s: %d" % x for x in sorted(counts.items())))
    print(len(cases), "cases,", len(stdin), "and", len(stdout), "bytes")
    put_differences(cases)


def compare(programs, program, *seed):
    """Runs the program on all cases, a set at a time."""
    found = []
    for name in ["cases.txt", *SETS]:
        cases = given(programs) if name == "cases.txt" else generated(programs, name, *seed)
        assert max(len(case.text) for case in cases) <= LONGEST, name
        got = [block(*x) for x in blocks(run(program, text="".join(case.text for case in cases)))]
        assert len(got) == len(cases), (name, len(got), len(cases))
        wrong = [(case, text) for case, text in zip(cases, got) if case.answer != text]
        for case, text in wrong[:3]:
            print("DIFFERENT", case.text, "expected", case.answer, "got", text, sep="\n")
        found += [case for case in cases if case.difference]
        print(name, len(cases), "cases,", len(wrong), "different")
    put_differences(found)


def check_programs(programs):
    if not all(os.path.isfile(os.path.join(programs, name)) for name in ("generate", "oracle")):
        sys.exit(
            "%s has no programs generate and oracle: bash bindings/oracle/build.sh FOLDER builds them into\n"
            "bindings/oracle/target/release; FOLDER has the Rust's files that bindings/oracle/sources.txt names"
            % programs
        )


def main():
    if len(sys.argv) > 1:
        check_programs(sys.argv[1])
    if len(sys.argv) == 2:
        write_list(sys.argv[1])
    elif len(sys.argv) in (4, 5) and sys.argv[2] == "--compare":
        compare(sys.argv[1], *sys.argv[3:])
    else:
        sys.exit(__doc__)


if __name__ == "__main__":
    main()
