#!/usr/bin/env python3
"""Respells the repository's own definitions, lemmas and fields in snake case, a dash only between two names.

usage: respell.py table FOLDER..   writes respelled.tsv, beside this script, from the declarations of these checkouts
       respell.py apply FOLDER     rewrites specs/, proofs/, clauses of src/ and must-fail/ below FOLDER/crates by that table

Run it once, right after /opt/rattle/port/port.py. Names of types, modules, src/ and std stay.
"""

import collections
import glob
import os
import re
import sys

TABLE = os.path.join(os.path.dirname(os.path.realpath(__file__)), "respelled.tsv")
DECLARED = re.compile(r"^\s*(?:pub )?(?:(?:abbrev|unfoldable)\s+)?(?:pub )?([^\s(){}\[\];,:.\"`]+) :(?:\s|$)")
TYPE = re.compile(r"^\s*(?:pub )?(?:record|data)\s+([^\s(){}:]+)")
USE = re.compile(r"^(?:pub |ghost )*use ([\w.·+-]+)\.(?:\{([^}]*)\}|([^\s.{}]+))")
TOKEN = re.compile(r"[^\s(){}\[\];,.\"`]+")
BY_HAND = {"digits_of": "digits_of_lem", "inverts": "Inverts", "sixteenths-inverts": "SixteenthsInverts"}
PLAIN = {"length", "drop", "take", "append", "map", "get_or", "reverse", "set", "sum", "min", "max", "not", "snoc", "cond"}


def below(root, kinds):
    found = []
    for kind in kinds:
        found += glob.glob(os.path.join(root, "crates", "*", kind, "**", "*.antt"), recursive=True)
    return sorted(found)


def snake(part):
    part = re.sub(r"([a-z0-9'₀-₉])([A-Z])", lambda m: m.group(1) + "_" + m.group(2), part)
    return part.lower() if part[:1].islower() or re.match(r"^[A-Z]\d?$", part) else part


def is_lemma_file(path):
    return os.path.basename(path) not in ("Proof.antt", "Invariants.antt", "Answers.antt")


def declared(roots):
    names, types, fields, outside, words = {}, set(), set(), set(), set()
    for root in roots:
        for path in below(root, ["specs", "proofs"]):
            in_record = False
            for line in open(path, encoding="utf-8"):
                text = line.rstrip("\n")
                if text.lstrip().startswith("--"):
                    continue
                use = USE.match(text)
                if use:
                    module, many, one = use.groups()
                    if not re.match(r"Rattle\.\w+\.(specs|proofs)\.(?!declared|contracts)", module) or ".std." in module or ".core." in module:
                        for name in (many or one or "").split(","):
                            outside.add(name.strip().split(" as ")[0])
                    continue
                kind = TYPE.match(text)
                if kind:
                    types.add(kind.group(1))
                    in_record = " record " in " " + text
                    continue
                it = DECLARED.match(text)
                if it and is_lemma_file(path):
                    name = it.group(1)
                    names.setdefault(name, set()).add(path)
                    if re.search(r"(→|:) Type \d\s*$", text):
                        types.add(name)
                    if "-" not in name:
                        words.add(name)
                    if in_record and text.startswith("  "):
                        fields.add(name)
                elif it and "-" not in it.group(1):
                    names.setdefault(it.group(1), set()).add(path)
                if text and not text.startswith(" "):
                    in_record = False
    return names, types, fields, outside, words


def turned(name, words, fields):
    parts = name.split("-")
    if any(not p for p in parts) or not re.match(r"^([a-zα-ω_]|[A-Z]\d-)", name):
        return name
    out = snake(parts[0])
    for left, right in zip(parts, parts[1:]):
        joined = name not in fields and left in words and right in words
        out += ("-" if joined else "_") + (snake(right) if not right[:1].isupper() or right[:2] in ("F2", "F3") else right)
    return out


def table(roots):
    names, types, fields, outside, words = declared(roots)
    words = (words | types | PLAIN) - fields
    turns = {}
    for name in sorted(names):
        if name in types and name[:1].isupper():
            continue
        if name in outside:
            print("look: also a name of the library:", name)
            continue
        new = turned(name, words, fields)
        if name in types:
            print("look: a type in lower case:", name)
        if new != name:
            turns[name] = new
    # a lemma that would have its function's name gets `_lem`
    back = collections.defaultdict(set)
    for name in names:
        back[turns.get(name, name)].add(name)
    for new, olds in sorted(back.items()):
        dashed = [old for old in olds if "-" in old]
        if len(olds) > 1:
            print("look: one name of", *sorted(olds))
            for old in dashed if any("-" not in old for old in olds) else []:
                turns[old] = new + "_lem"
            if len(olds) - len(dashed) > 1 or len(dashed) > 1:
                print("look: fall together:", *sorted(olds))
    turns.update(BY_HAND)
    everything = collections.defaultdict(set)
    for root in roots:
        for path in below(root, ["specs", "proofs"]):
            for line in open(path, encoding="utf-8"):
                if not line.lstrip().startswith("--"):
                    everything[path].update(TOKEN.findall(line))
    for path, tokens in sorted(everything.items()):
        seen = {}
        for token in sorted(tokens):
            new = turns.get(token, token)
            if new in seen and seen[new] != token:
                print("look: fall together:", token, seen[new], "->", new, path)
            seen[new] = token
    with open(TABLE, "w", encoding="utf-8") as f:
        f.writelines(f"{old}\t{new}\n" for old, new in sorted(turns.items()))
    print(len(turns), "names")


def clauses(text):
    """The spans of ghost items and clauses in a .rt text."""
    spans = []
    for it in re.finditer(r"(?m)^[ \t]*(?:pub )?ghost use [^;]*;|\b(?:requires|ensures|ghost)\b\*?[^{};\n]*\{", text):
        if it.group(0).rstrip().endswith(";"):
            spans.append((it.start(), it.end()))
            continue
        depth, at = 1, it.end()
        while depth and at < len(text):
            depth += {"{": 1, "}": -1}.get(text[at], 0)
            at += 1
        spans.append((it.start(), at))
    return spans


def apply(root):
    with open(TABLE, encoding="utf-8") as f:
        turns = dict(line.rstrip("\n").split("\t") for line in f)

    def turn(text):
        return TOKEN.sub(lambda m: turns.get(m.group(0), m.group(0)), text)

    def comment(text):
        return re.sub(r"`([^`\s]+)`", lambda m: "`" + turn(m.group(1)) + "`", text)

    changed = 0
    paths = below(root, ["specs", "proofs"])
    paths += sorted(glob.glob(os.path.join(root, "crates", "*", "src", "**", "*.rt"), recursive=True))
    paths += sorted(glob.glob(os.path.join(root, "crates", "*", "must-fail", "*.edit")))
    for path in paths:
        with open(path, encoding="utf-8") as f:
            text = f.read()
        if path.endswith(".rt"):
            new, at = "", 0
            for start, end in clauses(text):
                if start >= at:
                    new += text[at:start] + turn(text[start:end])
                    at = end
            new += text[at:]
        elif path.endswith(".edit"):
            lines = text.split("\n")
            src = lines[0].startswith("file: src/")
            new = "\n".join(l if l.startswith("file:") or (src and not re.search(r"ghost use|requires|ensures|λ|≡|\.(old|new|now)", l)) else turn(l) for l in lines)
        else:
            new = "\n".join(comment(l) if l.lstrip().startswith("--") else turn(l) for l in text.split("\n"))
        if new != text:
            changed += 1
            with open(path, "w", encoding="utf-8") as f:
                f.write(new)
    print(changed, "files changed")


if sys.argv[1:2] == ["table"] and len(sys.argv) > 2:
    table(sys.argv[2:])
elif sys.argv[1:2] == ["apply"] and len(sys.argv) == 3:
    apply(sys.argv[2])
else:
    sys.exit(__doc__)
