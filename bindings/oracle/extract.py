#!/usr/bin/env python3
"""Cuts functions and types, unchanged, out of the Rust's three files.

    extract.py FOLDER

FOLDER has the files that sources.txt names. Each templates/NAME.rs.in becomes src/oracle/gen/NAME.rs, where each line
that starts with //@ is replaced by what it names in the file:

    //@item KIND NAME           a struct, enum, fn or const outside all braces, with its attributes and comments
    //@impl HEADER              a whole impl block, as in  //@impl Index<usize> for Vector
    //@method TYPE::NAME        one fn of the impl blocks of a type, with its attributes and comments
    //@arm TYPE::NAME PATTERN   the lines inside the braces of one match arm of such a fn
    //@span FN | FIRST | LAST   the lines of a fn from the one that starts with FIRST to the end of the statement or
                                block that starts with LAST

What is cut stands between marks that say which lines of the file it is.
"""
import os, re, sys
import sources

COMMENT_OR_STRING = re.compile(r'//[^\n]*|"(?:\\.|[^"\\])*"' r"|'(?:\\[^']+|[^\\'\n])'", re.S)
PUBLIC = r"(?:pub(?:\([^)]*\))?\s+)?"


class Source:
    """One of the Rust's files. Places are found in its code, which is its text with comments and strings blanked."""

    def __init__(self, text):
        self.text = text
        self.code = COMMENT_OR_STRING.sub(lambda match: re.sub(r"[^\n]", " ", match[0]), text)

    def all(self, pattern, first=0, end=None):
        end = len(self.code) if end is None else end
        return [match.start() for match in re.compile(pattern, re.M).finditer(self.code, first, end)]

    def one(self, pattern, first=0, end=None):
        places = self.all(pattern, first, end)
        if len(places) != 1:
            sys.exit("extract.py: %d places have %s" % (len(places), pattern))
        return places[0]

    def line_end(self, place):
        return self.text.index("\n", place) + 1

    def closed(self, place):
        """The place behind the brace that closes the one here."""
        depth = 0
        for at in range(place, len(self.code)):
            depth += {"{": 1, "}": -1}.get(self.code[at], 0)
            if depth == 0:
                return at + 1
        sys.exit("extract.py: a brace is not closed")

    def end(self, place):
        """The end of the item or statement here: behind its braces, or behind its semicolon where it has none."""
        depth = 0
        for at in range(place, len(self.code)):
            depth += {"(": 1, "[": 1, ")": -1, "]": -1}.get(self.code[at], 0)
            if depth == 0 and self.code[at] == "{":
                return self.line_end(self.closed(at))
            if depth == 0 and self.code[at] == ";":
                return self.line_end(at)
        sys.exit("extract.py: an item has no end")

    def with_comments(self, place):
        """The start of the attributes and comments right above."""
        while True:
            above = self.text.rfind("\n", 0, max(place - 1, 0)) + 1
            if place == 0 or not self.text[above:place].strip().startswith(("#[", "///")):
                return place
            place = above

    def item(self, kind, name):
        place = self.one(r"^%s%s\s+%s\b" % (PUBLIC, kind, name))
        return self.with_comments(place), self.end(place)

    def impls(self, header):
        return self.all(r"^impl(?:<[^{]*?>)?\s+%s\s*\{" % re.escape(header))

    def impl(self, header):
        (place,) = self.impls(header)
        return self.with_comments(place), self.end(place)

    def method(self, owner, name):
        pattern = r"^    %s(?:const\s+)?fn\s+%s\b" % (PUBLIC, name)
        (place,) = [at for block in self.impls(owner) for at in self.all(pattern, block, self.end(block))]
        return self.with_comments(place), self.end(place)

    def arm(self, owner, name, pattern):
        place = self.one(re.escape(pattern) + r"\s*=>\s*\{", *self.method(owner, name))
        brace = self.code.index("{", place)
        return self.line_end(brace), self.text.rfind("\n", 0, self.closed(brace)) + 1

    def span(self, function, first, last):
        whole = self.item("fn", function)
        starts = [self.one(r"^[ \t]*" + re.escape(words), *whole) for words in (first, last)]
        return starts[0], self.end(starts[1])

    def cut(self, order):
        """First place and end of what a template's line names."""
        verb, _, rest = order.partition(" ")
        if verb == "item":
            return self.item(*rest.split())
        if verb == "impl":
            return self.impl(rest)
        if verb == "method":
            return self.method(*rest.split("::"))
        if verb == "arm":
            method, _, pattern = rest.partition(" ")
            return self.arm(*method.split("::"), pattern)
        if verb == "span":
            return self.span(*[words.strip() for words in rest.split("|")])
        sys.exit("extract.py: a template has //@%s" % order)

    def lines(self, first, end):
        return self.text.count("\n", 0, first) + 1, self.text.count("\n", 0, end)


def generated(name, template, source):
    parts, count = [], 0
    for line in template:
        if line.startswith("//@"):
            first, end = source.cut(line[3:].strip())
            parts += ["// ---- lines %d to %d of %s.rs\n" % (*source.lines(first, end), name)]
            parts += [source.text[first:end], "// ---- end\n"]
            count += 1
        else:
            parts.append(line)
    return "".join(parts), count


def main():
    texts = sources.read(sys.argv[1:])
    os.makedirs(sources.GENERATED, exist_ok=True)
    total = 0
    for name, text in texts.items():
        with open(os.path.join(sources.HERE, "templates", name + ".rs.in"), encoding="utf-8") as template:
            result, count = generated(name, template, Source(text))
        with open(os.path.join(sources.GENERATED, name + ".rs"), "w", encoding="utf-8") as file:
            file.write(result)
        total += count
    print("%d pieces cut out" % total)


if __name__ == "__main__":
    main()
