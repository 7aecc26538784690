#!/usr/bin/env python3
"""Checks what extract.py wrote.

    verify.py FOLDER

FOLDER has the files that sources.txt names. What stands between the marks of src/oracle/gen/NAME.rs is, byte for byte,
the lines of the Rust's file that the marks name; all else is the template's.
"""
import os, re, sys
import sources

MARKED = re.compile(r"^// ---- lines (\d+) to (\d+) of \w+\.rs\n(.*?)^// ---- end\n", re.M | re.S)
ORDER = re.compile(r"^//@.*\n", re.M)


def text_of(*path):
    with open(os.path.join(*path), encoding="utf-8") as file:
        return file.read()


def main():
    total = 0
    for name, text in sources.read(sys.argv[1:]).items():
        lines = text.splitlines(keepends=True)
        generated = text_of(sources.GENERATED, name + ".rs")
        for first, last, piece in MARKED.findall(generated):
            if piece != "".join(lines[int(first) - 1 : int(last)]):
                sys.exit("verify.py: lines %s to %s of %s.rs differ" % (first, last, name))
            total += 1
        if MARKED.sub("//@\n", generated) != ORDER.sub("//@\n", text_of(sources.HERE, "templates", name + ".rs.in")):
            sys.exit("verify.py: the rest of %s.rs is not the template's" % name)
    print("%d pieces are the Rust's, unchanged" % total)


if __name__ == "__main__":
    main()
