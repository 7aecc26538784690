"""The cases of program `replay` as texts, and its answers; replay/README.md has the form."""

from array import array
from pathlib import Path

FOLDER = Path(__file__).resolve().parents[3] / "crates" / "replay"

WHOLES = {"wvalues", "lwvalues", "lwork", "lows", "highs", "lwout"}
VALUES = {"values", "pivots", "oweights", "aweights", "bweights", "input", "lvalues", "lout"}
BYTES = {"file", "lfile"}
MARKS = {"marks", "lmarks"}

ITEM_BYTES = {"I": 4, "d": 8, "q": 8, "B": 1}


def _hexadecimal(words):
    """Values by their bits."""
    values = array("Q", [int(word, 16) for word in words])
    return array("d", values.tobytes())


class Case:
    def __init__(self, lines):
        self.head = lines[0]
        self.kind = lines[0].split()[2]
        self.fields = {}
        for line in lines[1:-1]:
            name, *words = line.split()
            self.fields[name] = words

    def __contains__(self, name):
        return name in self.fields

    def word(self, name):
        return self.fields[name][0]

    def number(self, name):
        return int(self.word(name))

    def value(self, name):
        return _hexadecimal(self.fields[name])[0]

    def list(self, name):
        words = self.fields[name]
        assert int(words[0]) == len(words) - 1, name
        if name in VALUES:
            return _hexadecimal(words[1:])
        if name in BYTES:
            return array("B", [int(word, 16) for word in words[1:]])
        kind = "q" if name in WHOLES else "B" if name in MARKS else "I"
        return array(kind, [int(word) for word in words[1:]])

    def lent(self, name, kind, length):
        """A list lent for writing, or one of 7777s; of bytes one of 77s."""
        if name in self:
            return self.list(name)
        filler = 0x77 if name == "lfile" else 77 if kind == "B" else 7777
        return array(kind, [filler]) * length


def cases(name):
    """The lines of each case, from `case` to `end`."""
    found = []
    for line in (FOLDER / name).read_text().split("\n"):
        if line.startswith("case "):
            found.append([])
        if line:
            found[-1].append(line)
    assert all(lines[-1] == "end" for lines in found)
    return found


def shown(value):
    return "nan" if value != value else array("d", [value]).tobytes()[::-1].hex()


def _run(data, place, step):
    """How many items from a place on are equal, by comparing ever longer parts."""
    end = place + step
    while end < len(data):
        size = min(end - place, len(data) - end)
        if data[end : end + size] != data[place : place + size]:
            # The part is halved until one item is left.
            while size > step:
                size = size // step // 2 * step
                if data[end : end + size] == data[place : place + size]:
                    end += size
            if data[end : end + step] != data[place : place + step]:
                return end - place
            end += step
        else:
            end += size
    return end - place


def listed(name, items):
    """A list after a call: an item that stands k times in a row is written once; zeros and NaNs of values are not."""
    kind = items.typecode
    step = ITEM_BYTES[kind]
    data = items.tobytes()
    words = [name, str(len(items))]
    place = 0
    while place < len(data):
        item = items[place // step]
        single = kind == "d" and (item == 0 or item != item)
        size = step if single else _run(data, place, step)
        text = shown(item) if kind == "d" else f"{item:02x}" if name == "file" else str(item)
        words.append(text if size == step else f"{text}*{size // step}")
        place += size
    return " ".join(words)
