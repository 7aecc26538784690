"""The declarations of `_library` are those of include/redstartgilt.h, and the words of refusals are those of the Rust."""

import ctypes
import re
import unittest
from pathlib import Path

import redstartgilt
from redstartgilt import REQUEST_FILE_HEADER, Refused, _library, errors

TOP = Path(__file__).resolve().parents[3]
C_TYPES = {
    ctypes.c_uint32: "uint32_t",
    ctypes.c_size_t: "size_t",
    ctypes.c_double: "double",
    ctypes.c_int64: "int64_t",
}
ITEMS = {"I": "uint32_t", "d": "double", "q": "int64_t", "B": "uint8_t"}
REPLIES = {
    _library.Selected: "selected",
    _library.Entry: "entry",
    _library.WholeEntry: "whole_entry",
    _library.VarianceBoundsReply: "variance_bounds",
    _library.CountedEntry: "counted_entry",
    _library.Pairs: "pairs",
    _library.Floored: "floored",
    _library.RequestsRead: "requests",
    _library.BytesWritten: "bytes",
    _library.Least: "least",
}


def header():
    """The header without comments, in single spaces."""
    text = (TOP / "include" / "redstartgilt.h").read_text()
    return " ".join(re.sub(r"/\*.*?\*/", " ", text, flags=re.DOTALL).split())


def declared(name, function):
    """A function as the header declares it."""
    parameters = []
    for parameter in function.parameters:
        if parameter.is_list:
            constant = "" if parameter.writing else "const "
            parameters.append(f"{constant}{ITEMS[parameter.kind]} *{parameter.name}")
            parameters.append(f"size_t {parameter.name}_len")
        else:
            parameters.append(f"{'double' if parameter.kind == 'float' else 'size_t'} {parameter.name}")
    reply = C_TYPES.get(function.reply) or f"redstartgilt_{REPLIES[function.reply]}"
    return f"{reply} redstartgilt_{name}({', '.join(parameters)});"


class Header(unittest.TestCase):
    def test_every_function_is_declared_alike(self):
        text = header().replace("( ", "(")
        for name, function in _library.FUNCTIONS.items():
            self.assertIn(declared(name, function), text)
        found = set(re.findall(r" redstartgilt_(\w+)\((?:size_t|const|uint32_t) ", text))
        inline = set(re.findall(r"static inline [^(]* \*?redstartgilt_(\w+)\(", text))
        self.assertEqual(found - inline, set(_library.FUNCTIONS))

    def test_every_reply_is_declared_alike(self):
        for reply, name in REPLIES.items():
            fields = " ".join(f"{C_TYPES[kind]} {field};" for field, kind in reply._fields_)
            self.assertIn(f"typedef struct {{ {fields} }} redstartgilt_{name};", header())

    def test_every_number_has_words(self):
        numbers = dict(re.findall(r"REDSTARTGILT_(\w+) = (\d+)", header()))
        numbers.pop("ACCEPTED")
        numbers.pop("COMPLETE")
        self.assertEqual(numbers.pop("CLOSURE_TOO_LARGE"), "1")
        self.assertEqual({int(number) for number in numbers.values()}, set(errors.REASONS))

    def test_words_are_those_of_the_rust(self):
        text = (TOP / "bindings" / "rust" / "src" / "error.rs").read_text()
        reasons = text[text.index("pub const fn reason") :]
        reasons = reasons[: reasons.index("pub(crate) fn check")]
        found = re.findall(r'Error::(\w+)(?:\(_\))? => (?:\{\s*)?"((?:[^"\\]|\\\s)*)"', reasons)
        words = {name: re.sub(r"\\\s+", "", reason) for name, reason in found}
        numbers = dict(re.findall(r"Error::(\w+)(?:\(_\))? => sys::REDSTARTGILT_(\w+)", text))
        by_name = dict(re.findall(r"REDSTARTGILT_(\w+) = (\d+)", header()))
        self.assertEqual(len(words), len(errors.REASONS))
        for name, reason in words.items():
            self.assertEqual(errors.REASONS[int(by_name[numbers[name]])], reason, name)

    def test_a_refusal_is_a_value_error_with_its_number(self):
        refused = Refused(3)
        self.assertIsInstance(refused, ValueError)
        self.assertEqual(refused.number, 3)
        self.assertTrue(str(refused).startswith("refusal 3: broken rows"))

    def test_versions_are_one(self):
        for file in ("python/pyproject.toml", "rust/Cargo.toml"):
            text = (TOP / "bindings" / file).read_text()
            version = re.search(r'^version = "(.*)"$', text, re.MULTILINE).group(1)
            self.assertEqual(version, redstartgilt.__version__, file)

    def test_the_header_of_request_files(self):
        self.assertIn(REQUEST_FILE_HEADER, (TOP / "include" / "redstartgilt.h").read_text())


if __name__ == "__main__":
    unittest.main()
