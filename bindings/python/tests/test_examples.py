"""The examples of the docstrings and of README.md run as they stand."""

import doctest
import importlib.util
import os
import pkgutil
import re
import tempfile
import unittest
from pathlib import Path

import redstartgilt

HERE = Path(__file__).resolve().parent.parent


def load_tests(loader, tests, pattern):
    for module in pkgutil.iter_modules(redstartgilt.__path__):
        if module.name != "benchmark":
            tests.addTests(doctest.DocTestSuite(importlib.import_module(f"redstartgilt.{module.name}")))
    tests.addTests(doctest.DocTestSuite(redstartgilt))
    return tests


class Documents(unittest.TestCase):
    def test_every_public_name_has_a_docstring(self):
        for name in redstartgilt.__all__:
            thing = getattr(redstartgilt, name)
            if isinstance(thing, type) or callable(thing):
                self.assertTrue(thing.__doc__, name)
            for attribute, value in vars(thing).items() if isinstance(thing, type) else ():
                if not attribute.startswith("_") and callable(getattr(value, "__func__", value)):
                    self.assertTrue(value.__doc__, f"{name}.{attribute}")

    def test_readme_examples(self):
        blocks = re.findall(r"```python\n(.*?)```", (HERE / "README.md").read_text(), re.DOTALL)
        self.assertEqual(len(blocks), 3)
        for block in blocks:
            with self.subTest(block=block.split("\n")[0]):
                for name in re.findall(r"^(?:from|import) (numpy|scipy|matplotlib)", block, re.MULTILINE):
                    if importlib.util.find_spec(name) is None:
                        self.skipTest(f"{name} is not installed")
                with tempfile.TemporaryDirectory() as folder:
                    os.environ["MPLBACKEND"] = "Agg"
                    block = block.replace('"variances.png"', repr(str(Path(folder) / "variances.png")))
                    exec(compile(block, "README.md", "exec"), {})


if __name__ == "__main__":
    unittest.main()
