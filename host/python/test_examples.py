"""The examples in the docstrings, the one beside this file, and that every public name has a docstring and type hints."""

from __future__ import annotations

import doctest
import importlib
import inspect
import pkgutil
import subprocess
import sys
import unittest
from pathlib import Path

import dating

HERE = Path(__file__).resolve().parent
MODULES = [importlib.import_module(module.name) for module in pkgutil.walk_packages(dating.__path__, "dating.")]


class Examples(unittest.TestCase):
    def test_docstrings(self) -> None:
        ran = 0
        for module in [dating, *MODULES]:
            failed, tried = doctest.testmod(module)
            self.assertEqual(failed, 0, module.__name__)
            ran += tried
        self.assertGreater(ran, 80)

    def test_example(self) -> None:
        environment = {"DATING_LIBRARY": dating.calls._LIBRARY._name, "PYTHONDONTWRITEBYTECODE": "1"}
        ran = subprocess.run([sys.executable, HERE / "example.py"], env=environment, capture_output=True, text=True)
        self.assertEqual((ran.stderr, ran.stdout), ("", (HERE / "example.expected").read_text()))

    def test_documented(self) -> None:
        """Every public class, method and function says what it gives, and of what types."""
        seen = 0
        for name in dating.__all__:
            value = getattr(dating, name)
            if not (inspect.isclass(value) or inspect.isfunction(value)):
                continue
            members = {name: value} if inspect.isfunction(value) else {**vars(value), name: value}
            for member, of in members.items():
                if member.startswith("_") or not (inspect.isfunction(of) or inspect.isclass(of) or isinstance(of, (classmethod, property))):
                    continue
                self.assertTrue(inspect.getdoc(of), f"{name}.{member}")
                function = of.fget if isinstance(of, property) else of.__func__ if isinstance(of, classmethod) else of
                if inspect.isfunction(function):
                    given = [parameter for parameter in inspect.signature(function).parameters if parameter not in ("self", "cls")]
                    self.assertEqual(sorted(function.__annotations__), sorted([*given, "return"]), f"{name}.{member}")
                seen += 1
        self.assertGreater(seen, 50)


if __name__ == "__main__":
    unittest.main()
