"""The package against its sources: `dating.h`, `src/refusal.rs`, and the library."""

from __future__ import annotations

import ctypes
import os
import re
import shutil
import subprocess
import sys
import tempfile
import unittest
from pathlib import Path

import dating
from dating import Cause, Refusal, calls

HOST = Path(__file__).resolve().parents[1]
PACKAGE = Path(dating.__file__).resolve().parent

# The types of a tie in the header as ctypes has them.
TYPES = {"uint16_t": ctypes.c_uint16, "int32_t": ctypes.c_int32}


def declared() -> set[str]:
    """The names of the calls."""
    return {name for name, call in vars(calls).items() if isinstance(call, calls.Call)}


class Declarations(unittest.TestCase):
    def test_written(self) -> None:
        """Nothing is left to write, and a source, or a file, that is another is seen."""
        with tempfile.TemporaryDirectory() as folder:
            copy = Path(folder)
            shutil.copytree(HOST.parent / "crates/host/src", copy / "crates/host/src")
            files = [Path("dating.h"), Path("src/calls.rs"), Path("python/dating/calls.py")]
            for path in [Path("declarations"), *files]:
                (copy / "host" / path).parent.mkdir(parents=True, exist_ok=True)
                shutil.copy(HOST / path, copy / "host" / path)

            def status(*arguments: str) -> int:
                return subprocess.run([sys.executable, copy / "host/declarations", *arguments], capture_output=True).returncode

            def texts() -> list[str]:
                return [(copy / "host" / path).read_text() for path in files]

            self.assertEqual(status("--check"), 0)
            before = texts()
            source = copy / "crates/host/src/edits.rt"
            kept = source.read_text()
            for old, new in [("n: u16", "n: u32"), ("dating_undo", "dating_undone"), (") -> u32", ") -> u64")]:
                with self.subTest(new):
                    source.write_text(kept.replace(old, new))
                    self.assertEqual((status("--check"), texts()), (1, before))
                    self.assertEqual((status(), status("--check")), (0, 0))
                    self.assertTrue(all(text != other for text, other in zip(texts(), before)))
                    for path, text in zip(files, before):
                        (copy / "host" / path).write_text(text)
            source.write_text(kept)
            others = [("uint8_t label", "uint16_t label"), ("label: u8", "label: u16"), ("c_uint32), c_uint8)", "c_uint32), c_uint16)")]
            for path, text, (old, new) in zip(files, before, others):
                with self.subTest(path):
                    (copy / "host" / path).write_text(text.replace(old, new))
                    self.assertEqual(status("--check"), 1)
                    self.assertEqual((status(), texts()), (0, before))

    def test_reached(self) -> None:
        """Every call is made by the package, beside the module that declares it."""
        texts = [path.read_text() for path in PACKAGE.glob("*.py") if path.name != "calls.py"]
        made = {name for text in texts for name in re.findall(r"\bcalls\.(\w+)", text)}
        # A list of edits makes the single ones.
        by_others = {"add", "remove", "lock", "unlock", "withdraw", "reinstate"}
        self.assertEqual(declared() - made, by_others)

    def test_constants(self) -> None:
        header = dict(re.findall(r"#define DATING_(\w+) (.+)", (HOST / "dating.h").read_text()))
        self.assertGreaterEqual(len(header), 7)
        for name, value in header.items():
            power = re.fullmatch(r"\(UINT64_C\(1\) << (\d+)\)", value)
            self.assertEqual(getattr(calls, name), 1 << int(power[1]) if power else int(value), name)

    def test_tie(self) -> None:
        """The fields of the header, which lie as C lays them."""
        body = re.search(r"struct dating_tie \{(.*?)\};", (HOST / "dating.h").read_text(), flags=re.S)[1]
        fields = [(name, TYPES[of]) for of, names in re.findall(r"(\w+) ([^;]+);", body) for name in names.split(", ")]
        self.assertEqual(calls.LentTie._fields_, fields)
        self.assertEqual(([getattr(calls.LentTie, name).offset for name, _ in fields], ctypes.sizeof(calls.LentTie)), ([0, 2, 4, 8], 12))

    def test_causes(self) -> None:
        """Names, numbers and words are those of the Rust crate."""
        source = (HOST / "src/refusal.rs").read_text()
        numbers = {name: int(number) for name, number in re.findall(r"^    (\w+) = (\d+),$", source, flags=re.M)}
        meanings = dict(re.findall(r'^    \(Refusal::(\w+), "(.*)"\),$', source, flags=re.M))
        self.assertGreaterEqual(len(numbers), 21)
        self.assertEqual(list(numbers), list(meanings))
        spelt = {name: re.sub(r"(?<!^)(?=[A-Z])", "_", name).upper() for name in numbers}
        self.assertEqual({cause.name: cause.value for cause in Cause}, {spelt[name]: number for name, number in numbers.items()})
        self.assertEqual({cause.name: cause.meaning for cause in Cause}, {spelt[name]: meaning for name, meaning in meanings.items()})
        for cause in Cause:
            self.assertEqual(str(Refusal(cause)), f"refused {cause.value}: {cause.meaning}")


class Library(unittest.TestCase):
    """Where the library is looked for."""

    def imported(self, library: str) -> str:
        """What importing the package with another library prints."""
        environment = {**os.environ, "DATING_LIBRARY": library}
        code = "import dating; print(dating.Register(3).size)"
        ran = subprocess.run([sys.executable, "-B", "-c", code], cwd=PACKAGE.parent, env=environment, capture_output=True, text=True)
        return ran.stdout.strip() or ran.stderr.strip().splitlines()[-1]

    def test_named(self) -> None:
        self.assertEqual(self.imported(calls._LIBRARY._name), "3")

    def test_missing(self) -> None:
        said = self.imported("/nowhere/libdating.so")
        self.assertRegex(said, r"^ImportError: /nowhere/libdating.so is missing: .*host/shared makes")

    def test_other_file(self) -> None:
        with tempfile.NamedTemporaryFile() as empty:
            self.assertRegex(self.imported(empty.name), r"^ImportError: .* is no shared library of this machine")

    def test_other_library(self) -> None:
        """The C library, which has none of the calls."""
        loaded = re.findall(r"/\S*/libc[.-]\S*", Path("/proc/self/maps").read_text())
        self.assertRegex(self.imported(loaded[0]), r"^ImportError: .* has no dating_fresh")

    def test_exports(self) -> None:
        """Nothing but the calls is exported."""
        listed = subprocess.run(["nm", "-D", "--defined-only", calls._LIBRARY._name], capture_output=True, text=True, check=True)
        names = {line.split()[-1].split("@")[0] for line in listed.stdout.splitlines()}
        self.assertEqual(names, {f"dating_{name}" for name in declared()})


if __name__ == "__main__":
    unittest.main()
