"""A build backend (PEP 517 and PEP 660) that needs nothing but Python: a wheel of the package with the shared library inside.

The library is what DATING_LIBRARY names, or target/lib/libdating.so of the checkout; one that is missing is made by `host/shared`, and if that cannot be, the
error says which command makes it. A source distribution has the package and the library, so that a wheel can be made of it.
"""

from __future__ import annotations

import base64
import hashlib
import io
import os
import re
import subprocess
import sys
import sysconfig
import tarfile
import zipfile
from pathlib import Path
from typing import Any

HERE = Path(__file__).resolve().parent
NAME = "dating_register"
LIBRARY = "libdating.so"
# The time of every file in a wheel, so that the same sources give the same wheel.
_TIME = (2026, 1, 1, 0, 0, 0)


def _version() -> str:
    found = re.search(r'^__version__ = "(.+)"$', (HERE / "dating/__init__.py").read_text("utf-8"), re.M)
    assert found is not None
    return found[1]


def _library() -> Path:
    inside = HERE / "dating" / LIBRARY
    named = os.environ.get("DATING_LIBRARY")
    made = HERE.parents[1] / "target/lib" / LIBRARY
    path = Path(named) if named else inside if inside.is_file() else made
    shared = HERE.parent / "shared"
    if not path.is_file() and not named and shared.is_file():
        print(f"{path} is not there: {shared} makes it, which proves the engine and takes some minutes", file=sys.stderr, flush=True)
        subprocess.run([str(shared)], check=False)
    if not path.is_file():
        raise SystemExit(f"{path} is missing: {shared} makes it, and needs rt and gcc; DATING_LIBRARY names another file")
    return path


def _sources() -> list[Path]:
    """The files of the package, but for what is made of them."""
    found = (path for path in (HERE / "dating").rglob("*") if path.is_file() and "__pycache__" not in path.parts)
    return sorted(path for path in found if path.suffix in (".py", ".txt", ".typed", ".html", ".css", ".js"))


def _metadata() -> dict[str, str]:
    project = (HERE / "pyproject.toml").read_text("utf-8")
    said = dict(re.findall(r'^([a-z-]+) = "(.+)"$', project, re.M))
    about = ["Metadata-Version: 2.1", "Name: dating-register", f"Version: {_version()}", f"Summary: {said['description']}"]
    about.append(f"Requires-Python: {said['requires-python']}")
    tag = f"py3-none-{sysconfig.get_platform().replace('-', '_').replace('.', '_')}"
    wheel = ["Wheel-Version: 1.0", "Generator: backend.py", "Root-Is-Purelib: false", f"Tag: {tag}"]
    commands = ["[console_scripts]", f"dating-register = {said['dating-register']}"]
    return {name: "\n".join(lines) + "\n" for name, lines in (("METADATA", about), ("WHEEL", wheel), ("entry_points.txt", commands))}


def _info() -> str:
    return f"{NAME}-{_version()}.dist-info"


def _tag() -> str:
    return str(re.findall(r"^Tag: (.+)$", _metadata()["WHEEL"], re.M)[0])


class _Wheel:
    """A wheel that is being written: its files, and its list of them."""

    def __init__(self, path: Path) -> None:
        self.file = zipfile.ZipFile(path, "w", zipfile.ZIP_DEFLATED)
        self.record: list[str] = []

    def add(self, name: str, content: bytes, mode: int = 0o644) -> None:
        entry = zipfile.ZipInfo(name, _TIME)
        entry.external_attr = (0o100000 | mode) << 16
        entry.compress_type = zipfile.ZIP_DEFLATED
        self.file.writestr(entry, content)
        digest = base64.urlsafe_b64encode(hashlib.sha256(content).digest()).rstrip(b"=").decode()
        self.record.append(f"{name},sha256={digest},{len(content)}")

    def close(self) -> None:
        for name, text in _metadata().items():
            self.add(f"{_info()}/{name}", text.encode())
        listed = "\n".join([*self.record, f"{_info()}/RECORD,,"]) + "\n"
        self.file.writestr(zipfile.ZipInfo(f"{_info()}/RECORD", _TIME), listed)
        self.file.close()


def build_wheel(wheel_directory: str, config_settings: Any = None, metadata_directory: str | None = None) -> str:
    """The package, with the library inside."""
    library = _library()
    name = f"{NAME}-{_version()}-{_tag()}.whl"
    wheel = _Wheel(Path(wheel_directory) / name)
    for path in _sources():
        wheel.add(path.relative_to(HERE).as_posix(), path.read_bytes())
    wheel.add(f"dating/{LIBRARY}", library.read_bytes(), 0o755)
    wheel.close()
    return name


def build_editable(wheel_directory: str, config_settings: Any = None, metadata_directory: str | None = None) -> str:
    """The package where it stands; the library is that of the checkout."""
    _library()
    name = f"{NAME}-{_version()}-{_tag()}.whl"
    wheel = _Wheel(Path(wheel_directory) / name)
    wheel.add(f"{NAME}.pth", f"{HERE}\n".encode())
    wheel.close()
    return name


def build_sdist(sdist_directory: str, config_settings: Any = None) -> str:
    """The package and this backend, with the library inside."""
    front = f"{NAME}-{_version()}"
    name = f"{front}.tar.gz"
    with tarfile.open(Path(sdist_directory) / name, "w:gz", format=tarfile.PAX_FORMAT) as archive:
        for path in [HERE / "pyproject.toml", HERE / "backend.py", *_sources()]:
            archive.add(path, f"{front}/{path.relative_to(HERE).as_posix()}")
        archive.add(_library(), f"{front}/dating/{LIBRARY}")
        about = _metadata()["METADATA"].encode()
        entry = tarfile.TarInfo(f"{front}/PKG-INFO")
        entry.size = len(about)
        archive.addfile(entry, io.BytesIO(about))
    return name


def prepare_metadata_for_build_wheel(metadata_directory: str, config_settings: Any = None) -> str:
    """What pip asks before it builds."""
    folder = Path(metadata_directory) / _info()
    folder.mkdir()
    for name, text in _metadata().items():
        (folder / name).write_text(text, "utf-8")
    return _info()


prepare_metadata_for_build_editable = prepare_metadata_for_build_wheel


def get_requires_for_build_wheel(config_settings: Any = None) -> list[str]:
    """Nothing."""
    return []


get_requires_for_build_editable = get_requires_for_build_sdist = get_requires_for_build_wheel
