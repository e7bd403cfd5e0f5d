"""Makes wheels of the package `cubetree`, so that `pip install .` needs no other package (PEP 517,
PEP 660). A wheel is a zip file (PEP 427) whose record has a sum of each of its files."""
from __future__ import annotations

import base64
import hashlib
import io
import re
import tarfile
import zipfile
from pathlib import Path
from typing import Mapping, Optional

PYTHON = Path(__file__).resolve().parent
TOP = PYTHON.parent
ENTRIES = """[console_scripts]
cube = cubetree.cli.main:main

[sqlalchemy.dialects]
cubetree = cubetree.sqlalchemy.dialect:CubetreeDialect
"""
KINDS = (".py", ".html", ".css", ".js", ".svg")  # of files: modules, and what a page is made of
EPOCH = (1980, 1, 1, 0, 0, 0)
Settings = Optional[Mapping[str, object]]


def version() -> str:
    """The version of the package."""
    text = (PYTHON / "cubetree" / "version.py").read_text(encoding="utf-8")
    found = re.search(r'^__version__ = "(.*)"$', text, re.MULTILINE)
    assert found, "version.py says the version"
    return found[1]


def metadata() -> str:
    """What the wheel says of the package (PEP 566)."""
    return f"""Metadata-Version: 2.1
Name: cubetree
Version: {version()}
Summary: Counts, sums, minima and maxima of appended facts by group
License: Apache-2.0 OR MIT
Requires-Python: >=3.9
Classifier: Topic :: Database
Classifier: Typing :: Typed
Provides-Extra: pandas
Requires-Dist: pandas; extra == 'pandas'
Provides-Extra: shards
Requires-Dist: distributed; extra == 'shards'
Provides-Extra: sqlalchemy
Requires-Dist: sqlalchemy (>=1.4); extra == 'sqlalchemy'
Provides-Extra: test
Requires-Dist: pytest; extra == 'test'
Description-Content-Type: text/markdown

{(TOP / "README.md").read_text(encoding="utf-8")}"""


def sum_of(content: bytes) -> str:
    """The sum of a file, as a record has it."""
    digest = base64.urlsafe_b64encode(hashlib.sha256(content).digest())
    return "sha256=" + digest.rstrip(b"=").decode()


def modules() -> dict[str, bytes]:
    """The files of the package, by their names in a wheel."""
    found = sorted((PYTHON / "cubetree").rglob("*"))
    files = [path for path in found if path.suffix in KINDS or path.name == "py.typed"]
    return {path.relative_to(PYTHON).as_posix(): path.read_bytes() for path in files}


def write_wheel(folder: str, files: Mapping[str, bytes]) -> str:
    """Writes a wheel with these files into a folder; its name."""
    name = f"cubetree-{version()}"
    info = f"{name}.dist-info"
    wheel = "Wheel-Version: 1.0\nGenerator: cubetree\nRoot-Is-Purelib: true\nTag: py3-none-any\n"
    entries = dict(files)
    entries[f"{info}/METADATA"] = metadata().encode()
    entries[f"{info}/WHEEL"] = wheel.encode()
    entries[f"{info}/entry_points.txt"] = ENTRIES.encode()
    for license in ("LICENSE-APACHE", "LICENSE-MIT"):
        entries[f"{info}/{license}"] = (TOP / license).read_bytes()
    lines = [f"{path},{sum_of(content)},{len(content)}" for path, content in entries.items()]
    record = f"{info}/RECORD"
    entries[record] = "".join(f"{line}\n" for line in [*lines, f"{record},,"]).encode()
    file = f"{name}-py3-none-any.whl"
    with zipfile.ZipFile(Path(folder) / file, "w", zipfile.ZIP_DEFLATED) as archive:
        for path, content in entries.items():
            entry = zipfile.ZipInfo(path, EPOCH)
            entry.external_attr = 0o100644 << 16
            entry.compress_type = zipfile.ZIP_DEFLATED
            archive.writestr(entry, content)
    return file


def write_info(folder: str) -> None:
    """Writes what a package manager of a system keeps beside the package, by which Python finds its
    version and entries."""
    info = Path(folder) / f"cubetree-{version()}.dist-info"
    info.mkdir()
    (info / "METADATA").write_text(metadata(), encoding="utf-8")
    (info / "entry_points.txt").write_text(ENTRIES, encoding="utf-8")
    (info / "INSTALLER").write_text("dpkg\n", encoding="utf-8")


def build_wheel(folder: str, settings: Settings = None, metadata_folder: str | None = None) -> str:
    """Makes a wheel of the package."""
    return write_wheel(folder, modules())


def build_editable(
    folder: str, settings: Settings = None, metadata_folder: str | None = None
) -> str:
    """Makes a wheel that finds the package where it stands."""
    return write_wheel(folder, {"cubetree.pth": f"{PYTHON}\n".encode()})


def build_sdist(folder: str, settings: Settings = None) -> str:
    """Packs what the package is made of."""
    name = f"cubetree-{version()}"
    path_of_sdist = Path(folder) / f"{name}.tar.gz"
    with tarfile.open(path_of_sdist, "w:gz", format=tarfile.PAX_FORMAT) as archive:
        for path in ("pyproject.toml", "README.md", "LICENSE-APACHE", "LICENSE-MIT"):
            archive.add(TOP / path, f"{name}/{path}")
        for path in ("python/backend.py", *(f"python/{module}" for module in modules())):
            archive.add(TOP / path, f"{name}/{path}")
        info = tarfile.TarInfo(f"{name}/PKG-INFO")
        text = metadata().encode()
        info.size = len(text)
        archive.addfile(info, io.BytesIO(text))
    return f"{name}.tar.gz"
