"""Tests of tools/build, with a stand-in for the kit."""
import importlib.machinery
import importlib.util
import shutil
import sys
from pathlib import Path
from types import ModuleType
from typing import Callable, Iterator

import pytest

from tests.helpers import TOP, run

BUILD = TOP / "tools" / "build"
pytestmark = pytest.mark.skipif(not BUILD.exists(), reason="no checkout")
KIT = "rattle-kit-13f logic dac8208d650f15bf"
# What the stand-in does: it proves two of three crates, and makes programs.
RT = """#!/bin/sh
echo "$* ${RT_JOBS:--}" >> "$ROOM/asked"
case $1 in
    version) echo "$KIT" ;;
    ci)
        cat "$ROOM/proofs"
        for name in cubetree cubefold; do
            mkdir -p "crates/$name/out"
            printf '#!/bin/sh\\n' > "crates/$name/out/$name"
            chmod 755 "crates/$name/out/$name"
        done
        exit "$(cat "$ROOM/status")" ;;
    try) cat; echo 'run=ended status=0 runners=1 proved=no' ;;
esac
"""


@pytest.fixture
def top(tmp_path: Path, monkeypatch: pytest.MonkeyPatch) -> Iterator[Path]:
    """A checkout with three crates, and a kit on the PATH."""
    top = tmp_path / "top"
    for name in ("low", "cubefold", "cubetree"):
        (top / "crates" / name / "src").mkdir(parents=True)
        (top / "crates" / name / "src" / "lib.rt").write_text("x" * 1000)
    (top / "crates.txt").write_text("# a heading\nlow:\ncubefold: low\ncubetree: low\n")
    (top / "tools").mkdir()
    shutil.copy(BUILD, top / "tools")
    (top / "tools" / "make-deb").write_text("#!/bin/sh\necho $1/cubetree.deb\n")
    (top / "examples").mkdir()
    (top / "examples" / "monday").write_text("#!/bin/sh\necho a first answer\n")
    (top / "examples" / "by-part-and-year.script").write_text("status\n")
    (tmp_path / "bin").mkdir()
    (tmp_path / "bin" / "rt").write_text(RT)
    for path in ("top/tools/make-deb", "top/examples/monday", "bin/rt"):
        (tmp_path / path).chmod(0o755)
    (tmp_path / "proofs").write_text("fn low::f: proved\nrt: low proved\nrt: cubetree proved\n")
    (tmp_path / "status").write_text("0")
    monkeypatch.setenv("PATH", f"{tmp_path / 'bin'}:/usr/bin:/bin")
    monkeypatch.setenv("ROOM", str(tmp_path))
    monkeypatch.setenv("KIT", KIT)
    yield top


def build(top: Path, *words: str, status: int = 0) -> "tuple[str, str]":
    """What a build prints."""
    return run(sys.executable, str(top / "tools" / "build"), *words, status=status)


def test_build(top: Path) -> None:
    """A build names each crate with how many there are, and ends with a first answer."""
    printed = build(top, "--jobs", "2")[0].splitlines()
    assert printed[0].startswith("Proving 3 crates on 2 processors; the whole output goes to ")
    assert [line.split() for line in printed[1:3]] == [
        ["1", "of", "3", "low"],
        ["2", "of", "3", "cubetree"],
    ]
    assert printed[3] == "Built in 0 minutes. A first answer:"
    assert "a first answer" in printed
    asked = (top.parent / "asked").read_text().splitlines()
    assert asked == ["version -", "ci 2"]
    assert "fn low::f: proved" in (top / "out" / "build.log").read_text()
    if shutil.which("dpkg-deb"):
        assert printed[-1] == f"To install it: sudo apt install {top}/cubetree.deb"


def test_look(top: Path) -> None:
    """A first look proves nothing, and says so."""
    printed = build(top, "--look")[0]
    assert "unproved" in printed and "proved=no" in printed
    assert not (top / "out").exists()


def test_no_kit(top: Path, monkeypatch: pytest.MonkeyPatch) -> None:
    """A machine without the kit, or with another one, is told so, and nothing is made."""
    monkeypatch.setenv("KIT", "rattle-kit-14 logic 0000000000000000")
    said = build(top, status=1)[1]
    assert said.startswith("build: the kit is rattle-kit-14 logic 0000000000000000, and the proofs")
    monkeypatch.setenv("PATH", "/usr/bin:/bin")
    assert build(top, status=1)[1].startswith("build: no `rt` on the PATH: a build needs the ")
    assert build(top, "--look", status=1)[1].startswith("build: no `rt` on the PATH")
    assert not (top / "out").exists()
    assert "--jobs is at least 1" in build(top, "--jobs", "0", status=2)[1]


def test_failed_proof(top: Path) -> None:
    """A proof that fails ends the build with the place of the whole output."""
    (top.parent / "status").write_text("3")
    said = build(top, status=1)[1]
    log = top / "out" / "build.log"
    assert said == f"build: `rt ci` failed with status 3: see {log}\n"


def test_no_program(top: Path) -> None:
    """A run of the kit that makes no program is a failure."""
    rt = top.parent / "bin" / "rt"
    rt.write_text(RT.replace("    ci)\n", "    ci) exit 0 ;;\n    never)\n"))
    said = build(top, status=1)[1]
    assert said.startswith("build: `rt ci` made no program cubetree: see ")


@pytest.fixture
def module() -> ModuleType:
    """tools/build as a module, which does not run."""
    loader = importlib.machinery.SourceFileLoader("build", str(BUILD))
    spec = importlib.util.spec_from_loader("build", loader)
    assert spec
    made = importlib.util.module_from_spec(spec)
    code = BUILD.read_text().replace("\nsys.exit(main())\n", "\n")
    exec(
        compile(code, str(BUILD), "exec"), {**made.__dict__, "__file__": str(BUILD)}, made.__dict__
    )
    made.expect_room.__globals__.update(made.__dict__)
    return made


@pytest.mark.parametrize(
    "limit, wanted",
    [("MEMORY", "GiB of memory, and a build needs"), ("DISK", "GiB of disk are free")],
)
def test_no_room(
    module: ModuleType, limit: str, wanted: str, capsys: pytest.CaptureFixture[str]
) -> None:
    """Too little memory or disk is named."""
    module.expect_room.__globals__[limit] = 1 << 40
    with pytest.raises(SystemExit):
        module.expect_room()
    assert wanted in capsys.readouterr().err


def test_time_that_is_left(module: ModuleType) -> None:
    """Half of the work in ten minutes leaves ten; nothing is said before there is a measure."""
    left: Callable[[float, int, int], str] = module.left_of
    assert left(600, 50, 100) == ", about 10 min left"
    assert left(600, 99, 100) == ", less than a minute left"
    assert left(10, 50, 100) == left(600, 0, 100) == ""
