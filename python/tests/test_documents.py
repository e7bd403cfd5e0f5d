"""Tests of the man pages, the types, the tour and the Debian package."""
import glob
import os
import re
import shutil
import subprocess
import sys
import unittest
import zipfile
from pathlib import Path
from unittest import mock

import pytest

from cubetree.cli.main import COMMANDS, FORMER
from cubetree.cli.tour import wrong_steps
from cubetree.process import TOP, program
from cubetree.version import __version__
from tests.helpers import CUBE, Case, run

TOOLS = os.path.join(TOP, "tools")
TYPED = (
    "tools/build",
    "tools/make-man",
    "tools/make-completion",
    "fuzz/all",
)  # scripts whose types are checked too
SHARED = Path("/usr/share/doc/cubetree/docs")


class Documents(Case):
    def test_man_page_has_each_refusal_and_status(self):
        with open(os.path.join(TOP, "docs", "cubetree.1"), encoding="utf-8") as page:
            lines = [re.sub(r"^\.[A-Z]+ ", "", line) for line in page]
        text = " ".join(re.sub(r"\\f.|[\"]", "", "".join(lines)).split())
        with open(os.path.join(TOP, "docs", "SCRIPT.md"), encoding="utf-8") as script:
            rows = [
                line
                for line in script
                if line.startswith("| `refused") or re.match(r"\| \d ", line)
            ]
        replies = [
            reply for row in rows for reply in re.findall(r"`(refused [^`]+)`", row.split(" | ")[0])
        ]
        self.assertGreater(len(replies), 25)
        for reply in replies:
            self.assertIn(reply, text)
        for status in re.findall(r"^\| (\d) ", "".join(rows), re.M):
            self.assertRegex("".join(lines), rf"\n{status}\n")

    @unittest.skipUnless(shutil.which("man"), "no man")
    def test_man_pages_are_well_formed(self):
        for page in glob.glob(os.path.join(TOP, "docs", "*.1")):
            self.assertEqual(run("man", "--warnings", "-l", page)[1], "")

    def test_man_pages_are_those_of_the_parsers(self):
        run(os.path.join(TOOLS, "make-man"), self.room)
        for name in ["cube", *(f"cube-{command}" for command in COMMANDS)]:
            written = Path(TOP, "docs", f"{name}.1").read_text(encoding="utf-8")
            self.assertEqual(Path(self.room, f"{name}.1").read_text(encoding="utf-8"), written)

    @unittest.skipUnless(shutil.which("mypy"), "no mypy")
    def test_types(self):
        cache = ["--cache-dir", os.path.join(self.room, "cache")]
        for words in (["-p", "cubetree"], ["python/backend.py"], *([tool] for tool in TYPED)):
            run("mypy", *cache, *words, cwd=TOP)

    def test_tour(self):
        self.assertEqual(run(CUBE, "tour"), ("", ""))

    def test_readme(self):
        """The console blocks of README print what they say."""
        text = Path(TOP, "README.md").read_text(encoding="utf-8")
        os.makedirs("bin")
        os.makedirs("tour")
        os.symlink(program(), "bin/cubetree")
        with mock.patch.object(sys, "argv", [CUBE]):
            self.assertEqual(list(wrong_steps(text, self.room)), [])

    def test_monday(self):
        """The example that ends a build. Its sums are 5 + 4 and 7 - 2, and its means 0.35 of two
        equal prices and 0.11 of 0.10 and 0.12."""
        printed = run(os.path.join(TOP, "examples", "monday"))[0].splitlines()
        self.assertEqual(
            printed[-3:], ["bolt         9    0.350000", "nut          5    0.110000", "(2 rows)"]
        )

    @unittest.skipUnless(shutil.which("dpkg-deb"), "no dpkg-deb")
    def test_package(self):
        """What a package has, and that it works unpacked."""
        run(os.path.join(TOOLS, "make-deb"), self.room)
        package = [name for name in os.listdir(".") if name.endswith(".deb")][0]
        run("dpkg-deb", "-x", package, "root")
        links = {f"cubetree-{former}" for former in FORMER}
        self.assertEqual(set(os.listdir("root/usr/bin")), {"cube", "cubefold", "cubetree"} | links)
        pages = {f"cube-{command}" for command in COMMANDS} | {"cube", "cubefold", "cubetree"}
        manual = {name.removesuffix(".1.gz") for name in os.listdir("root/usr/share/man/man1")}
        self.assertEqual(manual, pages | links)
        clean = {
            "PATH": os.path.join(self.room, "root/usr/bin") + ":/usr/bin:/bin",
            "PYTHONPATH": os.path.join(self.room, "root/usr/lib/python3/dist-packages"),
            "HOME": self.room,
        }
        for name in ["cube", *sorted(links)]:
            self.assertIn("usage: cube", run(name, "--help", env=clean)[0])
            wanted = rf"cube {__version__}; the program is .*/root/usr/bin/cubetree"
            self.assertRegex(run(name, "--version", env=clean)[0], wanted)
        done = subprocess.run(["cube", "tour"], env=clean, capture_output=True, check=False)
        there = b"this installation has no documents" if not SHARED.is_dir() else b""
        self.assertIn(there, done.stderr)


MAN_PAGES = sorted(glob.glob(os.path.join(TOP, "docs", "*.1")))
LONGEST_ARGUMENT = 30  # characters, such as those of ` NAME ATTR FILE`


@pytest.mark.parametrize("page", MAN_PAGES, ids=os.path.basename)
def test_macros_begin_lines(page: str) -> None:
    """A macro elsewhere is printed as it stands."""
    lines = Path(page).read_text(encoding="utf-8").splitlines()
    assert [line for line in lines if re.search(r"\S.* \.[A-Z]{1,2} ", line)] == []


@pytest.mark.parametrize("page", MAN_PAGES, ids=os.path.basename)
def test_arguments_in_italics_are_short(page: str) -> None:
    """A long one has the text that should follow it."""
    text = Path(page).read_text(encoding="utf-8")
    italics = re.findall(r"\\fI(.*?)(?:\\f[BRP]|$)", text, re.MULTILINE)
    assert [each for each in italics if len(each) > LONGEST_ARGUMENT] == []


def python_files() -> "list[str]":
    """All files of Python in the repository, also scripts without an ending."""
    found = []
    for folder in ("bin", "python", "tools", "bench", "fuzz"):
        for path in Path(TOP, folder).rglob("*"):
            if path.is_file() and not path.is_symlink() and path.suffix in ("", ".py"):
                with open(path, "rb") as file:
                    if path.suffix == ".py" or b"python" in file.readline():
                        found.append(str(path))
    return sorted(found)


def test_lines_are_short() -> None:
    """No line of Python has more than 100 columns."""
    long = []
    for path in python_files():
        for number, line in enumerate(Path(path).read_text(encoding="utf-8").splitlines(), 1):
            if len(line) > 100:
                long.append(f"{path}:{number}")
    assert long == []


@pytest.mark.skipif(shutil.which("ruff") is None, reason="no ruff")
def test_ruff() -> None:
    """The settings are those of pyproject.toml."""
    run("ruff", "check", *python_files(), cwd=TOP)


def test_completion() -> None:
    """Commands, options and actions are completed; the script is what the parsers say."""
    script = subprocess.run(
        [os.path.join(TOOLS, "make-completion")], capture_output=True, check=True, text=True
    ).stdout
    for words, wanted in (
        ("a", "ask audit"),
        ("ask --s", "--sort"),
        ("shards st", "status"),
        ("load --de", "--decimals --delimiter"),
    ):
        place = len(words.split())
        asked = f"COMP_WORDS=(cube {words}); COMP_CWORD={place}; _cube; echo ${{COMPREPLY[@]}}"
        done = subprocess.run(
            ["bash", "-c", f"{script}\n{asked}"], capture_output=True, check=True, text=True
        )
        assert sorted(done.stdout.split()) == wanted.split(), words


def test_wheel(tmp_path: Path) -> None:
    """A wheel has all modules, each with its sum, and the command."""
    sys.path.insert(0, os.path.join(TOP, "python"))
    import backend

    name = backend.build_wheel(str(tmp_path))
    assert name == f"cubetree-{__version__}-py3-none-any.whl"
    with zipfile.ZipFile(tmp_path / name) as wheel:
        names = set(wheel.namelist())
        info = f"cubetree-{__version__}.dist-info"
        for line in wheel.read(f"{info}/RECORD").decode().splitlines():
            path, digest, size = line.rsplit(",", 2)
            content = wheel.read(path)
            assert path.endswith("RECORD") or int(size) == len(content)
            assert path.endswith("RECORD") or digest == backend.sum_of(content)
            names.remove(path)
        assert names == set()
        assert b"cube = cubetree.cli.main:main" in wheel.read(f"{info}/entry_points.txt")
        assert "cubetree/cli/ask.py" in wheel.namelist()
