"""Tests of what the commands of `cube` have in common: words, helps, statuses and ends."""
from __future__ import annotations

import argparse
import os
import re
import signal
import subprocess
from contextlib import suppress
from pathlib import Path
from typing import Callable, List, Tuple

import pytest

from cubetree.cli import main as entry
from cubetree.cli.command import Command, columns, delimiter, parser_of, whole
from cubetree.cli.main import COMMANDS, FORMER, command_of
from cubetree.errors import Busy, Doubtful, Ended, Fault, Full
from cubetree.process import program
from cubetree.status import MEANINGS, Status
from cubetree.version import __version__
from tests.helpers import CUBE, run, until

SCHEMA = "attr part text\nmeasure qty\nview part\nview\n"
FORMS = "--csv --json --markdown --sort --top"
OPTIONS = {
    "load": (
        "--folder --propose --script --yes --no-wait --schema --ask --sum --text --decimals"
        " --cents --dates --na --delimiter --no-header --names --skip-lines --row-names --fill"
        " --batch --number --from-row --go-on"
    ),
    "ask": f"--folder {FORMS} --cents --raw --level --explain --plot --picture --no-wait",
    "explore": "--folder --port --no-browser",
    "feed": "--folder --rows --bytes --every --spool --refused --report --no-wait",
    "refresh": "--folder --step --pause --no-wait",
    "audit": "--folder --quiet --no-wait",
    "undo": "--folder --yes --dry-run --no-wait",
    "copy": "--no-wait",
    "export": "--csv --no-wait",
    "shards": f"--shards --local --count --number --batch --delimiter {FORMS} --patience --no-wait",
    "tour": "",
}
NEEDED = {
    "load": ["f"],
    "refresh": ["f"],
    "copy": ["w", "new"],
    "export": ["w", "w.db"],
    "shards": ["ask", "--local", "w"],
}


@pytest.fixture(name="room", autouse=True)
def room_of(tmp_path: Path, monkeypatch: pytest.MonkeyPatch) -> Path:
    """A folder `w` with two facts, in the current folder."""
    monkeypatch.chdir(tmp_path)
    (tmp_path / "w").mkdir()
    rows = "load 1\na,1\nend\nload 2\nb,2\nend\n"
    run(program(), given=f"schema\n{SCHEMA}end\n{rows}".encode(), cwd="w")
    return tmp_path


def helped(name: str, width: int = 80) -> str:
    """The help of a command, or of `cube` where it has no name."""
    narrow = dict(os.environ, COLUMNS=str(width))
    printed, said = run(CUBE, *([name] if name else []), "-h", env=narrow)
    assert said == ""
    return printed


# ---- helps


def test_commands() -> None:
    """`cube` alone prints its commands, as its help does, and names the words that are missing by
    its status."""
    printed, said = run(CUBE, status=2)
    assert printed == "" and said == helped("")
    names = re.findall(r"^  ([a-z]+)  +[a-z]", said.partition("Commands:")[2], re.MULTILINE)
    assert names == list(OPTIONS) == list(COMMANDS)


@pytest.mark.parametrize("name", COMMANDS)
def test_help(name: str) -> None:
    """The help of a command names its options, and what its exit statuses mean."""
    text = helped(name)
    assert text.startswith(f"usage: cube {name}")
    named = re.findall(r"^  (?:-h, )?(--[a-z-]+)", text, re.MULTILINE)
    assert named == ["--help"] + sorted(OPTIONS[name].split(), key=named.index)
    parser = parser_of(name, command_of(name))
    known = {option for action in parser._actions for option in action.option_strings}
    assert known - {"-h", "--help", "--in", "--into"} == set(OPTIONS[name].split())
    statuses = command_of(name).statuses
    lines = [f"  {status.value:2}  {MEANINGS[status]}" for status in statuses]
    assert text.endswith("Exit status:\n\n" + "\n".join(lines) + "\n")
    assert list(statuses[:3]) == [Status.DONE, Status.FAILED, Status.WORDS]
    assert (Status.BUSY in statuses) == ("--no-wait" in named)
    assert run(CUBE, name, "--help") == (text, "")


def test_meanings() -> None:
    """Each status has a meaning on one line, and some command that ends with it."""
    assert list(MEANINGS) == list(Status)
    assert [status.value for status in Status] == list(range(13))
    assert all(words and "\n" not in words for words in MEANINGS.values())
    used = {status for name in COMMANDS for status in command_of(name).statuses}
    assert used == set(Status)


@pytest.mark.parametrize("width", [100, 80, 60])
def test_width(width: int) -> None:
    """No line of a help is wider than the terminal."""
    lines = [line for name in ("", *COMMANDS) for line in helped(name, width).splitlines()]
    assert [line for line in lines if len(line) > width] == []
    assert max(map(len, lines)) > width - 10


# ---- words


@pytest.mark.parametrize(
    "words, said",
    [
        (["nope"], "cube: error: no command `nope`; there are load, ask, explore, feed, refresh, "),
        (["nope", "-h"], "cube: error: no command `nope`; "),
        (["Ask", "count"], "cube: error: no command `Ask`; "),
        (["--nope"], "cube: error: unrecognized arguments: --nope"),
        (["--nope", "ask"], "cube: error: unrecognized arguments: --nope"),
        (["--vers"], "cube: error: unrecognized arguments: --vers"),
        (["ask", "--fold", "w", "count"], "cube ask: error: unrecognized arguments: --fold"),
    ],
)
def test_wrong_words(words: List[str], said: str) -> None:
    """They are named, with status 2."""
    printed, errors = run(CUBE, *words, status=2)
    assert printed == "" and errors.startswith("usage: cube ") and said in errors


@pytest.mark.parametrize("name", COMMANDS)
def test_unknown_option(name: str) -> None:
    """It is named by the command, with status 2, and nothing is done."""
    words = [*NEEDED.get(name, []), "--never"]
    printed, said = run(CUBE, name, *words, status=2)
    assert printed == "" and said.startswith(f"usage: cube {name}")
    assert f"cube {name}: error: " in said and "--never" in said
    assert os.listdir() == ["w"]


@pytest.mark.parametrize(
    "words, printed",
    [
        ("ask count --csv --folder w", "count\n2\n"),
        ("ask --folder w count by part --csv", "part,count\na,1\nb,1\n"),
        ("ask count by part where part=a --folder w --json", '{"part": "a", "count": 1}\n'),
        ("ask --csv sum(qty) --folder=w by part --top 1", "part,sum(qty)\nb,2\n"),
        ("audit w --quiet", ""),
        ("audit --quiet --folder w", ""),
        ("copy w --no-wait new", "new keeps 2 facts\n"),
        ("copy --no-wait w new", "new keeps 2 facts\n"),
    ],
)
def test_order_of_words(words: str, printed: str) -> None:
    """Options may stand before, after and between other words."""
    assert run(CUBE, *words.split()) == (printed, "")


def test_undo_and_its_words() -> None:
    """Options may stand behind the folder; the current folder is the one without a name."""
    assert run(CUBE, "undo", "w", "--yes", "--dry-run")[0].startswith("undo takes back batch 2, ")
    assert run(CUBE, "undo", "--yes", cwd="w")[0].endswith("batch 2 is due again\n")
    assert run(CUBE, "ask", "count", "--csv", cwd="w")[0] == "count\n1\n"


@pytest.mark.parametrize("name", ["audit", "undo"])
@pytest.mark.parametrize("option", ["--folder", "--in", "--into"])
def test_two_folders(name: str, option: str) -> None:
    """FOLDER and --folder together are refused, also if they name the same folder."""
    for words in (["w", option, "w"], [option, "w", "w"], ["w", option, "v"]):
        said = run(CUBE, name, *words, status=2)[1]
        assert f"cube {name}: error: FOLDER and --folder name the folder: give one of them" in said


def test_version() -> None:
    """The versions of the package, and the programs that it runs."""
    version = f"cube {__version__}; the program is {program()}"
    assert run(CUBE, "--version") == (f"{version} and {program('cubefold')}\n", "")
    for name in COMMANDS:
        assert run(CUBE, name, "--version") == (version + "\n", "")


# ---- names of older packages


def former(name: str, *words: str, status: int = 0, given: bytes = b"") -> Tuple[str, str]:
    """What the command of a former name prints, which is a link to `cube`."""
    link = os.path.join("links", f"cubetree-{name}")
    os.makedirs("links", exist_ok=True)
    if not os.path.islink(link):
        os.symlink(CUBE, link)
    return run(link, *words, status=status, given=given)


def test_former_names() -> None:
    """Each stands for a command, and has its help."""
    assert FORMER["load-csv"] == "load" and FORMER["refresh-slowly"] == "refresh"
    assert set(FORMER.values()) == set(COMMANDS) - {"copy", "explore", "export"}
    for name, command in FORMER.items():
        assert former(name, "-h") == (helped(command), "")
        assert f"cube {command}: error: " in former(name, "--never", status=2)[1]
        assert former(name, "--version")[0].startswith(f"cube {__version__}; ")
    assert "no command `count`" in former("nothing", "count", status=2)[1]


def test_former_options() -> None:
    """--in and --into name the folder as they did."""
    Path("f").write_text("part,qty\na,1\nb,2\nc,4\n")
    Path("schema").write_text(SCHEMA)
    Path("rows").write_text("d,8\n")
    os.mkdir("v")
    said = former("load-csv", "--into", "v", "--schema", "schema", "f")[1]
    assert said.startswith("cube load: 3 rows loaded; the folder keeps 3 facts\n")
    assert former("ask", "--in", "v", "--csv", "sum(qty)") == ("sum(qty)\n7\n", "")
    assert former("refresh-slowly", "--in", "v", "rows")[0] == ""
    assert "the folder keeps 5 facts" in former("feed", "--into", "v", given=b"e,16\n")[1]
    assert former("audit", "v")[0].startswith("v is sound: 5 facts in ")
    assert former("audit", "--in", "v", "--quiet") == ("", "")
    assert former("undo", "--yes", "v")[0].endswith(
        "the folder keeps 4 facts; batch 2 is due again\n"
    )
    assert former("ask", "--into", "v", "--csv", "sum(qty)")[0] == "sum(qty)\n15\n"
    assert former("ask", "--in", "v", given=b"count\n")[0].endswith("    4\n(1 row)\n")
    assert "cube shards: error: " in former("shards", "ask", status=2)[1]


def test_former_script() -> None:
    """Without a folder the former load prints a script, and `cube load` loads."""
    Path("f").write_text("part,qty\na,1\n")
    Path("schema").write_text(SCHEMA)
    printed = former("load-csv", "--schema", "schema", "f")[0]
    assert printed == f"schema\n{SCHEMA}end\nload\na,1\nend\n"
    os.mkdir("v")
    said = run(CUBE, "load", "--yes", "../f", cwd="v")[1]
    assert "\ncube load: 1 row loaded; the folder keeps 1 fact\n" in said


# ---- ends


def usual() -> "dict[str, str]":
    """The environment in which Python keeps what it prints until its buffer is full."""
    return {name: text for name, text in os.environ.items() if name != "PYTHONUNBUFFERED"}


def closed(*words: str) -> "Tuple[int, bytes]":
    """How a command ends whose output nobody reads: its status, and what it says."""
    here, there = os.pipe()
    os.close(here)
    done = subprocess.run([CUBE, *words], stdout=there, stderr=subprocess.PIPE, env=usual())
    os.close(there)
    return done.returncode, done.stderr


@pytest.mark.parametrize(
    "words",
    [
        "ask --folder w count",
        "ask --folder w --plot count by part",
        "ask --folder w --explain count",
        "undo --dry-run w",
        "copy w new",
        "-h",
        "ask -h",
        "--version",
    ],
)
def test_output_that_nobody_reads(words: str) -> None:
    """The command ends with status 1, and says nothing."""
    assert closed(*words.split()) == (1, b"")


def test_many_rows_that_nobody_reads() -> None:
    """The first rows are there, and the end is quiet."""
    rows = "".join(f"{n},1\n" for n in range(60_000))
    run(program(), given=f"load\n{rows}end\n".encode(), cwd="w")
    words, pipe = [CUBE, "ask", "--folder", "w", "--csv", "count by part"], subprocess.PIPE
    begun = subprocess.Popen(words, stdout=pipe, stderr=pipe, env=usual())
    assert begun.stdout and begun.stderr
    assert begun.stdout.readline() == b"part,count\n"
    begun.stdout.close()
    assert (begun.stderr.read(), begun.wait(60)) == (b"", 1)
    begun.stderr.close()


def is_stopped(process: "subprocess.Popen[bytes]") -> bool:
    """Whether a signal ends a process: one that comes just before Python waits is not seen."""
    process.send_signal(signal.SIGINT)
    with suppress(subprocess.TimeoutExpired):
        process.wait(5)
    return process.poll() is not None


def test_interrupt() -> None:
    """Control-C says that it stopped, with status 1."""
    pipe = subprocess.PIPE
    begun = subprocess.Popen(
        [CUBE, "ask", "--folder", "w", "--csv"],
        stdin=pipe,
        stdout=pipe,
        stderr=pipe,
        # A shell that runs the tests in the background has the signal ignored.
    )
    assert begun.stdin and begun.stdout
    begun.stdin.write(b"count\n")
    begun.stdin.flush()
    assert begun.stdout.readline() + begun.stdout.readline() == b"count\n2\n"
    until(lambda: is_stopped(begun))
    assert begun.communicate() == (b"", b"cube ask: stopped\n")
    assert begun.returncode == 1


def raising(fault: BaseException) -> Command:
    """A command that only raises this."""

    def fails(_: argparse.Namespace) -> int:
        """Raises it."""
        raise fault

    return Command(("",), "", "", (Status.DONE,), lambda _: None, lambda _, __: None, fails)


@pytest.mark.parametrize(
    "fault, status, said",
    [
        (Fault("wrong"), 1, "wrong"),
        (Busy("another run is in w"), 4, "another run is in w"),
        (Ended(6, "damaged"), 3, "the program ended with the status 6: damaged"),
        (Full("no more"), 8, "no more"),
        (Doubtful(["x is odd"]), 7, "x is odd\n  nothing was loaded; --yes loads it as proposed"),
        (OSError(2, "No such file or directory", "f"), 1, "f: No such file or directory"),
        (OSError(28, "No space left on device"), 1, "[Errno 28] No space left on device"),
        (KeyboardInterrupt(), 1, "stopped"),
    ],
)
def test_statuses(
    monkeypatch: pytest.MonkeyPatch,
    capsys: pytest.CaptureFixture[str],
    fault: BaseException,
    status: int,
    said: str,
) -> None:
    """What a command raises is said in words, and has its status."""
    monkeypatch.setattr(entry, "command_of", lambda _: raising(fault))
    assert entry.run("ask", []) == status
    assert capsys.readouterr() == ("", f"cube ask: {said}\n")


@pytest.mark.parametrize(
    "words, name", [("ask --folder w count", "cube ask"), ("-h", "cube"), ("ask -h", "cube")]
)
def test_output_that_is_full(words: str, name: str) -> None:
    """A device that takes no output is named once, with status 1."""
    if not os.path.exists("/dev/full"):
        pytest.skip("no device that is full")
    with open("/dev/full", "w") as full:
        done = subprocess.run([CUBE, *words.split()], stdout=full, stderr=subprocess.PIPE)
    assert done.returncode == 1
    assert done.stderr.decode() == f"{name}: [Errno 28] No space left on device\n"


# ---- arguments


@pytest.mark.parametrize(
    "make, text, made",
    [
        (whole(1), "1", 1),
        (whole(0, 7), "007", 7),
        (whole(1), "0", None),
        (whole(0, 7), "8", None),
        (whole(0), "-1", None),
        (whole(0), "1.0", None),
        (whole(0), "", None),
        (delimiter, "tab", "\t"),
        (delimiter, "space", " "),
        (delimiter, ";", ";"),
        (delimiter, "", None),
        (delimiter, ";;", None),
        (delimiter, '"', None),
        (delimiter, "\n", None),
        (columns, "a,b", ["a", "b"]),
        (columns, "a", ["a"]),
    ],
)
def test_arguments(make: Callable[[str], object], text: str, made: object) -> None:
    """An argument is what its words are, or it is refused."""
    if made is None:
        with pytest.raises(argparse.ArgumentTypeError):
            make(text)
    else:
        assert make(text) == made
