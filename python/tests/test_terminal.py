"""Tests of ask at a terminal."""
from __future__ import annotations

import os
import pty
import select
import signal
import stat
import subprocess
import time
from contextlib import suppress
from pathlib import Path
from typing import Iterator, List

import pytest

from cubetree.cli.terminal import completed, described, history_file, words_of
from cubetree.columns import Columns
from cubetree.process import program
from cubetree.schema import Schema
from cubetree.values import Kind
from tests.helpers import CUBE, ask, run, until

SCHEMA = (
    "attr part text\nattr year number\nattr day number\nmeasure qty\nview part,year\nview"
    " day\nview\n"
)
ROWS = "bolt,1997,20250314,5\nnut,1998,20250315,-2\nbolt,1998,20250401,4\n"
KINDS = {"day": Kind("day", order="YMD")}
PROMPT = b"cube> "
UP, TAB, END = b"\x10", b"\t", b"\x04"  # control-P is the line before, and control-D the end
SUMS = ["part  sum(qty)", "----  --------", "bolt         9", "nut         -2", "(2 rows)"]


class Terminal:
    """A run of ask whose input, output and errors are a terminal; all that were begun are ended
    behind each test."""

    begun: List["subprocess.Popen[bytes]"] = []

    def __init__(self, *words: str, **variables: str) -> None:
        try:
            self.mine, its = pty.openpty()
        except OSError:
            pytest.skip("no terminal can be made")
        clean = {"TERM": "dumb", "INPUTRC": os.devnull, "HOME": os.getcwd()}
        kept = {name: text for name, text in os.environ.items() if name != "XDG_STATE_HOME"}
        self.process = subprocess.Popen(
            [CUBE, "ask", *words],
            stdin=its,
            stdout=its,
            stderr=its,
            env={**kept, **clean, **variables},
            # A shell that runs the tests in the background has the signal ignored.
        )
        self.begun.append(self.process)
        os.close(its)
        self.told = b""

    def until(self, text: bytes = PROMPT) -> List[str]:
        """The lines that it tells up to a text."""
        end = time.monotonic() + 60
        while text not in self.told:
            assert time.monotonic() < end and self.read(), self.told
        front, _, self.told = self.told.partition(text)
        return front.decode("utf-8", "surrogateescape").splitlines()

    def read(self) -> bool:
        """Reads more of what it tells; whether there may be more yet."""
        if select.select([self.mine], [], [], 1)[0]:
            try:
                piece = os.read(self.mine, 1 << 16)
            except OSError:  # The other end is closed.
                return False
            self.told += piece
            return piece != b""
        return True

    def type(self, keys: bytes) -> None:
        """Types some keys."""
        os.write(self.mine, keys)

    def asked(self, keys: bytes) -> List[str]:
        """The lines between a line that is typed and the next prompt."""
        self.type(keys + b"\n")
        return self.until()[1:]

    def end(self, keys: bytes = END) -> int:
        """Types the last keys, and gives the exit status."""
        self.type(keys)
        end = time.monotonic() + 60
        while self.read():
            assert time.monotonic() < end, self.told
        os.close(self.mine)
        return self.process.wait(60)


@pytest.fixture(name="room", autouse=True)
def room_of(tmp_path: Path, monkeypatch: pytest.MonkeyPatch) -> Iterator[Path]:
    """A folder `w` with three facts, in the current folder."""
    monkeypatch.chdir(tmp_path)
    (tmp_path / "w").mkdir()
    run(program(), given=f"schema\n{SCHEMA}end\nload\n{ROWS}end\n".encode(), cwd="w")
    texts = {name: Kind("text" if name == "part" else "whole") for name in ("part", "year", "qty")}
    Columns({**texts, **KINDS}).write("w")
    yield tmp_path
    while Terminal.begun:
        begun = Terminal.begun.pop()
        begun.kill()
        begun.wait()


@pytest.fixture(name="terminal")
def terminal_of(room: Path) -> Terminal:
    """A terminal that asks for its first question."""
    terminal = Terminal("--folder", "w")
    assert terminal.until() == []
    return terminal


# ---- what is typed


def test_answers(terminal: Terminal) -> None:
    """Each line is answered, and an empty one is none."""
    assert terminal.asked(b"sum(qty) by part") == SUMS
    assert terminal.asked(b"") == []
    assert terminal.asked(b"   ") == []
    # An empty line stands between two answers, as elsewhere.
    assert terminal.asked(b"  slice count ") == ["", "count", "-----", "    3", "(1 row)"]
    assert terminal.asked(b"select count(*) from facts")[1:3] == ["count(*)", "--------"]
    assert terminal.end() == 0
    assert terminal.told == b"\r\n"


@pytest.mark.parametrize("word", [b"quit", b"exit", b"\\q", b" quit "])
def test_ends(terminal: Terminal, word: bytes) -> None:
    """A word ends it, as the end of the input does."""
    assert terminal.end(word + b"\n") == 0
    assert terminal.told == word + b"\r\n"


def test_refused(terminal: Terminal) -> None:
    """It goes on after a refusal, and ends with the status of one."""
    lines = terminal.asked(b"avg(cost)")
    assert lines[0].startswith(
        "cube ask: refused measure 5: no measure has this name; there is qty"
    )
    assert lines[1:] == ["  avg(cost)", "      ^"]
    assert terminal.asked(b"count") == ["count", "-----", "    3", "(1 row)"]
    assert terminal.end(b"quit\n") == 1


@pytest.mark.parametrize("word", [b"help", b"?", b"\\d"])
def test_help(terminal: Terminal, word: bytes) -> None:
    """It has the names of the folder, and the forms of a question."""
    lines = terminal.asked(word)
    assert lines[:4] == [
        "Group by:    part, year (numbers), day (days)",
        "Measures:    qty",
        "Views:       part,year; day; of no attribute",
        "",
    ]
    assert lines[4].startswith("A question:  sum(qty),count by part where ")
    assert lines[-1] == "`quit` ends; the tab key completes names."
    assert terminal.end() == 0


def is_stopped(process: "subprocess.Popen[bytes]") -> bool:
    """Whether a signal ends a process: one that comes just before Python waits is not seen."""
    process.send_signal(signal.SIGINT)
    with suppress(subprocess.TimeoutExpired):
        process.wait(5)
    return process.poll() is not None


def test_interrupt(terminal: Terminal) -> None:
    """Control-C ends it, and what was typed is kept."""
    assert terminal.asked(b"count")[0] == "count"
    until(lambda: is_stopped(terminal.process))
    assert terminal.end(b"") == 1
    assert terminal.told == b"cube ask: stopped\r\n"
    assert Path(".local/state/cubetree/history").read_text() == "count\n"


def test_waits_without_a_lock(terminal: Terminal) -> None:
    """While it waits for a line, others may write."""
    assert terminal.asked(b"help") and terminal.asked(b"count")
    until(lambda: subprocess.run(["flock", "-n", "w", "true"]).returncode == 0)
    run(program(), given=b"load\nscrew,1999,0,1\nend\n", cwd="w")
    assert terminal.asked(b"count")[3] == "    4"
    assert terminal.end() == 0


def test_folder_without_schema() -> None:
    """It says so, and completes the words of questions."""
    os.mkdir("empty")
    terminal = Terminal("--folder", "empty")
    terminal.until()
    assert terminal.asked(b"help")[0] == "no schema is declared in the folder"
    said = "cube ask: refused no schema: no schema is declared in the folder"
    assert terminal.asked(b"cou" + TAB) == [said]
    assert terminal.end() == 1


def test_damaged_columns() -> None:
    """What the folder keeps of its columns is read before the first prompt."""
    Path("w/.columns").write_text("{")
    terminal = Terminal("--folder", "w")
    assert terminal.end(b"") == 1
    assert b"w/.columns is damaged" in terminal.told and PROMPT not in terminal.told


# ---- completion


@pytest.mark.parametrize(
    "keys, line",
    [
        (b"sum(q\t", "sum(qty)"),
        (b"count,av\t by pa\t", "count,avg(qty) by part"),
        (b"sum(qty)/co\t b\t pa\t", "sum(qty)/count by part"),
        (b"co\t by mon\t wh\t part=a an\t year=1", "count by month(day) where part=a and year=1"),
    ],
)
def test_tab(terminal: Terminal, keys: bytes, line: str) -> None:
    """The tab key completes a name that is the only one."""
    terminal.type(keys + b"\n")
    told = terminal.until(b"\n")
    assert told == [line]
    terminal.until()
    assert terminal.end() in (0, 1)


def test_words() -> None:
    """There are names, functions of them, and the words of questions."""
    schema = Schema(SCHEMA.splitlines())
    words = words_of(schema, KINDS)
    assert {"part", "sum(qty)", "avg(qty)", "min(qty)", "max(qty)", "month(day)", "where"} <= {
        *words
    }
    assert "month(part)" not in words and "sum(part)" not in words
    assert words == sorted(set(words))
    found = [completed(words, "ye", place) for place in range(3)]
    assert found == ["year", "year(day)", None]
    assert [completed(words, "x", 0), completed(words, "part", 1)] == [None, None]
    kinds = {"m": Kind("month"), "q": Kind("decimal", places=2)}
    found = words_of(Schema(["attr m number", "measure q"]), kinds)
    parts = [word for word in found if word.startswith(("month", "year"))]
    assert parts == ["month(m)", "year(m)"]
    assert "count" in words_of(None, {}) and "part" not in words_of(None, {})


def test_described() -> None:
    """Names are said with what they have."""
    schema = Schema(["attr a text", "attr b number", "attr c number", "measure m", "measure n"])
    lines = described(schema, {"c": Kind("month"), "n": Kind("decimal", places=2)})
    assert lines[:3] == [
        "Group by:    a, b (numbers), c (months)",
        "Measures:    m, n",
        "Views:       ",
    ]
    assert described(None, {})[0] == "no schema is declared in the folder"


# ---- history


def test_history() -> None:
    """Lines are kept below XDG_STATE_HOME, and are there the next time."""
    for home in ("", os.path.abspath("state")):
        kept = Path(home or os.path.abspath(".local/state"), "cubetree", "history")
        first = Terminal("--folder", "w", XDG_STATE_HOME=home)
        first.until()
        assert first.asked(b"sum(qty) by part") == SUMS
        assert first.end(b"quit\n") == 0
        assert kept.read_text() == "sum(qty) by part\nquit\n"
        assert stat.S_IMODE(kept.stat().st_mode) == 0o600
        assert stat.S_IMODE(kept.parent.stat().st_mode) == 0o700
        second = Terminal("--folder", "w", XDG_STATE_HOME=home)
        second.until()
        assert second.asked(UP + UP) == SUMS
        assert second.end() == 0
        assert kept.read_text() == "sum(qty) by part\nquit\nsum(qty) by part\n"


def test_length_of_history() -> None:
    """The last 1,000 lines are kept."""
    os.makedirs("long/cubetree")
    Path("long/cubetree/history").write_text("".join(f"line {n}\n" for n in range(3000)))
    other = Terminal("--folder", "w", XDG_STATE_HOME=os.path.abspath("long"))
    other.until()
    assert other.end(b"quit\n") == 0
    lines = Path("long/cubetree/history").read_text().splitlines()
    assert lines == [*(f"line {n}" for n in range(2001, 3000)), "quit"]


@pytest.mark.parametrize("place", ["file", "/proc/nowhere", "folder"])
def test_state_that_cannot_be_written(place: str) -> None:
    """No history is no error."""
    Path("file").touch()
    os.makedirs("folder/cubetree/history")
    terminal = Terminal("--folder", "w", XDG_STATE_HOME=os.path.abspath(place))
    terminal.until()
    assert terminal.asked(b"count")[0] == "count"
    assert terminal.end() == 0
    assert terminal.told == b"\r\n"


def test_place_of_history(monkeypatch: pytest.MonkeyPatch) -> None:
    """It is where other programs keep such files."""
    monkeypatch.setenv("HOME", "/h")
    monkeypatch.setenv("XDG_STATE_HOME", "/s")
    assert history_file() == "/s/cubetree/history"
    monkeypatch.setenv("XDG_STATE_HOME", "")
    assert history_file() == "/h/.local/state/cubetree/history"
    monkeypatch.delenv("XDG_STATE_HOME")
    assert history_file() == "/h/.local/state/cubetree/history"


def test_bytes_of_history() -> None:
    """A line that is no UTF-8 is refused with its bytes, also where Python reads strictly."""
    os.makedirs("s/cubetree")
    Path("s/cubetree/history").write_bytes(b'count where part="K\xf6ln"\ncount by K\xf6ln\n')
    names = {"XDG_STATE_HOME": os.path.abspath("s"), "PYTHONIOENCODING": "utf-8:strict"}
    terminal = Terminal("--folder", "w", **names)
    terminal.until()
    said = terminal.asked(UP)
    assert said[0].startswith("cube ask: refused ") and said[1] == "  count by K\\udcf6ln"
    assert terminal.asked(UP + UP + UP)[-1] == "(0 rows)"
    assert terminal.end() == 1


# ---- what is no terminal


def typed(keys: bytes, *words: str) -> bytes:
    """What ask prints into a pipe if its questions are typed at a terminal."""
    try:
        mine, its = pty.openpty()
    except OSError:
        pytest.skip("no terminal can be made")
    strict = dict(os.environ, PYTHONIOENCODING="utf-8:strict", XDG_STATE_HOME=os.getcwd())
    begun = subprocess.Popen(
        [CUBE, "ask", "--folder", "w", *words], stdin=its, stdout=subprocess.PIPE, env=strict
    )
    os.write(mine, keys)
    told = begun.communicate(timeout=60)[0]
    os.close(mine)
    os.close(its)
    return told


def test_answers_into_a_file() -> None:
    """Answers that go into a file have no prompts between them."""
    assert (
        typed(b"count\nsum(qty) by part\n" + END, "--csv")
        == b"count\n3\n\npart,sum(qty)\nbolt,9\nnut,-2\n"
    )
    assert typed(b"count\nquit\ncount\n", "--json") == b'{"count": 3}\n'
    assert typed(b"count by K\xf6ln\ncount\n" + END, "--csv") == b"count\n3\n"
    assert typed(END) == b""


def test_piped_questions() -> None:
    """Lines of a pipe have no prompt and no history, and their last one may lack its end."""
    state = dict(os.environ, XDG_STATE_HOME=os.path.abspath("state"))
    told = ask(
        "--folder", "w", "--csv", given=b"count\n\nhelp\r\ncount by K\xf6ln", env=state, status=1
    )
    assert told[0] == "count\n3\n"
    lines = [line for line in told[1].splitlines() if not line.startswith(" ")]
    starts = ["cube ask: refused syntax 1: ", "cube ask: refused syntax 10: "]
    assert [line.startswith(start) for line, start in zip(lines, starts)] == [True, True]
    assert ask("--folder", "w", given=b"") == ("", "")
    assert not os.path.exists("state")
    run(program(), given=b"load\nK\xf6ln,1,0,8\nend\n", cwd="w")
    asked = b'sum(qty) where part="K\xf6ln"\r\nslice count\r\n'
    assert ask("--folder", "w", "--csv", given=asked) == ("sum(qty)\n8\n\ncount\n4\n", "")
    words = ["sum(qty)", "by", "part", "where", "year=1"]
    assert ask("--folder", "w", "--csv", *words)[0] == "part,sum(qty)\nK\udcf6ln,8\n"
