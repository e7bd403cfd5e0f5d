"""What the tests of feeds have in common."""
import contextlib
import csv
import os
import shutil
import signal
import subprocess
from typing import Any

from cubetree.process import program
from tests import helpers
from tests.helpers import CUBE, SCHEMA, Case, run, wait_too_long


class Feeding(Case):
    """A test of feeds, over a folder with a schema."""

    def setUp(self) -> None:
        super().setUp()
        signal.signal(signal.SIGALRM, wait_too_long)
        signal.alarm(300 + 3 * helpers.KILLS)
        self.addCleanup(signal.alarm, 0)
        run(program(), given=f"schema\n{SCHEMA}end\n".encode(), cwd="w")

    def start(self, *words: str, **more: Any) -> "subprocess.Popen[bytes]":
        """A feed that goes on beside the test."""
        pipes = {
            "stdin": subprocess.PIPE,
            "stderr": subprocess.PIPE,
            "start_new_session": True,
            **more,
        }
        begun = subprocess.Popen([CUBE, "feed", "--into", "w", *words], **pipes)
        self.addCleanup(begun.communicate)
        self.addCleanup(begun.kill)
        return begun

    def feed(self, *words: str, **more: Any) -> str:
        """What a feed says that comes to its end."""
        told, said = run(CUBE, "feed", "--into", "w", *words, **more)
        self.assertEqual(told, "")
        return said

    def stop(self, feed: "subprocess.Popen[bytes]", status: int = 0) -> str:
        """What a feed says that is ended by SIGTERM."""
        feed.terminate()
        said = feed.communicate(timeout=60)[1].decode()
        self.assertEqual(feed.returncode, status, said)
        return said

    def append(self, name: str, *rows: str) -> None:
        """Appends lines to a file."""
        with open(name, "a") as file:
            file.write("".join(row + "\n" for row in rows))

    def kept(self) -> "list[list[str]]":
        """The parts and quantities that the folder keeps."""
        return self.rows("sum(qty) by part")

    def refused(self) -> "list[list[str]]":
        """The refused rows, behind their reasons."""
        with open("w/.feed/refused.csv", newline="") as file:
            return list(csv.reader(file))

    def declare(self, *lines: str) -> None:
        """Begins the folder anew with another schema."""
        shutil.rmtree("w")
        os.mkdir("w")
        run(
            program(),
            given="".join(line + "\n" for line in ("schema", *lines, "end")).encode(),
            cwd="w",
        )

    def is_spooled(self, text: bytes) -> bool:
        """Whether something stands among what was gathered."""
        with contextlib.suppress(FileNotFoundError), open("w/.feed/gathered", "rb") as file:
            return text in file.read()
        return False

    def cut_off(self, rows: bytes) -> None:
        """A feed whose program ends before it gets the rows, which are in `sending.1` then."""
        self.put(
            "stub",
            (
                '#!/bin/sh\nfor i in 1 2 3; do IFS= read -r line; echo "$line"; done |'
                f" {program()}\nkill -9 $$\n"
            ),
        )
        os.chmod("stub", 0o755)
        said = self.feed(
            given=rows, status=3, env=dict(os.environ, CUBETREE=os.path.abspath("stub"))
        )
        self.assertRegex(
            said,
            (
                "cube feed: the program ended with the status -9; what was read stands in the spool"
                " .*; run the same command again to continue\n"
            ),
        )
        self.assertEqual(sorted(os.listdir("w/.feed")), ["gathered", "sending.1"])
