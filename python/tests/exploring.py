"""What the tests of explore have in common: a page that is served, and what is asked of it."""
from __future__ import annotations

import http.client
import json
import re
import signal
import socket
import subprocess
import unittest
from contextlib import suppress
from typing import Any, Dict, List, Tuple
from urllib.parse import quote

import cubetree
from tests.helpers import CUBE, Case

SCHEMA = (
    "attr part text\nattr year number\nmeasure qty\nview part,year\nview part\nview year\nview\n"
)
MARKUP = "<script>document.title='hit'</script><img src=x onerror=hit()>"
QUOTES = 'a "b", c\'d\\'
HIDDEN = "x\0y\u202eback"
BYTES = "\udcff\udcfe"
ROWS: List[Tuple[Any, ...]] = [
    (MARKUP, 1997, 1 << 100),
    (QUOTES, 1998, -2),
    (HIDDEN, 1998, 3),
    (BYTES, 1999, 4),
    ("\u05d0\u05d1", 1999, 5),
    ("", 1999, 6),
]


def has_loopback() -> bool:
    """Whether this machine reaches itself, which it does not where tools/try-package runs."""
    with socket.socket() as own:
        own.bind(("127.0.0.1", 0))
        own.listen()
        try:
            socket.create_connection(own.getsockname(), 5).close()
        except OSError:
            return False
    return True


@unittest.skipUnless(has_loopback(), "no network on the loopback")
class Exploring(Case):
    """A test of a page."""

    def fill(self, rows: List[Tuple[Any, ...]] = ROWS) -> None:
        """Makes the folder `w` a warehouse with these rows as the batch 1."""
        with cubetree.open("w") as warehouse:
            warehouse.declare(SCHEMA)
            warehouse.load(rows, 1)

    def serve(self, *words: str, folder: str = "w") -> "subprocess.Popen[str]":
        """Begins to serve a folder; its address is in `address`."""
        pipe = subprocess.PIPE
        served = subprocess.Popen(
            [CUBE, "explore", "--no-browser", *words, folder], stdout=pipe, stderr=pipe, text=True
        )
        self.addCleanup(self.kill, served)
        assert served.stdout
        line = served.stdout.readline()
        found = re.search(r"(http://127\.0\.0\.1:(\d+)/\?word=(\S+))  \(Ctrl-C ends it\)\n$", line)
        assert found, line
        self.address, self.port, self.word = found[1], int(found[2]), found[3]
        self.cookie = ""
        reply, _ = self.get(f"/?word={self.word}", 303)
        self.cookie = reply.headers["Set-Cookie"].split(";")[0]
        return served

    def kill(self, served: "subprocess.Popen[str]") -> None:
        """Ends a server that still runs."""
        served.kill()
        served.communicate()

    def stop(self, served: "subprocess.Popen[str]") -> str:
        """What a server says that is ended by Ctrl-C."""
        served.send_signal(signal.SIGINT)
        printed, said = served.communicate(timeout=20)
        self.assertEqual((served.returncode, printed), (0, ""))
        return said

    def get(
        self, path: str, status: int = 200, method: str = "GET", **headers: str
    ) -> Tuple[http.client.HTTPResponse, bytes]:
        """A reply and its body."""
        connection = http.client.HTTPConnection("127.0.0.1", self.port, timeout=30)
        more = {name.replace("_", "-"): value for name, value in headers.items()}
        connection.request(method, path, headers={"Cookie": self.cookie, **more})
        reply = connection.getresponse()
        body = reply.read()
        connection.close()
        self.assertEqual(reply.status, status, body[:300])
        return reply, body

    def json(self, path: str, status: int = 200) -> Dict[str, Any]:
        """A reply that is JSON."""
        found: Dict[str, Any] = json.loads(self.get(path, status)[1])
        return found

    def answer(self, text: str, status: int = 200) -> Dict[str, Any]:
        """The answer to a question, as the page gets it."""
        return self.json(f"/answer.json?slice={asked(text)}", status)

    def answered(self, text: str) -> Dict[str, Any]:
        """The answer to a question that is asked until the folder is free, as the page does."""
        while True:
            with suppress(AssertionError):
                return self.answer(text)

    def state(self) -> Dict[str, Any]:
        """The state of the folder."""
        return self.json("/state.json")


def asked(text: str) -> str:
    """A question as a word of an address."""
    return quote(text.encode("utf-8", "surrogateescape"))
