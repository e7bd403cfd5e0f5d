"""Tests of explore: who is let in, what is served, and how it ends."""
from __future__ import annotations

import os
import re
import signal
import socket
import subprocess
import sys
import threading
import time
import unittest
from pathlib import Path

import cubetree
from cubetree.cli import explore as command
from cubetree.explore import server, writers
from cubetree.explore.asking import Explorer
from tests.exploring import Exploring
from tests.helpers import CUBE, run, until

HAS_LOCKS = os.path.exists(writers.LOCKS)


class Doors(Exploring):
    """Who is let in, and by which headers a browser is bound."""

    def test_who_is_let_in(self) -> None:
        """Whoever has the word or the cookie, at this address, from this page or none."""
        self.fill()
        self.serve()
        right, name = self.cookie, self.cookie.split("=")[0]
        reply, body = self.get(f"/?word={self.word}", 303)
        self.assertEqual((reply.headers["Location"], body), ("/", b""))
        self.assertIn("; HttpOnly; SameSite=Strict; Path=/", reply.headers["Set-Cookie"])
        self.assertNotIn(self.word, reply.headers["Set-Cookie"])
        for path in ("/", "/state.json", "/answer.json?slice=count", "/answer.csv?slice=count"):
            self.get(path)
            for cookie in (
                "",
                "x=1",
                f"{name}=",
                f"{name}=x",
                f"{name}={self.word}",
                f"{name}\xff",
            ):
                self.get(path, 403, Cookie=cookie)
            self.get(path, 421, Host="evil.example")
            self.get(path, 421, Host=f"evil.example:{self.port}")
            self.get(path, 421, Host="127.0.0.1")
            self.get(path, Host=f"localhost:{self.port}")
            for site in ("cross-site", "same-site"):
                self.get(path, 403, Sec_Fetch_Site=site)
            for site in ("same-origin", "none"):
                self.get(path, Sec_Fetch_Site=site)
            self.get(path, Cookie=f"a=b; {right}; c=d")
        for word in ("", "x", self.word + "x", self.word[:-1], "%ff", "%00"):
            self.get(f"/?word={word}", 403)
        self.get(f"/?word={self.word}", 421, Host="evil.example")
        self.get(f"/?word={self.word}", 403, Sec_Fetch_Site="cross-site")

    def test_word_of_a_browser(self) -> None:
        """The word that a browser gets by its command works once."""
        with server.Server(Explorer("w"), 0, None) as served:
            once = served.once
            self.assertNotEqual(once, served.word)
            self.assertEqual(
                [served.lets_in(each) for each in (once, once, "", served.word, served.word)],
                [True, False, False, True, True],
            )

    def test_loopback_alone(self) -> None:
        """No other address of the machine is served."""
        self.serve()
        listening = [line.split() for line in Path("/proc/net/tcp").read_text().splitlines()[1:]]
        own = [words[1] for words in listening if words[1].endswith(f":{self.port:04X}")]
        self.assertEqual([each.split(":")[0] for each in own[:1]], ["0100007F"])
        six = Path("/proc/net/tcp6")
        self.assertNotIn(f":{self.port:04X} ", six.read_text() if six.exists() else "")

    def test_methods(self) -> None:
        """It reads: other methods are refused, and HEAD has no body."""
        self.fill()
        self.serve()
        for method in ("POST", "PUT", "DELETE", "OPTIONS", "PATCH"):
            reply, _ = self.get("/state.json", 405, method)
            self.assertEqual(reply.headers["Allow"], "GET, HEAD")
        reply, body = self.get("/answer.json?slice=count", method="HEAD")
        self.assertEqual(body, b"")
        self.assertGreater(int(reply.headers["Content-Length"]), 10)

    def test_headers(self) -> None:
        """Each reply has a strict policy, faults too."""
        self.serve()
        for path, status in (("/", 200), ("/explore.js", 200), ("/state.json", 200), ("/x", 404)):
            headers = self.get(path, status)[0].headers
            policy = headers["Content-Security-Policy"].split("; ")
            self.assertEqual(policy[:2], ["default-src 'none'", "script-src 'self'"])
            self.assertIn("frame-ancestors 'none'", policy)
            self.assertNotIn("unsafe", headers["Content-Security-Policy"])
            self.assertEqual(headers["X-Content-Type-Options"], "nosniff")
            self.assertEqual(headers["Referrer-Policy"], "no-referrer")
            self.assertEqual(headers["Cache-Control"], "no-store")
        self.assertIn("default-src 'none'", str(self.get("/", 403, Cookie="")[0].headers))
        self.assertIn("default-src 'none'", str(self.get("/", 405, "POST")[0].headers))

    def test_files(self) -> None:
        """The files of the page are there, ask for nothing elsewhere, and have no code within
        markup; nothing else of the disk is served."""
        self.serve()
        kinds = {"/": "text/html", "/explore.css": "text/css", "/icon.svg": "image/svg+xml"}
        for path in server.FILES:
            reply, body = self.get(path)
            kind = reply.headers["Content-Type"].split(";")[0]
            self.assertEqual(kind, kinds.get(path, "text/javascript"))
            links = re.findall(rb"https?://(?!www\.w3\.org/2000/svg)", body)
            self.assertEqual(links, [], path)
            self.assertNotRegex(body, rb"(?i)innerHTML|outerHTML|insertAdjacentHTML|\beval\b")
        page = self.get("/")[1].decode()
        self.assertNotRegex(page, r"<script>|style=|\son\w+=|javascript:")
        scripts = {path.name for path in server.PAGE.iterdir()}
        self.assertEqual(scripts, {name for name, _ in server.FILES.values()})
        for path in (
            "/../server.py",
            "/page/index.html",
            "//etc/passwd",
            "/%2e%2e/server.py",
            "/x",
        ):
            self.get(path, 404)

    def test_charts(self) -> None:
        """Chart.js is served where it is installed."""
        self.put("chart.min.js", "mine")
        for charts, status, content in ((Path("chart.min.js"), 200, b"mine"), (None, 404, b"")):
            with server.Server(Explorer("w"), 0, charts) as served:
                threading.Thread(target=served.serve_forever, daemon=True).start()
                self.port = served.server_port
                self.cookie = f"{served.cookie}={served.cookie_word}"
                body = self.get("/chart.js", status)[1]
                served.shutdown()
            self.assertIn(content, body)


class Hostile(Exploring):
    """Requests of any kind, and ends of all kinds."""

    def test_long_addresses(self) -> None:
        """An address that is too long is refused, and nothing hangs."""
        self.fill()
        served = self.serve()
        began = time.monotonic()
        for size in (65_537, 1_000_000, 6_000_000):
            self.get("/answer.json?slice=" + "x" * size, 414)
        self.get("/answer.json?" + "&".join(["a=b"] * 5000), 400)
        self.get("/state.json", 431, X="x" * 70_000)
        self.assertLess(time.monotonic() - began, 10)
        self.get("/state.json")
        self.assertEqual(self.stop(served), "")

    def test_odd_requests(self) -> None:
        """What is no request is refused in words."""
        served = self.serve()
        for sent in (
            b"\r\n",
            b"x\r\n\r\n",
            b"GET\r\n\r\n",
            f"GET http://[ HTTP/1.1\r\nHost: 127.0.0.1:{self.port}\r\n\r\n".encode(),
            b"GET / HTTP/9.9\r\n\r\n",
            b"GET /\xff\xfe HTTP/1.1\r\n\r\n",
            b"GET / HTTP/1.1\r\nHost\r\n\r\n",
            b"\0" * 100 + b"\r\n\r\n",
        ):
            with socket.create_connection(("127.0.0.1", self.port), 20) as connection:
                connection.sendall(sent)
                connection.shutdown(socket.SHUT_WR)
                body = b"".join(iter(lambda: connection.recv(1 << 16), b""))
            self.assertNotIn(b"Traceback", body)
        self.assertEqual(self.stop(served), "")

    def test_browser_goes_away(self) -> None:
        """A browser that goes in the middle of an answer leaves no trace."""
        self.fill([(f"p{n}", 1999, n) for n in range(30_000)])
        served = self.serve()
        for _ in range(3):
            with socket.create_connection(("127.0.0.1", self.port), 20) as connection:
                head = (
                    "GET /answer.csv?slice=count%20by%20part HTTP/1.1\r\nHost:"
                    f" 127.0.0.1:{self.port}"
                )
                connection.sendall(f"{head}\r\nCookie: {self.cookie}\r\n\r\n".encode())
                connection.recv(10)
                connection.setsockopt(socket.SOL_SOCKET, socket.SO_LINGER, b"\1\0\0\0\0\0\0\0")
        self.assertEqual(self.answer("count")["rows"], [["30000"]])
        self.assertEqual(self.stop(served), "")

    def test_slow_browser(self) -> None:
        """A connection that says nothing hinders no other, and is closed."""
        self.fill()
        served = self.serve()
        silent = [socket.create_connection(("127.0.0.1", self.port), 20) for _ in range(30)]
        self.assertEqual(self.answer("count")["rows"], [["6"]])
        for each in silent:
            each.close()
        self.assertEqual(self.stop(served), "")

    def test_kill(self) -> None:
        """A server that is killed leaves the folder to others, in the middle of a run too."""
        self.fill()
        served = self.serve()
        self.answer("count")
        served.kill()
        served.wait()
        with cubetree.open("w") as warehouse:
            self.assertEqual(warehouse.load([("x", 1, 1)]), 7)

    def test_stop(self) -> None:
        """Ctrl-C ends it quietly, also while an answer waits for another run."""
        self.fill()
        served = self.serve()
        with cubetree.open("w") as warehouse:
            warehouse.begin([("x", 1, 1)])
            self.answer("count", 503)
            self.assertEqual(self.stop(served), "")
            warehouse.finish()

    def test_browser_is_opened(self) -> None:
        """The browser gets an address whose word works once, and is not waited for."""
        script = '#!/bin/sh\necho "$1" > opened.new\nmv opened.new opened\nsleep 60\n'
        os.chmod(self.put("browser", script), 0o755)
        served = subprocess.Popen(
            [CUBE, "explore", "w"],
            stdout=subprocess.PIPE,
            stderr=subprocess.PIPE,
            text=True,
            start_new_session=True,
            env={**os.environ, "BROWSER": f"{os.getcwd()}/browser %s"},
        )
        self.addCleanup(served.communicate)
        self.addCleanup(os.killpg, served.pid, signal.SIGKILL)
        assert served.stdout
        printed = served.stdout.readline()
        until(lambda: os.path.exists("opened"))
        opened = Path("opened").read_text().strip()
        found = re.fullmatch(r"http://127\.0\.0\.1:(\d+)/\?word=(\S+)", opened)
        assert found
        self.assertNotIn(found[2], printed)
        self.port, self.cookie = int(found[1]), ""
        self.get(f"/?word={found[2]}", 303)
        self.get(f"/?word={found[2]}", 403)


class Words(unittest.TestCase):
    """The words of the command."""

    def test_help(self) -> None:
        """The help names the options."""
        printed = run(CUBE, "explore", "-h")[0]
        for word in ("--folder", "--port", "--no-browser", "Ctrl-C"):
            self.assertIn(word, printed)
        self.assertEqual(command.COMMAND.usage, ("[OPTION..] [FOLDER]",))

    def test_wheel(self) -> None:
        """The files of the page are in a wheel."""
        backend = Path(__file__).resolve().parents[1] / "backend.py"
        if not backend.exists():
            self.skipTest("no checkout")
        line = "import backend; print(*backend.modules(), sep='\\n')"
        names = run(sys.executable, "-c", line, cwd=str(backend.parent))[0].split()
        for name, _ in server.FILES.values():
            self.assertIn(f"cubetree/explore/page/{name}", names)


if __name__ == "__main__":
    unittest.main()
