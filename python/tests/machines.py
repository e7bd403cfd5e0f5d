"""A scheduler of Dask, and workers with a nanny, each in a network namespace of its own, or
processes of this machine where there may be none."""
import contextlib
import os
import signal
import socket
import subprocess
import time
from typing import List, Optional

from tests.helpers import PACKAGES, until

PYTHON = "/usr/bin/python3"  # Debian's packages are for this one.
PORT = 40_101


def has_engine() -> bool:
    """Whether the engine is there."""
    found = [PYTHON, "-c", "import distributed"]
    return subprocess.run(found, stderr=subprocess.DEVNULL).returncode == 0


def free_port() -> int:
    """A port that is free now."""
    with socket.create_server(("127.0.0.1", 0)) as each:
        port: int = each.getsockname()[1]
    return port


def tried(*words: str) -> bool:
    """Whether a command goes well."""
    return (
        subprocess.run(words, stdout=subprocess.DEVNULL, stderr=subprocess.DEVNULL).returncode == 0
    )


class Machines:
    """They run until `stop`; a worker that is killed is started again by its nanny."""

    def __init__(self, room: str, count: int, apart: bool, deaths: int, **more: str) -> None:
        self.room, self.spaces, self.nannies = (
            room,
            [],
            [],
        )  # type: str, List[str], List[subprocess.Popen[bytes]]
        self.environment = dict(
            os.environ,
            PYTHONPATH=PACKAGES,
            PYTHONDONTWRITEBYTECODE="1",
            DASK_DISTRIBUTED__SCHEDULER__ALLOWED_FAILURES=str(deaths),
            **more,
        )
        self.are_apart = apart and all(self.make_space(number) for number in range(count))
        self.port, self.addresses = free_port(), []  # type: int, List[str]
        words = [
            PYTHON,
            "-m",
            "distributed.cli.dask_scheduler",
            "--port",
            str(self.port),
            "--no-dashboard",
        ]
        self.scheduler = subprocess.Popen(
            words,
            cwd=room,
            env=self.environment,
            stdout=subprocess.DEVNULL,
            stderr=subprocess.DEVNULL,
        )
        for number in range(count):
            self.start_worker(number)

    def make_space(self, number: int) -> bool:
        """Makes a namespace with a wire to this one; whether that can be done."""
        name, wire = f"shards{os.getpid()}-{number}", f"sh{os.getpid() % 1_000_000}-{number}"
        if not tried("ip", "netns", "add", name):
            return False
        self.spaces.append(name)
        here, there = self.ends(number)
        within = ("ip", "-n", name)
        return all(
            tried(*words)
            for words in [
                ("ip", "link", "add", wire, "type", "veth", "peer", "name", "wire", "netns", name),
                ("ip", "address", "add", f"{here}/30", "dev", wire),
                ("ip", "link", "set", wire, "up"),
                (*within, "address", "add", f"{there}/30", "dev", "wire"),
                (*within, "link", "set", "wire", "up"),
                (*within, "link", "set", "lo", "up"),
            ]
        )

    def ends(self, number: int) -> "tuple[str, str]":
        """The addresses at both ends of the wire of a namespace."""
        net = f"10.213.{os.getpid() % 250}"
        return f"{net}.{4 * number + 1}", f"{net}.{4 * number + 2}"

    def start_worker(self, number: int) -> None:
        """Starts a worker, in its namespace where there are some."""
        here, host = self.ends(number) if self.are_apart else ("127.0.0.1", "127.0.0.1")
        port = PORT if self.are_apart else free_port()
        front = ["ip", "netns", "exec", self.spaces[number]] if self.are_apart else []
        words = [
            PYTHON,
            "-m",
            "distributed.cli.dask_worker",
            f"tcp://{here}:{self.port}",
            "--host",
            host,
            "--worker-port",
            str(port),
            "--nthreads",
            "1",
        ]
        words += [
            "--no-dashboard",
            "--memory-limit",
            "0",
            "--local-directory",
            os.path.join(self.room, f"worker{number}"),
        ]
        self.nannies.append(
            subprocess.Popen(
                front + words,
                cwd=self.room,
                env=self.environment,
                stdout=subprocess.DEVNULL,
                stderr=subprocess.DEVNULL,
            )
        )
        self.addresses.append(f"tcp://{host}:{port}")

    def worker_of(self, number: int) -> Optional[int]:
        """The process of a worker, which its nanny has begun; None between two of them."""
        return next(
            (
                process
                for process in children_of(self.nannies[number].pid)
                if b"spawn_main" in command_of(process)
            ),
            None,
        )

    def kill_worker(self, number: int, patience: float) -> bool:
        """Kills a worker once there is one, in the midst of a batch where it comes to one so
        soon; whether it was."""
        until(lambda: self.worker_of(number) is not None)
        worker, end = self.worker_of(number), time.monotonic() + patience
        if worker is None:
            return self.kill_worker(number, patience)
        while not children_of(worker) and time.monotonic() < end:
            time.sleep(0.002)
        is_busy = bool(children_of(worker))
        os.kill(worker, signal.SIGKILL)
        return is_busy

    def stop(self) -> None:
        """Ends all processes, and takes the namespaces away."""
        for process in [*self.nannies, self.scheduler]:
            process.terminate()
        for process in [*self.nannies, self.scheduler]:
            with contextlib.suppress(subprocess.TimeoutExpired):
                process.wait(timeout=10)
            if process.poll() is None:
                process.kill()
                process.wait()
        for name in self.spaces:
            tried("ip", "netns", "del", name)


def children_of(process: int) -> "List[int]":
    """The processes that one has begun."""
    found = []
    for name in filter(str.isdigit, os.listdir("/proc")):
        with contextlib.suppress(OSError), open(f"/proc/{name}/stat", "rb") as file:
            if int(file.read().rpartition(b")")[2].split()[1]) == process:
                found.append(int(name))
    return found


def command_of(process: int) -> bytes:
    """The words of a process."""
    with contextlib.suppress(OSError), open(f"/proc/{process}/cmdline", "rb") as file:
        return file.read()
    return b""
