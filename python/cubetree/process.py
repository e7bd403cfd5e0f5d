"""A run of the program: commands go in, and replies come out as lines."""
from __future__ import annotations

import csv
import errno
import os
import re
import shutil
import signal
import subprocess
import tempfile
from contextlib import suppress
from typing import Sequence

from .errors import FILES, Ended, Fault, ended

TOP = os.path.dirname(os.path.dirname(os.path.dirname(os.path.realpath(__file__))))
DISK_FAULT = 4  # a status of the program
SHIELDED = {signal.SIGINT, signal.SIGTERM}


def program(name: str = "cubetree") -> str:
    """The program of this name: that of $CUBETREE, or the one that the repository of this
    package has built, or `cubetree` as it is found in the PATH; and in the same way `cubefold`."""
    built, variable = os.path.join(TOP, "crates", name, "out", name), name.upper()
    found = os.environ.get(variable) or (built if os.access(built, os.X_OK) else shutil.which(name))
    if not found:
        raise Fault(f"no program `{name}` in the PATH, and none that is named by ${variable}")
    return os.path.abspath(found)


def disk_fault(folder: str) -> str:
    """What the program may have met that ended with the status of a disk fault: the system tells
    it no more than that a call has failed. Nothing if all looks well."""
    names = [os.path.join(folder, name) for name in FILES]
    if not os.path.isdir(folder):
        return f"the folder {folder} is gone"
    if os.statvfs(folder).f_bavail == 0 or is_full(folder):
        return "no space is left on the device"
    if os.path.exists(names[0]) and not os.path.exists(names[1]):
        return f"{names[1]} is gone"
    for path in [folder, *filter(os.path.exists, names)]:
        if not os.access(path, os.R_OK):
            return f"no permission to read {path}"
        if not os.access(path, os.W_OK):
            return f"no permission to write {path}, which the program needs also to answer"
    return ""


def is_full(folder: str) -> bool:
    """Whether a page more has no room."""
    try:
        with tempfile.TemporaryFile(dir=folder) as file:
            os.posix_fallocate(file.fileno(), 0, 1 << 16)
    except OSError as error:
        return error.errno in (errno.ENOSPC, errno.EDQUOT, errno.EFBIG)
    return False


class Run:
    """A run of the program in a folder, which inherits the descriptors of its locks; one that is
    shielded is not ended by SIGINT and SIGTERM."""

    def __init__(self, folder: str, locks: Sequence[int], is_shielded: bool = False) -> None:
        former = signal.pthread_sigmask(signal.SIG_BLOCK, SHIELDED if is_shielded else ())
        try:
            pipe = subprocess.PIPE
            self.process = subprocess.Popen(
                [program()], cwd=folder, stdin=pipe, stdout=pipe, stderr=pipe, pass_fds=locks
            )
        finally:
            signal.pthread_sigmask(signal.SIG_SETMASK, former)
        assert self.process.stdin and self.process.stdout and self.process.stderr
        self.input, self.output, self.error = (
            self.process.stdin,
            self.process.stdout,
            self.process.stderr,
        )
        self.said, self.folder = "", folder

    def send(self, command: bytes) -> None:
        """Sends a command."""
        try:
            self.input.write(command)
            self.input.flush()
        except BrokenPipeError:
            pass  # It has ended: the reply is none, which tells so.

    def reply(self) -> str:
        """The next line, without its line feed; a fault where the run has ended early."""
        line = self.output.readline()
        if not line.endswith(b"\n"):
            raise self.fault(self.close())
        return line[:-1].decode("utf-8", "surrogateescape")

    def ask(self, command: bytes) -> str:
        """The reply to a command whose reply is one line."""
        self.send(command)
        return self.reply()

    def answer(self, command: bytes) -> tuple[list[list[str]], str]:
        """The records of the reply to a command that asks for rows, and its last line: how many
        there are, or a refusal."""
        self.send(command + b"\n")
        records: list[list[str]] = []
        # A field of a row may have line feeds; that of a line with one field is no text.
        for record in csv.reader(iter(lambda: self.reply() + "\n", ""), strict=True):
            if len(record) == 1 and re.match("rows |refused ", record[0]):
                return records, record[0]
            records.append(record)
        raise AssertionError("a reply has a last line")

    def last_answer(self, command: bytes) -> bytes:
        """The whole reply to a command that is the last one of the run, as it was printed; a
        fault where the run does not end well."""
        self.send(command)
        with suppress(BrokenPipeError):
            self.input.close()
        reply = self.output.read()
        self.end()
        return reply

    def close(self) -> int:
        """The status with which it ends, its script being at an end."""
        try:
            self.input.close()
        except BrokenPipeError:
            pass
        self.output.close()
        if not self.error.closed:
            self.said = self.error.read().decode("utf-8", "replace").strip()
            self.error.close()
        return self.process.wait()

    def end(self) -> None:
        """Ends it; a fault where it does not end well."""
        status = self.close()
        if status:
            raise self.fault(status)

    def fault(self, status: int) -> Ended:
        """What has ended it early, with the cause of a disk fault as far as it can be seen."""
        cause = disk_fault(self.folder) if status == DISK_FAULT else ""
        return ended(status, self.said + (f" ({cause})" if cause else ""))
