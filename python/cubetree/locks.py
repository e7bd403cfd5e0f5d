"""The turns that runs of the program take in a folder: which locks each tool holds, when, and
why.

The program has no locks, and a run remembers the files as it opened them. If another run writes
meanwhile, this goes wrong in two ways. A run that writes builds its next batch on what it
remembers, and so writes over the other run's batches. A run that asks reads the pages that its root
names: the first commit after its opening leaves them alone, and the second one overwrites them. Its
sums are wrong then, and its status is 0.

So each tool takes these locks by `flock`, on descriptors that are open for reading only, of things
that no tool writes to. F is the folder itself. W, Q and B are the empty files `writer`, `queue` and
`batch` in the folder `.turns` inside it. A tool that has F makes them when they are missing; they
may be removed by whoever holds F exclusively.

F   Every tool holds F shared for the whole life of its run. `flock . cubetree` in a shell holds F
    exclusively, so that run and the tools exclude each other, and a shell line needs no other lock.
W   A writer (load, refresh, feed while it sends) holds W exclusively for the whole life of its run,
    and over all runs of one load. Each of its batches is built on the files as the run itself left
    them, so another writer may not come in between two batches either.
B   A writer holds B exclusively while its program works on the files: from before the program is
    started until its first reply, from before `schema` or `load` is sent until the reply has been
    read, and from before `begin` is sent until the reply to `finish` or `abandon` has been read. A
    reader (ask, and any tool that only asks) holds B shared from before its program is started
    until that run has ended. So no commit falls within a reader's run. Writers wait for that run: a
    reader ends it before it waits for input, or for someone to take its output, and after a second
    of answering. An audit is one answer, as long as it takes.
Q   The turnstile before B lets readers in between two batches, and lets no stream of readers keep a
    writer out. A reader takes Q shared, then B shared, then lets Q go; a writer takes Q
    exclusively, then B exclusively, then lets Q go. When a writer lets B go, every waiting reader
    holds Q, so the writer cannot have Q again before each of them has B. While a writer waits for B
    it holds Q, so no new reader gets in.

The file `progress` beside them is no lock: python/cubetree/progress.py says what a writer tells
there.

A feed also holds the folder of its spool exclusively for its whole life, before all of these: what
it has sent is known by the number of the batch, so a folder has one feed.

Every tool takes them in the order F, W, Q, B, and waits for no lock while it holds B. So no tools
wait for each other in a circle.

The program inherits the descriptors. A lock of `flock` belongs to the open file that tool and
program share: if a tool is killed while its program still takes in a batch, the locks hold until
the program has ended too. LOCK_UN by the tool counts for both; a close counts only for the one that
closes. A kill leaves nothing to clean up.

A tool that waits for more than a second says so on standard error, once. With --no-wait, a tool
that would have to wait ends with the status 4. For a writer this is over once its program is open,
because between its batches it always lets readers in.
"""
import contextlib
import fcntl
import os
import sys
import threading
from typing import Iterator

from .errors import Busy, Fault, told

PATIENCE = 1.0  # seconds of waiting that nothing is said about
FOLDER, WRITER, QUEUE, BATCH = "folder", "writer", "queue", "batch"


class Turns:
    """The descriptors of the locks in a folder, and the waits of a tool for them."""

    def __init__(self, tool: str, folder: str, waits: bool = True) -> None:
        self.tool, self.folder, self.waits, self.said = tool, folder, waits, False
        self.open: dict[str, int] = {}

    def descriptors(self) -> tuple[int, ...]:
        """What the program has to inherit."""
        return tuple(self.open.values())

    def enter(self) -> None:
        """Takes the locks that the tool holds for its whole run."""
        try:
            self.lock()
        except BaseException:
            self.leave()
            raise

    def lock(self) -> None:
        """Opens the descriptors, and takes F."""
        if not os.path.isdir(self.folder):
            raise Fault(f"no such folder: {self.folder}")
        with self.named():
            self.open[FOLDER] = os.open(self.folder, os.O_RDONLY)
        self.take(FOLDER, fcntl.LOCK_SH)
        with self.named():
            beside = os.path.join(self.folder, ".turns")
            os.makedirs(beside, exist_ok=True)
            for name in (WRITER, QUEUE, BATCH):
                self.open[name] = os.open(
                    os.path.join(beside, name), os.O_RDONLY | os.O_CREAT, 0o666
                )

    def leave(self) -> None:
        """Closes the descriptors, which lets all locks go that no program holds as well."""
        while self.open:
            os.close(self.open.popitem()[1])

    def take(self, name: str, kind: int) -> None:
        """Waits for a lock, and takes it."""
        with self.named():
            try:
                fcntl.flock(self.open[name], kind | fcntl.LOCK_NB)
            except BlockingIOError:
                self.wait(name, kind)

    def wait(self, name: str, kind: int) -> None:
        """Waits for a lock that another run holds."""
        if not self.waits:
            raise Busy(f"another run is in {self.folder}")
        timer = threading.Timer(PATIENCE, self.say)
        timer.daemon = True
        timer.start()
        try:
            fcntl.flock(self.open[name], kind)
        finally:
            timer.cancel()

    def say(self) -> None:
        """Says that the tool waits, once; a tool without a name says nothing."""
        if not self.said and self.tool:
            self.said = True
            clear = "\r\x1b[K" if sys.stderr.isatty() else ""
            print(
                f"{clear}{self.tool}: waits for another run in {self.folder}",
                file=sys.stderr,
                flush=True,
            )

    def pass_turnstile(self, kind: int) -> None:
        """Takes Q, then B, then releases Q."""
        self.take(QUEUE, kind)
        self.take(BATCH, kind)
        self.give(QUEUE)

    def give(self, name: str) -> None:
        """Lets a lock go."""
        fcntl.flock(self.open[name], fcntl.LOCK_UN)

    @contextlib.contextmanager
    def named(self) -> Iterator[None]:
        """Makes what the system says about a lock a fault that names the folder."""
        try:
            yield
        except OSError as error:
            raise Fault(f"the folder {self.folder} cannot be locked: {told(error)}") from error


class Reader(Turns):
    """The turns of a tool that only asks: it is in the folder while it has a run."""

    def lock(self) -> None:
        """Takes F and B."""
        super().lock()
        self.pass_turnstile(fcntl.LOCK_SH)


class Writer(Turns):
    """The turns of a tool that loads: it is in the folder for its whole life, and lets readers
    in between its batches."""

    def lock(self) -> None:
        """Takes F and W."""
        super().lock()
        self.take(WRITER, fcntl.LOCK_EX)

    def begin_batch(self) -> None:
        """Takes B, before the program is to work on the files."""
        self.pass_turnstile(fcntl.LOCK_EX)

    def end_batch(self) -> None:
        """Lets B go, once the program has replied."""
        self.give(BATCH)
        self.waits = True

    @contextlib.contextmanager
    def batch(self) -> Iterator[None]:
        """Holds B over what the program does with one reply."""
        self.begin_batch()
        yield
        self.end_batch()
