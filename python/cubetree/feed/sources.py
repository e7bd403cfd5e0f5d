"""Where the rows of a feed come from: standard input, named pipes, and files that grow and are
rotated."""
from __future__ import annotations

import fcntl
import os
import select
import stat
import sys
import termios
import time
import zlib
from typing import Callable, Mapping, Optional, Sequence, Union

from ..errors import Fault
from .rowstream import Rows
from .spool import INPUT, Place

PIECE, FIRST = 1 << 16, 1 << 10  # bytes that are read at once, and by which a file is known
MOMENT = 0.01  # seconds until the system has noted the time of a write whose bytes are there
Places = Mapping["tuple[str, int]", Place]
Aside = Callable[[str, bytes], None]
Take = Callable[[Place, "list[bytes]"], None]


def say(text: str) -> None:
    """Says something on standard error."""
    clear = "\r\x1b[K" if sys.stderr.isatty() else ""
    print(f"{clear}cube feed: {text}", file=sys.stderr, flush=True)


class Stream:
    """Standard input, which comes to its end, or a named pipe, which is opened again after each
    writer."""

    def __init__(self, path: str, places: Places, put_aside: Aside) -> None:
        self.path, self.is_over, self.put_aside = path, False, put_aside
        last_write = 0 if path == INPUT else os.stat(path).st_mtime_ns
        self.descriptor = 0 if path == INPUT else os.open(path, os.O_RDONLY | os.O_NONBLOCK)
        self.inode = os.fstat(self.descriptor).st_ino
        kept = places.get((path, self.inode))
        self.rows = Rows(kept.rest.encode("latin-1") if kept else b"")
        # A named pipe may have a new writer, who does not go on with the row of the former one.
        self.is_doubtful = (
            path != INPUT and self.rows.front != b"" and not self.has_rest(last_write)
        )

    def waiting(self) -> int:
        """How many bytes wait to be read."""
        return int.from_bytes(
            fcntl.ioctl(self.descriptor, termios.FIONREAD, bytes(4)), sys.byteorder
        )

    def has_rest(self, last_write: int) -> bool:
        """Whether something waits in a named pipe that was there before it was opened: a writer
        that waits for a reader may write at that moment."""
        if self.waiting() == 0:
            return False
        time.sleep(MOMENT)
        return os.fstat(self.descriptor).st_mtime_ns == last_write

    def place(self) -> Place:
        """The front of the row that is not whole yet."""
        return Place(self.path, self.inode, rest=self.rows.front.decode("latin-1"))

    def waits_on(self) -> list[int]:
        """What tells that something has come."""
        return [] if self.is_over else [self.descriptor]

    def read(self, take: Take) -> bool:
        """Hands over a piece that has come; whether one was there."""
        if self.is_over or not select.select([self.descriptor], [], [], 0)[0]:
            return False
        try:
            piece = os.read(self.descriptor, PIECE)
        except BlockingIOError:
            return False
        rows = self.rows.take(piece) if piece else self.rows.rest()
        if self.is_doubtful and rows:
            self.put_aside("a stop has parted it", rows.pop(0))
            self.is_doubtful = False
        take(self.place(), rows)
        if not piece:
            self.end()
        return True

    def end(self) -> None:
        """What follows the end of the stream."""
        if self.path == INPUT:
            self.is_over = True
        else:
            # The new descriptor is there before the old one is closed: a writer that comes in
            # between finds the pipe open.
            former, self.descriptor = self.descriptor, os.open(
                self.path, os.O_RDONLY | os.O_NONBLOCK
            )
            os.close(former)


def first_of(descriptor: int, offset: int) -> int:
    """A checksum of the first bytes of a file, as far as it was read: a new file may have the
    inode of one that was removed."""
    return zlib.crc32(os.pread(descriptor, min(offset, FIRST), 0))


def is_file_of(descriptor: int, place: Place) -> bool:
    """Whether a file is the one that was read up to a place."""
    about = os.fstat(descriptor)
    return (
        about.st_ino == place.inode
        and about.st_size >= place.offset
        and first_of(descriptor, place.offset) == place.first
    )


class Tail:
    """An open file, from an offset on."""

    def __init__(self, path: str, descriptor: int, offset: int) -> None:
        self.path, self.descriptor, self.offset = path, descriptor, offset
        self.inode, self.rows = os.fstat(descriptor).st_ino, Rows()
        self.first = first_of(descriptor, offset)

    def place(self) -> Place:
        """The offset after the last row that is whole."""
        offset = self.offset - len(self.rows.front)
        return Place(self.path, self.inode, offset, first_of(self.descriptor, offset))

    def read(self, take: Take) -> bool:
        """Hands over the next piece; whether one was there."""
        size = os.fstat(self.descriptor).st_size
        if size == self.offset:
            return False
        if size < self.offset or first_of(self.descriptor, self.offset) != self.first:
            say(f"{self.path} was written anew, and is read from its beginning")
            self.offset, self.rows = 0, Rows()
        piece = os.pread(self.descriptor, PIECE, self.offset)
        self.offset += len(piece)
        self.first = first_of(self.descriptor, self.offset)
        rows = self.rows.take(piece)
        if rows:
            take(self.place(), rows)
        return piece != b""

    def end(self, take: Take) -> Place:
        """Hands over the last row, which need not have the end of its line, and closes the file."""
        rows, place = self.rows.rest(), self.place()
        if rows:
            take(place, rows)
        os.close(self.descriptor)
        return place


class Growing:
    """A file that grows. One that was rotated is followed until the next rotation, since its
    writer may not have opened the new file yet."""

    def __init__(self, path: str, places: Places, forget: Callable[[Place], None]) -> None:
        self.path, self.forget, self.is_over = path, forget, False
        self.formers: list[Tail] = []
        self.current: Optional[Tail] = None
        self.find([place for place in places.values() if place.path == path])

    def find(self, kept: Sequence[Place]) -> None:
        """Finds the files that were read before, under this name or another one of the folder,
        and the one that has the name now."""
        if inode_of(self.path) is not None:
            self.open()
        elif not kept:
            raise Fault(f"no such file: {self.path}")
        for place in kept:
            if self.current and is_file_of(self.current.descriptor, place):
                self.current = Tail(self.path, self.current.descriptor, place.offset)
            else:
                self.find_former(place)

    def find_former(self, place: Place) -> None:
        """Finds a file that was rotated while it was not followed."""
        with os.scandir(os.path.dirname(self.path) or ".") as entries:
            for entry in entries:
                if entry.inode() == place.inode and entry.is_file():
                    descriptor = os.open(entry.path, os.O_RDONLY)
                    if is_file_of(descriptor, place):
                        self.formers.append(Tail(self.path, descriptor, place.offset))
                        return
                    os.close(descriptor)
        say(f"the former {self.path} is gone: what it had after byte {place.offset:,} is not read")
        self.forget(place)

    def open(self) -> None:
        """Follows the file that has the name."""
        self.current = Tail(self.path, os.open(self.path, os.O_RDONLY), 0)

    def waits_on(self) -> list[int]:
        """Nothing tells that a file has grown."""
        return []

    def read(self, take: Take) -> bool:
        """Hands over what has come to its files; whether something had."""
        now = inode_of(self.path)
        tails = [*self.formers, *([self.current] if self.current else [])]
        if any([tail.read(take) for tail in tails]):
            return True
        self.end_formers(
            take, [former for former in self.formers if os.fstat(former.descriptor).st_nlink == 0]
        )
        if now is None or self.current and self.current.inode == now:
            return False
        self.end_formers(take, self.formers if self.current else [])
        self.formers += [self.current] if self.current else []
        self.open()
        return True

    def end_formers(self, take: Take, tails: list[Tail]) -> None:
        """Lets go of files to which nothing is written any more."""
        self.formers = [former for former in self.formers if former not in tails]
        for tail in tails:
            self.forget(tail.end(take))


def inode_of(path: str) -> Optional[int]:
    """The inode that has a name."""
    try:
        return os.stat(path).st_ino
    except FileNotFoundError:
        return None


class Input(Tail):
    """Standard input that is a file, which is read to its end."""

    def __init__(self, places: Places) -> None:
        kept = places.get((INPUT, os.fstat(0).st_ino))
        super().__init__(
            INPUT, 0, kept.offset if kept and is_file_of(0, kept) else os.lseek(0, 0, os.SEEK_CUR)
        )
        self.is_over = False

    def waits_on(self) -> list[int]:
        """Nothing has to be waited for."""
        return []

    def read(self, take: Take) -> bool:
        """Hands over the next piece, or the last row."""
        if self.is_over:
            return False
        if not super().read(take):
            self.is_over = True
            rows = self.rows.rest()
            take(self.place(), rows)
        return True


Source = Union[Stream, Growing, Input]


def source_of(
    path: str, places: Places, forget: Callable[[Place], None], put_aside: Aside
) -> Source:
    """The source of a path."""
    if path == INPUT:
        return (
            Input(places) if stat.S_ISREG(os.fstat(0).st_mode) else Stream(path, places, put_aside)
        )
    try:
        is_stream = not stat.S_ISREG(os.stat(path).st_mode)
    except FileNotFoundError:
        is_stream = False
    if is_stream and not stat.S_ISFIFO(os.stat(path).st_mode):
        raise Fault(f"neither a file nor a pipe: {path}")
    return Stream(path, places, put_aside) if is_stream else Growing(path, places, forget)


def lost_streams(sources: Sequence[Source], places: Places) -> list[Place]:
    """What was read last of streams that are no more, of which some have left the front of a
    row."""
    live = {source.place()[:2] for source in sources if isinstance(source, Stream)}
    return [place for key, place in places.items() if place.offset == 0 and key not in live]
