"""Opens what rows come from: a file or standard input, packed or not; and reads its lines.

What can't be read is known by its first bytes and not by its name; the fault says which way helps.
"""
from __future__ import annotations

import bz2
import gzip
import io
import lzma
import os
import re
import select
import stat
import subprocess
import threading
import zlib
from contextlib import suppress
from typing import Callable, Iterator, Optional, Protocol, Union

from ..codec import MARK
from ..errors import Fault

FRONT = 1 << 16  # bytes by which a source is judged
PIECE = 1 << 18  # bytes that are read at once
LONGEST_LINE = 1 << 26
INPUT = "-"  # the path of standard input
PACKED = {
    "gzip": re.compile(rb"\x1f\x8b\x08"),
    "bzip2": re.compile(rb"BZh[1-9](?:1AY&SY|\x17rE8P\x90)"),
    "xz": re.compile(rb"\xfd7zXZ\0"),
    "zstd": re.compile(rb"\x28\xb5\x2f\xfd"),
}
ICONV = "iconv -f {} -t UTF-8 FILE makes it UTF-8"
PANDAS = "in Python, pandas.{}(FILE).to_csv(NEW, index=False) makes csv of it"
IN2CSV = "in2csv FILE makes csv of it (apt install csvkit)"
BINARY = rb"(?=.{0,200}[\0-\x08\x0e-\x1f])"  # a csv file may begin with a column `PAR1`
FOREIGN = [
    (rb"\xff\xfe\0\0|\0\0\xfe\xff", "UTF-32", ICONV.format("UTF-32")),
    (rb"\xff\xfe|\xfe\xff", "UTF-16", ICONV.format("UTF-16")),
    (
        rb"PK\x03\x04(?=.{0,4000}(?:xl/|\[Content_Types\]|opendocument\.spreadsheet))",
        "a spreadsheet",
        IN2CSV,
    ),
    (rb"\xd0\xcf\x11\xe0\xa1\xb1\x1a\xe1", "an old spreadsheet (xls)", IN2CSV),
    (rb"PK\x03\x04", "a zip archive", "unzip -p FILE prints what is in it"),
    (rb".{257}ustar", "a tar archive", "tar -xOf FILE NAME prints a file that is in it"),
    (rb"PAR1" + BINARY, "Parquet", PANDAS.format("read_parquet")),
    (rb"(?:ARROW1|FEA1)" + BINARY, "Arrow", PANDAS.format("read_feather")),
    (
        rb"SQLite format 3\0",
        "an SQLite database",
        "sqlite3 -header -csv FILE 'SELECT ..' makes csv of it",
    ),
    (rb"%PDF-", "a PDF document", "export its table as csv from where it was made"),
    (
        rb"(?:\xef\xbb\xbf)?\s*(?:\{\s*[\"}]|\[\s*[\[{])",
        "JSON",
        "mlr --ijson --ocsv cat FILE makes csv of it (apt install miller)",
    ),
    (
        rb"(?i)(?:\xef\xbb\xbf)?\s*<(?:\?xml|!doctype|html|table)",
        "XML or HTML",
        "look into it, as it may be a page with an error message",
    ),
]
FORMS = [(re.compile(form, re.DOTALL), what, way) for form, what, way in FOREIGN]


class Readable(Protocol):
    """What bytes are read from."""

    def read(self, size: int) -> Optional[bytes]:
        """At most this many bytes, and none at the end."""


class Stream(io.RawIOBase):
    """A stream that can show its first bytes before they are read, and counts what is read."""

    def __init__(self, raw: Readable, descriptor: Optional[int] = None) -> None:
        self.raw, self.descriptor, self.front, self.count = raw, descriptor, b"", 0

    def look(self, size: int) -> bytes:
        """The first bytes, which stay to be read. They are fewer than `size` if there are no more,
        or if two lines are there and the writer of a pipe lets the others wait."""
        while len(self.front) < size and not (self.front.count(b"\n") > 1 and self.has_to_wait()):
            piece = self.raw.read(size - len(self.front))
            if not piece:
                break
            self.front += piece
        return self.front[:size]

    def has_to_wait(self) -> bool:
        """Whether the next byte is not there yet, as far as that is known."""
        return self.descriptor is not None and not select.select([self.descriptor], [], [], 0)[0]

    def readable(self) -> bool:
        """Always true."""
        return True

    def readinto(self, buffer: memoryview) -> int:  # type: ignore[override]
        """Puts the next bytes into a buffer, and says how many."""
        piece = self.front[: len(buffer)] or self.raw.read(len(buffer)) or b""
        self.front = self.front[len(piece) :]
        buffer[: len(piece)] = piece
        self.count += len(piece)
        return len(piece)


class Source:
    """A source of bytes: its name, its stream of unpacked bytes, and how much of it was read."""

    def __init__(self, name: str, raw: Readable, size: int = 0, is_file: bool = False) -> None:
        self.name, self.size, self.is_file = name, size, is_file
        descriptor = raw.fileno() if isinstance(raw, io.FileIO) else None
        self.raw, self.bytes = raw, Stream(raw, descriptor)
        look = self.bytes.look(1 << 9)
        self.packed = next((kind for kind, mark in PACKED.items() if mark.match(look)), "")
        self.unpacked = UNPACKERS[self.packed](self.bytes) if self.packed else None
        rows = Stream(self.unpacked) if self.unpacked else self.bytes
        self.front = rows.look(FRONT)
        expect_text(self.front, self.packed)
        self.stream = io.BufferedReader(rows, PIECE)

    def position(self) -> int:
        """How many bytes were read, of the packed ones if it is packed."""
        return self.bytes.count

    def part(self) -> float:
        """The part of the source that was read; 0 if its size isn't known."""
        return min(self.position() / self.size, 1.0) if self.size else 0.0

    def close(self) -> None:
        """Ends the reading."""
        for stream in (self.unpacked, self.raw):
            if isinstance(stream, io.IOBase):
                stream.close()


def open_rows(path: str) -> Source:
    """Opens a file, or standard input for `-`; a Fault if it is no text of rows."""
    if path == INPUT:
        return Source("standard input", io.FileIO(0, closefd=False))
    file = io.FileIO(path)
    status = os.fstat(file.fileno())
    is_file = stat.S_ISREG(status.st_mode)
    try:
        return Source(path, file, status.st_size if is_file else 0, is_file)
    except Fault:
        file.close()
        raise


def expect_text(front: bytes, packed: str) -> None:
    """A fault if the first bytes of a source are of something that isn't csv."""
    inner = f" in the {packed} file" if packed else ""
    for kind, mark in PACKED.items():
        if mark.match(front):
            raise Fault(f"it is packed twice, by {packed} and {kind}: unpack it once before")
    for form, what, way in FORMS:
        if form.match(front):
            raise Fault(f"it is {what}{inner}: {way}")
    if 3 * front.count(b"\0") > len(front):
        way = ICONV.format("UTF-16BE" if front[0] == 0 else "UTF-16LE")
        raise Fault(f"it may be UTF-16{inner}: {way}")
    if b"\0" in front:
        raise Fault(f"byte {front.index(0) + 1:,}{inner} is 0, so it is no text: is it a csv file?")


# ---- lines


class Lines:
    """The lines of a stream as text. Bytes that are not UTF-8 go through as surrogates, and the
    first line that has some is noted."""

    def __init__(self, stream: io.BufferedReader) -> None:
        self.stream, self.left = stream, self.pieces()
        self.part = io.StringIO()  # the piece whose lines are being read
        self.next = b""  # the piece after it, if it was looked at
        self.before = 0  # lines of the pieces that were handed out
        self.odd_line: Optional[int] = None
        self.odd_lines = 0

    def __iter__(self) -> Iterator[str]:
        while piece := self.take():
            self.part = io.StringIO(self.counted(piece), newline="")
            yield from self.part

    def take(self) -> bytes:
        """The next piece; no bytes at the end."""
        piece = self.next or next(self.left, b"")
        self.next = b""
        return piece

    def peek(self) -> bytes:
        """The next whole lines, which stay to be read; no bytes at the end."""
        place = self.part.tell()
        rest = self.part.read()
        self.part.seek(place)
        if rest:
            return rest.encode("utf-8", "surrogateescape")
        piece = self.take()
        self.next = piece
        return piece

    def pass_over(self) -> None:
        """Passes over the lines that `peek` gave."""
        if not self.part.read():
            self.counted(self.take())

    def pieces(self) -> Iterator[bytes]:
        """Pieces of whole lines, without a byte order mark."""
        rest, is_first = b"", True
        while piece := self.stream.read1(PIECE):
            rest += piece
            cut = last_end(rest)
            if cut or len(rest) > LONGEST_LINE:
                whole, rest = (rest[:cut], rest[cut:]) if cut else (rest, b"")
                yield whole.removeprefix(MARK) if is_first else whole
                is_first = False
        if rest:
            yield rest.removeprefix(MARK) if is_first else rest

    def counted(self, piece: bytes) -> str:
        """The text of a piece, whose lines count as read from then on."""
        try:
            text = piece.decode()
        except UnicodeDecodeError:
            text = piece.decode("utf-8", "surrogateescape")
            self.note_odd(piece)
        self.before += len(piece.splitlines()) if b"\r" in piece else piece.count(b"\n")
        return text

    def note_odd(self, piece: bytes) -> None:
        """Notes the lines of a piece that are not UTF-8."""
        for number, line in enumerate(piece.splitlines(), self.before + 1):
            try:
                line.decode()
            except UnicodeDecodeError:
                self.odd_line = self.odd_line or number
                self.odd_lines += 1


def last_end(piece: bytes) -> int:
    """Where the last whole line of a piece ends; 0 if none does."""
    cut = piece.rfind(b"\n") + 1
    # Old files have carriage returns only. The last byte may be the first of an end of two bytes.
    return cut or piece.rfind(b"\r", 0, len(piece) - 1) + 1


# ---- packed sources


class Unpacked(io.RawIOBase):
    """The bytes that a library unpacks."""

    def __init__(self, name: str, file: Readable) -> None:
        self.name, self.file = name, file

    def read(self, size: int = -1) -> bytes:
        """The next bytes; a Fault if the file is cut short or damaged."""
        try:
            return self.file.read(size) or b""
        except EOFError as error:
            raise ends_early(self.name) from error
        except (OSError, zlib.error, lzma.LZMAError) as error:
            if isinstance(error, OSError) and error.errno is not None:
                raise
            raise Fault(f"the {self.name} file is damaged: {error}") from error


def unpack_zstd(packed: Stream) -> Zstd:
    """Starts the program zstd; a Fault if there is none."""
    pipe = subprocess.PIPE
    try:
        words = ["zstd", "-dcq"]
        return Zstd(packed, subprocess.Popen(words, stdin=pipe, stdout=pipe, stderr=pipe))
    except FileNotFoundError as error:
        raise Fault(
            "it is packed by zstd, and there is no program zstd: apt install zstd"
        ) from error


class Zstd(io.RawIOBase):
    """The bytes that the program zstd unpacks, which a thread feeds."""

    def __init__(self, packed: Stream, process: subprocess.Popen[bytes]) -> None:
        self.packed, self.process = packed, process
        self.error: Optional[OSError] = None
        threading.Thread(target=self.feed, daemon=True).start()

    def feed(self) -> None:
        """Hands all packed bytes to the program."""
        stdin = self.process.stdin
        assert stdin
        with suppress(BrokenPipeError), stdin:
            while True:
                try:
                    piece = self.packed.read(FRONT)
                except OSError as error:
                    self.error = error
                    return
                if not piece:
                    return
                stdin.write(piece)

    def read(self, size: int = -1) -> bytes:
        """The next bytes; a Fault if the file is cut short or damaged."""
        assert self.process.stdout and self.process.stderr
        piece = self.process.stdout.read(size)
        if piece or size == 0:
            return piece
        said = self.process.stderr.read().decode("utf-8", "replace").strip()
        if self.error:
            raise self.error
        if self.process.wait() == 0:
            return b""
        if "premature end" in said or "truncated" in said:
            raise ends_early("zstd")
        raise Fault(f"the zstd file is damaged: {said}")

    def close(self) -> None:
        """Ends the program."""
        if self.process.poll() is None:
            self.process.kill()
            self.process.wait()
        for pipe in (self.process.stdout, self.process.stderr):
            if pipe:
                pipe.close()
        super().close()


def ends_early(name: str) -> Fault:
    """The fault of a packed file that is cut short."""
    return Fault(f"the {name} file ends early: it was cut short, so rows at its end are missing")


def unpacker(name: str, opened: Callable[[Stream], Readable]) -> Callable[[Stream], Unpacked]:
    """What unpacks a stream by a library."""
    return lambda packed: Unpacked(name, opened(packed))


UNPACKERS: dict[str, Callable[[Stream], Union[Unpacked, Zstd]]] = {
    "gzip": unpacker("gzip", lambda packed: gzip.GzipFile(fileobj=packed)),
    "bzip2": unpacker("bzip2", lambda packed: bz2.BZ2File(io.BufferedReader(packed))),
    "xz": unpacker("xz", lambda packed: lzma.LZMAFile(io.BufferedReader(packed))),
    "zstd": unpack_zstd,
}
