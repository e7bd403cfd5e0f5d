"""What the commands print beside answers: counts, and a line of progress."""
import io
import sys
import time
from typing import Optional

from .progress import ProgressFile


def counted(number: int, word: str, words: str = "") -> str:
    """A number with its word."""
    return f"{number:,} {word if number == 1 else words or word + 's'}"


def shown(text: str) -> str:
    """A text on one line: what cannot be printed is shown as Python writes it."""
    return (
        text
        if text.isprintable()
        else "".join(c if c.isprintable() else repr(c)[1:-1] for c in text)
    )


def say_bytes(errors: str) -> None:
    """What standard output makes of bytes that are no UTF-8; standard error shows them as
    escapes."""
    for stream, how in ((sys.stdout, errors), (sys.stderr, "backslashreplace")):
        if isinstance(stream, io.TextIOWrapper):
            stream.reconfigure(encoding="utf-8", errors=how)


class Progress:
    """A line on standard error, where that is a terminal; and where a folder is loaded, the file in
    which others see it, with the batches that were sent."""

    def __init__(self) -> None:
        self.began, self.shown, self.last = time.monotonic(), sys.stderr.isatty(), 0.0
        self.file: Optional[ProgressFile] = None
        self.batches = 0

    def spent(self) -> float:
        """The seconds since the beginning, never 0."""
        return max(time.monotonic() - self.began, 1e-6)

    def is_due(self) -> bool:
        """Whether the line was shown long enough."""
        return self.shown and self.spent() > self.last + 0.1

    def show(self, text: str) -> None:
        """Shows a line in place of the one before."""
        self.last = self.spent()
        print(f"\r{text}\x1b[K", end="", file=sys.stderr, flush=True)

    def clear(self) -> None:
        """Takes the line away."""
        if self.shown:
            print("\r\x1b[K", end="", file=sys.stderr, flush=True)
