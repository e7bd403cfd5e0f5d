"""What can go wrong in a warehouse: a refusal with its place, another run in the folder, a
program that ended early, and any other fault."""
import re
from typing import Optional, Sequence, Union

from .status import Status

PLACE = re.compile(
    r"refused (?:row (?P<row>\d+) (?:fields|end|repeated|(?:number|long) (?P<field>\d+))|schema \w+"
    r" (?P<line>\d+)|gap (?P<due>\d+)"
    r"|(?:syntax|measure|attribute|repeated|value|sql \w+) (?P<byte>\d+)|(?:names|mass)"
    r" (?P<name>\w+))"
)
DAMAGE = re.compile(r"damaged file ([0-3]) at (\d+)")
FILES = ("root", "names", "side0", "side1")  # as the program numbers them


class Fault(Exception):
    """Base class of all errors of this package."""

    exit_status = Status.FAILED


class Stopped(Fault):
    """What ends a tool, and not a call of it alone."""


class Busy(Stopped):
    """Another run is in the folder, and this one is not to wait."""

    exit_status = Status.BUSY


class Refused(Fault):
    """What was refused, by its reply in the words of the program, and the place that it names,
    which counts from 1.

    Some replies are of this package and not of the program: `refused row R end`, for a text with a
    line that is `end`, which would end the block, and `refused sql ..` for queries that the program
    does not answer by itself. These have a meaning in words.
    """

    def __init__(self, reply: str, meaning: str = "") -> None:
        super().__init__(f"{reply}: {meaning}" if meaning else reply)
        self.reply, self.meaning = reply, meaning
        place = PLACE.fullmatch(reply)
        named = place.groupdict() if place else {}
        numbers = {
            key: int(value) if value else None for key, value in named.items() if key != "name"
        }
        self.row: Optional[int] = numbers.get("row")
        self.field: Optional[int] = numbers.get("field")
        self.line: Optional[int] = numbers.get("line")
        self.byte: Optional[int] = numbers.get("byte")
        self.due: Optional[int] = numbers.get("due")
        self.name: Optional[str] = named.get("name")


class Inexact(Fault):
    """A number of a query is greater than what SQLite holds without rounding."""


class Changed(Stopped):
    """The rows of a numbered batch, or the first rows of a file, are not those that the folder took
    before, or it is not known which ones it took."""

    exit_status = Status.CHANGED


class Doubtful(Fault):
    """What was seen in a first file is perhaps not what its user means; nothing was loaded."""

    exit_status = Status.DOUBTFUL

    def __init__(self, doubts: Sequence[str]) -> None:
        super().__init__("\n  ".join([*doubts, "nothing was loaded; --yes loads it as proposed"]))


class Full(Fault):
    """The folder has as many facts as it may have."""

    exit_status = Status.FULL


class Ended(Stopped):
    """The program has ended early, with this status and with what it said on standard error."""

    exit_status = Status.ENDED

    def __init__(self, status: int, said: str) -> None:
        super().__init__(
            f"the program ended with the status {status}" + (f": {said}" if said else "")
        )
        self.status, self.said = status, said


class Damaged(Ended):
    """A file does not hold what the warehouse writes, from an offset on."""

    def __init__(self, status: int, said: str, file: str, offset: int) -> None:
        super().__init__(status, said)
        self.file, self.offset = file, offset


def ended(status: int, said: str) -> Ended:
    """The fault of a program that ended with this status."""
    damage = DAMAGE.search(said)
    return (
        Damaged(status, said, FILES[int(damage[1])], int(damage[2]))
        if status == 6 and damage
        else Ended(status, said)
    )


def told(fault: Union[Fault, OSError]) -> str:
    """A fault in words, of this package or of the system."""
    return (
        f"{fault.filename}: {fault.strerror}"
        if isinstance(fault, OSError) and fault.filename
        else str(fault)
    )
