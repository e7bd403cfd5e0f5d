"""What an audit says of a warehouse."""
from typing import NamedTuple, Optional

from .errors import FILES, Fault, Refused


class Audit(NamedTuple):
    """Whether a schema is declared, and the first place that breaks a rule: a file and an
    offset, None where no rule is broken."""

    is_declared: bool
    file: Optional[str] = None
    offset: Optional[int] = None

    @property
    def is_sound(self) -> bool:
        """Whether a schema is declared and no rule is broken."""
        return self.is_declared and self.file is None


def audit_of(reply: str) -> Audit:
    """What a reply of the program says; a fault where it is a refusal."""
    words = reply.split(" ")
    if words[0] == "refused":
        raise Refused(
            reply,
            (
                "the program does not know the command: it is older than this package"
                if reply == "refused unknown"
                else ""
            ),
        )
    if words[:2] == ["audit", "no"]:
        return Audit(True, FILES[int(words[2])], int(words[3]))
    if reply not in ("audit yes", "no schema"):
        raise Fault(f"the program replied with no verdict: {reply}")
    return Audit(reply == "audit yes")
