"""`cube audit`: reads each page of the live side, and says whether all of them are sound."""
from __future__ import annotations

import argparse
import os
import re
import sys
from concurrent.futures import ThreadPoolExecutor, wait
from typing import NamedTuple, Optional

from ..audits import Audit, audit_of
from ..errors import Damaged, Fault, told
from ..format.diagnose import Found, look
from ..format.files import live_body
from ..format.forest import PAGE, Forest
from ..locks import Reader
from ..session import Asking
from ..status import Status
from ..ui import Progress, counted, say_bytes
from .command import Command, Parser, add_folder, add_no_wait, folder_of

DESCRIPTION = """Audits the warehouse in a folder: reads each page of its live side, and says
whether all of them are sound.

A warehouse is sound if its files open, each page is the one that the points below it ask for, the
counts of each view add up to the accepted facts, and each view is what every finer view gives,
grouped by its attributes. If it is not, cube prints the first place that breaks a rule: the file
and the byte, as the program names them, and then which page of which view this is, and the rule. A
folder without a schema is not sound: if you audit it, you expect one."""
EPILOG = """
The page and the rule come from a second reader of the files. If two views disagree, the place is
the first leaf of the coarser one, and the damage may be in either.

An audit does not see damage after which all rules hold: another name in the file `names`, an older
copy of all four files, the same change in all views that have it, or a sum, a least or a greatest
value that no other view repeats. It reads only what counts: not the other side, and nothing after
the end of the names or of the live side. It changes no file of the warehouse.

An audit shows one moment between two batches, and writers wait until it has ended. A million facts
over eight views take it a second. If standard error is a terminal, a line there shows how far it
is. From cron use --quiet: 30 4 * * * cube audit --quiet /srv/facts"""
LOOK = 0.1  # seconds between two looks at how far the program is


class Verdict(NamedTuple):
    """What the program says, what a sound folder has, and what stands at the place that the
    program names."""

    audit: Audit
    all: str
    found: Optional[Found]


def verdict_of(folder: str, waits: bool, progress: Progress) -> Verdict:
    """Audits a folder."""
    try:
        session = Asking(Reader("cube audit", folder, waits))
    except Damaged as damaged:
        # The program does not open such files, whatever it is asked.
        return damaged_verdict(folder, waits, Audit(True, damaged.file, damaged.offset), progress)
    try:
        audit = audit_of(asked(session, progress))
        # No batch may come in before the look has ended.
        found = found_at(folder, audit, progress)
        everything = all_of(folder, session) if audit.is_sound else ""
    except BaseException:
        session.drop()
        raise
    session.end()
    return Verdict(audit, everything, found)


def damaged_verdict(folder: str, waits: bool, audit: Audit, progress: Progress) -> Verdict:
    """The verdict on files that the program does not open."""
    turns = Reader("cube audit", folder, waits)
    turns.enter()
    try:
        return Verdict(audit, "", found_at(folder, audit, progress))
    finally:
        turns.leave()


def found_at(folder: str, audit: Audit, progress: Progress) -> Optional[Found]:
    """What stands at the place that an audit names."""
    if audit.file is None or audit.offset is None:
        return None
    if progress.shown:
        progress.show(
            f"{audit.file} is damaged at byte {audit.offset:,}: reading what stands there"
        )
    found = look(folder, audit.file, audit.offset)
    progress.clear()
    return found


def asked(session: Asking, progress: Progress) -> str:
    """The reply of the program, while a line shows how far it is."""
    if not progress.shown or session.schema is None:
        return session.ask(b"audit\n")
    body = live_body(session.turns.folder)
    pages = Forest(session.schema).pages(body.points, body.width())
    process = session.run.process.pid
    before = bytes_read(process)
    with ThreadPoolExecutor(1) as threads:
        reply = threads.submit(session.ask, b"audit\n")
        while not reply.done():
            wait([reply], LOOK)
            show(progress, min((bytes_read(process) - before) // PAGE, pages), pages)
    progress.clear()
    return reply.result()


def bytes_read(process: int) -> int:
    """How many bytes a process has read so far; 0 where the system does not say."""
    try:
        with open(f"/proc/{process}/io", encoding="ascii") as file:
            found = re.search(r"^rchar: (\d+)$", file.read(), re.MULTILINE)
    except OSError:
        return 0
    return int(found[1]) if found else 0


def show(progress: Progress, read: int, pages: int) -> None:
    """Shows how far the program is."""
    if progress.is_due() and read == pages:
        progress.show(f"{counted(pages, 'page')} read; comparing the views")
    elif progress.is_due():
        part = read / pages
        left = f", {progress.spent() / part - progress.spent():,.0f} s left" if part else ""
        progress.show(f"{read:,} of {counted(pages, 'page')}, {part:.0%}{left}")


def all_of(folder: str, session: Asking) -> str:
    """What there is in a folder."""
    assert session.schema, "what is sound has a schema"
    body = live_body(folder)
    pages, points = Forest(session.schema).pages(body.points, body.width()), sum(body.points)
    views = counted(len(session.schema.views), "view")
    return (
        f"{counted(body.facts, 'fact')} in {counted(points, 'point')} of {views}, on"
        f" {counted(pages, 'page')} of side{body.slot}"
    )


def words_of(folder: str, verdict: Verdict) -> str:
    """The verdict in words."""
    audit, found = verdict.audit, verdict.found
    if not audit.is_declared:
        return f"{folder} has no schema: there is nothing to audit"
    if found is None:
        return (
            f"{folder} is sound: {verdict.all}\nAn audit does not see damage after which all rules"
            " hold."
        )
    rule = found.rule or "none that this tool finds broken; the program names the place"
    return (
        f"{folder} is not sound: {audit.file} is damaged at byte {audit.offset:,}\n  place "
        f" {found.what}\n  rule   {rule}"
    )


def add_arguments(parser: Parser) -> None:
    """Adds the arguments of the command."""
    add_folder(parser, is_positional=True)
    parser.add_argument(
        "--quiet", action="store_true", help="print nothing if the warehouse is sound"
    )
    add_no_wait(parser)


def run(options: argparse.Namespace) -> int:
    """Audits the folder, and gives the exit status."""
    progress = Progress()
    say_bytes("backslashreplace")
    try:
        verdict = verdict_of(options.folder, not options.no_wait, progress)
        if not (options.quiet and verdict.audit.is_sound):
            print(words_of(options.folder, verdict), flush=True)
        return Status.DONE if verdict.audit.is_sound else Status.FAILED
    except KeyboardInterrupt:
        progress.clear()
        return Status.UNDECIDED
    except (Fault, OSError) as fault:
        progress.clear()
        if isinstance(fault, BrokenPipeError):
            os.dup2(os.open(os.devnull, os.O_WRONLY), 1)
        print(f"cube audit: {told(fault)}", file=sys.stderr)
        status = fault.exit_status if isinstance(fault, Fault) else Status.FAILED
        return Status.UNDECIDED if status == Status.FAILED else status


COMMAND = Command(
    usage=("[OPTION..] [FOLDER]",),
    description=DESCRIPTION,
    epilog=EPILOG,
    statuses=(
        Status.DONE,
        Status.FAILED,
        Status.WORDS,
        Status.ENDED,
        Status.BUSY,
        Status.UNDECIDED,
    ),
    add_arguments=add_arguments,
    check=folder_of,
    run=run,
)
