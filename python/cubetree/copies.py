"""Copies of a folder: the files of the warehouse as they stand between two batches."""
from __future__ import annotations

import os
import shutil
import tempfile

from .batches import sync_folder
from .errors import FILES, Fault
from .format.files import live_body
from .locks import Reader

BESIDE = (
    ".batches",
    ".columns",
    ".shard",
)  # what the commands keep beside the files of the warehouse


def copy(folder: str, new: str, waits: bool = True) -> int:
    """Copies the warehouse of a folder into a new one, which appears whole or not at all. Writers
    wait meanwhile, so that the copy is of one moment between two batches; how many facts it has."""
    if os.path.islink(new):
        new = os.path.realpath(new)
    if os.path.exists(new) and (not os.path.isdir(new) or os.listdir(new)):
        raise Fault(f"{new} is there, and is no empty folder")
    parent = os.path.dirname(os.path.abspath(new))
    if not os.path.isdir(parent):
        raise Fault(f"no such folder: {parent}")
    turns = Reader("cube copy", folder, waits)
    turns.enter()
    try:
        if not os.path.exists(os.path.join(folder, FILES[0])):
            raise Fault(f"{folder} has no warehouse: there is nothing to copy")
        facts = live_body(folder).facts
        copy_files(folder, new, parent)
        return facts
    finally:
        turns.leave()


def copy_files(folder: str, new: str, parent: str) -> None:
    """Copies the files, in the turn of a reader."""
    room = tempfile.mkdtemp(prefix=".copy-", dir=parent)
    try:
        for name in (*FILES, *BESIDE):
            path = os.path.join(folder, name)
            if os.path.exists(path):
                copy_file(path, os.path.join(room, name))
        shutil.copymode(folder, room)
        sync_folder(room)
        rename(room, new)
        sync_folder(parent)
    except BaseException:
        shutil.rmtree(room, ignore_errors=True)
        raise


def rename(room: str, new: str) -> None:
    """Gives the copy its name."""
    try:
        os.rename(room, new)
    except OSError as error:
        raise Fault(f"{new} cannot be made: {error.strerror}") from error


def copy_file(path: str, new: str) -> None:
    """Copies a file, whose bytes are on the device then."""
    shutil.copy2(path, new)
    with open(new, "rb") as file:
        os.fsync(file.fileno())
