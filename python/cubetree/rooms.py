"""Rooms: hidden folders in which a command makes what then gets its name at once.

What is made as `sales.db` is made in the room `.sales.db.cube-export` beside it. Whoever makes it
holds the room by a lock. A stop leaves the room, and who makes it next empties it.
"""
from __future__ import annotations

import fcntl
import os
import shutil
from contextlib import contextmanager
from typing import Iterator, Optional

from .errors import Fault


@contextmanager
def room_for(path: str) -> Iterator[str]:
    """The path in an empty room at which to make what is to have another path, whose folder is
    there. The room is gone at the end, with what is left in it."""
    parent, name = os.path.split(path)
    if not os.path.isdir(parent):
        raise Fault(f"no such folder: {parent}")
    room = os.path.join(parent, f".{name}.cube-export")
    descriptor = taken(room)
    while descriptor is None:
        descriptor = taken(room)
    try:
        empty(room)
        yield os.path.join(room, name)
    finally:
        shutil.rmtree(room, ignore_errors=True)
        os.close(descriptor)


def taken(room: str) -> Optional[int]:
    """The descriptor of a room with its lock; None if the room was taken away meanwhile."""
    os.makedirs(room, exist_ok=True)
    try:
        descriptor = os.open(room, os.O_RDONLY | os.O_DIRECTORY | os.O_NOFOLLOW)
    except FileNotFoundError:
        return None
    try:
        fcntl.flock(descriptor, fcntl.LOCK_EX | fcntl.LOCK_NB)
        if os.path.exists(room) and os.path.samestat(os.stat(room), os.fstat(descriptor)):
            return descriptor
    except BlockingIOError as error:
        os.close(descriptor)
        raise Fault(f"another export has the folder {room}") from error
    os.close(descriptor)
    return None


def empty(room: str) -> None:
    """Removes what a stop has left in a room."""
    for entry in list(os.scandir(room)):
        if entry.is_dir(follow_symlinks=False):
            shutil.rmtree(entry.path)
        else:
            os.remove(entry.path)


def sync(path: str) -> None:
    """Syncs a file or a folder."""
    descriptor = os.open(path, os.O_RDONLY)
    try:
        os.fsync(descriptor)
    finally:
        os.close(descriptor)
