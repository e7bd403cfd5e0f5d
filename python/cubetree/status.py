"""The exit statuses of `cube`: one table for all of its commands."""
from enum import IntEnum


class Status(IntEnum):
    """How a command ended."""

    DONE = 0
    FAILED = 1
    WORDS = 2
    ENDED = 3
    BUSY = 4
    UNDECIDED = 5
    CHANGED = 6
    DOUBTFUL = 7
    FULL = 8
    ENGINE = 9
    WORKER = 10
    SHARD = 11
    FOLD = 12


MEANINGS = {
    Status.DONE: "all went well",
    Status.FAILED: "something was refused or failed, or the audited folder is not sound",
    Status.WORDS: "the arguments are wrong",
    Status.ENDED: "the program ended early",
    Status.BUSY: "--no-wait was given, and another run is in the folder",
    Status.UNDECIDED: "the audit failed before there was a verdict",
    Status.CHANGED: "rows are not those that the folder took before",
    Status.DOUBTFUL: "a first file is doubtful; nothing was loaded",
    Status.FULL: "the folder takes no more facts",
    Status.ENGINE: "shards: there is no engine",
    Status.WORKER: "shards: a worker is missing, cannot be used, or died too often",
    Status.SHARD: "shards: a shard is missing or damaged, or has another schema",
    Status.FOLD: "shards: the replies cannot be joined to one answer",
}
