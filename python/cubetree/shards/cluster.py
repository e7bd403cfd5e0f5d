"""The engine under shards, Dask distributed: it knows the workers, starts them again on this
machine, and repeats the tasks of one that has died.

A task of a shard goes to its worker and to no other. One that has no worker waits for it; `Engine`
says so, and gives up after its patience.
"""
from __future__ import annotations

import contextlib
import importlib
import logging
import socket
import sys
import tempfile
import time
import warnings
from concurrent.futures import ThreadPoolExecutor
from itertools import repeat
from typing import Any, Callable, Iterator, Sequence, TypeVar, Union, cast

from ..errors import Refused
from ..status import Status
from ..ui import counted
from . import worker
from .places import Shard, ShardFault
from .worker import Trouble


def loaded(name: str) -> Any:
    """A module of the engine, None where there is no engine."""
    try:
        return importlib.import_module(name)
    except ImportError:
        return None


distributed, progressbar = loaded("distributed"), loaded("distributed.diagnostics.progressbar")
Result = TypeVar("Result")
Task = Callable[..., Union[Trouble, Result]]
HOST, LOOK = "127.0.0.1", 0.5  # seconds between two looks at the workers
MOST_AT_ONCE = 32  # replies that are fetched
# A task whose worker dies again and again is given up by the engine; a cluster of this tool bears
# more than its default of 3.
DEATHS = 100
STATUSES = {
    worker.UNKNOWN: Status.SHARD,
    worker.DAMAGED: Status.SHARD,
    worker.SCHEMA: Status.SHARD,
    worker.CHANGED: Status.CHANGED,
    worker.BUSY: Status.BUSY,
    worker.ENDED: Status.ENDED,
}


def need_engine() -> None:
    """Ends where there is no engine."""
    if distributed is None:
        raise ShardFault(
            Status.ENGINE,
            (
                f"{sys.executable} has no package `distributed`: apt install python3-distributed,"
                " which is for /usr/bin/python3"
            ),
        )
    logging.disable(logging.CRITICAL)
    warnings.filterwarnings(
        "ignore", "Large object of size", UserWarning
    )  # A batch stands in its task, which the engine may have to repeat.


class Engine:
    """The shards by the workers that a client of the engine reaches."""

    def __init__(self, client: Any, shards: Sequence[Shard], waits: bool, patience: float) -> None:
        self.client, self.shards, self.waits, self.patience = client, list(shards), waits, patience
        self.missing: dict[int, float] = {}

    # ---- tasks

    def submit(self, shard: Shard, task: Task[Result], *words: Any) -> Any:
        """A task that goes to the worker of a shard."""
        given = (shard.folder, shard.number, len(self.shards), *words)
        try:
            return self.client.submit(
                task,
                *given,
                workers=[shard.worker],
                allow_other_workers=False,
                pure=False,
                retries=0,
            )
        except OSError as error:
            raise ShardFault(Status.ENGINE, f"the scheduler cannot be reached: {error}") from error

    def result(self, shard: Shard, future: Any, _: Task[Result]) -> Result:
        """What a task has found, which is done; what went wrong is raised."""
        try:
            found: Union[Trouble, Result] = self.gathered(future)
        except distributed.scheduler.KilledWorker as error:
            raise shard.fault(
                Status.WORKER, f"its worker has died {error.allowed_failures + 1} times in one task"
            ) from error
        except (distributed.CancelledError, OSError) as error:
            raise ShardFault(Status.ENGINE, "the scheduler was lost") from error
        except (ImportError, AttributeError) as error:
            raise shard.fault(
                Status.WORKER, f"its worker has no package `cubetree` like this one: {error}"
            ) from error
        if isinstance(found, Trouble):
            if found.kind == worker.REFUSED:
                raise Refused(found.words)
            raise shard.fault(STATUSES.get(found.kind, Status.FAILED), found.words)
        return found

    def gathered(self, future: Any) -> Any:
        """What a task has found. Where it was lost with its worker the task is repeated, and so
        is a wait that was too short."""
        timeout = 4 * LOOK
        while True:
            try:
                return future.result(timeout=timeout)
            except distributed.TimeoutError:
                self.look_for_workers()
                timeout *= 2

    def each(self, task: Task[Result], *words: Any) -> list[Result]:
        """What a task finds for each shard."""
        futures = [self.submit(shard, task, *words) for shard in self.shards]
        while self.wait(futures):
            pass
        with ThreadPoolExecutor(min(len(futures), MOST_AT_ONCE)) as pool:
            return list(pool.map(self.result, self.shards, futures, repeat(task)))

    def wait(self, futures: list[Any], any_of: bool = False) -> list[Any]:
        """The tasks that are not done, after a wait for all of them, or for any, that ends now
        and then to look for the workers."""
        left = [future for future in futures if not future.done()]
        if not left or any_of and len(left) < len(futures):
            return left
        try:
            distributed.wait(
                left, timeout=LOOK, return_when="FIRST_COMPLETED" if any_of else "ALL_COMPLETED"
            )
        except distributed.TimeoutError:
            self.look_for_workers()
        except distributed.CancelledError as error:
            raise ShardFault(Status.ENGINE, "the scheduler was lost") from error
        return [future for future in futures if not future.done()]

    # ---- workers

    def look_for_workers(self) -> None:
        """Notes which workers are missing, and ends where one is for too long."""
        try:
            known = (
                self.client.scheduler_info()["workers"] if self.client.status == "running" else {}
            )
        except OSError:
            known = {}
        if self.client.status not in ("running", "connecting"):
            raise ShardFault(Status.ENGINE, "the scheduler was lost")
        for shard in self.shards:
            if shard.worker in known:
                self.missing.pop(shard.number, None)
            elif (
                time.monotonic()
                > self.missing.setdefault(shard.number, time.monotonic()) + self.patience
            ):
                raise shard.fault(
                    Status.WORKER,
                    (
                        "the scheduler has had no worker of this address for"
                        f" {counted(round(self.patience), 'second')}"
                    ),
                )

    def wait_for_workers(self) -> None:
        """Waits until each shard has its worker."""
        self.look_for_workers()
        while self.missing:
            time.sleep(0.05)
            self.look_for_workers()


# ---- clusters


@contextlib.contextmanager
def cluster_at(
    scheduler: str, shards: Sequence[Shard], waits: bool, patience: float
) -> Iterator[Engine]:
    """An engine that runs already."""
    need_engine()
    try:
        client = distributed.Client(scheduler, timeout=max(patience, 1), direct_to_workers=True)
    except (OSError, ValueError) as error:
        raise ShardFault(Status.ENGINE, f"no scheduler answers at {scheduler}") from error
    try:
        engine = Engine(client, shards, waits, patience)
        engine.wait_for_workers()
        yield engine
    finally:
        client.close()


def free_ports(count: int) -> list[int]:
    """Ports that are free now. A worker that is started again has the same one, and so the same
    address."""
    sockets = [socket.create_server((HOST, 0)) for _ in range(count)]
    ports = [cast(int, each.getsockname()[1]) for each in sockets]
    for each in sockets:
        each.close()
    return ports


@contextlib.contextmanager
def local_cluster(folders: Sequence[str], waits: bool, patience: float) -> Iterator[Engine]:
    """An engine of this machine that lasts as long as the command, with a worker for each
    folder."""
    need_engine()
    ports = free_ports(len(folders))
    shards = [
        Shard(number, f"tcp://{HOST}:{port}", folder)
        for number, (port, folder) in enumerate(zip(ports, folders), 1)
    ]
    # Without an address it takes port 8787 for its pages, and warns where another has it.
    ports_of_its_own: dict[str, Any] = {
        "host": HOST,
        "port": 0,
        "dashboard": False,
        "dashboard_address": f"{HOST}:0",
    }
    scheduler = {
        "cls": distributed.Scheduler,
        "options": {**ports_of_its_own, "allowed_failures": DEATHS},
    }
    with tempfile.TemporaryDirectory(prefix="shards-") as room:
        of_each: dict[str, Any] = {
            "host": HOST,
            "nthreads": 1,
            "memory_limit": 0,
            "local_directory": room,
            "dashboard": False,
            "silence_logs": logging.CRITICAL,
        }
        workers = {
            shard.number: {"cls": distributed.Nanny, "options": {**of_each, "worker_port": port}}
            for shard, port in zip(shards, ports)
        }
        with distributed.SpecCluster(
            workers=workers, scheduler=scheduler, silence_logs=logging.CRITICAL
        ) as cluster:
            with distributed.Client(cluster, direct_to_workers=True) as client:
                engine = Engine(client, shards, waits, patience)
                engine.wait_for_workers()
                yield engine


# ---- how far it is


class Bar:
    """The bar of the engine, where standard output is a terminal."""

    def __init__(self, engine: Engine, all: int) -> None:
        self.all, self.shown = all, sys.stdout.isatty() and all > 0
        self.bar = (
            progressbar.TextProgressBar([], scheduler=engine.client.scheduler.address, start=False)
            if self.shown
            else None
        )

    def show(self, done: int) -> None:
        """Shows which part is done."""
        if self.bar:
            self.bar._draw_bar(max(self.all - done, 0), self.all)

    def clear(self) -> None:
        """Takes it away."""
        if self.bar:
            self.bar._draw_stop()
