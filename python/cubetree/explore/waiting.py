"""One thread that asks the warehouse. Whoever wants an answer waits a little for it.

The thread waits in the turns of the folder as any reader does, so it gets in between two batches
of a load. Meanwhile the page is answered that the folder is busy, and asks again: then it finds its
question where it left it, so that questions do not pile up. What nobody asks again is dropped.
"""
from __future__ import annotations

import queue
import threading
import time
from dataclasses import dataclass, field
from typing import Any, Callable, Dict, Optional

from ..errors import Busy

PATIENCE = 1.5  # seconds that an answer is waited for
FORGOTTEN = 5.0  # seconds after which a question is dropped that nobody waits for
MOST_WAITING = 32  # questions


@dataclass
class Job:
    """A question under way: what answers it, and what came of it."""

    key: str
    work: Callable[[], Any]
    done: threading.Event = field(default_factory=threading.Event)
    result: Any = None
    fault: Optional[Exception] = None
    until: float = 0.0  # when it is forgotten


class Asker:
    """The thread, and the questions that wait for it."""

    def __init__(self) -> None:
        self.lock, self.jobs = threading.Lock(), {}  # type: threading.Lock, Dict[str, Job]
        self.queue: "queue.SimpleQueue[Job]" = queue.SimpleQueue()
        threading.Thread(target=self.run, daemon=True).start()

    def ask(self, key: str, work: Callable[[], Any], patience: float = PATIENCE) -> Any:
        """What the work gives, or the work under way that has this key; Busy if that takes
        long."""
        job = self.job(key, work, patience)
        if not job.done.wait(patience):
            raise Busy("another run is in the folder")
        if job.fault:
            raise job.fault
        return job.result

    def job(self, key: str, work: Callable[[], Any], patience: float) -> Job:
        """The job of this key, which is put in the queue unless it is there."""
        with self.lock:
            job = self.jobs.get(key)
            if job is None:
                if len(self.jobs) >= MOST_WAITING:
                    raise Busy("too many questions wait")
                job = self.jobs[key] = Job(key, work)
                self.queue.put(job)
            job.until = max(job.until, time.monotonic() + patience + FORGOTTEN)
            return job

    def run(self) -> None:
        """Does one job after the other."""
        while True:
            job = self.queue.get()
            if self.is_wanted(job):
                self.carry_out(job)

    def is_wanted(self, job: Job) -> bool:
        """Whether somebody still asks for it; otherwise it is dropped."""
        with self.lock:
            if time.monotonic() <= job.until:
                return True
            del self.jobs[job.key]
        return False

    def carry_out(self, job: Job) -> None:
        """Does a job, whatever comes of it. It is no job any more before its end is told, so that
        the next one with its key sees what has changed since."""
        try:
            job.result = job.work()
        except Exception as fault:  # It is raised again where the answer is waited for.
            job.fault = fault
        with self.lock:
            del self.jobs[job.key]
        job.done.set()
