"""Processes beside the gateway that make batches of large bodies, so that no other request waits.

A body of 8 MiB takes seconds to read and to transform, most of which Python does in one thread at a
time. So a thread of the gateway would hold up all requests, and a process holds up none.
"""

import asyncio
import gc
import pickle
import signal
import subprocess
import sys

from starlette.concurrency import run_in_threadpool

from .bodies import Batch, Sent, batch_of
from .problems import RETRY_SECONDS, Problem
from .settings import Settings
from .systems import Systems, make_systems

# A body of at most these bytes is read by the gateway itself: it has at most some 1,300 positions.
SMALL = 8192
WORKERS = 2


class Worker:
    """A process that takes what requests send, one after the other, and gives back batches. It ends
    with its standard input, so also with the gateway."""

    def __init__(self, settings: Settings) -> None:
        given = [sys.executable, "-m", "gateway.workers"]
        self.process = subprocess.Popen(given, stdin=subprocess.PIPE, stdout=subprocess.PIPE)
        self.write(settings)

    def write(self, value: object) -> None:
        assert self.process.stdin is not None
        pickle.dump(value, self.process.stdin)
        self.process.stdin.flush()

    def batch(self, sent: Sent) -> Batch | Problem:
        """The batch, or the problem with the request. It waits."""
        assert self.process.stdout is not None
        self.write(sent)
        made: Batch | Problem = pickle.load(self.process.stdout)
        return made

    def end(self) -> None:
        self.process.kill()
        self.process.wait()


class Workers:
    """The processes of a gateway, none of which is started before it is needed."""

    def __init__(self, settings: Settings, systems: Systems) -> None:
        self.settings = settings
        self.systems = systems
        # The one that was used last is taken next.
        self.idle: asyncio.LifoQueue[Worker | None] = asyncio.LifoQueue()
        for _ in range(WORKERS):
            self.idle.put_nowait(None)

    async def batch(self, sent: Sent) -> Batch:
        """The batch of a request; a Problem if its body is refused."""
        if sent.size <= SMALL:
            return batch_of(sent, self.systems, self.settings.edits.fractions)
        worker = await self.idle.get()
        try:
            if worker is None:
                worker = await run_in_threadpool(Worker, self.settings)
            made: Batch | Problem = await run_in_threadpool(worker.batch, sent)
        except (OSError, EOFError, pickle.UnpicklingError) as fault:
            if worker is not None:
                worker.end()
                worker = None
            raise worker_away() from fault
        finally:
            self.idle.put_nowait(worker)
        if isinstance(made, Problem):
            raise made
        return made

    async def close(self) -> None:
        while not self.idle.empty():
            worker = self.idle.get_nowait()
            if worker is not None:
                worker.end()


def worker_away() -> Problem:
    detail = "The process that reads large features has ended. The request may be sent again."
    return Problem(503, "worker_away", detail, headers={"Retry-After": str(RETRY_SECONDS)})


def made_of(sent: Sent, systems: Systems, fractions: str) -> Batch | Problem:
    try:
        return batch_of(sent, systems, fractions)
    except Problem as problem:
        return problem


def main() -> None:
    """The process itself: settings on standard input, then one `Sent` after the other."""
    signal.signal(signal.SIGINT, signal.SIG_IGN)
    # Bodies have no reference cycles. The search for them takes as long as all else, so it runs
    # after each body alone.
    gc.disable()
    source, sink = sys.stdin.buffer, sys.stdout.buffer
    settings: Settings = pickle.load(source)
    systems = make_systems(settings)
    while True:
        try:
            sent: Sent = pickle.load(source)
        except EOFError:
            return
        pickle.dump(made_of(sent, systems, settings.edits.fractions), sink)
        sink.flush()
        gc.collect()


if __name__ == "__main__":
    main()
