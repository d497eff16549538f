"""Processes that listen or follow, which are killed hard and started again."""

import contextlib
import os
import signal
import socket
import subprocess
import time
from collections.abc import Callable, Iterator
from dataclasses import dataclass
from pathlib import Path

from harness import Context

PYTHON = "/usr/bin/python3"
ROOT = Path(__file__).resolve().parents[2]
DEPLOY = ROOT / "deploy"


def wait_until(what: str, holds: Callable[[], bool], seconds: float) -> None:
    """Returns once something holds; fails if it does not in time."""
    end = time.monotonic() + seconds
    while not holds():
        if time.monotonic() > end:
            raise TimeoutError(what)
        time.sleep(0.02)


def listens(port: int) -> bool:
    with contextlib.suppress(OSError), socket.create_connection(("127.0.0.1", port), 1):
        return True
    return False


def children_of(process: int) -> list[int]:
    """The processes that a process has started and that still run."""
    found = []
    for path in Path("/proc").glob("[0-9]*/stat"):
        with contextlib.suppress(OSError):
            if int(path.read_text().rpartition(")")[2].split()[1]) == process:
                found.append(int(path.parent.name))
    return found


@dataclass
class Process:
    """A command that runs until it is killed. It is there once its port is listened at."""

    context: Context
    name: str
    words: list[str]
    port: int | None = None
    process: subprocess.Popen[bytes] | None = None

    @property
    def log(self) -> Path:
        """What it wrote to both outputs, over all its starts."""
        return self.context.folder / f"{self.name}.log"

    def start(self) -> None:
        with self.log.open("ab") as log:
            self.process = subprocess.Popen(
                self.words, stdin=subprocess.DEVNULL, stdout=log, stderr=log
            )
        if self.port is not None:
            wait_until(f"{self.name} listens", self.is_there, self.context.seconds)

    def is_there(self) -> bool:
        assert self.process is not None and self.port is not None
        if self.process.poll() is not None:
            raise RuntimeError(f"{self.name} ended: {self.log.read_text()[-600:]}")
        return listens(self.port)

    def kill(self) -> None:
        """Kills the process and those that it has started. All are gone after it."""
        if self.process is None:
            return
        if self.process.poll() is None:
            # It starts no further one from here on.
            self.process.send_signal(signal.SIGSTOP)
        numbers = [self.process.pid, *children_of(self.process.pid)]
        for number in numbers:
            with contextlib.suppress(ProcessLookupError):
                os.kill(number, signal.SIGKILL)
        self.process.wait(self.context.seconds)
        gone = lambda: not any(Path(f"/proc/{number}").exists() for number in numbers)
        wait_until(f"{self.name} is gone", gone, self.context.seconds)
        self.process = None


@contextlib.contextmanager
def running(*processes: Process) -> Iterator[None]:
    """Starts processes, and kills them after the block, the last first."""
    try:
        for process in processes:
            process.start()
        yield
    finally:
        for process in reversed(processes):
            process.kill()


@dataclass(frozen=True)
class Script:
    """One of the scripts of deploy/, run to its end."""

    context: Context
    name: str

    def command(self, *words: str | Path) -> list[str]:
        return self.python(DEPLOY / self.name, *words)

    @staticmethod
    def python(*words: str | Path) -> list[str]:
        return [PYTHON, "-B", *map(str, words)]

    def prints(self, *words: str | Path) -> tuple[str, list[str]]:
        """What it prints, and its lines on standard error. It prints nothing if it fails."""
        ended = subprocess.run(
            self.command(*words), capture_output=True, text=True, timeout=self.context.seconds
        )
        self.context.check("a fault has a status", ended.returncode == 0, bool(ended.stdout))
        return ended.stdout, [line.partition(": ")[2] for line in ended.stderr.splitlines()]

    def ends(
        self, *words: str | Path, added: dict[str, str] | None = None
    ) -> tuple[int, list[str]]:
        """Its exit status, and its lines but for that which says where it began. Some variables may
        be added to its environment."""
        ended = subprocess.run(
            self.command(*words),
            env=os.environ | (added or {}),
            capture_output=True,
            text=True,
            timeout=self.context.seconds,
        )
        lines = [line.partition(": ")[2] for line in ended.stderr.splitlines()]
        return ended.returncode, [
            it for it in lines if not it.startswith(("going on behind", "waiting: "))
        ]
