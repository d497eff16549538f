"""What the measures share: running the program, its answers one by one, times and memory."""

import json
import os
import random
import subprocess
import sys
import threading
import time
from collections.abc import Callable
from pathlib import Path
from typing import IO, Any, NoReturn

from messages import get, post

Batch = dict[str, Any]
CONFORMANCE = get("/conformance")


def fail(why: str) -> NoReturn:
    """Ends the run: what was measured is not what was meant."""
    sys.exit(f"bench: {why}")


def best(times: int, work: Callable[[], float]) -> float:
    return min(work() for _ in range(times))


def report(name: str, figures: str) -> None:
    print(f"  {name}: {figures}", flush=True)


def create(program: Path, file: Path, *batches: Batch) -> Path:
    """A new file in which these batches were accepted."""
    subprocess.run([program, "create", file], check=True)
    if batches:
        answers = pipe(program, file, b"".join(map(post_batch, batches)))[1]
        if answers.count(b"HTTP/1.1 200 OK") != len(batches):
            fail("a batch was refused")
    return file


def post_batch(batch: Batch) -> bytes:
    return post(compact(batch))


def compact(value: Any) -> str:
    return json.dumps(value, separators=(",", ":"))


def pipe(program: Path, file: Path, stream: bytes) -> tuple[float, bytes]:
    """The seconds of a whole run over a file, and its answers."""
    start = time.perf_counter()
    done = subprocess.run([program, "pipe", file], input=stream, stdout=subprocess.PIPE, check=True)
    return time.perf_counter() - start, done.stdout


def read_status(stream: IO[bytes]) -> bytes:
    """Reads the next answer. Returns its status."""
    head = b""
    while not head.endswith(b"\r\n\r\n"):
        line = stream.readline()
        if not line:
            fail("the program ended within an answer")
        head += line
    # An answer 304 has no body, and says no length.
    stream.read(int(head.partition(b"Content-Length: ")[2].partition(b"\r\n")[0] or b"0"))
    return head.split(b" ")[1]


def started(
    program: Path, file: Path, first: bytes, *words: str
) -> tuple[subprocess.Popen[bytes], IO[bytes]]:
    """A run that has opened its file and answered a first request."""
    process = subprocess.Popen(
        [program, "pipe", file, *words], stdin=subprocess.PIPE, stdout=subprocess.PIPE
    )
    assert process.stdin is not None and process.stdout is not None
    process.stdin.write(first)
    process.stdin.flush()
    read_status(process.stdout)
    return process, process.stdout


def send_all(stream: IO[bytes], sent: bytes) -> None:
    stream.write(sent)
    stream.close()


def seconds_each(
    program: Path, file: Path, requests: list[bytes], first: bytes, *words: str, status: int = 200
) -> float:
    """Seconds for each of the requests that follow the first one, which all get this status."""
    process, answers = started(program, file, first, *words)
    assert process.stdin is not None
    sender = threading.Thread(target=send_all, args=(process.stdin, b"".join(requests)))
    start = time.perf_counter()
    sender.start()
    statuses = {read_status(answers) for _ in requests}
    took = time.perf_counter() - start
    sender.join()
    process.wait()
    if statuses != {b"%d" % status}:
        fail(f"a request was answered {statuses}")
    return took / len(requests)


def seconds_of(
    program: Path, file: Path, request: bytes, count: int, first: bytes = CONFORMANCE
) -> float:
    """Seconds for an answer: the best of three runs, each of `count` equal requests."""
    return best(3, lambda: seconds_each(program, file, [request] * count, first))


def peak_of(process: subprocess.Popen[bytes]) -> int:
    """The most memory that a process has held, in bytes."""
    status = Path(f"/proc/{process.pid}/status").read_text()
    return int(status.partition("VmHWM:")[2].split()[0]) * 1024


def peak_behind(program: Path, file: Path, request: bytes) -> int:
    """The most memory that the program has held once it answered a request, in bytes."""
    process, _ = started(program, file, request)
    most = peak_of(process)
    process.communicate()
    return most


def command(words: list[str | Path]) -> tuple[float, int, bytes]:
    """The seconds, the most memory in bytes, and the output of a command."""
    start = time.perf_counter()
    process = subprocess.Popen(words, stdout=subprocess.PIPE)
    assert process.stdout is not None
    output = process.stdout.read()
    _, status, usage = os.wait4(process.pid, 0)
    took = time.perf_counter() - start
    process.returncode = os.waitstatus_to_exitcode(status)
    if process.returncode != 0:
        fail(f"{words[1]} ended with {process.returncode}")
    return took, usage.ru_maxrss * 1024, output


def near(chance: random.Random, x: int, y: int, reach: int = 5_000) -> list[int]:
    return [x + chance.randrange(-reach, reach), y + chance.randrange(-reach, reach)]


def square(x: int, y: int, reach: int) -> list[list[int]]:
    return [[x, y], [x + reach, y], [x + reach, y + reach], [x, y + reach], [x, y]]


def bed(x: int, y: int) -> list[list[list[int]]]:
    """A square with a hole."""
    return [square(x, y, 6_000), square(x + 2_000, y + 2_000, 1_000)[::-1]]
