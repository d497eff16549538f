"""The one harness of the test groups: running the program, serving a file, and counting checks."""

import contextlib
import os
import random
import re
import select
import socket
import subprocess
import time
import tty
from collections.abc import Iterator
from dataclasses import dataclass, field
from pathlib import Path
from typing import IO, Any

from messages import Answer, answers_in, read_all

TESTS = Path(__file__).resolve().parent
# An argument of a command line.
Word = str | Path
# A command that has ended.
Ended = subprocess.CompletedProcess[bytes]
# What `serve` says first on standard error.
OPENING = re.compile(rb"streetmap: opening .+, [0-9]+ bytes")
# What is shown of a value that is not the one wanted.
SHOWN = 600
# The ports that groups listen at, below those that the kernel gives to clients, and the claims of
# this process to some of them.
PORTS = range(12_000, 32_000)
CLAIMS: list[socket.socket] = []


def is_claimed(port: int) -> bool:
    """Claims a port for this process until it ends; false where another process of the tests has
    it. The claim is a name that the kernel keeps, and gives free with the process."""
    claim = socket.socket(socket.AF_UNIX)
    try:
        claim.bind(f"\0streetmap-tests-{port}")
    except OSError:
        claim.close()
        return False
    CLAIMS.append(claim)
    return True


def is_free(port: int) -> bool:
    """Whether nothing listens at a port of 127.0.0.1."""
    with socket.socket() as probe:
        try:
            probe.bind(("127.0.0.1", port))
        except OSError:
            return False
    return True


def free_port() -> int:
    """A port of 127.0.0.1 that nothing listens at, and that no other group is given while this
    process runs. The kernel gives no client a port of this range."""
    while True:
        port = random.choice(PORTS)
        if is_claimed(port) and is_free(port):
            return port


@dataclass
class Server:
    """A `streetmap serve` that listens. It is killed when its `with` block ends."""

    context: "Context"
    port: int
    process: subprocess.Popen[bytes]
    log: Path

    @property
    def url(self) -> str:
        return f"http://127.0.0.1:{self.port}"

    def connect(self, seconds: float = 60) -> socket.socket:
        return socket.create_connection(("127.0.0.1", self.port), timeout=seconds)

    def ask(self, sent: bytes) -> list[Answer]:
        """What one connection answers to these bytes, which are all that it sends."""
        with self.connect() as stream:
            stream.sendall(sent)
            stream.shutdown(socket.SHUT_WR)
            return answers_in(read_all(stream))

    def ends(self, status: int = 0, written: bytes = b"") -> None:
        """Waits for the server to end by itself, and checks its status and its standard error."""
        self.context.check("serve ends", self.process.wait(self.context.seconds), status)
        opening, _, rest = self.log.read_bytes().partition(b"\n")
        self.context.check("what is opened", bool(OPENING.fullmatch(opening)), True)
        self.context.check("standard error of serve", rest, written)

    def kill(self) -> None:
        """A kill, from which the server cannot clean up."""
        self.process.kill()
        self.process.wait(self.context.seconds)

    def peak_memory(self) -> int:
        """The most memory that the server has held, in KiB."""
        status = Path(f"/proc/{self.process.pid}/status").read_text()
        return int(status.partition("VmHWM:")[2].split()[0])


@dataclass
class Context:
    """What a group is given: the program, a scratch folder of its own, a place for its checks, and
    the seconds that a command of the program may take."""

    program: Path
    folder: Path
    slow: bool = False
    seconds: float = 120
    passed: int = 0
    failures: list[str] = field(default_factory=list)

    def check(self, what: str, got: Any, wanted: Any) -> None:
        """Counts a check, and prints what differs."""
        if got == wanted:
            self.passed += 1
        else:
            self.failures.append(what)
            print(f"  {what[:SHOWN]}: {got!r:.{SHOWN}} is not {wanted!r:.{SHOWN}}", flush=True)

    def start(self, *words: Word, sent: bytes = b"", **options: Any) -> Ended:
        """Runs a command of the program to its end, and checks nothing."""
        given = [str(self.program), *map(str, words)]
        options = {"stdout": subprocess.PIPE, "stderr": subprocess.PIPE} | options
        if "stdin" not in options:
            options["input"] = sent
        ended: Ended = subprocess.run(given, timeout=self.seconds, check=False, **options)
        return ended

    def run(
        self, *words: Word, sent: bytes = b"", status: int = 0, code: str | None = None
    ) -> bytes:
        """Runs a command of the program to its end, and checks its status and the fault that it
        reports on standard error. Returns what it wrote to standard output."""
        ended = self.start(*words, sent=sent)
        what = " ".join(map(str, words))[:90]
        fault = b"" if code is None else f"streetmap: {code}\n".encode()
        self.check(f"{what}: status", ended.returncode, status)
        self.check(f"{what}: standard error", ended.stderr, fault)
        return ended.stdout

    def explain(self, *words: Word, status: int, code: str, sentence: str) -> None:
        """Runs a command with --explain, and checks the two lines on its standard error."""
        ended = self.start(*words, "--explain")
        got = ended.returncode, ended.stderr.decode()
        what = f"why {' '.join(map(str, words))[:90]}"
        self.check(what, got, (status, f"streetmap: {code}\n{sentence}\n"))

    def on_terminal(self, *words: Word, sent: bytes = b"") -> tuple[int, bytes]:
        """The status of a command, and what it writes on standard error, which is a terminal."""
        leader, follower = os.openpty()
        tty.setraw(follower)
        try:
            ended = self.start(*words, sent=sent, stderr=follower)
        finally:
            os.close(follower)
        written = b""
        with contextlib.suppress(OSError), open(leader, "rb", buffering=0) as terminal:
            while part := terminal.read(65_536):
                written += part
        return ended.returncode, written

    def takes(self, *words: Word) -> bool:
        """Whether the program takes these options, which is one check: a group ends there where the
        program lacks a command."""
        taken = self.start(*words).stderr != b"streetmap: usage\n"
        self.check(f"the words {' '.join(map(str, words))}", "taken" if taken else "usage", "taken")
        return taken

    def pipe(self, file: str | Path, *requests: bytes, words: tuple[str, ...] = ()) -> list[Answer]:
        """The answers to requests over a file."""
        return answers_in(self.run("pipe", file, *words, sent=b"".join(requests)))

    @contextlib.contextmanager
    def serve(self, file: str | Path, *words: str) -> Iterator[Server]:
        """Serves a file on a free port, from the line `listening` on."""
        port = free_port()
        log = self.folder / f"serve-{port}-{time.monotonic_ns()}.log"
        given = [str(self.program), "serve", str(file), "--port", str(port), *words]
        with log.open("wb") as errors:
            process = subprocess.Popen(given, stdout=subprocess.PIPE, stderr=errors)
        server = Server(self, port, process, log)
        assert process.stdout is not None
        with process, process.stdout as output:
            try:
                line = first_line(output, self.seconds)
                self.check("serve", line, f"listening 127.0.0.1:{port}\n".encode())
                yield server
            finally:
                server.kill()

    def new_file(self, name: str, *batches: bytes) -> Path:
        """A new file of the program in the scratch folder, with these batches accepted."""
        file = self.folder / name
        self.run("create", file)
        if batches:
            statuses = [answer.status for answer in self.pipe(file, *batches)]
            self.check(f"the batches before {name}", statuses, [200] * len(batches))
        return file

    def shim(self, name: str) -> Path:
        """Compiles `shims/NAME.c` as a library to load before the C library (LD_PRELOAD)."""
        library = self.folder / f"{name}.so"
        source = TESTS / "shims" / f"{name}.c"
        given = ["cc", "-shared", "-fPIC", "-O1", "-o", str(library), str(source), "-ldl"]
        subprocess.run(given, check=True, timeout=self.seconds)
        return library


def first_line(output: IO[bytes], seconds: float) -> bytes:
    """The first line of a process; nothing if it does not come in time."""
    ready, _, _ = select.select([output], [], [], seconds)
    return output.readline() if ready else b""
