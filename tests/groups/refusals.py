"""Failed allocations: the same answers, or a fault of memory and the state as it was.

They fail in `lines`; in `pipe` over a file, with conditions and without, and in `serve` for one of
many clients, with a journal and without; and in `create`, `import`, `load`, `apply`, `batches`,
`export` and `check`.
A stream is answered as with memory, or by a prefix of that and then the 503 or 500 that closes
the connection, or it ends out of memory before the first answer; one of many clients may be
let go after any answer. Opened again with memory, the file holds the state before the batch or the
one after it, and the latter if its 200 was begun.
The short form fails some of the allocations, the long one each; it also builds two tests, whose
allocations it fails.
"""

import contextlib
import os
import re
import socket
import subprocess
from collections import Counter
from collections.abc import Callable, Iterator
from dataclasses import dataclass
from pathlib import Path

from examples import EXAMPLES, text_path
from harness import TESTS, Context, Ended, Word, first_line, free_port
from messages import Edit, batch, delete, feature, get, open_collection, point, put, read_all
from sqlite_file import copy_file, forget

PACKAGES = ("gcc", "libc6-dev")
# The short form fails one of N allocations.
STRIDE = 131
# What a command that ends out of memory says last; `apply` names its line.
NO_MEMORY = re.compile(rb"streetmap: memory( [0-9]+)?\n$")
REFUSED = b"refused\n"


def lamp(name: str, x: int, y: int) -> Edit:
    return feature(name, point(x, y), {"when": "2024-05-01"})


# None of its properties may be a time, so it is read again if a query has a time.
POLE = feature("P1", point(6, 6), {"kind": "pole"})


FIRST = batch(
    "first",
    [
        open_collection("lamps", time="when"),
        *(put("insert", "lamps", lamp(f"L{at}", at, at)) for at in range(3)),
    ],
)
SECOND = batch(
    "second",
    [
        delete("lamps", "L0"),
        put("replace", "lamps", lamp("L1", 7, 7)),
        put("insert", "lamps", lamp("L9", 8, 8)),
        put("insert", "lamps", POLE),
    ],
)
PAGE = get("/collections/lamps/items?bbox=0,0,9,9&datetime=2024-05-01T12:00:00Z")
COLLECTIONS = get("/collections") + get("/collections/lamps")
# The page before the batch is where the index learns, and it follows the batch.
STREAM = COLLECTIONS + PAGE + COLLECTIONS + SECOND + COLLECTIONS + PAGE
STREAM += get("/collections/lamps/items/L9")
BEFORE_BATCH = 5


def under(sent: bytes, field: str) -> bytes:
    """A request with a further field."""
    return sent.replace(b"\r\n\r\n", f"\r\n{field}\r\n\r\n".encode(), 1)


# The same with conditions: a page that the client has, changes, and a batch under the tag.
CHANGES = get("/changes?after=0&limit=9")
CONDITIONAL = COLLECTIONS + PAGE + under(PAGE, 'If-None-Match: "1"') + CHANGES
CONDITIONAL += under(SECOND, 'If-Match: "1"') + CHANGES + under(PAGE, 'If-Match: "9", "1"')
CONDITIONAL += under(SECOND.replace(b'"second"', b'"later1"'), 'If-Match: "1"') + PAGE
OPTIONS = ("--conditional", "--changes")
# Features, a line each, and a collection of them; and a line of a journal.
LINES = (
    '{"type":"Feature","id":"L7","geometry":{"type":"Point","coordinates":[7,7]},'
    '"properties":{"when":"2024-05-01"}}\n{"type":"Feature"}\n'
    '{"type":"Feature","id":"L8","geometry":{"type":"Point","coordinates":[8,8]},'
    '"properties":{"when":"2024-05-01"}}\n'
)
TEXT = f'{{"type":"FeatureCollection","features":[{",".join(LINES.splitlines())}]}}'
JOURNAL = b"2\t" + SECOND.partition(b"\r\n\r\n")[2] + b"\n"


@dataclass
class Refuser:
    """Runs commands of which one allocation fails."""

    context: Context
    library: Path
    first: Path

    def environment(self, number: int) -> dict[str, str]:
        """That in which this allocation fails; with 0 none does."""
        return os.environ | {"LD_PRELOAD": str(self.library), "REFUSE": str(number)}

    def start(self, number: int, *words: Word, sent: bytes = b"") -> Ended:
        return self.context.start(*words, sent=sent, env=self.environment(number))

    def each(self, what: str, run: Callable[[int], Ended]) -> Iterator[tuple[int, Ended]]:
        """Runs of which one allocation fails, up to the first run that has fewer."""
        step = 1 if self.context.slow else STRIDE
        number = 1
        while REFUSED in (ended := run(number)).stderr:
            yield number, ended
            number += step
        self.context.check(f"{what}: some allocations are refused", number > 1, True)

    def page(self, file: Path) -> bytes:
        return self.context.start("pipe", file, sent=PAGE).stdout

    def check(self, what: str, number: int, ended: Ended, is_allowed: bool) -> None:
        shown = f"{ended.returncode}, {ended.stdout[-200:]!r}, {ended.stderr[-200:]!r}"
        self.context.check(f"{what}, allocation {number}: {shown}", is_allowed, True)


def wants_memory(ended: Ended) -> bool:
    return ended.returncode == 4 and NO_MEMORY.search(ended.stderr) is not None


def check_lines(refuser: Refuser) -> None:
    """`lines` ends as with memory, or out of memory after some whole lines."""
    sent, counted = (EXAMPLES / "three.lines").read_bytes(), Counter[str]()
    whole = refuser.start(0, "lines", sent=sent)
    refuser.context.check("lines with memory", whole.returncode, 0)
    for number, ended in refuser.each("lines", lambda it: refuser.start(it, "lines", sent=sent)):
        same = ended.returncode == 0 and ended.stdout == whole.stdout
        is_whole = ended.stdout.endswith(b"\n") or not ended.stdout
        begun = whole.stdout.startswith(ended.stdout) and is_whole
        refuser.check("lines", number, ended, same or (wants_memory(ended) and begun))
        counted["as with memory" if same else "ended out of memory"] += 1
    print(f"  lines: {dict(counted)}")


def check_create(refuser: Refuser) -> None:
    """`create` leaves a file that opens with no collection if it reports no fault, and else
    that or none of ours."""
    path, counted = refuser.context.folder / "made", Counter[str]()
    look = get("/collections")

    def create(number: int) -> Ended:
        forget(path)
        return refuser.start(number, "create", path)

    create(0)
    opening = refuser.start(0, "pipe", path, sent=look).stdout
    for number, ended in refuser.each("create", create):
        found = refuser.start(0, "pipe", path, sent=look)
        opens = found.returncode == 0 and found.stdout == opening
        is_none = found.stderr in (b"streetmap: not_ours\n", b"streetmap: no_file\n")
        made = ended.returncode == 0 and opens
        failed = ended.returncode in (3, 4) and (opens or is_none)
        refuser.check("create", number, ended, made or failed)
        fault = ended.stderr.split(b": ")[-1].decode().strip()
        counted["as with memory" if made else fault] += 1
    print(f"  create: {dict(counted)}")


def serve_one(refuser: Refuser, number: int, file: Path, *more: str) -> Ended:
    """Serves one of many clients, who sends the stream and reads to the end."""
    port = free_port()
    words = ["serve", str(file), "--port", str(port), "--count", "1", "--clients", "4", *more]
    # The port is another one in each run, and the links are the same.
    words += ["--base", "http://localhost/"]
    given, environment = [str(refuser.context.program), *words], refuser.environment(number)
    seconds = refuser.context.seconds
    came, pipe = b"", subprocess.PIPE
    with subprocess.Popen(given, env=environment, stdout=pipe, stderr=pipe) as server:
        assert server.stdout is not None
        if first_line(server.stdout, seconds).startswith(b"listening"):
            with (
                contextlib.suppress(OSError),
                socket.create_connection(("127.0.0.1", port), timeout=seconds) as client,
            ):
                client.sendall(STREAM)
                client.shutdown(socket.SHUT_WR)
                came = read_all(client)
        errors = server.communicate(timeout=seconds)[1]
    return Ended(given, server.returncode, came, errors)


def how_it_ended(ended: Ended, whole: Ended, lets_go: bool) -> str | None:
    """How a stream of answers ended, if it may end so."""
    if ended.stdout == whole.stdout and ended.returncode == 0:
        return "as with memory"
    if wants_memory(ended) and not ended.stdout:
        return "ended out of memory before the first answer"
    unopened = ended.returncode == 3 and ended.stderr.endswith(b"streetmap: device\n")
    if unopened and not ended.stdout:
        return "the file was not opened"
    answers = whole.stdout.split(b"HTTP/1.1 ")
    for count in range(len(answers)):
        begun = b"HTTP/1.1 ".join(answers[: count + 1])
        rest = ended.stdout[len(begun) :]
        if lets_go and ended.returncode == 0 and ended.stdout == begun:
            return "let go after an answer"
        if ended.stdout.startswith(begun) and rest[:12] in (b"HTTP/1.1 503", b"HTTP/1.1 500"):
            return f"{rest[9:12].decode()} after an answer"
    return None


def check_stream(refuser: Refuser, what: str, run: Callable[[int, Path], Ended]) -> None:
    """A stream of requests over copies of the same file."""
    file, counted = refuser.context.folder / "town", Counter[str]()
    before = refuser.page(copy_file(refuser.first, file))
    whole = run(0, file)
    after = refuser.page(file)
    refuser.context.check(f"{what} with memory", (whole.returncode, before == after), (0, False))
    to_batch = b"HTTP/1.1 ".join(whole.stdout.split(b"HTTP/1.1 ")[: BEFORE_BATCH + 1])
    accepted = to_batch + b"HTTP/1.1 200"

    def run_copy(number: int) -> Ended:
        return run(number, copy_file(refuser.first, file))

    for number, ended in refuser.each(what, run_copy):
        kind = how_it_ended(ended, whole, lets_go=what.startswith("serve"))
        found = refuser.page(file)
        kept = found == after or (found == before and not ended.stdout.startswith(accepted))
        refuser.check(what, number, ended, kind is not None and kept)
        counted[str(kind)] += 1
    print(f"  {what}: {dict(counted)}")


def check_journal(refuser: Refuser) -> None:
    """`serve --journal` answers as `serve` does, and the journal has each batch of the file: one
    whose line fails to get memory is not applied. If the server does not come to listen it
    has a prefix."""
    journal = refuser.context.folder / "town.journal"

    def serve(number: int, file: Path) -> Ended:
        journal.unlink(missing_ok=True)
        ended = serve_one(refuser, number, file, "--journal", str(journal))
        lines = refuser.context.start("batches", file).stdout
        kept = journal.read_bytes() if journal.exists() else b""
        begun = not ended.stdout and lines.startswith(kept)
        refuser.check("the journal", number, ended, begun or kept == lines)
        return ended

    check_stream(refuser, "serve --journal", serve)


# Commands that apply a batch.
CHANGING = ("import", "load", "apply")


def check_command(refuser: Refuser, name: str, *more: Word) -> None:
    """A command over copies of a file: it leaves the file as it was, or with its whole batch, and
    then the same command succeeds."""
    file, counted = copy_file(refuser.first, refuser.context.folder / "town"), Counter[str]()
    words: list[Word] = [name, file, *more]
    before = refuser.page(file)
    whole = refuser.start(0, *words)
    after = refuser.page(file)
    got = (whole.returncode, before != after)
    refuser.context.check(f"{name} with memory", got, (0, name in CHANGING))

    def run_copy(number: int) -> Ended:
        copy_file(refuser.first, file)
        return refuser.start(number, *words)

    for number, ended in refuser.each(name, run_copy):
        found = refuser.page(file)
        again = refuser.start(0, *words)
        same = (ended.returncode, ended.stdout, found) == (0, whole.stdout, after)
        begun = wants_memory(ended) and whole.stdout.startswith(ended.stdout)
        unopened = ended.returncode == 3 and ended.stderr.endswith(b"streetmap: device\n")
        unopened = unopened and not ended.stdout and found == before
        allowed = same or unopened or (begun and found in (before, after))
        last = (again.returncode, again.stdout, refuser.page(file))
        refuser.check(name, number, ended, allowed and last == (0, whole.stdout, after))
        kind = "the file was not opened" if unopened else "ended out of memory"
        counted["as with memory" if same else kind] += 1
    print(f"  {name}: {dict(counted)}")


# Tests that make each failed call again over the keeper in memory, and one that serves a stream.
TESTS_CRATE = "streetmap_memory_tests"
TESTED = (
    "answers::a_line_refused_for_memory_is_answered_again",
    "refused_memory::refused_memory_is_answered_or_not_seen",
)


def check_test(refuser: Refuser, crate: str, test: str) -> None:
    """A proved test passes whatever allocation fails. It is built first, which takes long."""
    folder = TESTS.parent / "crates" / crate
    built = subprocess.run(["rt", "test"], cwd=folder, capture_output=True, check=False)
    refuser.context.check(f"{crate} is built", built.returncode, 0)
    words = [str(folder / "out" / f"{crate}_tests"), test]

    def run(number: int) -> Ended:
        environment = refuser.environment(number)
        seconds = refuser.context.seconds
        return subprocess.run(
            words, env=environment, capture_output=True, timeout=seconds, check=False
        )

    whole, count = run(0), 0
    refuser.context.check(f"{test} with memory", whole.returncode, 0)
    for number, ended in refuser.each(test, run):
        refuser.check(test, number, ended, (ended.returncode, ended.stdout) == (0, whole.stdout))
        count += 1
    print(f"  {test}: {count} as with memory")


def run(context: Context) -> None:
    refuser = Refuser(context, context.shim("refuse"), context.new_file("first", FIRST))
    check_lines(refuser)
    check_create(refuser)
    check_stream(refuser, "pipe", lambda it, file: refuser.start(it, "pipe", file, sent=STREAM))
    check_stream(refuser, "serve", lambda it, file: serve_one(refuser, it, file))
    check_stream(
        refuser,
        "pipe under conditions",
        lambda it, file: refuser.start(it, "pipe", file, *OPTIONS, sent=CONDITIONAL),
    )
    check_journal(refuser)
    into: list[Word] = ["--key", "second", "--collection", "lamps"]
    check_command(refuser, "import", text_path(context, "text.json", TEXT), *into)
    check_command(refuser, "load", text_path(context, "text.jsonl", LINES), *into)
    check_command(refuser, "apply", text_path(context, "text.lines", JOURNAL))
    check_command(refuser, "batches")
    check_command(refuser, "export", "--collection", "lamps")
    check_command(refuser, "check")
    check_command(refuser, "check", "--replay")
    if context.slow:
        for test in TESTED:
            check_test(refuser, TESTS_CRATE, test)
