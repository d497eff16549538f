"""Rows for follow.py over a journal's file: where it goes on, what it sees, and how it ends."""

import os
import subprocess
from dataclasses import dataclass
from pathlib import Path

from followers_tests.processes import DEPLOY, PYTHON, Process, Script, running, wait_until
from harness import Context, Server
from messages import feature, get, open_collection, point, post, put
from model import compact

MOST_OF_BODY = 8_388_608
ENDED: tuple[int, list[str]] = (0, [])


def text_of(key: str, *edits: dict[str, object]) -> bytes:
    """A batch text, as a server keeps it."""
    return compact({"edits": list(edits), "key": key}).encode()


def lines_of(texts: list[bytes], first: int = 1) -> list[bytes]:
    return [b"%d\t%b\n" % (serial, text) for serial, text in enumerate(texts, first)]


def lamp(number: int) -> dict[str, object]:
    return put("insert", "lamps", feature(f"L{number}", point(number, number)))


OPENED = open_collection("lamps", title="Lamps")
TEXTS = [text_of("b1", OPENED), *(text_of(f"b{at}", lamp(at)) for at in range(2, 9))]
LINES = lines_of(TEXTS)
OTHER = text_of("b3", lamp(33))
UNKNOWN = text_of("u", put("insert", "trees", feature("T1", point(1, 1))))


@dataclass
class Rows:
    """A follower that is served, and journals that are sent to it."""

    context: Context
    server: Server

    @property
    def journal(self) -> Path:
        return self.context.folder / "rows.journal"

    @property
    def position(self) -> Path:
        return self.context.folder / "rows.position"

    def follow(self, *words: str | Path) -> tuple[int, list[str]]:
        script = Script(self.context, "follow.py")
        return script.ends(self.journal, self.server.url, *words, "--once")

    def count(self) -> int:
        """How many batches of the rows the follower has, by its lamps."""
        (answer,) = self.server.ask(get("/collections/lamps/items?limit=1"))
        return 0 if answer.status == 404 else int(answer.json()["numberMatched"]) + 1

    def row(
        self, what: str, lines: list[bytes], begun: str | None, ends: str | None, count: int
    ) -> None:
        """Sends a journal from a position on. Wanted: the fault, the position and the number of
        batches after it. A position that is None has no file."""
        self.journal.write_bytes(b"".join(lines))
        self.position.unlink(missing_ok=True)
        if begun is not None:
            self.position.write_text(begun)
        got = self.follow("--position", self.position)
        self.context.check(what, got, (1, [ends]) if ends else ENDED)
        self.context.check(f"{what}: the follower", self.count(), count)

    def kept(self) -> str:
        return self.position.read_text() if self.position.exists() else ""


def check_places(rows: Rows) -> None:
    """Where it goes on: from nothing, in sittings, with the position lost, by a journal."""
    check, row = rows.context.check, rows.row
    row("the first lines", LINES[:3], None, None, 3)
    check("the position", rows.kept(), "3 b3\n")
    row("more lines", LINES[:4], "3 b3\n", None, 4)
    check("the next position", rows.kept(), "4 b4\n")
    row("a lost position", LINES[:5], None, None, 5)
    row("an older position", LINES[:5], "1 b1\n", None, 5)
    for cut in ("5", "5 ", "", "b5 5\n", "\0\0\0"):
        row(f"the position {cut!r}", LINES, cut, f"bad_position {rows.position}", 5)
    row("a journal from the place on", LINES[4:5], "5 b5\n", None, 5)
    row("a journal behind the place", LINES[5:6], "5 b5\n", None, 6)
    row("a journal far behind the place", LINES[6:], "5 b5\n", "lines_missing 6 6", 6)
    row("a journal that begins too late", LINES[1:], None, "lines_missing 1 1", 6)
    row("an empty journal", [], "6 b6\n", None, 6)
    own = rows.context.folder / "own.journal"
    for size, what in ((len(b"".join(LINES[:4])) - 1, "cut"), (0, "empty")):
        own.write_bytes(b"".join(LINES)[:size])
        check(f"an own journal that is {what}", rows.follow("--journal", own), ENDED)
    check("the follower", rows.count(), 6)


def check_cuts(rows: Rows) -> None:
    """A last line that is cut, or has zeros, is not yet a line."""
    for size in (1, len(LINES[6]) // 2, len(LINES[6]) - 1):
        row = LINES[6][:size]
        rows.row(f"a last line of {size} bytes", [*LINES[:6], row], "5 b5\n", None, 6)
    zeros = LINES[6][:9] + bytes(len(LINES[6]) - 10) + b"\n"
    rows.row("a last line with zeros", [*LINES[:6], zeros], "6 b6\n", None, 6)
    rows.context.check("the position stays", rows.kept(), "6 b6\n")


def check_faults(rows: Rows) -> None:
    """What is seen, and changes nothing of the follower."""
    refused, swapped = lines_of([UNKNOWN], 7), lines_of([TEXTS[2], TEXTS[1]], 2)
    row = rows.row
    row("a refused line", [*LINES[:6], *refused], "6 b6\n", "refused 7 no_collection 1", 6)
    other = lines_of([*TEXTS[:2], OTHER])
    row("another text, again", other, "3 b3\n", "forked 3 key_used", 6)
    row("another text, next", other, "2 b2\n", "forked 3 key_used", 6)
    row("another serial, again", [LINES[0], *swapped], "2 b3\n", "forked 2 3", 6)
    row("another serial, next", [LINES[0], *swapped], "1 b1\n", "forked 2 3", 6)
    row("another key in the source", LINES, "4 b5\n", "forked 4 b5 is b4 in the source", 6)
    row("a place that the follower lacks", LINES, "8 b8\n", "position_ahead 8", 6)
    row("a line that is none", [*LINES[:6], b"7 x\n"], "6 b6\n", "bad_line 7", 6)
    row("a line without a key", [*LINES[:6], b"7\t{}\n"], "6 b6\n", "bad_line 7", 6)
    row("a gap", [*LINES[:6], LINES[7]], "6 b6\n", "bad_line 7", 6)
    journal, given = rows.journal, rows.server.url
    wrong: list[list[str | Path]] = [["x"], [journal, "x"], [journal, "http://x:0"], ["", given]]
    for words in wrong:
        script = Script(rows.context, "follow.py")
        rows.context.check(f"the words {words[1:]}", script.ends(*words)[0], 2)


def check_waiting(rows: Rows) -> None:
    """A journal that is not there yet, and that grows by halves of lines."""
    context = rows.context
    rows.journal.unlink()
    words = [PYTHON, "-B", str(DEPLOY / "follow.py"), str(rows.journal), rows.server.url]
    process = Process(context, "follow-rows", [*words, "--position", str(rows.position)])
    rows.position.write_text("6 b6\n")
    with running(process):
        wait_until("it waits", lambda: "No such file" in process.log.read_text(), context.seconds)
        with rows.journal.open("wb", buffering=0) as journal:
            journal.write(b"".join(LINES[:6]) + LINES[6][:20])
            wait_until("it is back", lambda: "back" in process.log.read_text(), context.seconds)
            context.check("half a line", rows.count(), 6)
            journal.write(LINES[6][20:])
            wait_until("the line", lambda: rows.kept() == "7 b7\n", context.seconds)
        beside = rows.journal.with_name("another.journal")
        beside.write_bytes(b"".join([*LINES[:6], *lines_of([OTHER], 7)]))
        beside.replace(rows.journal)
        assert process.process is not None
        context.check("a journal that was replaced", process.process.wait(context.seconds), 1)
    said = process.log.read_text().splitlines()[-1]
    context.check("what it says", said, "follow: forked 7 b7 is b3 in the source")
    context.check("nothing is sent", rows.count(), 7)


def check_fork(rows: Rows) -> None:
    """Another client has sent a batch: the next line gets another serial, and none follows it."""
    (answer,) = rows.server.ask(post(text_of("stray", lamp(99))))
    rows.context.check("a stray batch", answer.json()["serial"], 8)
    extra = lines_of([*TEXTS, text_of("b9", lamp(9)), text_of("b10", lamp(10))])
    rows.row("a fork", extra, "7 b7\n", "forked 8 9", 9)
    rows.row("a fork, once more", extra, "7 b7\n", "forked 8 9", 9)


def check_rows(context: Context) -> None:
    file = context.new_file("rows")
    with context.serve(file, "--clients", "16") as server:
        rows = Rows(context, server)
        check_places(rows)
        check_cuts(rows)
        check_faults(rows)
        check_waiting(rows)
        check_fork(rows)
    stray = text_of("stray", lamp(99))
    wanted = b"".join(lines_of([*TEXTS[:7], stray, TEXTS[7]]))
    context.check("the follower's batches", context.run("batches", file), wanted)


def large_text(key: str) -> bytes:
    """A batch text that is longer than a body."""
    properties = {"t": "x" * 8400}
    edits = [
        put("insert", "lamps", feature(f"{key}-{at}", point(at, 7), properties))
        for at in range(1000)
    ]
    return text_of(key, *edits)


def apply_by_words(context: Context, file: Path, words: str) -> int:
    """Runs the command that it gives, with FILE and the program in place."""
    program = context.folder / "bin" / "streetmap"
    program.parent.mkdir(exist_ok=True)
    program.unlink(missing_ok=True)
    program.symlink_to(context.program)
    path = f"{program.parent}:{os.environ['PATH']}"
    given = words.replace("apply FILE", f"apply {file}")
    ended = subprocess.run(
        ["sh", "-c", given], env=os.environ | {"PATH": path}, capture_output=True, check=False
    )
    return ended.returncode


def check_large(context: Context) -> None:
    """A line that is longer than a body stops it. Its options bring the follower over it."""
    large = large_text("large")
    context.check("a text that is longer than a body", len(large) > MOST_OF_BODY, True)
    journal, file = context.folder / "large.journal", context.new_file("large-follower")
    position, script = context.folder / "large.position", Script(context, "follow.py")
    journal.write_bytes(b"".join(lines_of([TEXTS[0], large, TEXTS[1]])))
    with context.serve(file, "--clients", "4") as server:
        status, said = script.ends(journal, server.url, "--position", position, "--once")
    context.check("the line", (status, said[0]), (1, "body_too_large 2"))
    context.check("its words", apply_by_words(context, file, said[-1]), 0)
    with context.serve(file, "--clients", "4") as server:
        for begun in ("1 b1\n", "2 large\n", "3 b2\n"):
            position.write_text(begun)
            got = script.ends(journal, server.url, "--position", position, "--once")
            context.check(f"over it, from {begun}", got, ENDED)
    context.check("the follower", context.run("batches", file), journal.read_bytes())
