"""Rows for a journal of several files: follow.py reads them one after the other, by their names."""

from collections.abc import Iterator
from contextlib import contextmanager
from dataclasses import dataclass
from pathlib import Path

from followers_tests.processes import Process, Script, running, wait_until
from followers_tests.rows import ENDED, LINES, Rows
from harness import Context

# The files of a journal, by their numbers; 0 is the file without a number.
Files = dict[int, list[bytes]]


@dataclass
class Parts:
    """A follower, and the files of a journal that is sent to it."""

    rows: Rows

    @property
    def context(self) -> Context:
        return self.rows.context

    @property
    def journal(self) -> Path:
        """The path of the journal, without a number."""
        return self.context.folder / "parts.journal"

    def path(self, number: int) -> Path:
        return self.journal.with_name(f"parts.journal.{number:012}") if number else self.journal

    def write(self, files: Files) -> None:
        for path in self.context.folder.glob("parts.journal*"):
            path.unlink()
        for number, lines in files.items():
            self.path(number).write_bytes(b"".join(lines))

    def row(
        self,
        what: str,
        files: Files,
        begun: str | None,
        ends: str | None,
        count: int,
        named: int = 0,
    ) -> None:
        """Sends the files from a position on, by the path that has a number. Wanted: the fault, and
        the number of batches that the follower has then."""
        self.write(files)
        self.rows.position.unlink(missing_ok=True)
        if begun is not None:
            self.rows.position.write_text(begun)
        words: list[str | Path] = [
            self.path(named),
            self.rows.server.url,
            "--position",
            self.rows.position,
            "--once",
        ]
        got = Script(self.context, "follow.py").ends(*words)
        self.context.check(what, got, (1, [ends]) if ends else ENDED)
        self.context.check(f"{what}: the follower", self.rows.count(), count)


def check_files(parts: Parts) -> None:
    """Files in order, by any of their paths."""
    row = parts.row
    row("the first file", {1: LINES[:2]}, None, None, 2, named=1)
    row("the next file, by the first", {1: LINES[:2], 3: LINES[2:3]}, None, None, 3, named=1)
    row("by the last", {1: LINES[:2], 3: LINES[2:4]}, None, None, 4, named=3)
    row("by the path of all", {1: LINES[:2], 3: LINES[2:4], 5: LINES[4:5]}, None, None, 5)
    row("an empty last file", {1: LINES[:5], 6: []}, "5 b5\n", None, 5)
    row("without the files before", {6: LINES[5:6]}, "5 b5\n", None, 6)
    row("one without a number before", {0: LINES[:3], 4: LINES[3:7]}, None, None, 7)
    row("a line in two files", {1: LINES[:5], 4: LINES[3:7]}, None, None, 7)


def check_faults(parts: Parts) -> None:
    """Files that lack lines, or have others than their names say. Nothing is sent after that."""
    row, cut = parts.row, LINES[2][:9]
    row("a file is missing", {1: LINES[:2], 4: LINES[3:]}, None, "lines_missing 3 3", 7)
    row("the first is missing", {4: LINES[3:]}, "2 b2\n", "lines_missing 3 3", 7)
    row("a cut one before", {1: [*LINES[:2], cut], 4: LINES[3:]}, None, "lines_missing 3 3", 7)
    row("another first line", {1: LINES[:3], 4: LINES[4:]}, None, "bad_line 4", 7)


def check_zeros(parts: Parts) -> None:
    """A line with a zero byte amid others is a fault; at the very end it is waited for."""
    row = parts.row
    row("all lines", {1: LINES[:7]}, None, None, 7, named=1)
    for at in (0, 1, 6):
        for place in (0, len(LINES[at]) // 2, -2):
            zeroed = bytearray(LINES[at])
            zeroed[place] = 0
            lines = [*LINES[:at], bytes(zeroed), *LINES[at + 1 :]]
            what = f"a zero in line {at + 1}, at {place}"
            row(what, {1: lines}, None, f"bad_line {at + 1}", 7, named=1)
    zeroed = bytearray(b"".join(LINES[:6]) + bytes(40))
    row("zeros after the last line", {1: [bytes(zeroed)]}, "6 b6\n", None, 7, named=1)
    files = {1: [bytes(zeroed)], 8: LINES[7:]}
    row("zeros at the end, and a later file", files, "6 b6\n", "lines_missing 7 7", 7)


@contextmanager
def following(parts: Parts) -> Iterator[Process]:
    """follow.py over the first file, up to the end of the block."""
    words: list[str | Path] = [
        parts.path(1),
        parts.rows.server.url,
        "--position",
        parts.rows.position,
    ]
    process = Process(
        parts.context, "follow-parts", Script(parts.context, "follow.py").command(*words)
    )
    with running(process):
        yield process


def check_growing(parts: Parts) -> None:
    """It finds the next file by itself, also one that is begun before its first line is there."""
    seconds, position = parts.context.seconds, parts.rows.position
    parts.write({1: LINES[:5]})
    position.write_text("4 b4\n")
    with following(parts):
        wait_until("the first file", lambda: parts.rows.kept() == "5 b5\n", seconds)
        parts.path(6).write_bytes(b"")
        with parts.path(6).open("ab", buffering=0) as file:
            file.write(LINES[5] + LINES[6][:7])
            wait_until("the next file", lambda: parts.rows.kept() == "6 b6\n", seconds)
            file.write(LINES[6][7:])
            wait_until("its next line", lambda: parts.rows.kept() == "7 b7\n", seconds)
        parts.path(8).write_bytes(LINES[7])
        wait_until("the file after it", lambda: parts.rows.kept() == "8 b8\n", seconds)
    parts.context.check("the follower of all files", parts.rows.count(), 8)


def check_parts(context: Context) -> None:
    file = context.new_file("parts")
    with context.serve(file, "--clients", "16") as server:
        parts = Parts(Rows(context, server))
        check_files(parts)
        check_faults(parts)
        check_zeros(parts)
        check_growing(parts)
    context.check("the batches of all files", context.run("batches", file), b"".join(LINES))
