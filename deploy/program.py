"""The server's program, run over a file that it makes from the lines of a journal."""

import contextlib
import sqlite3
import subprocess
from collections.abc import Iterator
from dataclasses import dataclass
from pathlib import Path
from typing import Any

from journal_lines import Fault, Line, Source


def lines_up_to(source: Source, last: int, serial: int) -> Iterator[Line]:
    """The lines after one serial, up to that of another."""
    for line in source.behind(last) if serial > last else ():
        if line.serial != last + 1:
            raise Fault("lines_missing", last + 1, line.serial - 1)
        yield line
        last = line.serial
        if last == serial:
            return
    if last < serial:
        raise Fault("lines_missing", last + 1, serial)


@dataclass(frozen=True)
class Program:
    """The program, over a file of its own."""

    program: str
    file: Path

    def started(self, word: str, *words: str, **options: Any) -> "subprocess.Popen[bytes]":
        """A command over the file."""
        try:
            return subprocess.Popen([self.program, word, str(self.file), *words], **options)
        except OSError as error:
            raise Fault("program_failed", word, more=(str(error),)) from error

    def run(self, word: str, *words: str, **options: Any) -> None:
        """Runs a command over the file to its end."""
        if self.started(word, *words, **options).wait() != 0:
            raise Fault("program_failed", word)

    def last(self) -> int:
        """The last serial of the file."""
        with contextlib.closing(sqlite3.connect(self.file)) as connection:
            rows = connection.execute("SELECT coalesce(max(serial), 0) FROM streetmap_batches")
            return int(rows.fetchone()[0])

    def checked(self) -> int:
        """The last serial of the file, by the program's own check of all its rows."""
        with self.started("check", stdout=subprocess.PIPE) as checking:
            said, _ = checking.communicate()
        if checking.returncode != 0 or not said.startswith(b"ok "):
            raise Fault("program_failed", "check")
        return int(said.split()[3])

    def apply(self, lines: Iterator[Line]) -> None:
        """Applies lines to the file."""
        applying = self.started("apply", stdin=subprocess.PIPE, stdout=subprocess.DEVNULL)
        assert applying.stdin is not None
        # It may end before it has read all of them, at a fault of its own.
        with contextlib.suppress(BrokenPipeError), applying:
            for line in lines:
                applying.stdin.write(line.whole)
        if applying.returncode != 0:
            raise Fault("program_failed", "apply")
