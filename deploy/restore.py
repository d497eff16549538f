"""Restores a town: makes a new FILE from the lines of its journal, up to a serial or a time.

    python3 deploy/restore.py SOURCE FILE [--until SERIAL | --until TIME] [--town NAME]
        [--program PROGRAM]

SOURCE is a folder with the files of one journal, as a backup has them; or the path that the files
of a journal share; or a PostgreSQL with the table of journal_to_postgres.py, as `postgresql://..`,
with the NAME of a town if that script has one. All lines are applied by PROGRAM (`streetmap`), or
those up to SERIAL. With TIME, which takes a table, they are those that came into it up to that
time, by its database's clock: `2026-11-29 14:00+01`, `yesterday 14:00` and all else that PostgreSQL
reads as a `timestamptz`. Standard error says which serial that is, and when it came.

FILE must not be there, nor a log beside it: nothing is ever written over. At the end PROGRAM checks
it, and `FILE has serial N: DIGEST` is printed, with the digest of its lines (journal_digest.py). A
table's own digest has to be the same. The last line of a copy may be cut, and is left out then.

It ends with status 1 and one of these. If FILE was begun, a line after it says its serial.

    exists FILE              FILE is there, or a log beside it
    no_journal FOLDER        the folder has no files of a journal
    several_journals FOLDER  it has those of several: give the path of one of them
    no_lines SOURCE          there is no line to restore
    lines_missing FROM TO    SOURCE lacks these lines, before the last one that is wanted
    no_time SERIAL           TIME is before the first line of which the table knows when it came:
                             nothing is known of the lines up to SERIAL
    too_early TIME           TIME is before the first line
    bad_time TIME            it is no time, or SOURCE is no table
    other_digest SERIAL      the table's digest is not that of its lines: do not use FILE, and
                             compare the table with a journal (journal_digest.py)
    bad_line SERIAL          SOURCE has no line there; line_too_long SERIAL likewise
    program_failed COMMAND   PROGRAM is not there, or ended with a fault of its own
    bad_source CODE          the database refuses a query

A database or a file that cannot be read now is `away`, with status 3; `usage` has status 2.
"""

import argparse
import contextlib
import os
import sys
from collections.abc import Iterator
from dataclasses import dataclass
from pathlib import Path

from journal_files import NUMBERED, JournalFiles, ending_of, family_of, last_serial, parts_of
from journal_lines import NO_LINES, Away, Fault, Line, Source, not_empty, print_made, tell, town_of
from program import Program, lines_up_to

NAME = "restore"
TABLES = ("postgresql://", "postgres://")


def journal_in(source: Path) -> Path:
    """The path of a journal, also of the only one in a folder."""
    if not source.is_dir():
        return source
    found = sorted({family_of(it) for it in source.iterdir() if NUMBERED.fullmatch(it.name)})
    if not found:
        raise Fault("no_journal", source)
    if len(found) > 1:
        raise Fault("several_journals", source, more=tuple(map(str, found)))
    return found[0]


def last_of_files(journal: Path) -> int:
    """The last serial of a journal whose files have all lines from the first on, by their names and
    last lines."""
    last_serial(journal)
    last = 0
    for part in parts_of(journal):
        if max(part.first, 1) > last + 1:
            raise Fault("lines_missing", last + 1, part.first - 1)
        ending = ending_of(part.path)
        last = ending.line.serial if ending.line else last
    if not ending.is_whole:
        tell(NAME, f"the line after serial {last} is cut, and is left out")
    return last


def moment_of(until: str, dsn: str, town: str) -> int:
    """The last serial that had come into a table at a time."""
    from journal_table import JournalTable

    moment, serial, came = JournalTable(dsn, town).at_time(until)
    if serial == 0:
        raise Fault("too_early", moment)
    if came is None:
        raise Fault("no_time", serial)
    tell(NAME, f"at {moment} it had serial {serial}, which came at {came}")
    return serial


@dataclass
class Lines:
    """The lines of a source up to a serial, and the digest of those that were taken."""

    source: Source
    serial: int
    digest: bytes = NO_LINES

    def __iter__(self) -> Iterator[Line]:
        for line in lines_up_to(self.source, 0, self.serial):
            self.digest = line.digest(self.digest)
            yield line


def opened(asked: argparse.Namespace) -> tuple[Source, int]:
    """The source, and the last serial that it has or that is wanted of it."""
    until = asked.until or ""
    serial = int(until) if until.isascii() and until.isdecimal() else None
    source: Source
    if asked.source.startswith(TABLES):
        from journal_table import TableSource

        source = table = TableSource(asked.source, asked.town)
        last = table.last()
        if until and serial is None:
            serial = moment_of(until, asked.source, asked.town)
    else:
        if until and serial is None:
            raise Fault("bad_time", until, more=("a time takes the table of a database",))
        journal = journal_in(Path(asked.source))
        source, last = JournalFiles(journal), last_of_files(journal)
    if last == 0 or serial == 0:
        raise Fault("no_lines", asked.source)
    if serial is not None and serial > last:
        raise Fault("lines_missing", last + 1, serial)
    return source, serial or last


def compare_digest(source: Source, lines: Lines) -> None:
    """Compares the digest of the lines with that of the table which they are from."""
    from journal_table import TableSource

    if isinstance(source, TableSource):
        kept = source.digest_at(lines.serial)
        if kept is not None and kept != lines.digest:
            raise Fault("other_digest", lines.serial)


def restore(asked: argparse.Namespace) -> str:
    """Makes the file. What is printed of it."""
    file = asked.file
    there = [it for it in (file, file.with_name(f"{file.name}-wal")) if os.path.lexists(it)]
    if there:
        raise Fault("exists", there[0])
    source, serial = opened(asked)
    program, lines = Program(asked.program, file), Lines(source, serial)
    program.run("create")
    try:
        program.apply(iter(lines))
        if asked.source.startswith(TABLES):
            compare_digest(source, lines)
        count = program.checked()
    except (Fault, Away) as error:
        fault = error if isinstance(error, Fault) else Fault("away", error, status=3)
        with contextlib.suppress(Fault):
            fault.more += (f"{file} has serial {program.checked()}",)
        raise fault from error
    return f"{file} has serial {count}: {lines.digest.hex()}"


def arguments() -> argparse.Namespace:
    words = argparse.ArgumentParser(prog=NAME, description=(__doc__ or "").splitlines()[0])
    words.add_argument("source", type=not_empty, help="a folder, a journal or postgresql://..")
    words.add_argument("file", type=Path, help="the file that is made")
    words.add_argument("--until", type=not_empty, help="the last serial, or a time")
    words.add_argument("--town", type=town_of, default="", metavar="NAME", help="of several towns")
    words.add_argument("--program", default="streetmap", help="the server's program")
    return words.parse_args()


def main() -> int:
    asked = arguments()
    return print_made(NAME, lambda: restore(asked))


if __name__ == "__main__":
    sys.exit(main())
