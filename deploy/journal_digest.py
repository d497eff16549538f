"""Audits a journal by the digests that chain its lines, with a table or with another journal.

    python3 deploy/journal_digest.py J [--to SERIAL] [--after SERIAL:DIGEST]
    python3 deploy/journal_digest.py J --table DSN [--town NAME] [--to SERIAL] [--wait SECONDS]
    python3 deploy/journal_digest.py J --other K [--to SERIAL] [--login FILE] [--ca FILE]

J is the path that the files of a journal share, or that of one of them (journal_files.py).

Alone it prints `SERIAL DIGEST`: the digest of the lines up to SERIAL, or of all. Two journals, also
on two machines, have the same lines up to a serial if this prints the same of both. If the first
files were moved away it goes on after a line that was printed before they were.

With `--table` it reads each line of the table of journal_to_postgres.py, and compares it with J and
its digest with that of the lines before it. Both have to come to the last serial that one of them
has at first, or to `--to`; it waits for that, 60 seconds at most if nothing else is given. It
prints `the same up to SERIAL: DIGEST`. When a line arrived is no part of it. Nothing is written. A
J whose first files were moved away is compared from there on, and the table's digests from its
first line on.

With `--other` it compares J with the journal K, from the first line that both have, up to the end
of the shorter one or `--to`, and prints `the same up to SERIAL`. K may be the changes of a server,
`https://HOST/changes` with `--login` and `--ca` as follow.py takes them. They have to come to the
end of J.

It ends with status 1, and one of these on standard error, at what a person has to examine:

    differs SERIAL           the first line that is another one in the table, or in K
    other_digest SERIAL      the first line whose digest in the table is not that of its lines
    other_key SERIAL         its key in the table is not that of its text
    no_digest SERIAL         the table has none there: journal_to_postgres.py --upgrade
    lines_missing FROM TO    J, K or the table lacks these lines
    rows_differ N M          the table's index has N lines, and its rows are M
    bad_line SERIAL          J or the table has no line there; line_too_long SERIAL likewise
    bad_source CODE          the database refuses, or its table cannot be read; or the server refuses

Of a table a further line has the last serial that is right. A database, a server or a file that
cannot be read now is `away`, with status 3; `usage` and `bad_login` have status 2.
"""

import argparse
import re
import sys
import time
from collections.abc import Iterator
from pathlib import Path

from journal_changes import Changes, is_address, login_of
from journal_files import JournalFiles, last_serial
from journal_lines import NO_LINES, Fault, Line, Source, not_empty, path_of, print_made, town_of
from journal_table import JournalTable, Row

NAME = "journal_digest"
AFTER = re.compile(r"([1-9][0-9]{0,18}):([0-9a-f]{64})")
# In seconds: how long lines that are missing are waited for, and between two reads of them.
WAIT_SECONDS, POLL_SECONDS = 60.0, 0.2
# A serial, and the digest of the lines up to it.
Digest = tuple[int, bytes]
BEFORE_ALL: Digest = (0, NO_LINES)


def in_a_row(lines: Iterator[Line], to: int | None) -> Iterator[Line]:
    """Lines whose serials are in a row, up to a serial, which they have to reach."""
    last = 0
    for line in lines:
        if to is not None and line.serial > to:
            break
        if last and line.serial != last + 1:
            raise Fault("lines_missing", last + 1, line.serial - 1)
        last = line.serial
        yield line
    if to is not None and last < to:
        raise Fault("lines_missing", last + 1, to)


def digest_of(path: Path, to: int | None, after: Digest = BEFORE_ALL) -> Digest:
    """The digest of the lines of a journal up to a serial, or of all."""
    last, digest = after
    for line in in_a_row(JournalFiles(path).behind(last), to):
        if line.serial != last + 1:
            more = "if that is right, --after has the digest of those before it"
            raise Fault("lines_missing", last + 1, line.serial - 1, more=(more,))
        last, digest = line.serial, line.digest(digest)
    return last, digest


class Beside:
    """The lines of a journal, beside those of another source that come one after the other."""

    def __init__(self, source: Source) -> None:
        self.lines = in_a_row(source.behind(0), None)
        self.line = next(self.lines, None)
        # The last serial that was compared.
        self.last = 0

    def compare(self, line: Line) -> None:
        """Compares a line with that of the same serial, if the journal has it."""
        while self.line is not None and self.line.serial < line.serial:
            self.line = next(self.lines, None)
        if self.line is not None and self.line.serial == line.serial:
            if self.line != line:
                raise Fault("differs", line.serial)
            self.last = line.serial

    def reach(self, serial: int) -> None:
        """Ends as `lines_missing` if the line of a serial was not compared."""
        if self.last < serial:
            raise Fault("lines_missing", self.last + 1 if self.last else serial, serial)


def wait_for(path: Path, table: JournalTable, to: int | None, seconds: float) -> int:
    """The serial up to which both are compared, once both have it."""
    end_of_wait = time.monotonic() + seconds
    wanted = to or max(last_serial(path), table.last())
    while (there := min(last_serial(path), table.last())) < wanted:
        if time.monotonic() > end_of_wait:
            break
        time.sleep(POLL_SECONDS)
    if there < wanted:
        # A line before that which differs is named first.
        if there > 0:
            compare_table(path, table, there)
        raise Fault("lines_missing", there + 1, wanted)
    return wanted


def checked(row: Row, before: bytes) -> bytes:
    """The digest up to a row of a table, which has to be that which is kept there."""
    serial = row.line.serial
    if Line.of(row.line.whole[:-1], serial).key.encode() != row.key:
        raise Fault("other_key", serial)
    if row.digest is None:
        raise Fault("no_digest", serial)
    digest = row.line.digest(before)
    if digest != row.digest:
        raise Fault("other_digest", serial)
    return digest


def compare_table(path: Path, table: JournalTable, to: int) -> Digest:
    """Compares each line of a table with a journal, and the table's digests with its lines. Lines
    after a serial, which came in meanwhile, have a digest too."""
    beside, last, digest, found = Beside(JournalFiles(path)), 0, NO_LINES, BEFORE_ALL
    try:
        for row in table.walk():
            serial = row.line.serial
            if last and serial != last + 1:
                raise Fault("lines_missing", last + 1, serial - 1)
            if serial <= to:
                beside.compare(row.line)
            last, digest = serial, checked(row, digest)
            if serial == to:
                found = last, digest
    except Fault as fault:
        fault.more += (f"the last line that is right has serial {last}",)
        raise
    if last < to:
        raise Fault("lines_missing", last + 1, to)
    beside.reach(to)
    return found


def compare_journals(asked: argparse.Namespace) -> int:
    """Compares two journals, up to a serial or the end of the shorter one, which it gives; of the
    changes of a server up to the end of the journal."""
    path, to, end_of_path = asked.journal, asked.to, last_serial(asked.journal)
    if is_address(asked.other):
        wanted = to or end_of_path
        beside = Beside(Changes(asked.other, login_of(asked.login), asked.ca))
    else:
        wanted = to or min(end_of_path, last_serial(Path(asked.other)))
        beside = Beside(JournalFiles(Path(asked.other)))
    for line in in_a_row(JournalFiles(path).behind(0), wanted):
        beside.compare(line)
    beside.reach(wanted)
    return wanted


def audit(asked: argparse.Namespace) -> str:
    """What is printed if all is well."""
    if asked.table:
        table = JournalTable(asked.table, asked.town)
        to = wait_for(asked.journal, table, asked.to, asked.wait)
        last, digest = compare_table(asked.journal, table, to) if to else BEFORE_ALL
    elif asked.other:
        return f"the same up to {compare_journals(asked)}"
    else:
        last, digest = digest_of(asked.journal, asked.to, asked.after)
        return f"{last} {digest.hex()}"
    return f"the same up to {last}: {digest.hex()}"


def after_of(text: str) -> Digest:
    """What was printed of the lines before, as `SERIAL:DIGEST`."""
    found = AFTER.fullmatch(text)
    if found is None:
        raise argparse.ArgumentTypeError(f"{text} is no SERIAL:DIGEST")
    return int(found[1]), bytes.fromhex(found[2])


def serial_of(text: str) -> int:
    if not re.fullmatch(r"[1-9][0-9]{0,18}", text):
        raise argparse.ArgumentTypeError(f"{text} is no serial")
    return int(text)


def arguments() -> argparse.Namespace:
    words = argparse.ArgumentParser(prog=NAME, description=(__doc__ or "").splitlines()[0])
    words.add_argument("journal", type=Path, metavar="J", help="the journal's path")
    words.add_argument("--to", type=serial_of, metavar="SERIAL", help="the last line that counts")
    beside = words.add_mutually_exclusive_group()
    beside.add_argument("--after", type=after_of, default=BEFORE_ALL, metavar="SERIAL:DIGEST")
    beside.add_argument("--table", type=not_empty, metavar="DSN", help="compares with a database")
    beside.add_argument(
        "--other", type=not_empty, metavar="K", help="compares with another journal"
    )
    words.add_argument("--town", type=town_of, default="", metavar="NAME", help="of several towns")
    words.add_argument("--login", type=path_of, metavar="FILE", help="has USER:PASSWORD")
    words.add_argument("--ca", type=path_of, metavar="FILE", help="certificates that are trusted")
    words.add_argument("--wait", type=float, default=WAIT_SECONDS, metavar="SECONDS")
    return words.parse_args()


def main() -> int:
    asked = arguments()
    return print_made(NAME, lambda: audit(asked))


if __name__ == "__main__":
    sys.exit(main())
