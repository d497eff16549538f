"""Puts the lines of a journal into a table of PostgreSQL, as the journal grows.

    python3 deploy/journal_to_postgres.py J DSN [--town NAME]
        [--features [--system S --shift E,N] [--tiles]]
        [--lease FILE] [--once | --renew | --upgrade | --promote]

J is the journal that `streetmap serve --journal J` writes, or the path that all its files share
(journal_files.py): once a file has ended, the next one is read. DSN is that of a database
(`postgresql://..`), in which it makes the table `streetmap_journal` if that is missing:
journal_table.py says what it has. PostgreSQL carries the table to other sites by its own
replication, and follow.py reads it there. With `--town` the tables are in a schema of that town.

With `--features` each line acts in the same transaction on the mirror beside the table
(postgis/README.md): PostGIS tables of the collections and features, in the office's system S
(`EPSG:25832`), where the grid's 0,0 is at E,N. The mirror keeps S, E and N from its first start. With
`--tiles` it also draws tiles of the mirror ahead, as long as it runs (journal_tiles.py).

It runs until it is stopped, at any time and in any way, and then goes on after the last serial of
the table. It begins by comparing the last line that both have. A database that is away, and a J
that is not there yet, are tried again, with pauses that grow to ten seconds; standard error says
so. With `--once` it ends with the lines that are there.

Each line gets a digest that chains it to those before it, and the time by the database's clock. The
digests of what the table has are compared with the lines that it puts in or compares.

With `--lease FILE` it puts lines in only as long as the table's lease is its own, which FILE keeps
(journal_lease.py). The first such script takes the lease, and all others are refused from then on,
also those without the option. `--promote` has this machine take it, with the next epoch: another
that runs ends within a second or so, also if no line comes.

With `--renew` it makes the table again from the first line on that J has with another text, or has
no more, or whose digest is wrong; what the table had there is moved to
`streetmap_journal_replaced`. With `--features` the mirror is made again as a whole, in the system
that it had if none is given. With `--upgrade` it gives a table of an earlier version its columns,
and fills in digests that are missing. After each of these three it ends.

It ends with status 1 at what a person has to examine, and puts nothing in after it; `fenced` has
status 4, at which its unit has the server refuse batches:

    other_text SERIAL        the table has another text there, the first that differs: it is another
                             server's
    other_digest SERIAL      the table's digest there is not that of its lines: it was changed
    fenced EPOCH OWN         another machine has the lease, or this one has none (OWN is 0)
    bad_lease FILE           FILE has no lease
    lines_missing FROM TO    J begins after what the table needs next
    bad_line SERIAL          J has no line there, or a zero byte amid others;
                             line_too_long SERIAL likewise
    bad_source CODE          the database refuses a query
    refused SERIAL CODE ..   the mirror refuses the line, with the place of its edit
    other_system S E N       the mirror that is there has another system; E and N in thousandths
    no_system S              PostGIS does not know the system
    has_mirror               --renew needs --features, as the database has a mirror
    no_lines J               --renew, and J has no line

`lease_not_written FILE` has status 3, and so has a database that is `away` from `--upgrade` and
`--promote`; `usage` has status 2.
"""

import argparse
import sys
import time
from collections.abc import Iterable, Iterator
from pathlib import Path

from journal_files import JournalFiles, last_serial
from journal_lease import Lease, LeaseFile
from journal_lines import Away, Fault, Line, Pauses, end, not_empty, tell, town_of
from journal_mirror import MirroredTable, OfficeSystem, shift_of, system_of
from journal_table import JournalTable, OtherText

NAME = "journal_to_postgres"
# A transaction has at most MOST_LINES lines, or those that reach MOST_BYTES bytes.
MOST_LINES, MOST_BYTES = 1000, 4_194_304
# In seconds: between two readings of the lease while no line comes.
LEASE_SECONDS = 1.0


def groups(lines: Iterable[Line]) -> Iterator[list[Line]]:
    """The lines of one transaction after the other."""
    group: list[Line] = []
    size = 0
    for line in lines:
        group.append(line)
        size += len(line.text)
        if len(group) == MOST_LINES or size >= MOST_BYTES:
            yield group
            group, size = [], 0
    if group:
        yield group


class Copying:
    """A journal, a table, and the serial after which lines are put in or compared. It is not known
    before both were read."""

    def __init__(
        self,
        path: Path,
        table: JournalTable,
        renews: bool = False,
        lease: LeaseFile | None = None,
    ) -> None:
        self.path = path
        self.journal = JournalFiles(path)
        self.table = table
        self.renews = renews
        self.lease = lease
        self.serial: int | None = None
        self.lease_read = 0.0

    def begin(self) -> int:
        """The serial before that of the last line that both have."""
        last = last_serial(self.path)
        self.table.make_table()
        self.take_lease()
        if self.renews:
            self.renew(last)
        self.table.make()
        if not self.table.is_chained():
            tell(NAME, "the table lacks digests: --upgrade fills them in")
        begun = max(0, min(self.table.last(), last) - 1)
        tell(NAME, f"going on behind serial {begun}")
        return begun

    def take_lease(self, promotes: bool = False) -> Lease:
        """Takes the lease if nobody has it, or for a promotion. Ends as `fenced` if it is another's
        then."""
        if self.lease is not None:
            self.table.lease = self.lease.read()
            found = self.table.held()
            if promotes or found.epoch == self.table.lease.epoch == 0:
                self.table.lease = Lease.of_epoch(max(found.epoch, self.table.lease.epoch) + 1)
                self.lease.write(self.table.lease)
        with self.table.transaction() as cursor:
            self.table.hold(cursor)
        return self.table.lease

    def renew(self, last: int) -> None:
        """Takes out of the table what the journal, up to its last serial, has not."""
        if last == 0:
            raise Fault("no_lines", self.path)
        others = self.first_other(), self.table.first_broken()
        begun = min([last + 1, *(it for it in others if it is not None)])
        first = next(JournalFiles(self.path).behind(begun - 1), None)
        if first is not None and first.serial != begun:
            raise Fault("lines_missing", begun, first.serial - 1)
        number = self.table.take_out(begun)
        self.renews = False
        tell(NAME, f"renewing from serial {begun}, {number} lines were taken out")

    def first_other(self) -> int | None:
        """The serial of the first line that the table has with another text."""
        for group in groups(JournalFiles(self.path).behind(0)):
            if (serial := self.table.first_other(group)) is not None:
                return serial
        return None

    def go_on(self) -> None:
        """Puts in all lines that are there now."""
        if self.serial is None:
            self.serial = self.begin()
        for group in groups(self.journal.behind(self.serial)):
            self.put(group)
            self.serial = group[-1].serial
        self.table.complete()
        self.check_lease()

    def check_lease(self) -> None:
        """Reads the lease, if that is some time ago. Ends as `fenced` if it is another's."""
        if time.monotonic() - self.lease_read > LEASE_SECONDS:
            self.table.check_lease()
            self.lease_read = time.monotonic()

    def put(self, group: list[Line]) -> None:
        try:
            self.table.put(group)
        except OtherText:
            # Lines that were not compared may differ before it.
            if (serial := self.first_other()) is not None:
                raise Fault("other_text", serial) from None
            raise

    def lose(self) -> None:
        self.serial = None


def run(copying: Copying, once: bool) -> None:
    """Copies until it is stopped, or with `once` until all present lines are put in."""
    pauses = Pauses(NAME)
    while True:
        try:
            copying.go_on()
            pauses.end()
            if once:
                return
            copying.table.rest()
            copying.journal.wait()
        except Away as away:
            copying.lose()
            pauses.wait(str(away))


def table_of(asked: argparse.Namespace) -> JournalTable:
    """The table, or that with the mirror, which the options of the command line select."""
    if not asked.features:
        return JournalTable(asked.dsn, asked.town)
    given = asked.system is not None
    system = OfficeSystem(asked.system, *asked.shift) if given else None
    return MirroredTable(asked.dsn, NAME, system, asked.town, asked.tiles)


def arguments() -> argparse.Namespace:
    words = argparse.ArgumentParser(prog=NAME, description=(__doc__ or "").splitlines()[0])
    words.add_argument("journal", type=not_empty, help="the journal's path")
    words.add_argument("dsn", type=not_empty, help="the database, as postgresql://..")
    words.add_argument("--town", type=town_of, default="", metavar="NAME", help="of several towns")
    words.add_argument("--features", action="store_true", help="keeps the mirror too")
    words.add_argument("--tiles", action="store_true", help="draws tiles of the mirror ahead")
    words.add_argument("--system", type=system_of, metavar="S", help="as EPSG:25832")
    words.add_argument("--shift", type=shift_of, metavar="E,N", help="where the grid's 0,0 is in S")
    ends = words.add_mutually_exclusive_group()
    ends.add_argument("--once", action="store_true", help="ends with the lines that are there")
    ends.add_argument("--renew", action="store_true", help="makes what differs again, and ends")
    ends.add_argument("--upgrade", action="store_true", help="adds columns and digests, and ends")
    ends.add_argument("--promote", action="store_true", help="takes the lease, and ends")
    words.add_argument("--lease", type=Path, metavar="FILE", help="keeps this machine's lease")
    asked = words.parse_args()
    if (asked.system is None) != (asked.shift is None) or asked.system and not asked.features:
        words.error("--system and --shift belong together, and to --features")
    if asked.tiles and not asked.features:
        words.error("--tiles needs --features")
    if asked.promote and asked.lease is None:
        words.error("--promote needs --lease")
    return asked


def serve(asked: argparse.Namespace) -> None:
    """Does what the options select."""
    lease = asked.lease and LeaseFile(asked.lease)
    copying = Copying(Path(asked.journal), table_of(asked), asked.renew, lease)
    if not (asked.upgrade or asked.promote):
        return run(copying, asked.once or asked.renew)
    try:
        copying.table.make_table()
        held = copying.take_lease(asked.promote)
        if asked.promote:
            return tell(NAME, f"the lease has epoch {held.epoch} now, for {held.holder}")
        last = copying.table.upgrade()
        tell(NAME, f"digests are filled in up to serial {last}" if last else "no digest is missing")
    except Away as away:
        raise Fault("away", away, status=3) from away


def main() -> int:
    asked = arguments()
    try:
        serve(asked)
    except Fault as fault:
        return end(NAME, fault)
    return 0


if __name__ == "__main__":
    sys.exit(main())
