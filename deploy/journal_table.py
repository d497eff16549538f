"""A journal in a table of PostgreSQL: the lines that are put in, and the lines that come out.

    streetmap_journal(serial bigint primary key, key text not null, batch text not null,
                      digest bytea, arrived timestamptz)

The serials are in a row from the first line that was put in. `digest` chains the lines
(journal_lines.py), from that first line on, and `arrived` is when a line was put in, by the clock
of the database. In a table that an earlier version has made both are missing until
journal_to_postgres.py --upgrade; the lines before it have no time. A NOTIFY on the channel
`streetmap_journal` carries the last serial of each transaction. A database may have the tables of
several towns, each in a schema of its own: `streetmap_harbour`, with the channel
`streetmap_journal_harbour`. Without a town's name the table is where the database's `search_path`
has it.

The calls end as `SourceAway` if the database does not answer, and as the fault `bad_source` with
its SQLSTATE if it refuses. psycopg 2 is used, not 3: it is what sites have already, its COPY of a
transaction is one call, and psycopg 3 of Debian 12 cannot wait for a NOTIFY with a time limit.
"""

import contextlib
import io
import select
import shlex
import time
from collections.abc import Iterator, Sequence
from dataclasses import dataclass
from typing import Any

import psycopg2
from journal_lease import ALONE, Lease, check, held, hold
from journal_lines import NO_LINES, Fault, Line, SourceAway
from psycopg2.extensions import make_dsn, parse_dsn

TABLE = """
CREATE TABLE IF NOT EXISTS streetmap_journal
    (serial bigint PRIMARY KEY, key text NOT NULL, batch text NOT NULL,
     digest bytea, arrived timestamptz DEFAULT clock_timestamp())
"""
# The columns that tables of earlier versions lack. The lines that are there get no time.
ADD_COLUMNS = """
ALTER TABLE streetmap_journal
    ADD COLUMN IF NOT EXISTS digest bytea, ADD COLUMN IF NOT EXISTS arrived timestamptz;
ALTER TABLE streetmap_journal ALTER COLUMN arrived SET DEFAULT clock_timestamp()
"""
HAS_COLUMNS = """
SELECT count(*) = 2 FROM pg_attribute
WHERE attrelid = to_regclass(%s) AND attname IN ('digest', 'arrived') AND NOT attisdropped
"""
DIGEST = "SELECT digest FROM streetmap_journal WHERE serial = %s"
DIGESTS = "SELECT serial, digest FROM streetmap_journal WHERE serial BETWEEN %s AND %s"
# Fills in digests that are missing after a serial, at most that many; the serial of the last one.
FILLING = """
CREATE OR REPLACE FUNCTION pg_temp.streetmap_fill(after bigint, most integer)
RETURNS bigint LANGUAGE plpgsql AS $$
DECLARE
    line record;
    before bytea;
    filled bigint;
BEGIN
    FOR line IN SELECT serial, batch FROM streetmap_journal
        WHERE serial > after AND digest IS NULL ORDER BY serial LIMIT most
    LOOP
        SELECT digest INTO before FROM streetmap_journal WHERE serial = line.serial - 1;
        UPDATE streetmap_journal SET digest = sha256(
            coalesce(before, decode(repeat('00', 32), 'hex'))
            || textsend(line.serial || E'\\t') || textsend(line.batch) || textsend(E'\\n'))
        WHERE serial = line.serial;
        filled := line.serial;
    END LOOP;
    RETURN filled;
END
$$
"""
FILL = "SELECT pg_temp.streetmap_fill(%s, %s)"
# All lines as they are kept, by the index as followers read them, and then as the rows have it.
BY_INDEX = "SET LOCAL enable_seqscan = off; SET LOCAL enable_sort = off"
WALK = """
SELECT serial, textsend(key), textsend(batch), {} FROM streetmap_journal ORDER BY serial
"""
BY_ROWS = """
SET LOCAL enable_seqscan = on; SET LOCAL enable_indexscan = off;
SET LOCAL enable_indexonlyscan = off; SET LOCAL enable_bitmapscan = off;
SELECT count(*) FROM streetmap_journal
"""
# All reads of such a transaction are of one state.
READ_ONLY = "SET TRANSACTION ISOLATION LEVEL REPEATABLE READ READ ONLY"
IS_THERE = "SELECT to_regclass(%s) IS NOT NULL"
# A town's schema is made if it is missing, and is searched before all others.
HAS_SCHEMA, MAKE_SCHEMA = "SELECT to_regnamespace(%s) IS NOT NULL", "CREATE SCHEMA {}"
SEARCH = "SELECT set_config('search_path', %s || ', ' || current_setting('search_path'), false)"
LAST = "SELECT coalesce(max(serial), 0) FROM streetmap_journal"
# The last serial, before which no line is taken out until the transaction has ended.
LOCKED_LAST = "LOCK TABLE streetmap_journal IN ROW EXCLUSIVE MODE; " + LAST
BEHIND = "SELECT serial, batch FROM streetmap_journal WHERE serial > %s ORDER BY serial LIMIT %s"
MIRRORED = "SELECT serial FROM streetmap_mirror"
PUT = "COPY streetmap_journal (serial, key, batch) FROM STDIN"
PUT_CHAINED = "COPY streetmap_journal (serial, key, batch, digest) FROM STDIN"
BETWEEN = "SELECT serial, batch FROM streetmap_journal WHERE serial BETWEEN %s AND %s"
NOTIFY = "SELECT pg_notify(%s, %s)"
# Lines that others take the place of are kept beside the table.
REPLACED = """
CREATE TABLE IF NOT EXISTS streetmap_journal_replaced
    (replaced timestamptz NOT NULL DEFAULT now(), LIKE streetmap_journal)
"""
LOCK = "LOCK TABLE streetmap_journal IN SHARE ROW EXCLUSIVE MODE"
REPLACED_COLUMNS = """
ALTER TABLE streetmap_journal_replaced
    ADD COLUMN IF NOT EXISTS digest bytea, ADD COLUMN IF NOT EXISTS arrived timestamptz
"""
TAKE_OUT = """
WITH taken AS (DELETE FROM streetmap_journal WHERE serial >= %s RETURNING {0})
INSERT INTO streetmap_journal_replaced ({0}) SELECT {0} FROM taken
"""
KEPT, ALL_KEPT = "serial, key, batch", "serial, key, batch, digest, arrived"
# The first line that came after a time, and the last of all; a time as it was read.
READ_TIME = "SELECT CAST(%s AS timestamptz)::text"
AT_TIME = """
SELECT coalesce((SELECT min(serial) - 1 FROM streetmap_journal WHERE arrived > %s), max(serial), 0)
FROM streetmap_journal
"""
CAME = "SELECT arrived::text FROM streetmap_journal WHERE serial = %s"
# The SQLSTATEs of what is no time.
NO_TIME = ("bad_source 22007", "bad_source 22008", "bad_source 22023")
# Lines that are taken at once: each may have 16 MiB. Digests that are filled in at once.
AT_ONCE, FILLED_AT_ONCE = 8, 1000
# In seconds: between two reads without LISTEN, as on a hot standby, and with it.
POLL_SECONDS, LISTEN_SECONDS = 0.5, 5.0
# In seconds, for a connection to be made. A database whose machine is gone is noticed in half a
# minute.
CONNECT_SECONDS = 10
KEPT_ALIVE = {
    "keepalives_idle": 10,
    "keepalives_interval": 5,
    "keepalives_count": 3,
    "tcp_user_timeout": 30_000,
    "client_encoding": "UTF8",
    "application_name": "streetmap",
}
# Classes of SQLSTATE that pass by themselves: connections, transactions that were undone (also by a
# standby that recovers), resources, an administrator, the system, and a standby that may not write.
PASSING = ("08", "25", "40", "53", "55", "57", "58")
# The SQLSTATE of a row that is there already; and of a fault of a line by itself, which the mirror
# raises (postgis/acting.sql).
UNIQUE, FAULT_OF_LINE = "23505", "SM001"


class OtherText(Fault):
    """The table has a line with another text."""

    def __init__(self, serial: int) -> None:
        super().__init__("other_text", serial)


@dataclass(frozen=True)
class Row:
    """A line as the table has it, with its key and its digest there."""

    line: Line
    key: bytes
    digest: bytes | None


class JournalTable:
    """A connection to a database with the table, of a town if its name is given. Once `SourceAway`
    came it is made again."""

    def __init__(self, dsn: str, town: str = "", connect_seconds: int = CONNECT_SECONDS) -> None:
        self.dsn = dsn
        self.lease = Lease()
        self.has_columns = False
        # The last line that was put in here, and its digest.
        self.put_last: tuple[int, bytes] | None = None
        self.connect_seconds = connect_seconds
        self.schema = f"streetmap_{town}" if town else ""
        self.channel = f"streetmap_journal_{town}" if town else "streetmap_journal"
        self.connection: Any = None

    def connect(self) -> Any:
        """The connection, which is made if it is missing."""
        if self.connection is None or self.connection.closed:
            self.connection = psycopg2.connect(
                self.dsn, connect_timeout=self.connect_seconds, **KEPT_ALIVE
            )
            self.begin(self.connection)
        return self.connection

    def begin(self, connection: Any) -> None:
        """What is done first on a new connection."""
        if self.schema:
            with connection, connection.cursor() as cursor:
                cursor.execute(SEARCH, (self.schema,))

    @contextlib.contextmanager
    def asking(self) -> Iterator[None]:
        """Errors of the database within the block, as these scripts know them. Any error ends the
        connection."""
        try:
            yield
        except psycopg2.Error as error:
            self.close()
            code, said = error.pgcode, str(error).strip()
            if code == FAULT_OF_LINE:
                raise Fault(error.diag.message_primary) from error
            if code is None or code.startswith(PASSING) or is_meanwhile(error):
                raise SourceAway(f"the database: {said or code}") from error
            raise Fault("bad_source", code, more=(said,)) from error

    @contextlib.contextmanager
    def transaction(self) -> Iterator[Any]:
        """A cursor in a transaction of its own, which is undone if the block fails."""
        with self.asking(), self.connect() as connection, connection.cursor() as cursor:
            yield cursor

    def close(self) -> None:
        if self.connection is not None:
            self.connection.close()
        self.connection = None

    def named(self, table: str) -> str:
        """The name of a table, by which no other town's is found if this town has none."""
        return f"{self.schema}.{table}" if self.schema else table

    def has(self, cursor: Any, table: str) -> bool:
        """Whether the town has a table of this name."""
        cursor.execute(IS_THERE, (self.named(table),))
        return bool(cursor.fetchone()[0])

    def last(self) -> int:
        """The last serial of the table; 0 if it has none, or is not there yet."""
        with self.transaction() as cursor:
            if not self.has(cursor, "streetmap_journal"):
                return 0
            cursor.execute(LAST)
            return int(cursor.fetchone()[0])

    def mirrored(self) -> int | None:
        """The serial of the mirror's state; None without a mirror."""
        with self.transaction() as cursor:
            if not self.has(cursor, "streetmap_mirror"):
                return None
            cursor.execute(MIRRORED)
            return int(cursor.fetchone()[0])

    def make(self) -> None:
        """Makes what is missing."""
        self.make_table()

    def make_table(self) -> None:
        """Makes the table, and the town's schema, if they are missing."""
        with self.transaction() as cursor:
            if self.has(cursor, "streetmap_journal"):
                return
            cursor.execute(ALONE)
            if self.schema:
                cursor.execute(HAS_SCHEMA, (self.schema,))
                if not cursor.fetchone()[0]:
                    cursor.execute(MAKE_SCHEMA.format(self.schema))
            cursor.execute(TABLE)

    def hold(self, cursor: Any) -> None:
        """Has the lease hold until the transaction ends. Ends as `fenced` if another has it."""
        hold(cursor, self.lease, self.has(cursor, "streetmap_lease"))

    def check_lease(self) -> None:
        """Ends as `fenced` if another has the lease now."""
        with self.transaction() as cursor:
            if self.has(cursor, "streetmap_lease"):
                check(cursor, self.lease)

    def held(self) -> Lease:
        """The lease that the table has; epoch 0 if nobody has it."""
        with self.transaction() as cursor:
            return held(cursor)[0] if self.has(cursor, "streetmap_lease") else Lease()

    def is_chained(self) -> bool:
        """Whether the next line that is put in gets a digest."""
        with self.transaction() as cursor:
            cursor.execute(LAST)
            return self.kept_digest(cursor, int(cursor.fetchone()[0])) is not None

    def knows_columns(self, cursor: Any) -> bool:
        """Whether the table has the columns that those of earlier versions lack."""
        if not self.has_columns:
            cursor.execute(HAS_COLUMNS, (self.named("streetmap_journal"),))
            self.has_columns = bool(cursor.fetchone()[0])
        return self.has_columns

    def kept_digest(self, cursor: Any, serial: int) -> bytes | None:
        """The digest that the table has at a serial. Before its first line it is that of none; it
        is None if it was not filled in."""
        if not self.knows_columns(cursor):
            return None
        cursor.execute(DIGEST, (serial,))
        found = cursor.fetchone()
        return NO_LINES if found is None else found[0] and bytes(found[0])

    def put(self, lines: Sequence[Line]) -> None:
        """Puts lines in, all or none. Ends as `other_text SERIAL` at the first serial that is there
        with another text; the same text is passed over. Lines that do not begin where the table
        ends are `lines_missing`. A digest that is not that of the lines is `other_digest`."""
        with self.transaction() as cursor:
            self.hold(cursor)
            cursor.execute(LOCKED_LAST)
            last = int(cursor.fetchone()[0])
            if lines[0].serial > last + 1:
                raise Fault("lines_missing", last + 1, lines[0].serial - 1)
            there = self.texts(cursor, lines) if lines[0].serial <= last else {}
            if (other := first_other(lines, there)) is not None:
                raise OtherText(other)
            digests = self.digests(cursor, lines)
            new = [at for at, line in enumerate(lines) if line.serial not in there]
            if new:
                rows = b"".join(row_of(lines[at], digests[at] if digests else None) for at in new)
                cursor.copy_expert(PUT_CHAINED if digests else PUT, io.BytesIO(rows))
            cursor.execute(NOTIFY, (self.channel, str(lines[-1].serial)))
        self.put_last = (lines[-1].serial, digests[-1]) if digests else None

    def digests(self, cursor: Any, lines: Sequence[Line]) -> list[bytes] | None:
        """The digests of lines, after those that the table has. What it has of them is compared,
        and so is what was put in last. None if the line before them has none."""
        serial = lines[0].serial - 1
        before = self.kept_digest(cursor, serial)
        if self.put_last is not None and self.put_last[0] == serial and self.put_last[1] != before:
            raise Fault("other_digest", serial)
        if before is None:
            return None
        found = []
        for line in lines:
            before = line.digest(before)
            found.append(before)
        cursor.execute(DIGESTS, (lines[0].serial, lines[-1].serial))
        for serial, digest in cursor.fetchall():
            if digest is None or bytes(digest) != found[serial - lines[0].serial]:
                raise Fault("other_digest", serial)
        return found

    def upgrade(self) -> int:
        """Gives a table of an earlier version the columns of this one, and fills in the digests
        that are missing, by the lines that it has. The serial of the last of them; 0 if none is
        missing."""
        self.make_table()
        with self.transaction() as cursor:
            self.hold(cursor)
            cursor.execute(ADD_COLUMNS)
        last, filled = 0, self.fill(0)
        while filled:
            last, filled = filled, self.fill(filled)
        return last

    def fill(self, after: int) -> int:
        """Fills in some digests after a serial; the serial of the last, or 0."""
        with self.transaction() as cursor:
            cursor.execute(LOCK)
            cursor.execute(FILLING)
            cursor.execute(FILL, (after, FILLED_AT_ONCE))
            return int(cursor.fetchone()[0] or 0)

    def walk(self) -> Iterator[Row]:
        """All lines of one state, by the index. Ends as `rows_differ` if the rows themselves are of
        another number."""
        with self.transaction() as cursor:
            cursor.execute(READ_ONLY)
            digest = "digest" if self.knows_columns(cursor) else "NULL::bytea"
            cursor.execute(BY_INDEX)
            count = 0
            with cursor.connection.cursor("walk") as rows:
                rows.itersize = AT_ONCE
                rows.execute(WALK.format(digest))
                for serial, key, text, kept in rows:
                    count += 1
                    yield Row(Line(serial, bytes(text)), bytes(key), kept and bytes(kept))
            cursor.execute(BY_ROWS)
            if (number := int(cursor.fetchone()[0])) != count:
                raise Fault("rows_differ", count, number)

    def at_time(self, text: str) -> tuple[str, int, str | None]:
        """A time as the database reads it, the last serial before the first line that came after
        it, and when that one came, if that is known. Ends as `bad_time` if it is none."""
        try:
            with self.transaction() as cursor:
                cursor.execute(READ_TIME, (text,))
                moment = str(cursor.fetchone()[0])
        except Fault as fault:
            if str(fault) in NO_TIME:
                raise Fault("bad_time", text) from fault
            raise
        with self.transaction() as cursor:
            if not self.knows_columns(cursor):
                cursor.execute(LAST)
                return moment, int(cursor.fetchone()[0]), None
            cursor.execute(AT_TIME, (moment,))
            serial = int(cursor.fetchone()[0])
            cursor.execute(CAME, (serial,))
            came = cursor.fetchone()
            return moment, serial, came and came[0]

    def first_broken(self) -> int | None:
        """The serial of the first line whose digest is not that of the lines up to it."""
        before = NO_LINES
        for row in self.walk():
            before = row.line.digest(before)
            if row.digest is not None and row.digest != before:
                return row.line.serial
        return None

    def complete(self) -> None:
        """What is done each time once all present lines are put in."""

    def rest(self) -> None:
        """What is done each time before more lines are waited for."""

    def texts(self, cursor: Any, lines: Sequence[Line]) -> dict[int, bytes]:
        """The texts that the table has for the serials of lines."""
        cursor.execute(BETWEEN, (lines[0].serial, lines[-1].serial))
        return {serial: text.encode() for serial, text in cursor.fetchall()}

    def first_other(self, lines: Sequence[Line]) -> int | None:
        """The serial of the first line that the table has with another text."""
        with self.transaction() as cursor:
            return first_other(lines, self.texts(cursor, lines))

    def take_out(self, serial: int) -> int:
        """Takes the lines from a serial on out of the table, of which others take the place; their
        number. They are kept in streetmap_journal_replaced."""
        with self.transaction() as cursor:
            if self.has(cursor, "streetmap_mirror"):
                raise Fault("has_mirror", more=("give --features too: both are made again",))
            return self.take_lines(cursor, serial)

    def take_lines(self, cursor: Any, serial: int) -> int:
        """The same, in a transaction."""
        self.hold(cursor)
        cursor.execute(REPLACED)
        cursor.execute(LOCK)
        kept = ALL_KEPT if self.knows_columns(cursor) else KEPT
        if kept == ALL_KEPT:
            cursor.execute(REPLACED_COLUMNS)
        cursor.execute(TAKE_OUT.format(kept), (serial,))
        self.put_last = None
        return int(cursor.rowcount)


def is_meanwhile(error: Any) -> bool:
    """Whether another has put in a line meanwhile. It is compared at the next try."""
    return bool(error.pgcode == UNIQUE and error.diag.table_name == "streetmap_journal")


def first_other(lines: Sequence[Line], there: dict[int, bytes]) -> int | None:
    """The serial of the first line that is there with another text."""
    others = (line.serial for line in lines if there.get(line.serial, line.text) != line.text)
    return next(others, None)


def row_of(line: Line, digest: bytes | None) -> bytes:
    """A line as COPY reads it, with its digest if it has one. The text of a batch is UTF-8."""
    try:
        line.text.decode()
    except UnicodeDecodeError as error:
        raise Fault("bad_line", line.serial) from error
    text = line.text.replace(b"\\", b"\\\\").replace(b"\t", b"\\t").replace(b"\r", b"\\r")
    row = b"%d\t%b\t%b" % (line.serial, line.key.encode(), text)
    return row + (b"\t\\\\x%b\n" % digest.hex().encode() if digest else b"\n")


class TableSource(JournalTable):
    """The table as a source of lines. It may be that of a hot standby, which only reads."""

    def __init__(self, dsn: str, town: str = "") -> None:
        super().__init__(dsn, town)
        self.listens = False

    def begin(self, connection: Any) -> None:
        """Listens for new lines. A hot standby refuses that."""
        super().begin(connection)
        try:
            with connection, connection.cursor() as cursor:
                cursor.execute(f"LISTEN {self.channel}")
            self.listens = True
        except psycopg2.Error:
            self.listens = False

    def behind(self, serial: int) -> Iterator[Line]:
        while rows := self.rows(serial):
            for serial, text in rows:
                yield Line(serial, text.encode())

    def rows(self, serial: int) -> list[tuple[int, str]]:
        with self.transaction() as cursor:
            if not self.has(cursor, "streetmap_journal"):
                return []
            cursor.execute(BEHIND, (serial, AT_ONCE))
            found: list[tuple[int, str]] = cursor.fetchall()
            return found

    def digest_at(self, serial: int) -> bytes | None:
        with self.transaction() as cursor:
            cursor.execute(BETWEEN, (1, 1))
            return self.kept_digest(cursor, serial) if cursor.fetchone() else None

    def wait(self) -> None:
        if not self.listens:
            time.sleep(POLL_SECONDS)
            return
        with self.asking():
            connection = self.connect()
            if not connection.notifies:
                select.select([connection], [], [], LISTEN_SECONDS)
            connection.poll()
            connection.notifies.clear()

    def words(self, serial: int) -> str:
        shown = parse_dsn(self.dsn)
        shown.pop("password", None)
        table = self.named("streetmap_journal")
        query = f"SELECT serial || E'\\t' || batch FROM {table} WHERE serial = {serial}"
        return f'psql -Atc "{query}" {shlex.quote(make_dsn(**shown))}'
