"""Single flipped bits in a journal and in its table: each that changes a line is found by the audit
that docs/OPERATING.md names."""

import random
import re
import time
from concurrent.futures import ThreadPoolExecutor
from dataclasses import dataclass
from pathlib import Path

import psycopg2
from followers_tests import postgres
from followers_tests.audits import AUDIT, Audits
from followers_tests.postgres import Database
from followers_tests.processes import Script, wait_until
from followers_tests.rows import TEXTS, lines_of, text_of
from harness import Context
from operating_tests.document import commands_of

FLIPS, SLOW_FLIPS = 36, 500
SIDE_BY_SIDE = 4
# Text lines of the journal, and the bytes of its longest ones, which a table keeps apart.
LINES_OF_FLIPS, LONG = 120, 9000
# The lines as the index has them, and as the rows have them.
WAYS = ("SET enable_seqscan = off; SET enable_sort = off", "SET enable_indexscan = off")
READ = "SELECT serial, textsend(key), textsend(batch) FROM streetmap_f{}.streetmap_journal"
# The files of a town's table, of what is kept apart from it, and of their indexes.
FILES = """
SELECT pg_relation_filepath(file) FROM (
    SELECT oid, reltoastrelid FROM pg_class WHERE oid = 'streetmap_f{}.streetmap_journal'::regclass
) AS one, LATERAL (
    VALUES (oid), (reltoastrelid), ((SELECT indexrelid FROM pg_index WHERE indrelid = one.oid)),
        ((SELECT indexrelid FROM pg_index WHERE indrelid = one.reltoastrelid))
) AS files (file)
"""


def journal_of_flips() -> list[bytes]:
    """Lines of all lengths, some of which a database packs, or keeps apart."""
    chance = random.Random(7)
    texts = list(TEXTS)
    while len(texts) < LINES_OF_FLIPS:
        number = len(texts)
        text = "\u20ac" * (number % 50)
        if number % 20 == 0:
            text = "".join(chance.choice("abcdefghijklmnop") for _ in range(LONG))
        texts.append(text_of(f"f{number}", {"op": "open", "collection": f"c{number}", "t": text}))
    return lines_of(texts)


def flip(path: Path, chance: random.Random) -> None:
    """Flips one bit of a file."""
    with path.open("r+b") as file:
        at = chance.randrange(path.stat().st_size)
        file.seek(at)
        (byte,) = file.read(1)
        file.seek(at)
        file.write(bytes([byte ^ 1 << chance.randrange(8)]))


@dataclass
class Flips:
    """A journal with its table, of which each flip has a copy of its own."""

    audits: Audits
    count: int
    chance: random.Random

    @property
    def context(self) -> Context:
        return self.audits.context

    @property
    def journal(self) -> Path:
        return self.audits.journal

    def found(self, path: Path, town: str = "") -> bool:
        """Whether the documented audit, without its pause, finds something."""
        (command, *_) = commands_of("Audit")
        words = re.sub(r"\\\n", " ", command).split("journal_digest.py ")[1].splitlines()[0].split()
        places = {
            "/var/lib/streetmap/town.journal": str(path),
            "postgresql:///streetmap": self.audits.database.dsn,
        }
        given = [*(places.get(word, word) for word in words), "--wait", "0"]
        status, _ = Script(self.context, AUDIT).ends(*given, *(["--town", town] if town else []))
        return status != 0

    def check(self, what: str, changed: list[bool], found: list[bool]) -> None:
        missed = [at for at in range(self.count) if changed[at] and not found[at]]
        self.context.check(f"flips of {what} that were missed", missed, [])
        numbers = f"{sum(changed)} changed a line, {sum(found)} were found"
        print(f"  of {self.count} flipped bits of {what} {numbers}")


def check_files(flips: Flips) -> None:
    """Bits of the journal's file: each changes a line."""
    copies = [flips.journal.with_name(f"flip-{at}.journal") for at in range(flips.count)]
    for path in copies:
        path.write_bytes(flips.journal.read_bytes())
        flip(path, flips.chance)
    with ThreadPoolExecutor(SIDE_BY_SIDE) as pool:
        found = list(pool.map(flips.found, copies))
    flips.check("the files", [True] * flips.count, found)


def lines_read(database: Database, town: int, way: str) -> object:
    """The lines of a town's table by a way to read them, or the error. A database that ends at
    what it reads is started again by itself."""
    for _ in range(3):
        try:
            connection = psycopg2.connect(database.dsn)
        except psycopg2.OperationalError:
            time.sleep(1)
            continue
        try:
            with connection, connection.cursor() as cursor:
                cursor.execute(f"{way}; {READ.format(town)} ORDER BY serial")
                return [(serial, bytes(key), bytes(text)) for serial, key, text in cursor]
        except psycopg2.Error as error:
            return str(error)
        finally:
            connection.close()
    return "away"


def check_tables(flips: Flips, cluster: Database) -> None:
    """Bits of the files in which PostgreSQL has the table."""
    database, towns = flips.audits.database, range(flips.count)
    ask, table = database.ask, "streetmap_journal"
    for town in towns:
        ask(f"CREATE SCHEMA streetmap_f{town}")
        ask(f"CREATE TABLE streetmap_f{town}.{table} (LIKE {table} INCLUDING ALL)")
        ask(f"INSERT INTO streetmap_f{town}.{table} SELECT * FROM {table}")
    whole = lines_read(database, 0, WAYS[0])
    files = [[str(row[0]) for row in ask(FILES.format(town))] for town in towns]
    folder = Path(cluster.process.words[-3])
    postgres.stop(cluster)
    for paths in files:
        there = [folder / path for path in paths if (folder / path).stat().st_size > 0]
        sizes = [path.stat().st_size for path in there]
        flip(flips.chance.choices(there, sizes)[0], flips.chance)
    cluster.process.start()
    wait_until("PostgreSQL answers", cluster.answers, flips.context.seconds)
    changed = [any(lines_read(database, it, way) != whole for way in WAYS) for it in towns]
    with ThreadPoolExecutor(SIDE_BY_SIDE) as pool:
        found = list(pool.map(lambda it: flips.found(flips.journal, f"f{it}"), towns))
    flips.check("the tables", changed, found)


def check_flips(context: Context, cluster: Database) -> None:
    audits = Audits.new(context, cluster, "flips")
    # What a flipped bit makes of an index may have no end.
    cluster.ask_alone("ALTER DATABASE flips SET statement_timeout = '20s'")
    audits.journal.write_bytes(b"".join(journal_of_flips()))
    audits.copy("the lines to flip", "--once")
    count = SLOW_FLIPS if context.slow else FLIPS
    flips = Flips(audits, count, random.Random(count))
    context.check("before a flip", flips.found(audits.journal), False)
    check_files(flips)
    check_tables(flips, cluster)
