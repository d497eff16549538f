"""A server, the transport and PostgreSQL, killed in turn under load; how late the mirror is."""

import contextlib
import hashlib
import json
import random
import statistics
import subprocess
import threading
import time
from collections.abc import Iterator
from dataclasses import dataclass, field
from pathlib import Path

import psycopg2
from followers_tests import postgres
from followers_tests.load import Client, Load, batch_text
from followers_tests.postgres import Database
from followers_tests.processes import Process, Script, running, wait_until
from harness import Context, free_port
from messages import feature, open_collection, point, put
from model import Value, compact

SCRIPT, CHECK = "journal_to_postgres.py", "mirror_check.py"
SYSTEM = ("--features", "--system", "EPSG:25832", "--shift", "565000,5934000")
COLLECTIONS = [f"killed-{at}" for at in range(4)]
# In seconds: how long all run between two kills, at most; and between two reads of the mirror.
BETWEEN_SECONDS, READ_SECONDS = 0.4, 0.05
# Batches whose delay is taken, and the most milliseconds of the median: the goal is 60 on a machine
# with no other work, and other groups run beside this one.
PROBES, MOST_MEDIAN = 40, 240
# What a reader sees in one transaction: each collection's texts, and the serial.
SERIAL = "SELECT serial FROM streetmap_mirror"
TEXTS = """
SELECT collection, encode(sha256(string_agg(body, ',' ORDER BY id)::bytea), 'hex')
FROM streetmap_features GROUP BY collection
"""


@dataclass
class MirrorReader(threading.Thread):
    """Reads the mirror's state again and again, each time in one transaction of two queries, and
    keeps what it saw by the serial."""

    database: Database
    stop: threading.Event = field(default_factory=threading.Event)
    seen: dict[int, dict[str, str]] = field(default_factory=dict)
    serials: list[int] = field(default_factory=list)

    def __post_init__(self) -> None:
        super().__init__(daemon=True)

    def __hash__(self) -> int:
        return id(self)

    def run(self) -> None:
        while not self.stop.is_set():
            with contextlib.suppress(psycopg2.Error):
                self.read()
            time.sleep(READ_SECONDS)

    def read(self) -> None:
        connection = psycopg2.connect(self.database.dsn)
        try:
            connection.set_session(isolation_level="REPEATABLE READ", readonly=True)
            with connection, connection.cursor() as cursor:
                cursor.execute(SERIAL)
                (serial,) = cursor.fetchone()
                cursor.execute(TEXTS)
                self.seen[serial] = dict(cursor.fetchall())
                self.serials.append(serial)
        finally:
            connection.close()


@dataclass(frozen=True)
class MirrorSite:
    """A server with a journal, which goes into a mirror."""

    context: Context
    file: Path
    journal: Path
    port: int
    database: Database
    server: Process
    transport: Process

    def serial(self) -> int:
        """The last serial of the journal."""
        lines = self.journal.read_bytes().splitlines()
        return int(lines[-1].partition(b"\t")[0]) if lines else 0

    def mirrored(self) -> int:
        """The serial of the mirror's state; -1 if the database does not answer."""
        try:
            ((serial,),) = self.database.ask(SERIAL)
            return int(str(serial))
        except psycopg2.Error:
            return -1

    def catch_up(self) -> None:
        wanted = self.serial()
        there = lambda: self.mirrored() >= wanted
        wait_until("the mirror has all lines", there, self.context.seconds)

    def checked(self, dsn: str | None = None) -> tuple[int, str]:
        """How mirror_check.py over the journal ends, and what it says first."""
        words = Script(self.context, CHECK).command(dsn or self.database.dsn, self.journal)
        words += ["--program", str(self.context.program)]
        # Its file is gone on with, so that each check takes the time of what is new.
        words += ["--folder", str(self.context.folder / "checked")]
        ended = subprocess.run(
            words, capture_output=True, text=True, timeout=self.context.seconds, check=False
        )
        said = ended.stdout.partition(" at serial ")[0].strip() or ended.stderr.strip()
        return ended.returncode, said[-300:]


@contextlib.contextmanager
def site(context: Context, cluster: Database) -> Iterator[MirrorSite]:
    """A site that runs over the first database of a cluster, which runs."""
    file, journal, port = context.new_file("town"), context.folder / "town.journal", free_port()
    words = [str(context.program), "serve", str(file), "--port", str(port), "--clients", "32"]
    server = Process(context, "server", [*words, "--journal", str(journal)], port)
    script = Script(context, SCRIPT).command(journal, cluster.dsn, *SYSTEM)
    transport = Process(context, "transport", script)
    made = MirrorSite(context, file, journal, port, cluster, server, transport)
    with running(server, transport):
        wait_until("the mirror is made", lambda: made.mirrored() >= 0, context.seconds)
        yield made


def delays(made: MirrorSite, name: str, count: int) -> list[float]:
    """In milliseconds: how long after its 200 a batch is seen in the mirror, for batches at random
    moments."""
    writer, chance = Client(made.port), random.Random(name)
    writer.post(batch_text(f"{name}-open", open_collection(name)))
    made.catch_up()
    found, connection = [], psycopg2.connect(made.database.dsn)
    connection.autocommit = True
    with connection.cursor() as cursor:
        for at in range(count):
            edit = put("insert", name, feature(f"P{at}", point(at, at), {"no": at}))
            serial = writer.post(batch_text(f"{name}-{at}", edit))["serial"]
            begun, seen = time.monotonic(), 0
            while seen < serial:
                cursor.execute(SERIAL)
                (seen,) = cursor.fetchone()
            found.append(1000 * (time.monotonic() - begun))
            time.sleep(chance.uniform(0, BETWEEN_SECONDS))
    connection.close()
    writer.close()
    return found


def check_delays(made: MirrorSite) -> None:
    idle = delays(made, "idle", PROBES)
    with Load(made.port, [f"busy-{at}" for at in range(4)], 0):
        busy = delays(made, "busy", PROBES)
    for what, found in (("no load", idle), ("load", busy)):
        median = statistics.median(found)
        print(f"  the mirror is late, {what}: median {median:.0f} ms, most {max(found):.0f} ms")
        made.context.check(f"late, {what}", max(found) < 250 * made.context.seconds, True)
    median = statistics.median(idle)
    made.context.check("late, in the median", median <= MOST_MEDIAN or made.context.slow, True)


def check_killed(made: MirrorSite, rounds: int) -> tuple[MirrorReader, dict[str, int]]:
    """Rounds in which server, transport and PostgreSQL are killed hard, under load. After each the
    mirror's state is that of the server at its serial. What a reader saw, and the serials that
    were acknowledged."""
    chance, reader = random.Random(rounds), MirrorReader(made.database)
    reader.start()
    with Load(made.port, COLLECTIONS, 0) as load:
        for at in range(rounds):
            for process in (made.server, made.transport, made.database.process):
                process.kill()
                time.sleep(chance.uniform(0, BETWEEN_SECONDS))
                process.start()
                time.sleep(chance.uniform(0, BETWEEN_SECONDS))
            wait_until("PostgreSQL answers", made.database.answers, made.context.seconds)
            made.context.check(f"round {at}", made.checked(), (0, "the same"))
    made.catch_up()
    reader.stop.set()
    reader.join()
    return reader, load.serials()


class Texts:
    """The texts of all features, as the lines of a journal that was accepted leave them."""

    def __init__(self) -> None:
        self.texts: dict[str, dict[str, str]] = {}
        self.digests: dict[str, str] = {}

    def act(self, edit: Value) -> None:
        name = edit["collection"]
        kept = self.texts.setdefault(name, {})
        self.digests.pop(name, None)
        if edit["op"] == "delete":
            del kept[edit["id"]]
        elif edit["op"] != "open":
            kept[edit["feature"]["id"]] = compact(edit["feature"])

    def seen(self) -> dict[str, str]:
        """What a reader sees: of each collection with features a digest of their texts."""
        for name, kept in self.texts.items():
            if kept and name not in self.digests:
                ordered = [kept[it] for it in sorted(kept, key=str.encode)]
                self.digests[name] = hashlib.sha256(",".join(ordered).encode()).hexdigest()
        return dict(self.digests)


def check_seen(made: MirrorSite, reader: MirrorReader) -> None:
    """What a reader saw is the state after one serial, whole; and no state went back."""
    check, texts, compared, serial = made.context.check, Texts(), 0, 0
    check("no state goes back", reader.serials, sorted(reader.serials))
    for serial, line in enumerate(made.journal.read_bytes().splitlines(), 1):
        for edit in json.loads(line.partition(b"\t")[2])["edits"]:
            texts.act(edit)
        if (seen := reader.seen.get(serial)) is not None:
            check(f"the state after {serial}", seen, texts.seen())
            compared += 1
    check("states were compared", compared > 0, True)
    print(f"  {serial} batches; {compared} states were read and compared")


def check_lines(made: MirrorSite, acknowledged: dict[str, int]) -> None:
    """The file, its journal and the table have the same lines, with all that was acknowledged."""
    check, lines = made.context.check, made.journal.read_bytes()
    check("the batches of the file", made.context.run("batches", made.file) == lines, True)
    check("the lines of the table", made.database.journal() == lines, True)
    found = {}
    for line in lines.splitlines():
        serial, _, text = line.partition(b"\t")
        found[text.rpartition(b'"key":"')[2][:-2].decode()] = int(serial)
    kept = {key: found.get(key) for key in acknowledged}
    check("each acknowledged batch has its serial", kept == acknowledged, True)
    print(f"  {len(acknowledged)} batches were acknowledged under kills")


def check_end(made: MirrorSite, acknowledged: dict[str, int]) -> None:
    """What the mirror has at the end, against the file itself and its journal."""
    made.catch_up()
    made.context.check("the mirror at the end", made.checked(), (0, "the same"))
    made.server.kill()
    check_lines(made, acknowledged)
    folder = made.context.folder / "exports"
    words = Script(made.context, CHECK).command(made.database.dsn, "--folder", folder)
    words += ["--program", str(made.context.program)]
    ended = subprocess.run(words, capture_output=True, timeout=made.context.seconds, check=False)
    made.context.check("by the table's own lines", ended.returncode, 0)
    for (name,) in made.database.ask("SELECT id FROM streetmap_collections"):
        wanted = made.context.run("export", made.file, "--collection", str(name))
        found = (folder / f"{name}.json").read_bytes()
        made.context.check(f"the export of {name}", found == wanted, True)


def check_standby(made: MirrorSite) -> None:
    """A standby has the mirror too, and goes on with it."""
    standby = postgres.standby(made.context, made.database)
    with running(standby.process):
        writer = Client(made.port)
        reply = writer.post(batch_text("standby", open_collection("on-the-standby")))
        writer.close()

        def there() -> bool:
            with contextlib.suppress(psycopg2.Error):
                return standby.ask(SERIAL) >= [(reply["serial"],)]
            return False

        wait_until("the standby has the batch", there, made.context.seconds)
        made.context.check("the standby", made.checked(standby.dsn), (0, "the same"))


def check_wrong(made: MirrorSite) -> None:
    """mirror_check.py finds what was changed by hand."""
    ((collection, name),) = made.database.ask(
        "SELECT collection, id FROM streetmap_features ORDER BY 1, 2 LIMIT 1"
    )
    of_it = " WHERE collection = %s AND id = %s"
    columns = f"mirror_check: columns_differ {collection} {name}"
    export = f"mirror_check: differs {collection}"
    for change, wanted in (
        ("UPDATE streetmap_features SET geometry = ST_Translate(geometry, 0.001, 0)", columns),
        ("UPDATE streetmap_features SET mercator = NULL", columns),
        ("UPDATE streetmap_features SET grid = ST_Translate(grid, 1, 0)", columns),
        ("UPDATE streetmap_features SET properties = NULL", columns),
        ("UPDATE streetmap_features SET time = '[2024-01-01,2025-01-01)'", columns),
        ("UPDATE streetmap_features SET id = id || 'x'", f"{columns}x"),
        ("DELETE FROM streetmap_features", export),
        ("UPDATE streetmap_collections SET title = 'x' WHERE id = %s OR id = %s", export),
        ("UPDATE streetmap_mirror SET serial = serial + 1 WHERE %s <> %s", None),
    ):
        made.database.ask("CREATE TABLE kept AS TABLE streetmap_features")
        made.database.ask("CREATE TABLE opened AS TABLE streetmap_collections")
        whole = change if "%s" in change else change + of_it
        made.database.ask(whole, collection, name)
        got = made.checked()
        made.context.check(f"{change}", got[0], 1)
        made.context.check(f"{change}: says", wanted is None or got[1] == wanted, True)
        made.database.ask(
            "DELETE FROM streetmap_features; INSERT INTO streetmap_features TABLE kept;"
            "DELETE FROM streetmap_collections; INSERT INTO streetmap_collections TABLE opened;"
            "UPDATE streetmap_mirror SET serial = (SELECT max(serial) FROM streetmap_journal);"
            "DROP TABLE kept, opened"
        )
    made.context.check("as it was", made.checked(), (0, "the same"))


def check_kills(context: Context, cluster: Database, rounds: int) -> None:
    with site(context, cluster) as made:
        check_delays(made)
        reader, acknowledged = check_killed(made, rounds)
        made.transport.kill()
        check_seen(made, reader)
        made.transport.start()
        check_standby(made)
        check_end(made, acknowledged)
        made.transport.kill()
        check_wrong(made)
