"""How fast a mirror is filled from a journal that is there."""

import random
import subprocess
import time
from collections.abc import Iterator
from dataclasses import replace

from followers_tests.postgres import Database
from followers_tests.processes import Script
from followers_tests.rows import text_of
from harness import Context
from messages import feature, open_collection, put
from mirror_tests.kills import SCRIPT, SYSTEM
from model import Value

# Features, in the short form and in the long one, and those of a batch, as `load` makes them.
FEATURES, SLOW_FEATURES, EACH = 20_000, 1_000_000, 1_000


def assets(count: int) -> Iterator[Value]:
    """Points, lines and polygons with a handful of properties."""
    chance = random.Random(count)
    for number in range(count):
        x, y = (chance.randrange(-(10**7), 10**7) for _ in range(2))
        line = [[x, y], [x + 5000, y + 777], [x + 9000, y + 20_000]]
        kind, coordinates = (
            ("Point", [x, y]),
            ("LineString", line),
            ("Polygon", [[*line, [x, y]]]),
        )[number % 3]
        properties = {"kind": chance.choice("abcdef"), "no": number, "street": f"S{number % 997}"}
        properties |= {"power": chance.randrange(100), "set": f"20{number % 25:02}-05-01"}
        yield feature(f"F{number:07}", {"type": kind, "coordinates": coordinates}, properties)


def texts(count: int) -> Iterator[bytes]:
    edits = [open_collection("assets", title="Assets", time="set")]
    for number, made in enumerate(assets(count), 1):
        edits.append(put("insert", "assets", made))
        if number % EACH == 0:
            yield text_of(f"k{number}", *edits)
            edits = []


def check_filling(context: Context, cluster: Database) -> None:
    """A mirror over a whole journal, with its indexes and views; the features of a second."""
    count = SLOW_FEATURES if context.slow else FEATURES
    cluster.ask_alone("CREATE DATABASE filling")
    database, journal = replace(cluster, name="filling"), context.folder / "filling.journal"
    with journal.open("wb") as file:
        for serial, text in enumerate(texts(count), 1):
            file.write(b"%d\t%b\n" % (serial, text))
    begun = time.monotonic()
    words = Script(context, SCRIPT).command(journal, database.dsn, *SYSTEM, "--once")
    ended = subprocess.run(words, capture_output=True, check=False, timeout=4000)
    seconds = time.monotonic() - begun
    context.check(
        "the journal is in", (ended.returncode, ended.stderr[-300:].count(b"away")), (0, 0)
    )
    found = database.ask("SELECT count(*) FROM collections.assets")
    context.check("all features", found, [(count,)])
    indexes = database.ask("SELECT count(*) FROM pg_indexes WHERE tablename = 'streetmap_features'")
    context.check("their indexes", indexes, [(4,)])
    print(f"  {count} features in {seconds:.1f} s: {count / seconds:.0f} features a second")
