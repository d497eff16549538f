"""Pages and tiles of the gateway over the mirror, beside QGIS Server over the same database.

Each server is one process behind nginx. 100,000 lamps and 30,000 features that are further apart
(town.py) are in a file that `streetmap serve` has open with a journal, and that journal is in a
mirror of PostGIS, which the gateway and QGIS Server read. It needs the packages of the group
`mirror`, and `nginx`. The gateway's pages of boxes and of a walk are the server's, those of a
property are the mirror's. Of QGIS Server all are the database's. Then: tiles, how late the mirror
is, and how fast one is filled; with --slow from a million features.
"""

import contextlib
import json
import math
import os
import statistics
import subprocess
import time
import urllib.request
from collections.abc import Iterator
from dataclasses import dataclass
from pathlib import Path

from clients import until_done
from gateway import EASTING, NORTHING, PROXY, PYTHON, QGIS_SERVER, ROOT, SETTINGS, Service
from gateway import CONNECTIONS, WANTED, boxes, bytes_of, by_fastcgi, nginx, print_heading
from gateway import print_row, rates, walked
from harness import free_port
from measures import compact, create, fail, report
from messages import open_collection, put
from tables import FEATURES, batches, lamp
from tables import ROW as LAMPS
from town import EACH, KINDS, ROW, asset, ordinary, write_journal

HEIGHTS, EACH_HEIGHT = 9000, 450
# A tile of level 14 has all that it can have, 10,000 of these lamps, and one of 16 some 1,400. Of
# each other collection one of level 14 has some 2,200.
LEVELS, LEVEL, ROUNDS_OF_TILES = (14, 15, 16, 17), 14, 9
# The features in the middle: a lamp, and one of each other collection.
LAMP, OTHER = LAMPS // 2 * (LAMPS + 1), EACH // 2 + ROW // 2
# Batches whose delay is measured, and features of the mirror that is filled.
DELAYS, FILLED, SLOW_FILLED = 40, 100_000, 1_000_000
# What is wanted: a tile of level 14 and the delay at most, in milliseconds, and features a second.
TILE_WANTED, DELAY_WANTED, FILLED_WANTED = 20, 60, 10_000
MIRROR = '[mirror]\ndatabase = "{database}"\n'
MIRRORED = "SELECT serial FROM streetmap_mirror"
DUE = "SELECT count(*) FROM streetmap_tiles WHERE drawn IS NULL OR drawn < changed"
GIVEN = ("--features", "--system", "EPSG:25832", "--shift", f"{EASTING},{NORTHING}")
PROJECT = """
import sys
from qgis.core import QgsApplication, QgsProject, QgsVectorLayer
application = QgsApplication([], False)
application.initQgis()
layer, project = QgsVectorLayer(sys.argv[1], "lamps", "postgres"), QgsProject.instance()
project.addMapLayer(layer)
project.setCrs(layer.crs())
project.writeEntry("WFSLayers", "/", [layer.id()])
sys.exit(not (layer.isValid() and project.write(sys.argv[2])))
"""
SOURCE = (
    "host=127.0.0.1 port={port} dbname=postgres user=postgres key='id' srid=25832 type=Point"
    ' table="collections"."lamps" (geometry)'
)
CLUSTER = """
port = {port}
listen_addresses = '127.0.0.1'
unix_socket_directories = ''
shared_buffers = 128MB
fsync = off
"""
WAIT_SECONDS = 1800
BIN = Path("/usr/lib/postgresql/15/bin")


def as_user(*words: str | Path) -> list[str]:
    """A command of PostgreSQL, which refuses root."""
    before = ["setpriv", "--reuid=postgres", "--regid=postgres", "--clear-groups"]
    return [*(before if os.geteuid() == 0 else []), *map(str, words)]


@contextlib.contextmanager
def cluster(folder: Path) -> Iterator[int]:
    """A PostgreSQL, which trusts all of this machine. Gives its port."""
    folder.mkdir(mode=0o700)
    if os.geteuid() == 0:
        subprocess.run(["chown", "postgres:", folder], check=True)
    words = ["-U", "postgres", "-A", "trust", "-E", "UTF8", "--locale=C", "--no-sync", "-D"]
    made = as_user(BIN / "initdb", *words, folder)
    subprocess.run(made, check=True, stdout=subprocess.DEVNULL, cwd="/")
    port = free_port()
    with (folder / "postgresql.conf").open("a") as settings:
        settings.write(CLUSTER.format(port=port))
    with (folder.parent / "cluster.log").open("wb") as log:
        process = subprocess.Popen(as_user(BIN / "postgres", "-D", folder), stderr=log, cwd="/")
    with until_done(process, port):
        yield port


def rows(port: int, query: str) -> list[str]:
    """The lines that psql prints for a query."""
    words = ["psql", "-h", "127.0.0.1", "-p", str(port), "-U", "postgres", "-Atc", query]
    done = subprocess.run(words, capture_output=True, text=True, check=False)
    return done.stdout.splitlines()


def quietly(words: list[str | Path]) -> subprocess.Popen[bytes]:
    """A process that prints nothing."""
    return subprocess.Popen(words, stdout=subprocess.DEVNULL, stderr=subprocess.DEVNULL)


def source(port: int, name: str = "postgres") -> str:
    return f"postgresql://postgres@127.0.0.1:{port}/{name}"


def transport(journal: Path, into: str, *more: str) -> list[str | Path]:
    """The command that puts a journal into a database with a mirror."""
    script = ROOT / "deploy" / "journal_to_postgres.py"
    return [PYTHON, "-B", script, journal, into, *GIVEN, *more]


@dataclass
class Site:
    """A server, the mirror of its journal, and the serial of the server's last batch."""

    server: int
    database: int
    serial: int
    psql: subprocess.Popen[str]

    def value(self, query: str) -> str:
        """The one value of a query, over a connection that stays open."""
        assert self.psql.stdin is not None and self.psql.stdout is not None
        self.psql.stdin.write(f"{query};\n")
        self.psql.stdin.flush()
        return self.psql.stdout.readline().strip()

    def wait(self, query: str = MIRRORED, wanted: str = "") -> None:
        """Waits until the mirror has the server's last batch, or until a query has a value."""
        ends = time.monotonic() + WAIT_SECONDS
        while self.value(query) != (wanted or str(self.serial)):
            if time.monotonic() > ends:
                fail(f"the mirror has no serial {self.serial}")
            time.sleep(0.001)

    def change(self) -> None:
        """A batch that changes a feature in the middle of each collection, so that no tile there is
        what it was."""
        edits = [put("replace", "lamps", lamp(LAMP, f"lamp-{LAMP:06}"))]
        edits += [put("replace", it, asset(it, OTHER)) for it in KINDS]
        for edit in edits:
            edit["feature"]["properties"]["changed"] = self.serial
        body = compact({"key": f"change-{self.serial}", "edits": edits}).encode()
        urllib.request.urlopen(f"http://127.0.0.1:{self.server}/batches", body, timeout=60).close()
        self.serial += 1


@contextlib.contextmanager
def mirrored(program: Path, file: Path, journal: Path, database: int) -> Iterator[Site]:
    """A server with a journal, and its transport into a database that has caught up."""
    port = free_port()
    words: list[str | Path] = ["serve", file, "--port", str(port), "--warm", "--journal", journal]
    with contextlib.ExitStack() as started:
        started.enter_context(until_done(quietly([program, *words]), port))
        copying = quietly(transport(journal, source(database), "--tiles"))
        started.callback(copying.wait)
        started.callback(copying.terminate)
        while not rows(database, MIRRORED):
            time.sleep(0.1)
        psql = subprocess.Popen(
            ["psql", "-Atq", "-d", source(database)],
            stdin=subprocess.PIPE,
            stdout=subprocess.PIPE,
            text=True,
        )
        started.callback(psql.wait)
        started.callback(psql.terminate)
        site = Site(port, database, 1 + FEATURES // 1000 + len(list(ordinary())), psql)
        site.wait()
        rows(database, "VACUUM ANALYZE streetmap_features")
        yield site


@contextlib.contextmanager
def gateway(server: int, database: int, folder: Path) -> Iterator[Service]:
    """One gateway behind nginx, in front of a server and its mirror."""
    folder.mkdir()
    port = free_port()
    origin = {"easting": EASTING, "northing": NORTHING}
    settings = folder / "gateway.toml"
    text = SETTINGS.format(port=port, server=server, **origin) + MIRROR.format(
        database=source(database)
    )
    settings.write_text(text)
    seen = os.environ | {"PYTHONDONTWRITEBYTECODE": "1", "PYTHONPATH": str(ROOT)}
    with (folder / "access").open("wb") as log:
        words = [PYTHON, "-m", "gateway", str(settings)]
        process = subprocess.Popen(words, cwd=ROOT, env=seen, stdout=log)
    with until_done(process, port), nginx(folder, PROXY, [port]) as (_, front):
        yield Service("gateway", front, "/collections/lamps/items")


@contextlib.contextmanager
def qgis_server(database: int, folder: Path) -> Iterator[Service]:
    """One QGIS Server behind nginx, over the view of the mirror."""
    project = folder.with_suffix(".qgs")
    parent = str(folder.parent)
    seen = {"QT_QPA_PLATFORM": "offscreen", "HOME": parent, "TMPDIR": parent}
    words = [PYTHON, "-c", PROJECT, SOURCE.format(port=database), str(project)]
    subprocess.run(words, env=os.environ | seen, stderr=subprocess.DEVNULL, check=True)
    seen["QGIS_PROJECT_FILE"] = str(project)
    with by_fastcgi(QGIS_SERVER, folder, seen, processes=1) as port:
        yield Service("QGIS Server", port, "/wfs3/collections/lamps/items.json")


def by_height(service: Service) -> list[str]:
    """Pages of one value of a property, each of which has the lamps of this value alone."""
    found = []
    for height in range(0, HEIGHTS, EACH_HEIGHT):
        found.append(service.target(f"&height={height}"))
        features = json.loads(service.page(found[-1]))["features"]
        if {it["properties"]["height"] for it in features} != {height}:
            fail(f"{service.name} has other lamps at {found[-1]}")
    return found


def table(services: list[Service]) -> None:
    """Prints the pages a second of each server."""
    areas = boxes(services[0])
    kinds = {
        "of a walk": {it: walked(it) for it in services},
        "of a box": {it: [it.target(f"&bbox={area}") for area in areas] for it in services},
        "of a property": {it: by_height(it) for it in services},
    }
    print_heading("Pages, a second", services)
    for name, asked in kinds.items():
        sizes = [bytes_of(it, targets, name != "of a property") for it, targets in asked.items()]
        for many in CONNECTIONS:
            print_row(f"{name}, connections: {many}", rates(asked, many), WANTED[name])
        print_row(f"{name}, bytes of a page", sizes)


def tiles_of(service: Service) -> list[str]:
    """The tile in the middle of the lamps, at each level, and those of the other collections."""
    collection = json.loads(service.page("/collections/lamps"))
    west, south, east, north = collection["extent"]["spatial"]["bbox"][0]
    across = (west + east + 360) / 720
    turn = math.asinh(math.tan(math.radians((south + north) / 2)))
    down = (1 - turn / math.pi) / 2
    places = [("lamps", level) for level in LEVELS] + [(kind, LEVEL) for kind in KINDS]
    return [
        f"/collections/{name}/tiles/WebMercatorQuad/{level}/{int(down * 2**level)}"
        f"/{int(across * 2**level)}"
        for name, level in places
    ]


def milliseconds(service: Service, target: str) -> tuple[float, int]:
    """What a request takes, and the bytes of its answer."""
    begun = time.perf_counter()
    size = len(service.page(target))
    return (time.perf_counter() - begun) * 1000, size


def tile_times(service: Service, site: Site, target: str) -> tuple[float, float, float, int]:
    """What a tile takes in milliseconds: once a feature in it has changed; once the mirror has
    drawn it ahead, if it does that at this level, and before a gateway has it; and again. Its
    bytes."""
    site.change()
    site.wait()
    changed, _ = milliseconds(service, target)
    site.change()
    site.wait()
    site.wait(DUE, "0")
    first, size = milliseconds(service, target)
    return changed, first, milliseconds(service, target)[0], size


def report_tiles(service: Service, site: Site) -> None:
    """Medians of several rounds, and the least."""
    for target in tiles_of(service):
        rounds = [tile_times(service, site, target) for _ in range(ROUNDS_OF_TILES)]
        changed, first, again, size = (
            f"{statistics.median(each):.1f} ({min(each):.1f})" for each in zip(*rounds)
        )
        _, _, name, _, _, level, _, _ = target.split("/")
        what = f"first {first} ms, again {again} ms, just changed {changed} ms, {size} bytes"
        wanted = f"; at most {TILE_WANTED} ms are wanted" if level == str(LEVEL) else ""
        report(f"a tile of {name}, level {level}", f"{what}{wanted}")


def report_delay(site: Site) -> None:
    """How long after its 200 a batch is in the mirror."""
    took = []
    for _ in range(DELAYS):
        site.change()
        begun = time.perf_counter()
        site.wait()
        took.append((time.perf_counter() - begun) * 1000)
    figures = f"{statistics.median(took):.0f} ms in the median, {max(took):.0f} ms at most"
    report("the mirror after a 200", f"{figures}; a median of {DELAY_WANTED} ms is wanted")


def report_filling(folder: Path, database: int, count: int) -> None:
    """A mirror from a journal that is there, with its indexes and views."""
    journal = folder / "filling.journal"
    write_journal(journal, count)
    rows(database, "CREATE DATABASE filling")
    begun = time.perf_counter()
    words = transport(journal, source(database, "filling"), "--once")
    subprocess.run(words, stderr=subprocess.DEVNULL, check=True)
    took = time.perf_counter() - begun
    figures = f"{count / took:,.0f} features a second, {count:,} in {took:.1f} s"
    report("filling a mirror", f"{figures}; at least {FILLED_WANTED:,} a second are wanted")


def run(program: Path, folder: Path, filled: int = FILLED) -> None:
    folder.chmod(0o755)
    if not (QGIS_SERVER.exists() and (BIN / "postgres").exists()):
        report("pages", "not installed: qgis-server, postgresql")
        return
    opening = {"key": "open", "edits": [open_collection("lamps", title="Lamps")]}
    file = create(program, folder / "lamps.streetmap", opening, *batches("lamps", 1), *ordinary())
    with contextlib.ExitStack() as started:
        database = started.enter_context(cluster(folder / "cluster"))
        journal = folder / "lamps.journal"
        site = started.enter_context(mirrored(program, file, journal, database))
        services = [
            started.enter_context(gateway(site.server, database, folder / "gateway")),
            started.enter_context(qgis_server(database, folder / "qgis")),
        ]
        table(services)
        report_tiles(services[0], site)
        report_delay(site)
        report_filling(folder, database, filled)
        report("the load of the machine", " ".join(f"{it:.1f}" for it in os.getloadavg()))


def run_slow(program: Path, folder: Path) -> None:
    run(program, folder, SLOW_FILLED)
