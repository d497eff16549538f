"""The gateway over a mirror: a server with a journal, its transport, and a gateway in front."""

import contextlib
from collections.abc import Iterator
from dataclasses import dataclass, replace
from typing import Any

import httpx
import psycopg2
from followers_tests.postgres import Database
from followers_tests.processes import Process, Script, running, wait_until
from gateway_tests.data import Feature, batches, collections
from gateway_tests.service import CRS84, EPSG, OFFICE, WRITER, Gateway, gateway
from harness import Context, free_port
from mirror_tests.assets import assets
from mirror_tests.mirrors import SYSTEM as GRID
from model import kept_geometry

TRANSPORT = ("--features", "--system", "EPSG:25832", "--shift", "565000,5934000.125")
SYSTEM = 'name = "EPSG:25832"\neasting = 565000.000\nnorthing = 5934000.125'
# Systems that clients may name, and a box in each.
SYSTEMS = (CRS84, f"{EPSG}4326", f"{EPSG}3857", OFFICE)
BOXES = {
    CRS84: "9.97,53.53,10.03,53.57",
    f"{EPSG}4326": "53.53,9.97,53.57,10.03",
    f"{EPSG}3857": "1110000,7085000,1118000,7093000",
    OFFICE: "564000.5,5933000,566000,5935000.25",
}
MIRRORED = "SELECT serial FROM streetmap_mirror"
assert (GRID.easting, GRID.northing) == (565_000_000, 5_934_000_125)


@dataclass
class Front:
    """A server, the mirror of its journal, and a gateway that answers from both."""

    context: Context
    server: str
    database: Database
    asked: Gateway
    kept: dict[str, list[Feature]]

    def post(self, batch: bytes) -> int:
        """The serial of a batch that the server has accepted."""
        answer = httpx.post(f"{self.server}/batches", content=batch, timeout=300)
        assert answer.status_code == 200, answer.text
        return int(answer.json()["serial"])

    def wait(self, serial: int) -> None:
        """Waits until the mirror has a serial."""
        there = lambda: int(str(self.database.ask(MIRRORED)[0][0])) >= serial
        wait_until(f"the mirror has serial {serial}", there, self.context.seconds)

    def ids(self, collection: str, **parameters: Any) -> list[str]:
        return self.asked.ids(collection, **parameters)


def reader_of(database: Database) -> str:
    """A database for the role that only reads."""
    return database.dsn.replace("postgres@", "streetmap_reader@")


def mirror_settings(database: str, more: str = "") -> str:
    return f'[mirror]\ndatabase = "{database}"\n{more}\n{WRITER}'


def as_kept(kept: dict[str, list[Feature]]) -> dict[str, list[Feature]]:
    """The features as the server keeps them, in the order of their ids."""
    return {
        name: [it | {"geometry": kept_geometry(it["geometry"])} for it in sorted_by_id(features)]
        for name, features in kept.items()
    }


def sorted_by_id(features: list[Feature]) -> list[Feature]:
    return sorted(features, key=lambda it: str(it["id"]).encode())


def made() -> dict[str, list[Feature]]:
    return collections() | {"assets": assets()}


def is_mirrored(database: Database) -> bool:
    try:
        return bool(database.ask(MIRRORED))
    except psycopg2.Error:
        return False


@contextlib.contextmanager
def front(context: Context, cluster: Database) -> Iterator[Front]:
    """All of it over a new database of a cluster, until the block ends."""
    cluster.ask_alone("CREATE DATABASE mirror_front")
    database = replace(cluster, name="mirror_front")
    file, journal, port = context.new_file("front"), context.folder / "front.journal", free_port()
    words = [str(context.program), "serve", str(file), "--port", str(port), "--clients", "48"]
    server = Process(context, "front-server", [*words, "--journal", str(journal)], port)
    script = Script(context, "journal_to_postgres.py").command(journal, database.dsn, *TRANSPORT)
    transport = Process(context, "front-transport", script)
    url = f"http://127.0.0.1:{port}"
    with running(server, transport):
        wait_until("the mirror is made", lambda: is_mirrored(database), context.seconds)
        database.ask("ALTER ROLE streetmap_reader LOGIN")
        reader = reader_of(database)
        with gateway(context, url, SYSTEM, mirror_settings(reader)) as asked:
            found = Front(context, url, database, asked, as_kept(made()))
            for batch in batches(made(), each=200):
                found.wait(found.post(batch))
            database.ask("INSERT INTO streetmap_columns VALUES ('assets', 'breite', 'numeric')")
            yield found
