#!/usr/bin/python3 -B
"""Serves figures of this machine's towns to Prometheus, as they are seen from outside.

    python3 deploy/exporter.py [--port P] [--settings FOLDER] [--data FOLDER] [--log FILE]

A town is a NAME.conf in FOLDER (/etc/streetmap). At each request for /metrics on port P (9118) of
127.0.0.1 it requests the landing page of the town's server, reads the last journal line and the
sizes of its files in the other FOLDER (/var/lib/streetmap), and queries the databases that its
settings name. FILE (/var/log/nginx/streetmap.log) is the log of nginx, of which it counts what is
added: deploy/nginx.conf has its form. A figure that cannot be had is left out.

    streetmap_up                    1 if the server answers within 2 s
    streetmap_open                  1 if its store is open (of a server with STATUS=yes)
    streetmap_state_serial          of its state (of the same)
    streetmap_fenced                1 if it refuses each batch, by its settings or by NAME.fenced
    streetmap_serial                of the last whole line of the journal
    streetmap_journal_whole         0 if something after that line is no whole line
    streetmap_bytes                 of a `part`: file, log (beside it), journal (all its files)
    streetmap_free_bytes            of the disk with the file
    streetmap_copy_up               1 if the database or the server of a `copy` answers
    streetmap_copy_serial           the last serial of a `copy`: table and mirror (of DATABASE), or
                                    source (of a follower; of a server if it gives tags)
    streetmap_requests_total        answers of nginx, by `method` and `status`
    streetmap_request_seconds       their times, a histogram

Without STATUS=yes a server says nothing of its own state. A journal that stays behind the state's
serial lacks lines, as on a full disk.
"""

import argparse
import contextlib
import http.client
import json
import os
import re
import sys
import threading
from collections.abc import Iterator
from dataclasses import dataclass
from pathlib import Path
from typing import BinaryIO

from journal_changes import Changes, is_address, login_of
from journal_files import ending_of, last_line, parts_of
from journal_lines import Away, Fault, path_of
from prometheus_client import CollectorRegistry, Counter, Histogram, start_http_server
from prometheus_client.core import GaugeMetricFamily, Metric
from prometheus_client.registry import Collector
from rotate_journal import Settings

# In seconds: for an answer of a server, and for a database to be connected to.
ANSWER_SECONDS, CONNECT_SECONDS = 2, 2
# nginx's log: the request line in quotes, status, bytes, and the seconds that the answer took.
REQUEST = re.compile(rb'"([A-Z]+) [^"]*" ([1-5][0-9]{2}) [0-9]+ ([0-9.]+)$')
METHODS = ("GET", "HEAD", "POST", "OPTIONS")
BUCKETS = (0.001, 0.003, 0.01, 0.03, 0.1, 0.3, 1, 3, 10, 60)
# Name and meaning of each figure of a town, and its labels beside the town.
FIGURES: dict[str, tuple[str, list[str]]] = {
    "streetmap_up": ("whether the server answers", []),
    "streetmap_open": ("whether the store is open", []),
    "streetmap_state_serial": ("the serial of the state", []),
    "streetmap_fenced": ("whether the server refuses each batch", []),
    "streetmap_serial": ("the last serial of the journal", []),
    "streetmap_journal_whole": ("whether the journal ends with a whole line", []),
    "streetmap_bytes": ("sizes of the files", ["part"]),
    "streetmap_free_bytes": ("what is free on the disk of the file", []),
    "streetmap_copy_up": ("whether what has a copy answers", ["copy"]),
    "streetmap_copy_serial": ("the last serial of a copy", ["copy"]),
}
# A figure of a town: its name, its labels beside the town, and its value.
Figure = tuple[str, list[str], float]


def answer_of(port: int, path: str) -> tuple[int, bytes] | None:
    """The status and the body of what a server at a port of this machine answers, if it does."""
    connection = http.client.HTTPConnection("127.0.0.1", port, timeout=ANSWER_SECONDS)
    with contextlib.closing(connection), contextlib.suppress(OSError, http.client.HTTPException):
        connection.request("GET", path)
        answer = connection.getresponse()
        return answer.status, answer.read()
    return None


def size_of(path: Path) -> int:
    with contextlib.suppress(OSError):
        return path.stat().st_size
    return 0


@dataclass(frozen=True)
class Town:
    """A town of this machine: its file, and its settings."""

    file: Path
    settings: Settings

    @property
    def name(self) -> str:
        return self.file.name

    def setting(self, name: str) -> str:
        return self.settings.value(name).strip("\"'")

    def figures(self) -> Iterator[Figure]:
        yield from self.of_own_server()
        is_fenced = (
            self.setting("FENCED") or self.file.with_name(f"{self.file.name}.fenced").exists()
        )
        yield "streetmap_fenced", [], bool(is_fenced)
        log = self.file.with_name(f"{self.file.name}-wal")
        for part, path in (("file", self.file), ("log", log)):
            yield "streetmap_bytes", [part], size_of(path)
        with contextlib.suppress(OSError):
            disk = os.statvfs(self.file.parent)
            yield "streetmap_free_bytes", [], disk.f_bavail * disk.f_frsize
        if journal := self.setting("JOURNAL"):
            with contextlib.suppress(Away, Fault):
                yield from self.of_journal(Path(journal))
        source = self.setting("SOURCE")
        if source.startswith("/"):
            with contextlib.suppress(Away, Fault):
                line = last_line(Path(source))
                yield "streetmap_copy_serial", ["source"], line.serial if line else 0
        if is_address(source):
            yield from self.of_server(source)
        for kind, dsn in (("table", self.setting("DATABASE")), ("source", source)):
            if dsn.startswith(("postgresql://", "postgres://")):
                yield from self.of_database(kind, dsn)

    def of_own_server(self) -> Iterator[Figure]:
        """Whether the town's server answers, and what it says of its state."""
        port = self.setting("PORT")
        found = answer_of(int(port), "/") if port.isdecimal() else None
        yield "streetmap_up", [], found is not None and found[0] == 200
        if found is None or not self.setting("STATUS"):
            return
        status, body = answer_of(int(port), "/status") or (0, b"")
        if status in (200, 500):
            yield "streetmap_open", [], status == 200
        if status == 200:
            yield "streetmap_state_serial", [], json.loads(body)["batches"]

    def of_journal(self, journal: Path) -> Iterator[Figure]:
        parts = parts_of(journal)
        yield "streetmap_bytes", ["journal"], sum(size_of(part.path) for part in parts)
        line = last_line(journal)
        yield "streetmap_serial", [], line.serial if line else 0
        yield "streetmap_journal_whole", [], ending_of(parts[-1].path).is_whole

    def of_server(self, address: str) -> Iterator[Figure]:
        """The last serial of the server whose changes are followed."""
        login, authority = (path_of(self.setting(it)) for it in ("SOURCE_LOGIN", "SOURCE_CA"))
        try:
            server = Changes(address, login_of(login), authority, ANSWER_SECONDS)
            serial = server.last_serial()
            server.disconnect()
        except (Away, Fault):
            yield "streetmap_copy_up", ["source"], 0
            return
        yield "streetmap_copy_up", ["source"], 1
        if serial is not None:
            yield "streetmap_copy_serial", ["source"], serial

    def of_database(self, kind: str, dsn: str) -> Iterator[Figure]:
        """The last serials of a table, and of a mirror beside it."""
        from journal_table import JournalTable

        table = JournalTable(dsn, self.setting("TOWN"), CONNECT_SECONDS)
        try:
            yield "streetmap_copy_serial", [kind], table.last()
            serial = table.mirrored() if kind == "table" else None
            if serial is not None:
                yield "streetmap_copy_serial", ["mirror"], serial
            yield "streetmap_copy_up", [kind], 1
        except (Away, Fault):
            yield "streetmap_copy_up", [kind], 0
        finally:
            table.close()


class Requests:
    """The log of nginx, of which what is added is counted."""

    def __init__(self, path: Path) -> None:
        self.path = path
        self.registry = own = CollectorRegistry()
        labels = ["method", "status"]
        self.count = Counter("streetmap_requests", "answers of nginx", labels, registry=own)
        self.seconds = Histogram(
            "streetmap_request_seconds", "times of nginx", buckets=BUCKETS, registry=own
        )
        # Prometheus may send two requests at once, and each line is counted once.
        self.turn = threading.Lock()
        self.file: BinaryIO | None = None
        # What was read of a line that had not ended.
        self.begun = b""
        with contextlib.suppress(OSError):
            self.file = path.open("rb")
            self.file.seek(0, os.SEEK_END)

    def read(self) -> None:
        """Counts the lines that were added, also to a file that took the place of another."""
        with self.turn, contextlib.suppress(OSError):
            self.read_on()
            there = self.path.stat()
            if self.file is None or not os.path.samestat(os.fstat(self.file.fileno()), there):
                new = self.path.open("rb")
                if self.file is not None:
                    self.file.close()
                self.file, self.begun = new, b""
                self.read_on()

    def read_on(self) -> None:
        """Counts the lines after the point up to which the file was read before."""
        if self.file is None:
            return
        if self.file.tell() > os.fstat(self.file.fileno()).st_size:
            self.file.seek(0)
        *lines, self.begun = (self.begun + self.file.read()).split(b"\n")
        for line in lines:
            if (found := REQUEST.search(line)) is not None:
                method, status = found[1].decode(), found[2].decode()
                self.count.labels(method if method in METHODS else "other", status).inc()
                self.seconds.observe(float(found[3]))


@dataclass(frozen=True)
class Towns(Collector):
    """All towns of a folder of settings, and the requests, as Prometheus collects them."""

    settings: Path
    data: Path
    requests: Requests

    def towns(self) -> Iterator[Town]:
        for path in sorted(self.settings.glob("*.conf")):
            with contextlib.suppress(Fault):
                yield Town(self.data / path.stem, Settings.read(path))

    def collect(self) -> Iterator[Metric]:
        families = {
            name: GaugeMetricFamily(name, what, labels=["town", *labels])
            for name, (what, labels) in FIGURES.items()
        }
        for town in self.towns():
            for name, labels, value in town.figures():
                families[name].add_metric([town.name, *labels], float(value))
        yield from families.values()
        self.requests.read()
        yield from self.requests.registry.collect()


def main() -> int:
    words = argparse.ArgumentParser(prog="exporter", description=(__doc__ or "").splitlines()[0])
    words.add_argument("--port", type=int, default=9118)
    words.add_argument("--settings", type=Path, default=Path("/etc/streetmap"))
    words.add_argument("--data", type=Path, default=Path("/var/lib/streetmap"))
    words.add_argument("--log", type=Path, default=Path("/var/log/nginx/streetmap.log"))
    asked = words.parse_args()
    registry = CollectorRegistry()
    registry.register(Towns(asked.settings, asked.data, Requests(asked.log)))
    start_http_server(asked.port, "127.0.0.1", registry)
    threading.Event().wait()
    return 0


if __name__ == "__main__":
    sys.exit(main())
