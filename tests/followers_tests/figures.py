"""What exporter.py serves of a site to Prometheus."""

import re
from dataclasses import dataclass
from pathlib import Path

from followers_tests.load import Client, batch_text
from followers_tests.processes import DEPLOY, Process, Script, running, wait_until
from followers_tests.site import Served, Site
from harness import free_port
from messages import open_collection

FIGURE = re.compile(r"(?m)^(streetmap_\w+)(?:\{(.*)\})? (\S+)$")
NAMED = re.compile(r"streetmap_[a-z_]+")


@dataclass(frozen=True)
class Figures:
    """An exporter over settings of the primary and of the followers: one by its database, and one
    by its changes."""

    site: Site
    process: Process

    @classmethod
    def new(cls, site: Site) -> "Figures":
        folder, port = site.context.folder / "settings", free_port()
        folder.mkdir()
        write(folder, site.first, "DATABASE", site.primary.dsn)
        write(folder, site.left, "SOURCE", site.primary.dsn)
        write(folder, site.right, "SOURCE", f"{site.first.url}/changes")
        (folder / "broken.conf").write_bytes(b"\xff")
        log = site.context.folder / site.nginx.name / "access.log"
        words: list[str | Path] = ["--settings", folder, "--data", site.context.folder]
        words += ["--log", log, "--port", str(port)]
        command = Script(site.context, "exporter.py").command(*words)
        return cls(site, Process(site.context, "exporter", command, port))

    def read(self) -> dict[tuple[str, str], float]:
        """The figures that are served, by their names and labels."""
        client = Client(self.process.port or 0)
        status, body = client.ask("GET", "/metrics")
        client.close()
        self.site.context.check("the figures", status, 200)
        found = FIGURE.findall(body.decode())
        return {(name, labels.replace('"', "")): float(value) for name, labels, value in found}

    def of(self, name: str, labels: str) -> float | None:
        return self.read().get((f"streetmap_{name}", labels))


def write(folder: Path, served: Served, name: str, value: str) -> None:
    lines = [f"PORT={served.port}", f"JOURNAL={served.journal}", "STATUS=yes"]
    lines += [f"{name}={value}", ""]
    (folder / f"{served.file.name}.conf").write_text("\n".join(lines))


def check_whole(figures: Figures) -> None:
    """All is well: the serials are those of the journal, and each answer of nginx is counted."""
    site, check = figures.site, figures.site.context.check
    client = Client(site.port)
    reply = client.post(batch_text("figures", open_collection("figures")))
    labels = "method=GET,status=404"
    before = figures.of("requests_total", labels) or 0
    client.ask("GET", "/collections/none")
    client.close()
    counted = lambda: (figures.of("requests_total", labels) or 0) == before + 1
    wait_until("a request is counted", counted, 30)
    late = lambda: figures.of("copy_serial", "copy=table,town=first") == reply["serial"]
    wait_until("the table has the batch", late, 30)
    found = figures.read()
    size = site.first.journal.stat().st_size
    for name, labels, wanted in (
        ("up", "town=first", 1),
        ("up", "town=left", 1),
        ("open", "town=first", 1),
        ("state_serial", "town=first", reply["serial"]),
        ("fenced", "town=first", 0),
        ("serial", "town=first", reply["serial"]),
        ("journal_whole", "town=first", 1),
        ("bytes", "part=journal,town=first", size),
        ("bytes", "part=file,town=first", site.first.file.stat().st_size),
        ("copy_up", "copy=table,town=first", 1),
        ("copy_serial", "copy=source,town=left", reply["serial"]),
        ("copy_up", "copy=source,town=right", 1),
        ("copy_serial", "copy=source,town=right", reply["serial"]),
    ):
        check(f"{name} {labels}", found.get((f"streetmap_{name}", labels)), wanted)
    check("what is free", found["streetmap_free_bytes", "town=first"] > 0, True)
    check("times", found["streetmap_request_seconds_count", ""] > before, True)
    names = {name for name, _ in found}
    for file in ("alerts.yml", "dashboard.json"):
        named = set(NAMED.findall((DEPLOY / file).read_text()))
        check(f"the figures of {file}", named - names, set())


def check_away(figures: Figures) -> None:
    """A server that is away, a cut line, a database that is away, another log."""
    site, check = figures.site, figures.site.context.check
    site.left.process.kill()
    check("a server is away", figures.of("up", "town=left"), 0)
    whole = site.left.journal.read_bytes()
    site.left.journal.write_bytes(whole[:-3])
    check("a cut line", figures.of("journal_whole", "town=left"), 0)
    site.left.journal.write_bytes(whole)
    site.left.process.start()
    fenced = site.left.file.with_name(f"{site.left.file.name}.fenced")
    fenced.touch()
    check("a server that is fenced", figures.of("fenced", "town=left"), 1)
    fenced.unlink()
    site.primary.process.kill()
    check("a database is away", figures.of("copy_up", "copy=table,town=first"), 0)
    site.primary.process.start()
    site.first.process.kill()
    check("a server with changes is away", figures.of("copy_up", "copy=source,town=right"), 0)
    site.first.process.start()
    log = site.context.folder / site.nginx.name / "access.log"
    labels = "method=GET,status=404"
    before = figures.of("requests_total", labels) or 0
    log.rename(log.with_name("access.log.1"))
    line = '127.0.0.1 - - [29/Nov/2026:12:00:00 +0000] "GET /x HTTP/1.1" 404 90 0.002\n'
    log.write_text(line * 2 + line[:-1])
    check("another log", figures.of("requests_total", labels), before + 2)
    log.with_name("access.log.1").rename(log)


def check_figures(site: Site) -> None:
    figures = Figures.new(site)
    with running(figures.process):
        check_whole(figures)
        check_away(figures)
    site.catch_up()
