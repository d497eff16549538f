"""A first server, its journal in PostgreSQL with a standby, two followers, and nginx in front."""

import contextlib
import re
import sys
from collections.abc import Iterator
from dataclasses import dataclass
from pathlib import Path

from followers_tests import postgres
from followers_tests.postgres import Database
from followers_tests.processes import DEPLOY, Process, Script, running, wait_until
from harness import Context, free_port

sys.path.insert(0, str(DEPLOY))

import serve_map as serve_map  # noqa: E402

# The address that clients would see.
BASE = "https://maps.example/"


@dataclass(frozen=True)
class Served:
    """A file that is served with a journal beside it. Its log has a line for each answer."""

    file: Path
    journal: Path
    process: Process
    port: int

    @classmethod
    def new(cls, context: Context, name: str) -> "Served":
        file, journal, port = (
            context.new_file(name),
            context.folder / f"{name}.journal",
            free_port(),
        )
        given = [str(context.program), "serve", str(file), "--port", str(port), "--base", BASE]
        given += ["--clients", "32", "--log", "--conditional", "--changes", "--status"]
        given += ["--journal", str(journal)]
        return cls(file, journal, Process(context, name, given, port), port)

    @property
    def url(self) -> str:
        return f"http://127.0.0.1:{self.port}"


def front(context: Context, first: int, followers: tuple[int, int], port: int) -> Process:
    """nginx with the configuration of followers, but for ports."""
    folder = context.folder / f"nginx-{port}"
    folder.mkdir()
    text = (DEPLOY / "nginx-followers.conf").read_text()
    for old, new in zip((8080, 8081, 8082), (first, *followers), strict=True):
        assert text.count(f"server 127.0.0.1:{old}") == 1, old
        text = text.replace(f"server 127.0.0.1:{old}", f"server 127.0.0.1:{new}")
    whole = serve_map.configuration(folder, port, first, folder / "map.json")
    whole = whole.replace("access_log off;", access_log(folder / "access.log"))
    begin, end = whole.index("    upstream streetmap {"), whole.index("    server {\n")
    file = folder / "nginx.conf"
    file.write_text(whole[:begin] + text + whole[end:])
    return Process(context, f"nginx-{port}", serve_map.nginx_command(folder, file), port)


def access_log(path: Path) -> str:
    """The log of requests, in the form of the site's configuration."""
    (form,) = re.findall(r"(?ms)^log_format streetmap .*?;", (DEPLOY / "nginx.conf").read_text())
    return f"{form}\n    access_log {path} streetmap;"


@dataclass(frozen=True)
class Site:
    """All of it. The left follower has its lines from the primary, the right from the standby."""

    context: Context
    first: Served
    left: Served
    right: Served
    primary: Database
    standby: Database
    copier: Process
    follow_left: Process
    follow_right: Process
    nginx: Process
    port: int

    def all_served(self) -> tuple[Served, Served, Served]:
        return self.first, self.left, self.right

    def to_kill(self) -> list[Process]:
        """What is killed in turn."""
        return [
            self.first.process,
            self.left.process,
            self.copier,
            self.right.process,
            self.primary.process,
            self.follow_left,
            self.standby.process,
            self.follow_right,
        ]

    def serial(self) -> int:
        """The last serial of the first's journal."""
        lines = self.first.journal.read_bytes().splitlines()
        return int(lines[-1].partition(b"\t")[0]) if lines else 0

    def catch_up(self) -> None:
        """Waits until both followers have the journal of the first."""
        wanted = self.first.journal.stat().st_size
        for served in (self.left, self.right):
            there = lambda: served.journal.stat().st_size >= wanted
            wait_until(f"{served.file.name} has all lines", there, self.context.seconds)


def follower_script(context: Context, name: str, *words: str | Path) -> Process:
    return Process(context, name, Script(context, "follow.py").command(*words))


@contextlib.contextmanager
def site(context: Context) -> Iterator[Site]:
    """A site that runs. All of it is killed after the block."""
    first, left, right = (Served.new(context, it) for it in ("first", "left", "right"))
    primary, port = postgres.primary(context), free_port()
    with running(primary.process):
        wait_until("PostgreSQL answers", primary.answers, context.seconds)
        standby = postgres.standby(context, primary)
        position = context.folder / "left.position"
        words: list[str | Path] = [first.journal, primary.dsn, "--lease"]
        words.append(context.folder / "first.lease")
        copying = Script(context, "journal_to_postgres.py").command(*words)
        copier = Process(context, "copier", copying)
        words = [primary.dsn, left.url, "--position", position]
        follow_left = follower_script(context, "follow-left", *words)
        words = [standby.dsn, right.url, "--journal", right.journal]
        follow_right = follower_script(context, "follow-right", *words)
        nginx = front(context, first.port, (left.port, right.port), port)
        servers = [it.process for it in (first, left, right)]
        scripts = [copier, follow_left, follow_right]
        with running(standby.process, *servers, *scripts, nginx):
            yield Site(
                context=context,
                first=first,
                left=left,
                right=right,
                primary=primary,
                standby=standby,
                copier=copier,
                follow_left=follow_left,
                follow_right=follow_right,
                nginx=nginx,
                port=port,
            )
