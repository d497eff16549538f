"""A follower is promoted, and the old primary comes back with batches that nobody else has."""

from collections.abc import Iterator
from contextlib import contextmanager
from dataclasses import dataclass, replace
from pathlib import Path

from followers_tests.leases import SCRIPT, Leases, status_of
from followers_tests.postgres import Database
from followers_tests.processes import Process, Script, running, wait_until
from followers_tests.rows import LINES, TEXTS, lamp, text_of
from harness import Context, Server
from messages import post


@dataclass
class Machine:
    """A server with a journal, and the script that puts that into the database."""

    name: str
    leases: Leases
    server: Server

    @property
    def context(self) -> Context:
        return self.leases.context

    @property
    def journal(self) -> Path:
        return self.leases.path(self.name, "journal")

    def copier(self) -> Process:
        lease = self.leases.path(self.name, "lease")
        given: list[str | Path] = [self.journal, self.leases.database.dsn, "--lease", lease]
        words = Script(self.context, SCRIPT).command(*given)
        return Process(self.context, f"copier-{self.name}", words)

    def follower(self) -> Process:
        """follow.py from the database to this server."""
        given: list[str | Path] = [self.leases.database.dsn, self.server.url]
        words = Script(self.context, "follow.py").command(*given, "--journal", self.journal)
        return Process(self.context, f"follow-{self.name}", words)

    def post(self, text: bytes) -> int:
        (answer,) = self.server.ask(post(text))
        self.context.check(f"a batch at {self.name}", answer.status, 200)
        return int(answer.json()["serial"])


@contextmanager
def machine(leases: Leases, name: str) -> Iterator[Machine]:
    file, journal = leases.context.new_file(name), leases.path(name, "journal")
    with leases.context.serve(file, "--clients", "8", "--journal", str(journal)) as server:
        yield Machine(name, leases, server)


def ended(process: Process) -> tuple[int, str]:
    """How a process ends, and what it says last but for lines that help."""
    assert process.process is not None
    status = process.process.wait(process.context.seconds)
    said = [it for it in process.log.read_text().splitlines() if ": forked" in it or "fenced" in it]
    return status, said[-1].partition(": ")[2] if said else ""


def check_two(old: Machine, new: Machine) -> None:
    """The old primary has two batches more than the database when the other is promoted."""
    context, database = old.context, old.leases.database
    with running(new.follower()):
        with running(old.copier()):
            for text in TEXTS[:3]:
                old.post(text)
            there = lambda: new.journal.read_bytes() == b"".join(LINES[:3])
            wait_until("the follower has them", there, context.seconds)
        for text in TEXTS[3:5]:
            old.post(text)
        context.check("the promotion", new.leases.promote("newer").wait(context.seconds), 0)
    with running(new.copier()):
        for name in ("n4", "n5", "n6"):
            new.post(text_of(name, lamp(int(name[1:]) + 40)))
        whole = new.journal.read_bytes()
        wait_until("the table has them", lambda: database.has(whole), context.seconds)
        for process, fault in (
            (old.copier(), "fenced 2 1"),
            (old.follower(), "forked 5 b5 is n5 in the source"),
        ):
            with running(process):
                wanted = status_of(fault), fault
                context.check(f"the old one: {process.name}", ended(process), wanted)
    context.check("the table", database.journal() == whole, True)
    context.check("the old one's batches", old.journal.read_bytes(), b"".join(LINES[:5]))
    context.check("the new one's", new.journal.read_bytes() == whole, True)


def check_promotions(context: Context, cluster: Database) -> None:
    cluster.ask_alone("CREATE DATABASE promotions")
    leases = Leases(context, replace(cluster, name="promotions"))
    with machine(leases, "older") as old, machine(leases, "newer") as new:
        check_two(old, new)
    lost = context.run("batches", context.folder / "older", "--after", "3")
    context.check("what the old one alone has", lost, b"".join(LINES[3:5]))
