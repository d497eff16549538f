"""Rows for the lease of a table: one machine's script puts lines in; a promotion passes it on."""

import re
import subprocess
import time
from dataclasses import dataclass, replace
from pathlib import Path

import psycopg2
from followers_tests.postgres import Database
from followers_tests.processes import DEPLOY, PYTHON, Process, Script, running, wait_until
from followers_tests.rows import ENDED, LINES
from harness import Context
from operating_tests.document import commands_of

SCRIPT = "journal_to_postgres.py"
HELD = "SELECT epoch, holder FROM streetmap_lease"


def status_of(fault: str) -> int:
    """The exit status of a fault."""
    return 4 if fault.startswith("fenced") else 1


@dataclass
class Leases:
    """A database, and two machines that both have a journal and a place for a lease."""

    context: Context
    database: Database

    def path(self, machine: str, kind: str) -> Path:
        return self.context.folder / f"{machine}.{kind}"

    def command(self, machine: str, count: int, *words: str) -> list[str]:
        """The script of a machine whose journal has the first lines."""
        journal = self.path(machine, "journal")
        journal.write_bytes(b"".join(LINES[:count]))
        given = ["--lease", str(self.path(machine, "lease")), *words]
        return Script(self.context, SCRIPT).command(journal, self.database.dsn, *given)

    def row(
        self, what: str, machine: str, count: int, ends: str | None, kept: int, *words: str
    ) -> None:
        """Puts the first lines in. Wanted: the fault, and how many lines the table has after it."""
        command = self.command(machine, count, *(words or ("--once",)))
        ended = subprocess.run(command, capture_output=True, text=True, check=False)
        said = [it.partition(": ")[2] for it in ended.stderr.splitlines() if "going on" not in it]
        got = ended.returncode, said[:1]
        self.context.check(what, got, (status_of(ends), [ends]) if ends else ENDED)
        self.kept(what, kept)

    def kept(self, what: str, count: int) -> None:
        found = self.database.journal()
        self.context.check(f"{what}: the table", found, b"".join(LINES[:count]))

    def is_held(self, what: str, machine: str, epoch: int) -> None:
        """Whose the lease is, in the table and in the machine's file."""
        (found,) = self.database.ask(HELD)
        kept = self.path(machine, "lease").read_text()
        self.context.check(f"{what}: the lease", f"{found[0]} {found[1]}\n", kept)
        self.context.check(f"{what}: the epoch", found[0], epoch)

    def promote(self, machine: str) -> subprocess.Popen[bytes]:
        """The documented command, on a machine."""
        (command,) = [it for it in commands_of("Becoming the first") if "--promote" in it]
        for old, new in (
            ("sudo -u streetmap python3 /usr/share/streetmap/deploy", f"{PYTHON} -B {DEPLOY}"),
            ("/var/lib/streetmap/town.journal", str(self.path(machine, "journal"))),
            ("/var/lib/streetmap/town.lease", str(self.path(machine, "lease"))),
            ("postgresql:///streetmap", self.database.dsn),
        ):
            command = re.sub(rf"{old}\b", new, command)
        return subprocess.Popen(["sh", "-ec", command], stderr=subprocess.DEVNULL)


def check_one(leases: Leases) -> None:
    """The first script that has the option takes the lease. All others are refused."""
    row, context = leases.row, leases.context
    journal, script = leases.path("old", "journal"), Script(context, SCRIPT)
    leases.command("old", 2)
    context.check("no lease", script.ends(journal, leases.database.dsn, "--once"), ENDED)
    row("the first lease", "old", 3, None, 3)
    leases.is_held("the first lease", "old", 1)
    row("it goes on", "old", 4, None, 4)
    row("another machine", "new", 5, "fenced 1 0", 4)
    context.check("it gets no lease", leases.path("new", "lease").exists(), False)
    for words in (["--once"], ["--renew"], ["--upgrade"]):
        status, said = script.ends(journal, leases.database.dsn, *words)
        context.check(f"without the option, {words}", (status, said[0]), (4, "fenced 1 0"))
    leases.kept("without the option", 4)
    for text in ("", "x y", "1", "-1 x"):
        leases.path("none", "lease").write_text(text)
        row(f"the lease {text!r}", "none", 5, f"bad_lease {leases.path('none', 'lease')}", 4)


def check_promotion(leases: Leases) -> None:
    """A promotion while the script of the old primary runs: it puts nothing in any more."""
    context = leases.context
    old = Process(context, "old-copier", leases.command("old", 5))
    with running(old):
        wait_until("it puts lines in", lambda: len(leases.database.journal()) > 0, 60)
        has = lambda: leases.database.has(b"".join(LINES[:5]))
        wait_until("the old one goes on", has, context.seconds)
        leases.command("new", 5)
        context.check("the promotion", leases.promote("new").wait(context.seconds), 0)
        leases.is_held("promoted", "new", 2)
        assert old.process is not None
        context.check("the old one ends, idle", old.process.wait(context.seconds), 4)
        with leases.path("old", "journal").open("ab") as journal:
            journal.write(LINES[5])
    said = [it for it in old.log.read_text().splitlines() if "fenced" in it]
    context.check("what it says", said, ["journal_to_postgres: fenced 2 1"])
    leases.kept("what came too late", 5)
    leases.row("the old one again", "old", 6, "fenced 2 1", 5)
    leases.row("the new one", "new", 7, None, 7)


def check_waiting(leases: Leases) -> None:
    """A promotion waits for the transaction that stores lines."""
    context = leases.context
    connection = psycopg2.connect(leases.database.dsn)
    connection.cursor().execute(f"{HELD} FOR SHARE")
    process = leases.promote("old")
    time.sleep(2)
    context.check("it waits", process.poll(), None)
    connection.rollback()
    connection.close()
    context.check("it goes on", process.wait(context.seconds), 0)
    leases.is_held("after it", "old", 3)


def check_cut(leases: Leases) -> None:
    """A promotion that was cut after its file, and a database from before a promotion."""
    leases.path("new", "lease").write_text("4 new-machine\n")
    leases.row("the file alone", "new", 7, None, 7)
    leases.is_held("the file alone", "new", 4)
    leases.row("the other", "old", 7, "fenced 4 3", 7)
    leases.database.ask("UPDATE streetmap_lease SET epoch = 1, holder = 'x'")
    leases.row("an older database", "new", 8, None, 8)
    leases.is_held("an older database", "new", 4)
    leases.path("copy", "lease").write_text("4 another-machine\n")
    leases.row("another with the epoch", "copy", 8, "fenced 4 4", 8)


def check_race(leases: Leases) -> None:
    """Two machines that both begin with no lease: one of them has it then."""
    for at in range(4):
        leases.database.ask("DROP TABLE streetmap_lease")
        names = [f"race-{at}-{it}" for it in "ab"]
        commands = [leases.command(name, 8, "--once") for name in names]
        both = [subprocess.Popen(it, stderr=subprocess.DEVNULL) for it in commands]
        ended = sorted(it.wait(leases.context.seconds) for it in both)
        leases.context.check(f"two at once, {at}", ended, [0, 4])


def check_leases(context: Context, cluster: Database) -> None:
    cluster.ask_alone("CREATE DATABASE leases")
    leases = Leases(context, replace(cluster, name="leases"))
    check_one(leases)
    check_promotion(leases)
    check_waiting(leases)
    check_cut(leases)
    check_race(leases)
