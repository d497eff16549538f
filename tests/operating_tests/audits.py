"""The units that audit a town and copy its journal, run line by line as systemd would, on a machine
of a folder."""

import contextlib
import re
import shlex
import sqlite3
import subprocess
from dataclasses import dataclass
from pathlib import Path

from harness import Context
from messages import open_collection
from operating_tests import systemctl
from operating_tests.document import commands_of
from operating_tests.machine import DEPLOY, Machine, machine
from units import unit_lines


@dataclass
class Units:
    """A machine that serves a town with a journal."""

    machine: Machine
    count: int = 0

    def set(self, name: str, value: object) -> None:
        """Writes a setting, in the line that it has."""
        path = self.machine.settings
        path.write_text(re.sub(rf"(?m)^{name}=.*$", f"{name}={value}", path.read_text()))

    def grow(self) -> None:
        self.count += 1
        self.machine.post(f"b{self.count}", open_collection(f"c{self.count}"))

    def line(self, line: str) -> subprocess.CompletedProcess[str]:
        """Runs a line of a unit with the settings."""
        settings = re.findall(r"(?m)^[A-Z_]+=.*$", self.machine.settings.read_text())
        given = ["env", *settings, f"STATE_DIRECTORY={self.machine.town.parent}"]
        words = [
            it.replace("%i", "town").replace("$$", "$") for it in shlex.split(line.lstrip("+"))
        ]
        if words[0].endswith("audit.sh"):
            words = [str(DEPLOY / "audit.sh"), *words[1:], str(self.machine.path("/run"))]
        return self.machine.run_here(shlex.join([*given, *words]))

    def run(self, unit: str) -> tuple[int, str, str]:
        """Runs a unit of type oneshot: its lines up to the first that fails, and then what is to be
        done in any case. The status, what is printed, and what is said."""
        lines = unit_lines(DEPLOY / f"streetmap-{unit}@.service")
        status, printed, said = 0, "", ""
        for line in lines["ExecStart"]:
            ended = self.line(line)
            printed, said = printed + ended.stdout, said + ended.stderr
            if status := ended.returncode:
                break
        for line in lines.get("ExecStopPost", []):
            self.machine.context.check(f"{unit}: its end", self.line(line).returncode, 0)
        return status, printed, said

    def done(self, what: str, unit: str) -> list[str]:
        """Runs a unit that finds nothing; the lines that it prints."""
        status, printed, said = self.run(unit)
        self.machine.context.check(what, (status, said), (0, ""))
        return printed.splitlines()

    def fails(self, what: str, unit: str, fault: str) -> None:
        """Runs a unit that ends with a fault."""
        status, _, said = self.run(unit)
        self.machine.context.check(what, (status != 0, fault in said), (True, True))


def other_journal(units: Units) -> Path:
    """A journal of a primary, as that of a follower's source."""
    made = units.machine
    source = made.path("/srv/source.journal")
    folder = made.town.parent
    source.write_bytes(b"".join((folder / name).read_bytes() for name in made.journals()))
    return source


def check_audit(units: Units) -> None:
    """A town that is well, by each value of AUDIT; the unit is stopped for one of them alone."""
    made, check = units.machine, units.machine.context.check
    log, count = made.path("/systemctl.log"), units.count
    log.unlink()
    check("nothing to audit", units.done("no source", "audit"), [])
    units.set("SOURCE", other_journal(units))
    journal, replayed = f"the same up to {count}", f"ok {count} 0 {count}"
    check("a journal", units.done("a journal", "audit"), [journal])
    units.set("AUDIT", "copy")
    printed = units.done("a copy", "audit")
    copy = made.town.with_name("town.audit")
    restored = printed[1].startswith(f"{copy} has serial {count}: ")
    check("a copy", (printed[0], restored, printed[2:]), (journal, True, [replayed]))
    check("the copy is gone", list(copy.parent.glob("town.audit*")), [])
    check("the unit goes on", log.exists(), False)
    units.set("AUDIT", "stop")
    check("the file", units.done("the file", "audit"), [journal, replayed])
    calls = log.read_text().split()
    check("the unit is stopped, and started", calls, ["is-active", "stop", "start"])
    check("it runs", made.is_active(), True)
    units.grow()


def check_found(units: Units) -> None:
    """What is wrong is found, and the unit runs after it; one that was stopped stays so."""
    made, check = units.machine, units.machine.context.check
    source = other_journal(units)
    whole = source.read_bytes()
    source.write_bytes(whole.replace(b'"c2"', b'"c3"'))
    units.fails("another line in the journal", "audit", "journal_digest: differs 2")
    source.write_bytes(whole)
    systemctl.stop(made.folder)
    units.done("a unit that was stopped", "audit")
    check("it stays stopped", made.is_active(), False)
    with contextlib.closing(sqlite3.connect(made.town)) as connection, connection:
        connection.execute("UPDATE streetmap_collections SET title = 'c7' WHERE id = 'c2'")
    units.fails("another text in the file", "audit", "streetmap: not_replayed c2")


def check_copies(units: Units) -> None:
    """The copy of the journal, into a folder of this machine, over a rotation and a change."""
    made, check = units.machine, units.machine.context.check
    folder, town = made.path("/srv/backup"), made.town.parent
    units.fails("no place", "backup", "is not set")
    (_, by_timer, *_) = commands_of("Backup")
    made.done(by_timer)
    check("the place", made.setting("BACKUP"), f"backup.example:{folder}/")

    def same() -> bool:
        names = made.journals()
        return all((folder / it).read_bytes() == (town / it).read_bytes() for it in names)

    units.done("a copy", "backup")
    check("a copy of all files", same(), True)
    units.grow()
    made.done("sudo streetmap-rotate-journal town")
    units.grow()
    units.done("the next copy", "backup")
    check("a copy over a rotation", (same(), len(made.journals())), (True, 2))
    first = town / made.journals()[0]
    kept = first.read_bytes()
    first.write_bytes(kept[:30])
    units.done("a file that was emptied", "backup")
    check("its copy stays", (folder / first.name).read_bytes() == kept, True)
    first.write_bytes(kept)


def check_units(context: Context) -> None:
    with machine(context, "audits") as made:
        units = Units(made)
        context.run("create", made.town)
        units.set("JOURNAL", made.town.with_name("town.journal.000000000001"))
        made.done("systemctl start streetmap@town")
        for _ in range(3):
            units.grow()
        check_audit(units)
        check_copies(units)
        check_found(units)
