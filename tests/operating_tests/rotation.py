"""Rows of streetmap-rotate-journal: what it writes, and that no crash and no repeat loses lines."""

from collections.abc import Iterator
from contextlib import contextmanager
from dataclasses import dataclass

from harness import Context
from messages import open_collection
from operating_tests import systemctl
from operating_tests.machine import Machine, machine

ROTATE = "sudo streetmap-rotate-journal town"
FOLDER = "/var/lib/streetmap"
# The status of a shell whose command was killed.
KILLED = 128 + 9


@dataclass
class Rotation:
    """A machine that serves a town with a journal, and how many batches it has."""

    machine: Machine
    count: int = 0

    @property
    def context(self) -> Context:
        return self.machine.context

    def set(self, name: str, value: str) -> None:
        """Writes a setting, in the line that it has."""
        made = self.machine
        lines = made.settings.read_text().splitlines()
        kept = [f"{name}={value}" if it.startswith(f"{name}=") else it for it in lines]
        made.settings.write_text("\n".join([*kept, ""]))

    def grow(self) -> None:
        self.count += 1
        self.machine.post(f"b{self.count}", open_collection(f"c{self.count}"))

    def control(self, command: str) -> None:
        self.machine.done(f"systemctl {command} streetmap@town")

    def path(self, serial: int) -> str:
        """The path of a file of the journal, by its first serial."""
        return f"{self.machine.path(FOLDER)}/town.journal.{serial:012}"

    def rotated(self, what: str, after: int) -> None:
        """A rotation that begins a file after a serial."""
        said = self.machine.done(ROTATE)
        wanted = f"{self.path(after + 1)} begins after serial {after}\n"
        self.context.check(f"{what}: what is said", said, wanted)
        self.written(what, after)

    def written(self, what: str, after: int) -> None:
        got = [self.machine.setting(name) for name in ("JOURNAL", "JOURNAL_AFTER")]
        self.context.check(f"{what}: the settings", got, [self.path(after + 1), str(after)])

    def refused(self, what: str, fault: str, status: int = 1) -> None:
        """A rotation that ends with a fault, and changes nothing."""
        before = self.machine.settings.read_text(), self.machine.journals()
        ran = self.machine.is_active()
        ended = self.machine.run(ROTATE)
        said = ended.stderr.splitlines()[:1]
        wanted = (status, [f"streetmap-rotate-journal: {fault}"])
        self.context.check(what, (ended.returncode, said), wanted)
        after = self.machine.settings.read_text(), self.machine.journals()
        self.context.check(f"{what}: nothing changes", after, before)
        self.context.check(f"{what}: the unit", self.machine.is_active(), ran)

    def lines(self) -> bytes:
        """The lines of all files, in order of their names."""
        folder = self.machine.path(FOLDER)
        return b"".join((folder / name).read_bytes() for name in self.machine.journals())

    def check_lines(self, what: str) -> None:
        """All files have the lines of all batches, each once."""
        self.machine.wait()
        found = [int(line.partition(b"\t")[0]) for line in self.lines().splitlines()]
        self.context.check(f"{what}: the lines", found, list(range(1, self.count + 1)))


@contextmanager
def rotation(context: Context, name: str, journal: str | None = None) -> Iterator[Rotation]:
    """A machine that serves a town of two batches."""
    with machine(context, name) as made:
        found = Rotation(made)
        context.run("create", made.town)
        found.set("JOURNAL", journal or found.path(1))
        found.control("start")
        found.grow()
        found.grow()
        yield found


def check_rows(context: Context) -> None:
    """Rotations in a row and twice, of an empty file, and of a unit that is stopped."""
    with rotation(context, "rows") as found:
        made = found.machine
        found.set("JOURNAL_WORDS", "--journal-sync")
        made.settings.chmod(0o640)
        before = made.settings.read_text()
        found.rotated("the first", 2)
        found.check_lines("the first")
        wanted = before.replace(found.path(1), found.path(3))
        wanted = wanted.replace("JOURNAL_AFTER=", "JOURNAL_AFTER=2")
        context.check("no other setting changes", made.settings.read_text(), wanted)
        context.check("the rights stay", made.settings.stat().st_mode & 0o777, 0o640)
        made.path("/systemctl.log").unlink()
        context.check("again", made.done(ROTATE), f"{found.path(3)} has no line yet\n")
        context.check("the unit goes on", made.path("/systemctl.log").exists(), False)
        found.grow()
        found.control("stop")
        found.rotated("a unit that is stopped", 3)
        context.check("it stays stopped", made.is_active(), False)
        said = made.done(ROTATE)
        context.check("a file that is not there", said, f"{found.path(4)} has no line yet\n")
        found.control("start")
        found.grow()
        found.check_lines("started again")
        context.check("all files", len(made.journals()), 3)
        systemctl.stop(made.folder)
        made.path("/is-restarting").touch()
        found.rotated("a unit that has crashed", 4)
        made.path("/is-restarting").unlink()
        context.check("it is started", made.is_active(), True)
        found.check_lines("after a crash of the unit")


def check_crashes(context: Context) -> None:
    """It is killed after the stop of the unit, or before the start: the same command goes on."""
    with rotation(context, "crashes") as found:
        made, asked = found.machine, found.machine.path("/kill-at")
        asked.write_text("stop")
        context.check("killed after the stop", made.run(ROTATE).returncode, KILLED)
        context.check("the old settings", made.setting("JOURNAL"), found.path(1))
        found.rotated("after the stop", 2)
        found.check_lines("after the stop")
        found.grow()
        asked.write_text("start")
        context.check("killed before the start", made.run(ROTATE).returncode, KILLED)
        found.written("the new settings", 3)
        context.check("the unit is stopped", made.is_active(), False)
        context.check("again", made.done(ROTATE), f"{found.path(4)} has no line yet\n")
        found.check_lines("before the start")
        found.grow()
        found.check_lines("and then")


def check_endings(context: Context) -> None:
    """A last line that is cut, or has zeros, is completed by the unit; then it can be rotated. A
    zero byte amid lines is a fault."""
    with rotation(context, "endings") as found:
        made = found.machine
        journal = made.path(f"{FOLDER}/town.journal.000000000001")
        whole = journal.read_bytes()
        begun = whole[: whole.index(b"\n2\t") + 4]
        for what, left in ("2\\t{", begun), ("zeros", whole + bytes(9)):
            found.machine.wait()
            journal.write_bytes(left)
            found.refused(f"a file that ends with {what}", f"cut_line {journal}")
            found.check_lines("it is completed")
            context.check(f"{what}: the whole journal", journal.read_bytes(), whole)
        found.control("stop")
        journal.write_bytes(whole[:9] + b"\0" + whole[10:])
        found.refused("a zero byte", f"bad_line {journal}")
        journal.write_bytes(whole)
        found.rotated("then", 2)


def check_settings(context: Context) -> None:
    """Settings that it reads, or refuses."""
    with rotation(context, "settings") as found:
        made = found.machine
        found.control("stop")
        found.set("JOURNAL_WORDS", "--journal-after 7")
        found.refused("--journal-after", "bad_settings JOURNAL_WORDS")
        found.set("JOURNAL_WORDS", "")
        made.path(f"{FOLDER}/town.journal.000000000003").write_bytes(b"")
        found.refused("the next file", f"exists {found.path(3)}")
        made.path(f"{FOLDER}/town.journal.000000000003").unlink()
        found.set("JOURNAL", "")
        found.refused("no journal", "bad_settings JOURNAL")
        found.set("JOURNAL", f'"{found.path(1)}"')
        text = made.settings.read_text().replace("JOURNAL_AFTER=\n", "")
        other = made.path("/other.conf")
        made.settings.rename(other)
        other.write_text(text)
        made.settings.symlink_to(other)
        made.done(ROTATE)
        got = [made.setting(name) for name in ("JOURNAL", "JOURNAL_AFTER")]
        context.check("older settings, in quotes", got, [f'"{found.path(3)}"', "2"])
        context.check("a link stays one", made.settings.is_symlink(), True)
        made.settings.unlink()
        ended = made.run(ROTATE)
        context.check("no settings", (ended.returncode, "no_settings" in ended.stderr), (1, True))
        for words in ("", "a/b", "town --x", "town more"):
            ended = made.run(f"streetmap-rotate-journal {words}")
            context.check(f"the words {words!r}", ended.returncode, 2)


def check_without_number(context: Context) -> None:
    """A journal whose first file has no number."""
    name = f"{context.folder}/plain{FOLDER}/town.journal"
    with rotation(context, "plain", name) as found:
        found.rotated("a file without a number", 2)
        found.grow()
        found.check_lines("a file without a number")


def check_rotation(context: Context) -> None:
    check_rows(context)
    check_crashes(context)
    check_endings(context)
    check_settings(context)
    check_without_number(context)
