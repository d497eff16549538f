"""The documented backup over two rotations, and the documented restore of what it has."""

from dataclasses import dataclass, field
from pathlib import Path

from harness import Context
from messages import delete, feature, open_collection, point, put
from operating_tests.document import commands_of
from operating_tests.machine import Machine, machine

COLLECTION = "lamps"
FIRST = "town.journal.000000000001"
# Rounds of batches and copies, with a rotation after each but the last.
ROUNDS = 3


@dataclass
class Town:
    """A machine that serves a town, and the commands of the document for its journal."""

    machine: Machine
    copy: str
    compare: str
    copy_files: str
    rotate: str
    posted: list[str] = field(default_factory=list)

    @classmethod
    def of(cls, made: Machine) -> "Town":
        copy, _, compare, copy_files = commands_of("Backup")
        (rotate,) = commands_of("Rotation")
        return cls(made, copy, compare, copy_files, rotate)

    @property
    def context(self) -> Context:
        return self.machine.context

    @property
    def backup(self) -> Path:
        return self.machine.path("/srv/backup")

    def begin(self) -> None:
        """Serves an empty town with a journal that is synchronised."""
        made = self.machine
        self.context.run("create", made.town)
        (begin,) = commands_of("The journal")
        words = "JOURNAL_WORDS=--journal-sync"
        made.settings.write_text(made.settings.read_text().replace("JOURNAL_WORDS=", words))
        made.done(begin)
        made.post("open", open_collection(COLLECTION, title="Lamps"))

    def grow(self, count: int) -> None:
        """Batches of different lengths; some are deletions."""
        for _ in range(count):
            number = len(self.posted)
            name, text = f"L{number}", "\u20ac" * (number * 37 % 300)
            edits = [put("insert", COLLECTION, feature(name, point(number, 1), {"t": text}))]
            if number % 5 == 4:
                edits.append(delete(COLLECTION, f"L{number - 2}"))
            self.posted.append(f"b{number}")
            self.machine.post(self.posted[-1], *edits)

    def files(self, folder: Path) -> dict[str, bytes]:
        """The files of the journal in a folder."""
        return {path.name: path.read_bytes() for path in folder.glob("town.journal*")}

    def exported(self, name: str) -> bytes:
        file = self.machine.town.with_name(name)
        return self.context.run("export", file, "--collection", COLLECTION)


def check_copies(town: Town) -> None:
    """Copies while it is served, over rotations: each is that of the journal at that time."""
    made, check = town.machine, town.context.check
    for number in range(ROUNDS):
        for _ in range(2):
            town.grow(3)
            made.done(town.copy)
            same = town.files(town.backup) == town.files(made.town.parent)
            check(f"the copies of round {number}", same, True)
        check(f"copies that differ in round {number}", made.done(town.compare), "")
        if number == 0:
            made.done(town.copy_files)
        town.grow(2)
        if number < ROUNDS - 1:
            made.done(town.rotate)
            town.grow(1)
    made.done(town.copy)
    check("the files of the journal", made.journals(), [FIRST, *names(10, 19)])
    check("their copies", town.files(town.backup) == town.files(made.town.parent), True)
    check("the words of the journal", made.setting("JOURNAL_WORDS"), "--journal-sync")


def names(*serials: int) -> list[str]:
    return [f"town.journal.{serial:012}" for serial in serials]


def check_lost(town: Town) -> None:
    """A journal that was emptied does not empty its copy, and the comparison names it; so it does a
    copy that was changed."""
    made, check = town.machine, town.context.check
    first, copy = made.town.with_name(FIRST), town.backup / FIRST
    kept = first.read_bytes()
    first.write_bytes(kept[:40])
    made.done(town.copy)
    check("the copy of a lost file", copy.read_bytes() == kept, True)
    check("what is said of it", made.done(town.compare), f"{FIRST}\n")
    first.write_bytes(kept)
    copy.write_bytes(kept[:-9] + b"\0" * 9)
    check("what is said of a wrong copy", made.done(town.compare), f"{FIRST}\n")
    copy.write_bytes(b"\0" * 9 + kept[9:-9])
    made.done(town.copy)
    check("a shorter copy that is wrong", copy.read_bytes() == kept, True)


def check_restore(town: Town) -> None:
    """The restored file has the exports and counts of the one before, and takes its place."""
    made, context = town.machine, town.context
    restore, _, _, replace = commands_of("Restore")
    said, restored = made.done(restore), made.town.with_name("restored")
    count = len(town.posted) + 1
    context.check("what is said", said.startswith(f"{restored} has serial {count}: "), True)
    made.done("sudo systemctl stop streetmap@town")
    counts = [context.run("check", it) for it in (made.town, restored)]
    context.check("the counts", counts[1], counts[0])
    context.check("the exports", town.exported("restored") == town.exported("town"), True)
    batches = context.run("batches", made.town)
    context.check("the batches", context.run("batches", restored), batches)
    made.done(replace)
    made.wait()
    context.check("its journal", town.files(made.town.parent), {FIRST: batches})
    again = put("insert", COLLECTION, feature("L0", point(0, 1), {"t": ""}))
    context.check("a batch that is repeated", made.post("b0", again), 2)
    context.check("the next", made.post("next"), len(town.posted) + 2)
    made.done("sudo systemctl stop streetmap@town")


def check_raised(town: Town) -> None:
    """A file that is restored to before its last batches gets a number that none of them had, by
    batches that change nothing."""
    made, context = town.machine, town.context
    restore, _, raising, _ = commands_of("Restore")
    restored, count = made.town.with_name("restored"), len(town.posted) + 1
    made.done(restore.replace(f"/{restored.name}\n", f"/{restored.name} --until 5\n", 1))
    before = town.exported("restored")
    made.done(raising.replace("seq 42 58", f"seq 6 {count + 1}"))
    accepted = int(context.run("check", restored).split()[-1])
    context.check("its number", accepted, count + 1)
    context.check("its features", town.exported("restored") == before, True)
    for path in made.town.parent.glob("restored*"):
        path.unlink()


def check_restore_of_parts(town: Town) -> None:
    """Copies whose last line is cut, the same over a copy of the two files, and copies without a
    file of the journal."""
    made, context = town.machine, town.context
    restore, apply, *_ = commands_of("Restore")
    restored, lines = made.town.with_name("restored"), len(town.posted) + 1
    last = town.backup / names(19)[0]
    last.write_bytes(last.read_bytes()[:-3])
    ended = made.run(restore)
    cut = f"restore: the line after serial {lines - 1} is cut, and is left out\n"
    context.check("a cut line", (ended.returncode, ended.stderr), (0, cut))
    wanted = b"".join(context.run("batches", made.town).splitlines(True)[: lines - 1])
    context.check("the lines before it", context.run("batches", restored), wanted)
    for name in ("town", "town-wal"):
        copy = made.path(f"/srv/backup/{name}")
        restored.with_name(name.replace("town", "restored")).write_bytes(copy.read_bytes())
    ended = made.run(apply)
    context.check("over a copy of the files", ended.stderr, f"streetmap: cut_line {lines}\n")
    context.check("what is there then", context.run("batches", restored), wanted)
    for path in made.town.parent.glob("restored*"):
        path.unlink()
    (town.backup / names(10)[0]).unlink()
    ended = made.run(restore)
    context.check("without a file", ended.stderr, "restore: lines_missing 10 18\n")
    context.check("nothing is made", restored.exists(), False)


def check_backup(context: Context) -> None:
    with machine(context, "backup") as made:
        town = Town.of(made)
        town.begin()
        check_copies(town)
        check_lost(town)
        check_raised(town)
        check_restore(town)
        check_restore_of_parts(town)
