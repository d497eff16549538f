"""Rows for the digests of a journal: what journal_digest.py finds, and how a table gets them."""

import hashlib
from dataclasses import dataclass, replace
from pathlib import Path

from followers_tests.postgres import Database
from followers_tests.processes import Script
from followers_tests.rows import ENDED, LINES, OTHER, TEXTS, lines_of
from followers_tests.tables import ODD
from harness import Context

AUDIT, COPY = "journal_digest.py", "journal_to_postgres.py"
ALL = lines_of([*TEXTS, ODD])
# A table as an earlier version has made it.
EARLIER = """
DROP TABLE IF EXISTS streetmap_journal;
CREATE TABLE streetmap_journal
    (serial bigint PRIMARY KEY, key text NOT NULL, batch text NOT NULL)
"""
DIGESTS = "SELECT serial, encode(digest, 'hex') FROM streetmap_journal ORDER BY serial"
UNKNOWN = "SELECT serial FROM streetmap_journal WHERE arrived IS NULL ORDER BY serial"


def digests_of(lines: list[bytes]) -> list[str]:
    """The digests of lines, by the rule."""
    found, before = [], bytes(32)
    for line in lines:
        before = hashlib.sha256(before + line).digest()
        found.append(before.hex())
    return found


@dataclass
class Audits:
    """A journal, and a database with its table."""

    context: Context
    database: Database
    journal: Path
    lacking = "the table lacks digests: --upgrade fills them in"

    @classmethod
    def new(cls, context: Context, cluster: Database, name: str) -> "Audits":
        cluster.ask_alone(f"CREATE DATABASE {name}")
        made = cls(context, replace(cluster, name=name), context.folder / f"{name}.journal")
        made.journal.write_bytes(b"".join(ALL))
        return made

    def copy(self, what: str, *words: str, ends: tuple[int, list[str]] = ENDED) -> None:
        """Puts the journal into the table."""
        got = Script(self.context, COPY).ends(self.journal, self.database.dsn, *words)
        self.context.check(what, got, ends)

    def row(self, what: str, ends: str, *words: str | Path) -> None:
        """Audits the journal. Wanted: what is printed, or the fault."""
        script = Script(self.context, AUDIT)
        words = words or ("--table", self.database.dsn, "--wait", "0")
        printed, said = script.prints(self.journal, *words)
        self.context.check(what, printed or said[:1], ends if printed else [ends])

    def same(self, what: str, serial: int = len(ALL)) -> None:
        self.row(what, f"the same up to {serial}: {digests_of(ALL)[serial - 1]}\n")

    def change(self, what: str, query: str, ends: str) -> None:
        """Audits a table in which something is changed, and then as it was."""
        self.database.ask("CREATE TABLE kept AS SELECT * FROM streetmap_journal")
        self.database.ask(query)
        self.row(what, ends)
        self.database.ask("TRUNCATE streetmap_journal")
        self.database.ask("INSERT INTO streetmap_journal SELECT * FROM kept; DROP TABLE kept")


def check_digests(audits: Audits) -> None:
    """The digests of files alone."""
    wanted, row = digests_of(ALL), audits.row
    row("up to a serial", f"4 {wanted[3]}\n", "--to", "4")
    row("of all", f"9 {wanted[8]}\n", "--to", "9")
    row("further", "lines_missing 10 12", "--to", "12")
    row("after a line", f"9 {wanted[8]}\n", "--after", f"4:{wanted[3]}")
    audits.journal.write_bytes(b"".join(ALL[4:]))
    row("without the first lines", "lines_missing 1 4", "--to", "9")
    row("after those", f"9 {wanted[8]}\n", "--after", f"4:{wanted[3]}")
    audits.journal.write_bytes(b"".join(ALL))
    for words in (["--after", "4"], ["--to", "0"], ["--to", "x"], ["--table", ""]):
        ended = Script(audits.context, AUDIT).ends(audits.journal, *words)
        audits.context.check(f"the words {words}", ended[0], 2)


def check_journals(audits: Audits) -> None:
    """Two journals."""
    other = audits.context.folder / "other.journal"

    def row(what: str, lines: list[bytes], ends: str, *words: str) -> None:
        other.write_bytes(b"".join(lines))
        audits.row(what, ends, "--other", other, *words)

    changed = [*ALL[:4], ALL[4].replace(b"L5", b"L6"), *ALL[5:]]
    row("the same journal", ALL, "the same up to 9\n")
    row("a shorter one", ALL[:7], "the same up to 7\n")
    row("a shorter one, up to more", ALL[:7], "lines_missing 8 8", "--to", "8")
    row("one that begins later", ALL[3:], "the same up to 9\n")
    row("one that begins after it", lines_of([OTHER], 12), "lines_missing 10 12", "--to", "12")
    row("another line", changed, "differs 5")
    row("another line, after that", changed, "the same up to 4\n", "--to", "4")
    row("none", [], "lines_missing 1 1", "--to", "1")


def check_table(audits: Audits) -> None:
    """A table beside the files: what is changed in one of both."""
    change, context = audits.change, audits.context
    audits.copy("the lines", "--once")
    found = [digest for _, digest in audits.database.ask(DIGESTS)]
    context.check("the digests of the table", found, digests_of(ALL))
    context.check("lines without a time", audits.database.ask(UNKNOWN), [])
    audits.same("a table")
    set_ = "UPDATE streetmap_journal SET"
    change("a text", f"{set_} batch = replace(batch, 'L3', 'L4') WHERE serial = 3", "differs 3")
    change("a key", f"{set_} key = 'b4' WHERE serial = 3", "other_key 3")
    change("a digest", f"{set_} digest = sha256('') WHERE serial = 6", "other_digest 6")
    change("no digest", f"{set_} digest = NULL WHERE serial = 6", "no_digest 6")
    change("no line", "DELETE FROM streetmap_journal WHERE serial = 6", "lines_missing 6 6")
    change("no last line", "DELETE FROM streetmap_journal WHERE serial = 9", "lines_missing 9 9")
    audits.journal.write_bytes(b"".join(ALL[:8]))
    audits.row("no last line in the files", "lines_missing 9 9")
    audits.journal.write_bytes(b"".join(ALL[5:]))
    audits.same("files that were moved away")
    changed = f"{set_} batch = replace(batch, 'L3', 'L4') WHERE serial = 3"
    change("a text before the files", changed, "other_digest 3")
    audits.journal.write_bytes(b"".join(ALL))


def check_putting(audits: Audits) -> None:
    """What the transport itself sees, and how a digest that is wrong is made again."""
    ask, context = audits.database.ask, audits.context
    ask("UPDATE streetmap_journal SET digest = sha256('') WHERE serial = 9")
    audits.copy("a wrong digest", "--once", ends=(1, ["other_digest 9"]))
    renewing = "renewing from serial 9, 1 lines were taken out"
    audits.copy("renewed", "--renew", ends=(0, [renewing]))
    audits.same("renewed")
    ask("UPDATE streetmap_journal SET digest = sha256('') WHERE serial = 2")
    audits.journal.write_bytes(b"".join(ALL[5:]))
    audits.copy("renewed without its files", "--renew", ends=(1, ["lines_missing 2 5"]))
    audits.journal.write_bytes(b"".join(ALL))
    renewing = "renewing from serial 2, 8 lines were taken out"
    audits.copy("renewed from a line on", "--renew", ends=(0, [renewing]))
    audits.same("renewed from a line on")
    kept = ask("SELECT count(digest), count(arrived) FROM streetmap_journal_replaced")
    context.check("what was taken out", kept, [(9, 9)])


def check_upgrade(audits: Audits) -> None:
    """A table of an earlier version goes on as before, and gets digests by one command."""
    ask, context = audits.database.ask, audits.context
    ask(EARLIER)
    ask("DROP TABLE streetmap_journal_replaced")
    audits.journal.write_bytes(b"".join(ALL[:4]))
    for count in (4, 6):
        audits.journal.write_bytes(b"".join(ALL[:count]))
        audits.copy(f"{count} lines of before", "--once", ends=(0, [audits.lacking]))
    audits.row("an audit of it", "no_digest 1")
    filled = "digests are filled in up to serial 6"
    audits.copy("the upgrade", "--upgrade", ends=(0, [filled]))
    audits.same("upgraded", 6)
    audits.copy("once more", "--upgrade", ends=(0, ["no digest is missing"]))
    audits.journal.write_bytes(b"".join(ALL))
    audits.copy("further lines", "--once")
    audits.same("with further lines")
    context.check("lines without a time", ask(UNKNOWN), [(at,) for at in range(1, 7)])
    ask("UPDATE streetmap_journal SET digest = NULL WHERE serial > 3 AND serial <> 6")
    filled = "digests are filled in up to serial 9"
    audits.copy("an upgrade that was cut", "--upgrade", ends=(0, [filled]))
    audits.same("and gone on with")


def check_audits(context: Context, cluster: Database) -> None:
    audits = Audits.new(context, cluster, "audits")
    check_digests(audits)
    check_journals(audits)
    check_table(audits)
    check_putting(audits)
    check_upgrade(audits)
