"""Rows for journal_to_postgres.py: a table that is made, gone on with, and another server's."""

import re
import subprocess
from dataclasses import dataclass, replace
from pathlib import Path

from followers_tests.postgres import Database
from followers_tests.processes import DEPLOY, PYTHON, Script
from followers_tests.rows import ENDED, LINES, OTHER, TEXTS, lines_of
from harness import Context
from operating_tests.document import commands_of

SCRIPT = "journal_to_postgres.py"
# Bytes that a database has to keep as they are: quotes, a backslash, and none of ASCII.
ODD = '{"edits":[],"key":"odd"}'.replace("[]", '[{"x":"\u20ac\'\\\\\\"%s"}]').encode()


@dataclass
class Tables:
    """A database of its own, a journal, and the script between them."""

    context: Context
    database: Database
    journal: Path

    def row(
        self,
        what: str,
        lines: list[bytes],
        ends: str | None,
        kept: list[bytes],
        *words: str,
    ) -> None:
        """Puts a journal in. Wanted: the fault, and the lines of the table after it."""
        self.journal.write_bytes(b"".join(lines))
        status, said = self.ends(*(words or ("--once",)))
        said = [it for it in said if not it.startswith("renewing")]
        self.context.check(what, (status, said), (1, [ends]) if ends else ENDED)
        found = self.database.journal()
        self.context.check(f"{what}: the table", found, b"".join(kept))

    def ends(self, *words: str) -> tuple[int, list[str]]:
        return Script(self.context, SCRIPT).ends(self.journal, self.database.dsn, *words)


def check_tables(context: Context, database: Database) -> None:
    database.ask_alone("CREATE DATABASE rows")
    own = replace(database, name="rows")
    tables = Tables(context, own, context.folder / "tables.journal")
    row = tables.row
    row("the first lines", LINES[:3], None, LINES[:3])
    row("the same again", LINES[:3], None, LINES[:3])
    row("an older journal", LINES[:2], None, LINES[:3])
    row("a cut line", [*LINES[:4], LINES[4][:-1]], None, LINES[:4])
    row("more lines", LINES[:6], None, LINES[:6])
    zeroed = [*LINES[:6], LINES[6].replace(b"b7", b"b\0"), LINES[7]]
    row("a zero byte amid lines", zeroed, "bad_line 7", LINES[:6])
    row("a journal from the end on", LINES[5:7], None, LINES[:7])
    row("a journal behind the end", LINES[7:], None, LINES)
    row("a journal far behind the end", lines_of([OTHER], 11), "lines_missing 9 10", LINES)
    row("another last text", [*LINES[:7], *lines_of([OTHER], 8)], "other_text 8", LINES)
    row("another text in an older journal", lines_of([*TEXTS[:2], OTHER]), "other_text 3", LINES)
    forked = lines_of([*TEXTS[:2], OTHER, *TEXTS[3:7], OTHER])
    row("texts that differ before the last", forked, "other_text 3", LINES)
    row("a line that is none", [*LINES, b"9\n", LINES[0]], "bad_line 9", LINES)
    row("a last line that is none", [*LINES, b"9\n"], "bad_line 9", LINES)
    bad = b'9\t{"edits":["\xff"],"key":"x"}\n'
    row("a line that is no UTF-8", [*LINES, bad], "bad_line 9", LINES)
    more = lines_of([ODD, *(b'{"edits":[],"key":"m%d"}' % at for at in range(250))], 9)
    row("many lines, and odd bytes", [*LINES, *more], None, [*LINES, *more])
    wrong: list[tuple[str | Path, ...]] = [(), ("", own.dsn), (tables.journal, "")]
    for given in wrong:
        context.check(f"the words {given}", Script(context, SCRIPT).ends(*given)[0], 2)
    check_words(tables)
    check_renewed(tables, [*LINES, *more], forked)
    check_two(tables)
    check_two_makers(tables)
    check_towns(tables)
    database.ask_alone("CREATE DATABASE parts")
    check_parts(context, replace(database, name="parts"))


def check_renewed(tables: Tables, before: list[bytes], forked: list[bytes]) -> None:
    """A table that is made again from the first line that differs. What it had stays beside it."""
    row, check = tables.row, tables.context.check
    row("renewed, nothing differs", before, None, before, "--renew")
    row("renewed, no line", [], f"no_lines {tables.journal}", before, "--renew")
    late = lines_of([OTHER], 999)
    row("renewed, a journal far behind", late, "lines_missing 260 998", before, "--renew")
    tables.journal.write_bytes(b"".join(forked))
    check("the documented command", renew_as_documented(tables), 0)
    # Others, which have no lease, would be refused after it.
    tables.database.ask("DROP TABLE streetmap_lease")
    check("another's", tables.database.journal(), b"".join(forked))
    query = "SELECT serial || E'\\t' || batch || E'\\n' FROM streetmap_journal_replaced"
    kept = "".join(str(row[0]) for row in tables.database.ask(f"{query} ORDER BY serial"))
    check("what was taken out", kept.encode(), b"".join(before[2:]))
    row("a shorter one", LINES[:2], None, LINES[:2], "--renew")


def renew_as_documented(tables: Tables) -> int:
    """The status of the documented command that makes a table again, without its unit."""
    (commands,) = commands_of("Making the table again")
    _, command, _ = re.split(r"sudo systemctl st.*\n", commands)
    for old, new in (
        ("sudo -u streetmap python3 /usr/share/streetmap/deploy", f"{PYTHON} -B {DEPLOY}"),
        ("/var/lib/streetmap/town.journal", str(tables.journal)),
        ("/var/lib/streetmap/town.lease", str(tables.journal.with_suffix(".lease"))),
        ("postgresql:///streetmap", tables.database.dsn),
    ):
        command = command.replace(old, new)
    return subprocess.run(["sh", "-ec", command], capture_output=True, check=False).returncode


def check_two(tables: Tables) -> None:
    """Two scripts that put the same lines in at once: each goes on, and no line is there twice."""
    context, lines = tables.context, lines_of(
        [b'{"edits":[],"key":"t%d"}' % at for at in range(9000)]
    )
    tables.database.ask("DROP TABLE streetmap_journal")
    tables.journal.write_bytes(b"".join(lines))
    words = Script(context, SCRIPT).command(tables.journal, tables.database.dsn, "--once")
    both = [subprocess.Popen(words, stderr=subprocess.DEVNULL) for _ in range(2)]
    context.check("two at once", [it.wait(context.seconds) for it in both], [0, 0])
    context.check("two at once: the table", tables.database.journal() == b"".join(lines), True)
    tables.row("a shorter one", LINES, None, LINES, "--renew")


def check_two_makers(tables: Tables) -> None:
    """Two scripts that make the table, or a town's, at the same time: each goes on."""
    tables.journal.write_bytes(b"".join(LINES))
    for at in range(6):
        more = ["--town", f"two_{at}"] if at % 2 else []
        if not more:
            tables.database.ask("DROP TABLE streetmap_journal")
        words = Script(tables.context, SCRIPT).command(tables.journal, tables.database.dsn, *more)
        both = [subprocess.Popen([*words, "--once"], stderr=subprocess.DEVNULL) for _ in range(2)]
        ended = [it.wait(tables.context.seconds) for it in both]
        tables.context.check(f"two makers {more}", ended, [0, 0])
        if more:
            tables.database.ask(f"DROP SCHEMA streetmap_two_{at} CASCADE")


def check_towns(tables: Tables) -> None:
    """Towns of one database, each with tables of its own, beside the table of no town."""
    check, dsn = tables.context.check, tables.database.dsn
    for town, texts in (("harbour", TEXTS[:2]), ("a_1", [OTHER])):
        tables.journal.write_bytes(b"".join(lines_of(texts)))
        for word in ("--once", "--renew"):
            status, _ = tables.ends("--town", town, word)
            check(f"the town {town}, {word}", status, 0)
        query = f"SELECT batch FROM streetmap_{town}.streetmap_journal ORDER BY serial"
        kept = [str(row[0]).encode() for row in tables.database.ask(query)]
        check(f"the lines of {town}", kept, texts)
        shown = subprocess.run(["sh", "-c", words_of_line(dsn, 1, town)], capture_output=True)
        check(f"the words of {town}", shown.stdout, b"1\t" + texts[0] + b"\n")
    check("the table of no town", tables.database.journal(), b"".join(LINES))
    for town in ("Harbour", "a-b", "1a", "a" * 41):
        check(f"the town {town}", tables.ends("--town", town)[0], 2)


def check_parts(context: Context, database: Database) -> None:
    """A journal of several files, by the path of one of them. A line that lies in none is a fault,
    and so is one that is missing in the middle of a transaction."""
    journal, script = context.folder / "table-parts.journal", Script(context, SCRIPT)

    def row(what: str, files: dict[int, list[bytes]], ends: str | None, count: int) -> None:
        for path in context.folder.glob(f"{journal.name}.*"):
            path.unlink()
        for number, lines in files.items():
            journal.with_name(f"{journal.name}.{number:012}").write_bytes(b"".join(lines))
        first = journal.with_name(f"{journal.name}.{1:012}")
        got = script.ends(first, database.dsn, "--once")
        context.check(what, got, (1, [ends]) if ends else ENDED)
        context.check(f"{what}: the table", database.journal(), b"".join(LINES[:count]))

    row("a missing file", {1: LINES[:2], 4: LINES[3:]}, "lines_missing 3 3", 0)
    row("two files", {1: LINES[:2], 3: LINES[2:4]}, None, 4)
    row("a third", {1: LINES[:2], 3: LINES[2:4], 5: LINES[4:6]}, None, 6)
    row("an empty last file", {3: LINES[2:4], 5: LINES[4:7], 8: []}, None, 7)
    row("the last file alone", {8: LINES[7:]}, None, 8)


def check_words(tables: Tables) -> None:
    """The command that follow.py shows for a line of a table prints that line."""
    command = words_of_line(tables.database.dsn, 9)
    printed = subprocess.run(["sh", "-c", command], capture_output=True, check=False)
    tables.context.check("the words of a line", printed.stdout, b"9\t" + ODD + b"\n")


def words_of_line(dsn: str, serial: int, town: str = "") -> str:
    """The command that follow.py shows for a line of a table."""
    code = "import sys; from journal_table import TableSource as T; print(T(*sys.argv[2:]).words"
    words = Script.python("-c", f"{code}(int(sys.argv[1])))", str(serial), dsn, town)
    ended = subprocess.run(words, cwd=DEPLOY, capture_output=True, text=True, check=True)
    return ended.stdout
