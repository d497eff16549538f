"""Rows for restore.py: what it makes of files and of a table is the state of the server at that
serial, and nothing is made of what has gaps."""

import json
import time
from dataclasses import dataclass, field
from pathlib import Path
from typing import Any

from followers_tests.audits import EARLIER, Audits, digests_of
from followers_tests.postgres import Database
from followers_tests.processes import Script
from harness import Context
from messages import delete, feature, get, open_collection, point, post, put
from model import compact

BATCHES = 12
FEATURES = "/collections/lamps/items?limit=1000"


def batch(number: int) -> bytes:
    """Batches that open, insert, replace and delete."""
    lamp = feature(f"L{number}", point(number, number), {"t": "\u20ac" * number})
    edits: list[Any] = [put("insert", "lamps", lamp)]
    if number == 1:
        edits.insert(0, open_collection("lamps", title="Lamps"))
    if number % 3 == 0:
        edits.append(put("replace", "lamps", feature(f"L{number - 1}", point(-number, 7))))
    if number % 4 == 0:
        edits.append(delete("lamps", f"L{number - 3}"))
    return compact({"key": f"b{number}", "edits": edits}).encode()


def many(first: int, last: int) -> list[bytes]:
    """Lines of which a pipe cannot take all at once."""
    return [b'%d\t{"edits":[],"key":"m%d"}\n' % (serial, serial) for serial in range(first, last)]


@dataclass
class Restores:
    """A journal of a server, and what the server answered after each batch."""

    audits: Audits
    states: list[Any] = field(default_factory=list)
    lines: list[bytes] = field(default_factory=list)
    count: int = 0

    @property
    def context(self) -> Context:
        return self.audits.context

    @property
    def folder(self) -> Path:
        """A folder with files of a journal, as a backup has them."""
        return self.context.folder / "backup"

    def serve(self) -> None:
        """Serves a town, and keeps its features after each batch."""
        file, journal = self.context.new_file("restored-town"), self.audits.journal
        journal.unlink()
        words = ["--clients", "4", "--journal", str(journal)]
        with self.context.serve(file, *words) as server:
            for number in range(1, BATCHES + 1):
                answers = server.ask(post(batch(number)) + get(FEATURES))
                self.context.check("a batch", [it.status for it in answers], [200, 200])
                self.states.append(answers[1].json()["features"])
        self.lines = journal.read_bytes().splitlines(True)

    def write(self, files: dict[int, list[bytes]], name: str = "town") -> None:
        """Puts files of a journal into the folder, by their first serials."""
        self.folder.mkdir(exist_ok=True)
        for path in self.folder.glob(f"{name}.journal*"):
            path.unlink()
        for first, lines in files.items():
            number = f".{first:012}" if first else ""
            (self.folder / f"{name}.journal{number}").write_bytes(b"".join(lines))

    def run(self, source: str | Path, *words: str | Path) -> tuple[Path, str, list[str]]:
        """Restores into a new file; what is printed, and what is said."""
        self.count += 1
        file = self.context.folder / f"restored-{self.count}"
        given = [source, file, "--program", self.context.program, *words]
        printed, said = Script(self.context, "restore.py").prints(*given)
        return file, printed, said

    def row(self, what: str, source: str | Path, serial: int, *words: str | Path) -> list[str]:
        """A restore up to a serial: its state is that of the server then."""
        file, printed, said = self.run(source, *words)
        wanted = f"{file} has serial {serial}: {digests_of(self.lines)[serial - 1]}\n"
        self.context.check(what, printed, wanted)
        text = self.context.run("export", file, "--collection", "lamps")
        found = json.loads(text)["features"]
        self.context.check(f"{what}: the state", found == self.states[serial - 1], True)
        batches = self.context.run("batches", file)
        kept = b"".join(self.lines[:serial])
        self.context.check(f"{what}: the batches", batches == kept, True)
        return said

    def refused(
        self,
        what: str,
        fault: str,
        source: str | Path,
        *words: str | Path,
        begun: int | None = None,
    ) -> None:
        """A restore that ends with a fault, having begun a file up to a serial, or none."""
        file, _, said = self.run(source, *words)
        self.context.check(what, fault in said, True)
        self.context.check(f"{what}: the file", file.exists(), begun is not None)
        if begun is not None:
            self.context.check(f"{what}: how far", said[-1], f"{file} has serial {begun}")


def check_files(restores: Restores) -> None:
    """From the files of a journal, whole and up to a serial."""
    lines, folder = restores.lines, restores.folder
    restores.write({1: lines[:4], 5: lines[4:7], 8: lines[7:]})
    (folder / "town").write_bytes(b"no journal")
    restores.row("a folder", folder, BATCHES)
    restores.row("a path, up to a serial", folder / "town.journal", 6, "--until", "6")
    restores.write({0: lines[:4], 5: [*lines[4:9], lines[9][:-1]]})
    said = restores.row("one without a number, and a cut line", folder / "town.journal", 9)
    restores.context.check(
        "the cut line", said, ["the line after serial 9 is cut, and is left out"]
    )


def check_gaps(restores: Restores) -> None:
    """What has gaps, or is no journal: no file is made."""
    lines, folder, refused = restores.lines, restores.folder, restores.refused
    restores.write({1: lines[:4], 8: lines[7:]})
    refused("a missing file", "lines_missing 5 7", folder)
    refused("also up to a serial before", "lines_missing 5 7", folder, "--until", "3")
    restores.write({5: lines[4:]})
    refused("the first file", "lines_missing 1 4", folder)
    restores.write({1: lines[:4], 5: lines[4:6], 8: lines[7:]})
    refused("lines of a file", "lines_missing 7 7", folder)
    restores.write({1: [*lines[:4], lines[4][:-1]], 6: lines[5:]})
    refused("a cut line amid", "lines_missing 5 5", folder)
    restores.write({1: lines})
    refused("further than it goes", "lines_missing 13 20", folder, "--until", "20")
    refused("a time", "bad_time 2026-11-29", folder, "--until", "2026-11-29")
    zeroed = [*lines[:6], b"\0" + lines[6][1:], *lines[7:]]
    restores.write({1: zeroed})
    refused("a zero byte amid", "bad_line 7", folder)
    restores.write({1: [*lines[:4], lines[4].replace(b'"insert"', b'"delete"'), *lines[5:]]})
    refused("a line that is refused", "program_failed apply", folder, begun=4)
    restores.write({1: lines[:1], 2: [lines[1].replace(b"L2", b"L1"), *many(3, 20_000)]})
    refused("the same, and much after it", "program_failed apply", folder, begun=1)
    restores.write({1: lines})
    restores.write({1: lines}, "harbour")
    refused("two journals", f"several_journals {folder}", folder)
    restores.write({}, "harbour")
    restores.write({})
    refused("none", f"no_journal {folder}", folder)
    refused("no line", f"no_lines {folder}/town.journal", folder / "town.journal")


def check_never_over(restores: Restores) -> None:
    """A file that is there stays, and so does a log without its file."""
    context, folder = restores.context, restores.folder
    restores.write({1: restores.lines})
    for name in ("there", "log-wal"):
        path = context.folder / name
        path.write_bytes(b"kept")
        file = context.folder / name.removesuffix("-wal")
        given: list[str | Path] = [folder, file, "--program", context.program]
        printed, said = Script(context, "restore.py").prints(*given)
        context.check(name, (printed, said), ("", [f"exists {path}"]))
        context.check(f"{name}: what is there", path.read_bytes(), b"kept")
    _, printed, said = restores.run(folder, "--program", "/nowhere/streetmap")
    context.check("no program", (printed, said[0]), ("", "program_failed create"))


def check_table(restores: Restores) -> None:
    """From the table, up to a serial or a time of the database's clock."""
    audits, lines, refused = restores.audits, restores.lines, restores.refused
    dsn, ask = audits.database.dsn, audits.database.ask
    refused("no table", f"no_lines {dsn}", dsn)
    moments = []
    for count in (4, 9, BATCHES):
        audits.journal.write_bytes(b"".join(lines[:count]))
        audits.copy(f"{count} lines", "--once")
        ((moment,),) = ask("SELECT clock_timestamp()::text")
        moments.append(str(moment))
        time.sleep(0.1)
    restores.row("a table", dsn, BATCHES)
    restores.row("a table, up to a serial", dsn, 7, "--until", "7")
    said = restores.row("up to a time", dsn, 9, "--until", moments[1])
    restores.context.check(
        "the serial of a time", "it had serial 9, which came at" in said[0], True
    )
    restores.row("up to a time that has passed", dsn, BATCHES, "--until", "tomorrow")
    ((before,),) = ask("SELECT 'yesterday 14:00'::timestamptz::text")
    refused("before all", f"too_early {before}", dsn, "--until", "yesterday 14:00")
    refused("no time", "bad_time soon", dsn, "--until", "soon")
    refused("a serial after it", "lines_missing 13 13", dsn, "--until", "13")
    ask("UPDATE streetmap_journal SET arrived = NULL WHERE serial < 7")
    refused("a time that nobody knows", "no_time 6", dsn, "--until", moments[0])
    restores.row("one that is known", dsn, 9, "--until", moments[1])
    ask("UPDATE streetmap_journal SET batch = replace(batch, '{', '{ ') WHERE serial = 5")
    refused("a line that was changed", "other_digest 6", dsn, "--until", "6", begun=6)
    ask("DELETE FROM streetmap_journal WHERE serial = 3")
    refused("a line that is missing", "lines_missing 3 3", dsn, begun=2)
    ask(EARLIER)
    audits.copy("a table of before", "--once", ends=(0, [audits.lacking]))
    restores.row("a table of before", dsn, 5, "--until", "5")
    refused("a time of it", f"no_time {BATCHES}", dsn, "--until", "tomorrow")


def check_restores(context: Context, cluster: Database) -> None:
    restores = Restores(Audits.new(context, cluster, "restores"))
    restores.serve()
    check_files(restores)
    check_gaps(restores)
    check_never_over(restores)
    check_table(restores)
