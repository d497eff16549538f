"""`serve --journal`: journals that are completed, cut, of another file, and whose writes fail."""

import gzip
import os
from collections.abc import Iterator
from contextlib import contextmanager
from dataclasses import dataclass
from pathlib import Path

from harness import Context, Server, Word, free_port
from messages import insert_lamp, open_collection, post, put, feature
from model import compact
from sqlite_file import beside, copy_file, kept_rows, rows

LINES = "SELECT serial, body FROM streetmap_batches ORDER BY serial"


def journal_of(file: Path, after: int = 0) -> list[bytes]:
    """The lines of a journal, by the rows of the file."""
    found = [(serial, body) for serial, body in rows(file, LINES) if serial > after]
    return [f"{serial}\t{body}\n".encode() for serial, body in found]


@dataclass
class Served:
    """A file with batches, copies of which are served with a journal beside them."""

    context: Context
    source: Path
    lines: list[bytes]

    @classmethod
    def of(cls, context: Context, source: Path) -> "Served":
        return cls(context, source, journal_of(source))

    @property
    def file(self) -> Path:
        return self.context.folder / "served"

    @property
    def journal(self) -> Path:
        return self.context.folder / "served.journal"

    @property
    def whole(self) -> bytes:
        return b"".join(self.lines)

    def begin(self, journal: bytes | None) -> None:
        """A new copy of the file, and a journal of these bytes, or none."""
        copy_file(self.source, self.file)
        self.journal.unlink(missing_ok=True)
        if journal is not None:
            self.journal.write_bytes(journal)

    @contextmanager
    def serving(self, what: str, *words: str, first: int = 1) -> Iterator[Server]:
        """Serves with the journal, and checks the line after `listening`."""
        with self.context.serve(self.file, "--journal", str(self.journal), *words) as server:
            assert server.process.stdout is not None
            line = server.process.stdout.readline()
            last = len(self.lines)
            wanted = f"journal {self.journal} from {first} to {last}\n".encode()
            self.context.check(f"{what}: the line of the journal", line, wanted)
            yield server

    def completed(self, what: str, journal: bytes | None, after: int = 0, *words: str) -> None:
        """A journal of these bytes is completed at the start, after a serial."""
        self.begin(journal)
        with self.serving(what, *words, first=after + 1):
            kept = self.journal.read_bytes()
        self.context.check(what, kept == b"".join(self.lines[after:]), True)

    def refused(self, what: str, fault: str, journal: Path | None = None, status: int = 1) -> None:
        """The program ends with the fault and the status, and nothing is written."""
        path = journal or self.journal
        before = path.read_bytes() if path.is_file() else None
        kept = kept_rows(self.file)
        words: list[Word] = ["serve", self.file, "--port", str(free_port()), "--journal", path]
        ended = self.context.start(*words)
        said = ended.stderr.splitlines()[-1:]
        wanted = (status, [f"streetmap: {fault}".encode()])
        self.context.check(what, (ended.returncode, said), wanted)
        after = path.read_bytes() if path.is_file() else None
        self.context.check(f"{what}: the journal stays", after == before, True)
        self.context.check(f"{what}: the file stays", kept_rows(self.file) == kept, True)


def check_completing(served: Served) -> None:
    """Journals that are missing, begin the whole one, or are cut at each byte of their last two
    lines."""
    whole, lines, count = served.whole, served.lines, len(served.lines)
    served.completed("no journal", None)
    served.completed("an empty journal", b"")
    served.completed("the whole journal", whole)
    for size in range(1, count - 2):
        served.completed(f"{size} lines", b"".join(lines[:size]))
    step = 1 if served.context.slow else 7
    for size in range(len(b"".join(lines[:-2])), len(whole), step):
        served.completed(f"a journal cut at byte {size}", whole[:size])
    served.completed("a journal that lacks a line feed", whole[:-1])
    served.completed("a first line that is cut", whole[:5])


def check_rotated(served: Served) -> None:
    """Journals that begin after a serial."""
    for after in (1, len(served.lines) - 1):
        words = ("--journal-after", str(after))
        rest = b"".join(served.lines[after:])
        served.completed(f"behind {after}", None, after, *words)
        served.completed(f"behind {after}, again", rest, after, *words)
        served.completed(f"behind {after}, without the word", rest, after)
        served.completed(f"behind {after}, cut", rest[:-1], after, *words)


def check_zeros(served: Served) -> None:
    """A prefix of the next line and then zeros alone, as a crash leaves them, are taken off."""
    whole, lines = served.whole, served.lines
    served.completed("zeros after the last line", whole + bytes(4096))
    served.completed("zeros in the last line", whole[:-9] + bytes(9))
    served.completed("zeros for the last three lines", b"".join(lines[:-3]) + bytes(9_000))
    served.completed("zeros alone", bytes(len(whole)))


def with_serial(serial: int, text: bytes) -> bytes:
    return b"%d\t%b\n" % (serial, text)


def check_refused(served: Served) -> None:
    """Journals of another file, ahead of it, and with lines that were changed."""
    lines, last = served.lines, len(served.lines)
    more = with_serial(last + 1, b'{"edits":[],"key":"more"}')
    other = with_serial(1, b'{"edits":[],"key":"b1"}')
    changed = lines[3].replace(b"b4", b"b5")
    for what, fault, text in (
        ("a journal ahead", "journal_ahead", [*lines, more]),
        ("a journal far ahead", "journal_ahead", [*lines, more, with_serial(last + 2, b"{}")]),
        ("ahead, and a cut line", "journal_ahead", [*lines, more, more[:5]]),
        ("another file's", "not_its_journal 1", [other]),
        ("a changed line", "not_its_journal 4", [*lines[:3], changed, *lines[4:]]),
        ("a changed line, cut", "not_its_journal 4", [*lines[:3], changed, lines[4][:-1]]),
        ("a changed last line", f"not_its_journal {last}", [*lines[:-1], lines[-2]]),
        ("a line left out", "not_its_journal 3", [*lines[:2], *lines[3:]]),
        ("two lines swapped", "not_its_journal 2", [lines[0], lines[2], lines[1]]),
        ("a line twice", "not_its_journal 3", [*lines[:2], *lines[1:]]),
        ("another serial", "not_its_journal 2", [lines[0], b"3" + lines[1][1:]]),
        ("no journal's line", "not_its_journal 1", [b"lamps\n"]),
    ):
        served.begin(b"".join(text))
        served.refused(what, fault)
    zeros = bytes(len(lines[4]) - 1) + b"\n"
    for what, fault, journal in (
        ("a line ahead that is cut", "journal_ahead", served.whole + more[:-1]),
        ("the serial of one, cut", f"not_its_journal {last + 1}", served.whole + more[:1]),
        (
            "a zero in the last line",
            f"not_its_journal {last}",
            served.whole[:-9] + b"\0" + b"x" * 8,
        ),
        ("a line of zeros", "not_its_journal 5", b"".join([*lines[:4], zeros, *lines[5:]])),
        ("zeros, and a line ahead", "not_its_journal 5", b"".join([*lines[:4], zeros, more])),
        ("zeros, and a byte", "not_its_journal 1", bytes(4096) + b"1"),
    ):
        served.begin(journal)
        served.refused(what, fault)


def no_journals(served: Served) -> dict[str, bytes]:
    """Files that somebody names as a journal by mistake."""
    whole = served.whole
    picture = Path(__file__).parent.parent / "docs" / "map.png"
    return {
        "another town's file": served.source.read_bytes(),
        "a picture": picture.read_bytes(),
        "a text": b"Lamps of the town\nTrees of the town\n",
        "a text without its last line feed": b"Lamps of the town",
        "one byte": b"x",
        "an empty line": b"\n",
        "an export": b'{"type":"FeatureCollection","features":[]}',
        "a journal in a gzip file": gzip.compress(whole),
        "a journal with a byte order mark": b"\xef\xbb\xbf" + whole,
        "a journal in UTF-16": whole.decode().encode("utf-16"),
        "a journal with carriage returns": whole.replace(b"\n", b"\r\n"),
        "batches without serials": whole.split(b"\t", 1)[1],
        "a log with zeros in it": b"lamp\0tree\0" * 500,
    }


def check_no_journals(served: Served) -> None:
    """What is no journal of the file is refused and stays as it is, byte for byte; so does the file
    of a town that another process serves."""
    empty = served.context.new_file("no_batches")
    for what, found in no_journals(served).items():
        served.begin(found)
        served.refused(what, "not_its_journal 1")
        copy_file(empty, served.file)
        fault = "journal_ahead" if found.startswith(b"1\t") else "not_its_journal 1"
        served.refused(f"{what}, and a file without batches", fault)
    harbour = served.context.folder / "harbour"
    copy_file(served.source, harbour)
    served.begin(None)
    with served.context.serve(harbour) as server:
        served.refused("a file that is served", "not_its_journal 1", harbour)
        (answer,) = server.ask(post('{"key":"still","edits":[]}'))
        served.context.check("it is served on", answer.status, 200)
    served.begin(None)
    served.journal.mkdir()
    served.refused("a folder", "read_failed", status=3)
    served.journal.rmdir()


def check_same_file(served: Served) -> None:
    """A journal that is the file, or its log, by whatever name."""
    served.begin(None)
    linked, hard = served.context.folder / "linked", served.context.folder / "hard"
    linked.symlink_to(served.file)
    os.link(served.file, hard)
    for path in (served.file, linked, hard, beside(served.file)):
        if path.exists():
            served.refused(f"the journal {path.name}", "same_file", path)
    for path in (linked, hard):
        path.unlink()


ADDED = [
    ("n1", [open_collection("added", title="Added")]),
    ("n2", [put("insert", "added", feature("A1", None, {"t": "\u20ac"}))]),
    ("n3", []),
    ("n4", [insert_lamp(40), insert_lamp(41)]),
]


def added_lines(served: Served) -> list[bytes]:
    """The lines of the batches that are added while it serves, by the rows that they make."""
    served.begin(served.whole)
    for key, edits in ADDED:
        text = post(compact({"key": key, "edits": edits}))
        (answer,) = served.context.pipe(served.file, text)
        served.context.check(f"the batch {key}", answer.status, 200)
    return journal_of(served.file, len(served.lines))


def send_added(server: Server, number: int) -> int:
    """The status of the answer to a batch that is added."""
    key, edits = ADDED[number]
    (answer,) = server.ask(post(compact({"key": key, "edits": edits})))
    return answer.status


def check_growing(served: Served, added: list[bytes]) -> None:
    """Each line is there before its answer; repeated and refused batches have none. What a
    kill leaves goes on."""
    context, wanted = served.context, served.whole
    served.begin(served.whole)
    for words in ((), ("--journal-sync",)):
        with served.serving("a journal that grows", *words) as server:
            for number in range(len(ADDED)):
                context.check("a batch", send_added(server, number), 200)
                if not words:
                    wanted += added[number]
                context.check("its line", served.journal.read_bytes() == wanted, True)
            (refused,) = server.ask(post('{"key":"n1","edits":[]}'))
            context.check("a refused batch", refused.status, 409)
            context.check("no line of it", served.journal.read_bytes() == wanted, True)
        served.lines = [*served.lines, *added] if not words else served.lines
    served.lines = served.lines[: -len(added)]
    context.check("the batches", context.run("batches", served.file), wanted)


def check_serving(context: Context, town: Path) -> None:
    """All of it that needs no library before the C library."""
    served = Served.of(context, town)
    check_completing(served)
    check_rotated(served)
    check_zeros(served)
    check_refused(served)
    check_no_journals(served)
    check_same_file(served)
    check_growing(served, added_lines(served))


# Writes of the journal that fail


@contextmanager
def failing(served: Served, calls: Path, count: int, fails: int, *words: str) -> Iterator[Server]:
    """Serves so that the journal's writes fail after `count` bytes, `fails` times."""
    given = {
        "LD_PRELOAD": str(served.context.folder / "fail.so"),
        "FILE": str(served.journal.resolve()),
        "FILE_BYTES": str(count),
        "FILE_FAILS": str(fails),
        "CALLS": str(calls),
    }
    before = {name: os.environ.get(name) for name in given}
    os.environ.update(given)
    try:
        with served.serving(f"writes that fail behind {count} bytes", *words) as server:
            yield server
    finally:
        for name, value in before.items():
            os.environ.pop(name) if value is None else os.environ.update({name: value})


def said_by(server: Server) -> list[str]:
    """What it has said of the journal on standard error."""
    lines = server.log.read_text().splitlines()
    return [line.partition(": ")[2] for line in lines if ": journal " in line]


def check_failing_writes(context: Context, town: Path) -> None:
    """Writes of the journal that fail once, or twice, after each count of bytes: each batch is
    answered, nothing is lost, and the journal is whole again after the next batch that can."""
    served, calls = Served.of(context, town), context.folder / "calls"
    added = added_lines(served)
    whole, first = served.whole + b"".join(added), len(served.lines) + 1
    for fails in (1, 2):
        for count in range(0, len(b"".join(added[:2])), 1 if context.slow else 29):
            served.begin(served.whole)
            what = f"{fails} writes that fail behind {count} bytes"
            at = 0 if count < len(added[0]) else 1
            with failing(served, calls, count, fails) as server:
                for number in range(len(ADDED)):
                    context.check(f"{what}: a batch", send_added(server, number), 200)
                    kept = served.journal.read_bytes()
                    context.check(f"{what}: a beginning", whole.startswith(kept), True)
                    if number == at:
                        size = len(served.whole) + count
                        context.check(f"{what}: what is there", len(kept), size)
                said = said_by(server)
            wanted = [f"journal behind from serial {first + at}"]
            # The next batch that can completes what is before it, and then has a line of its own.
            wanted.append(f"journal whole at {first + at + fails - 1}")
            context.check(f"{what}: what it says", said, wanted)
            context.check(f"{what}: whole", served.journal.read_bytes() == whole, True)
            context.check(f"{what}: the file", context.run("batches", served.file), whole)
    check_failing_last(served, calls, whole)
    check_synchronised(served, calls)


def check_failing_last(served: Served, calls: Path, whole: bytes) -> None:
    """A journal that still lacks batches at a shutdown is completed at the next start."""
    served.begin(served.whole)
    with failing(served, calls, 7, 1000) as server:
        for number in range(len(ADDED)):
            served.context.check("a batch", send_added(server, number), 200)
        said = said_by(server)
    wanted = [f"journal behind from serial {len(served.lines) + 1}"]
    served.context.check("what it says once", said, wanted)
    kept = served.journal.read_bytes()
    served.context.check("what is there", kept == whole[: len(served.whole) + 7], True)
    lines, served.lines = served.lines, journal_of(served.file)
    with served.serving("started again"):
        served.context.check("it is whole", served.journal.read_bytes() == whole, True)
    served.lines = lines


def check_synchronised(served: Served, calls: Path) -> None:
    """With `--journal-sync` each line is synchronised before its answer, else none is."""
    for words in ((), ("--journal-sync",)):
        served.begin(served.whole)
        with failing(served, calls, 0, 0, *words) as server:
            for number in range(len(ADDED)):
                calls.write_bytes(b"")
                served.context.check("a batch", send_added(server, number), 200)
                made = calls.read_text()
                served.context.check(f"the calls {words}", made[-1:], "s" if words else "w")
                served.context.check(f"writes {words}", "w" in made, True)
