"""`batches`, `apply`, `serve --journal`, `check --replay`: journals cut, swapped, and another's.

What `batches` prints is compared with the rows that SQLite finds. `apply` of it, in any number of
sittings, makes the same rows in all four tables. Lines that are cut, left out, swapped or refused
are reported by their numbers, and the lines before them are applied. A server completes a journal
that begins its own, and refuses any other. A replay finds each row that no batch made.
"""

import json
import random
import re
from collections.abc import Iterator
from dataclasses import dataclass
from pathlib import Path
from typing import Any

from examples import text_path
from harness import Context, Word
from loading import load_words, sequence
from messages import Edit, delete, feature, insert_lamp, open_collection, point, post, put
from model import compact
from served_journal import check_serving, journal_of
from sqlite_file import Rows, change, copy_file, forget, kept_rows, make_format_1, rows

MOST_OF_LINE = 16 * 2**20
MOST_OF_BODY = 8_388_608
COUNTS = "key, opened, inserted, replaced, deleted, serial"
REPLIES = f"SELECT {COUNTS} FROM streetmap_batches ORDER BY serial"
LINE = {"type": "LineString", "coordinates": [[0, 9], [7, -3, 5]]}
DATED = {"when": "2024-05-01T00:00:00Z/..", "no": 1, "t": '"\\\t\u007f\u20ac\U0001f5fa'}
WORKS = open_collection("works", time="when", title="Works")
TOWN: dict[str, list[Edit]] = {
    "b1": [open_collection("lamps"), put("insert", "lamps", feature("L1", point(1000, 2000)))],
    "b2": [WORKS, put("insert", "works", feature("dig", LINE, DATED))],
    "b3": [insert_lamp(2), insert_lamp(3)],
    "b4": [put("replace", "works", feature("dig", None, DATED)), delete("lamps", "L3")],
    "b5": [],
    "b6": [open_collection("trees")],
    "b7": [insert_lamp(4)],
    "b8": [delete("lamps", "L4"), insert_lamp(5)],
}
COUNTED = b"ok 3 4 8\n"


def sent(key: str, edits: list[Edit]) -> str:
    return json.dumps({"key": key, "edits": edits})


def town_file(context: Context, name: str) -> Path:
    return context.new_file(name, *(post(sent(*it)) for it in TOWN.items()))


def bare(key: str, *edits: Any) -> bytes:
    return f"{sent(key, list(edits))}\n".encode()


def replies_of(file: Path) -> list[bytes]:
    """The reply lines to the batches that a file keeps."""
    names = COUNTS.split(", ")
    found = [dict(zip(names, row, strict=True)) for row in rows(file, REPLIES)]
    return [f"{compact(reply)}\n".encode() for reply in found]


# What batches prints


def check_batches(context: Context, file: Path) -> None:
    lines = journal_of(file)
    context.check("batches", context.run("batches", file), b"".join(lines))
    for after in range(len(lines) + 3):
        words: list[Word] = ["batches", file, "--after", str(after)]
        context.check(f"behind {after}", context.run(*words), b"".join(lines[after:]))
    context.check("of an empty file", context.run("batches", context.new_file("empty")), b"")
    old = copy_file(file, context.folder / "format-1")
    make_format_1(old)
    context.check("of a file of format 1", context.run("batches", old), b"".join(lines))
    context.check("which is carried over", kept_rows(old), kept_rows(file))
    for line in ("batches", "batches a b", "batches a --after", "batches a --after x"):
        context.run(*line.split(), status=2, code="usage")
    context.run("batches", context.folder / "none", status=1, code="no_file")
    text = text_path(context, "no-file", b"no tables\n" * 200)
    context.run("batches", text, status=1, code="not_ours")
    with context.serve(file):
        context.run("batches", file, status=3, code="device")
    with open("/dev/full", "wb") as full:
        ended = context.start("batches", file, stdout=full)
    failed = (3, b"streetmap: write_failed\n")
    context.check("a full output", (ended.returncode, ended.stderr), failed)
    context.check("nothing changes", context.run("check", file), COUNTED)


def check_posts(context: Context, file: Path) -> None:
    """What follows the tab of each line is a batch that `POST /batches` takes."""
    texts = [line.split(b"\t", 1)[1] for line in context.run("batches", file).splitlines()]
    other = context.new_file("posted", *map(post, texts))
    context.check("the rows of what was posted", kept_rows(other) == kept_rows(file), True)


# What apply does


@dataclass
class Follower:
    """Applies lines to files, and compares these with what the first lines of a town make."""

    context: Context
    town: Path
    lines: list[bytes]
    replies: list[bytes]
    states: list[list[Rows]]
    count: int = 0

    @classmethod
    def of(cls, context: Context, town: Path) -> "Follower":
        """The states of the town, which are made by posts."""
        file = context.new_file("states")
        states = [kept_rows(file)]
        for made in TOWN.items():
            (answer,) = context.pipe(file, post(sent(*made)))
            context.check(f"the batch {made[0]}", answer.status, 200)
            states.append(kept_rows(file))
        context.check("the last state", states[-1] == kept_rows(town), True)
        return cls(context, town, journal_of(town), replies_of(town), states)

    def file(self, applied: int = 0) -> Path:
        """A new file with the first batches of the town."""
        self.count += 1
        posts = [post(sent(*it)) for it in list(TOWN.items())[:applied]]
        return self.context.new_file(f"follower-{self.count}", *posts)

    def applies(
        self, what: str, file: Path, text: bytes, state: int, fault: str | None = None
    ) -> bytes:
        """Applies a text, and checks how it ends and what the file then is."""
        ended = self.context.start("apply", file, sent=text)
        errors = b"" if fault is None else f"streetmap: {fault}\n".encode()
        got = (ended.returncode, ended.stderr)
        self.context.check(f"{what}: how it ends", got, (1 if fault else 0, errors))
        self.context.check(f"{what}: the rows", kept_rows(file) == self.states[state], True)
        printed: bytes = ended.stdout
        return printed


def check_whole(follower: Follower) -> None:
    """A journal at once, from a file and from standard input, and again."""
    context, whole = follower.context, b"".join(follower.lines)
    last, replies = len(follower.lines), b"".join(follower.replies)
    file = follower.file()
    for what in ("a journal", "the same again"):
        context.check(what, follower.applies(what, file, whole, last), replies)
    context.check("its counts", context.run("check", file), COUNTED)
    other, source = follower.file(), text_path(context, "journal", whole)
    context.check("from a file", context.run("apply", other, source), replies)
    context.check("the rows from a file", kept_rows(other) == kept_rows(follower.town), True)
    bodies = b"".join(line.split(b"\t", 1)[1] for line in follower.lines)
    printed = follower.applies("bare batches", follower.file(), bodies, last)
    context.check("replies to bare batches", printed, replies)
    mixed = bodies.splitlines(keepends=True)[:3] + follower.lines[3:]
    follower.applies("bare batches and lines", follower.file(), b"".join(mixed), last)
    posted = b"".join(bare(key, *edits) for key, edits in TOWN.items())
    follower.applies("batches as they were posted", follower.file(), posted, last)
    context.check("no line", follower.applies("no line", follower.file(), b"", 0), b"")


def check_sittings(follower: Follower) -> None:
    """Any number of sittings, each of which begins at or before where the file is."""
    last = len(follower.lines)
    for seed in range(100 if follower.context.slow else 15):
        chance, file, state = random.Random(seed), follower.file(), 0
        while state < last:
            start, end = chance.randint(0, state), chance.randint(1, last)
            if start < end:
                state = max(state, end)
                text = b"".join(follower.lines[start:end])
                what = f"sitting {seed}, lines {start + 1} to {end}"
                printed = follower.applies(what, file, text, state)
                wanted = b"".join(follower.replies[start:end])
                follower.context.check(f"{what}: replies", printed, wanted)
        forget(file)


RING = {"type": "Polygon", "coordinates": [[[0, 0], [9, 0], [0, 0]]]}
OTHER = [open_collection("lamps"), insert_lamp(9)]


def with_serial(serial: int, line: bytes) -> bytes:
    return b"%d\t%b" % (serial, line.partition(b"\t")[2] or line)


def faults(lines: list[bytes]) -> Iterator[tuple[str, int, list[bytes], int, str]]:
    """What is applied: how many batches are there before, the lines, the state after them, and the
    fault that is reported."""
    one, two, three, four = lines[:4]
    yield "two lines swapped", 0, [one, three, two], 1, "not_the_next 2"
    yield "a line left out", 0, [one, two, four], 2, "not_the_next 3"
    yield "a line from the middle", 0, [two], 0, "not_the_next 1"
    yield "a line far behind", 2, lines[6:], 2, "not_the_next 1"
    yield "a serial too high", 0, [one, with_serial(3, two)], 1, "not_the_next 2"
    yield "a serial too low", 1, [with_serial(1, two)], 1, "not_the_next 1"
    yield "a repeat under another serial", 3, [with_serial(1, two)], 3, "not_the_next 1"
    yield "two lines swapped that are there", 4, [two, one, three, lines[5]], 4, "not_the_next 4"
    yield "another text of a key", 2, [with_serial(1, bare("b1", *OTHER))], 2, "key_used 1"
    yield "a used key", 2, [one, with_serial(3, bare("b1", *OTHER))], 2, "key_used 2"
    yield "a used key, bare", 2, [two, bare("b2")], 2, "key_used 2"
    refused = bare("c", insert_lamp(8), insert_lamp(2))
    yield "a refused batch", 3, [two, three, refused, four], 3, "feature_exists 3 2"
    yield "a refused line", 3, [with_serial(4, refused)], 3, "feature_exists 1 2"
    yield "no collection", 0, [bare("c", insert_lamp(1))], 0, "no_collection 1 1"
    bad = put("insert", "lamps", feature("R", RING))
    yield "a bad feature", 0, [one, bare("c", insert_lamp(9), bad)], 1, "bad_feature 2 2 short_ring"
    yield "a bad edit", 0, [one, two, bare("c", insert_lamp(9), {})], 2, "bad_batch 3 2"
    yield "a bad batch", 0, [one, b'{"key":"c"}\n'], 1, "bad_batch 2"
    yield "no JSON", 0, [b"{\n", one], 0, "bad_batch 1"
    yield "a bad key", 0, [one, bare("c d")], 1, "bad_key 2"
    yield "too many edits", 0, [one, bare("c", *[{}] * 10_001)], 1, "too_many_edits 2"


# Lines that are none of a journal and no batch, after two that are. No name is wanted for them.
NO_LINES = (
    b"x",
    b"3",
    b"0\t{}",
    b"\t{}",
    b"3 {}",
    b"x\t{}",
    b"-3\t{}",
    b"3\t",
    b"3\tx",
    b"3\t{",
    b"[]",
)


def check_faults(follower: Follower) -> None:
    """The first line that is not accepted ends it, by its number, and those before it stay."""
    for what, before, lines, state, fault in faults(follower.lines):
        file = follower.file(before)
        printed = follower.applies(what, file, b"".join(lines), state, fault)
        count = int(fault.split(" ")[1]) - 1
        follower.context.check(f"{what}: replies", printed.count(b"\n"), count)
        last = len(follower.lines)
        follower.applies(f"{what}: gone on", file, b"".join(follower.lines), last)
    for line in NO_LINES:
        file, text = follower.file(), b"".join([*follower.lines[:2], line, b"\n"])
        ended = follower.context.start("apply", file, sent=text)
        told = re.fullmatch(rb"streetmap: [a-z_]+ 3( [0-9]+)?\n", ended.stderr) is not None
        follower.context.check(f"{line!r}: {ended.stderr!r}", (ended.returncode, told), (1, True))
        follower.context.check(f"{line!r}: the rows", kept_rows(file) == follower.states[2], True)


def check_cuts(follower: Follower) -> None:
    """A journal that is cut at each byte of its last two lines, and then comes whole."""
    whole, last = b"".join(follower.lines), len(follower.lines)
    first, path = follower.file(last - 2), follower.context.folder / "cut"
    for size in range(len(b"".join(follower.lines[:-2])), len(whole)):
        text = whole[:size]
        state = text.count(b"\n")
        fault = None if text.endswith(b"\n") else f"cut_line {state + 1}"
        follower.applies(f"cut at {size}", copy_file(first, path), text, state, fault)
        follower.applies(f"cut at {size}, then whole", path, whole, last)
    cut = bare("c")[:-1]
    follower.applies("a bare batch that is cut", follower.file(), cut, 0, "cut_line 1")
    only = follower.lines[0][:-1]
    follower.applies("one line that is cut", follower.file(), only, 0, "cut_line 1")


def check_long_lines(context: Context) -> None:
    """Lines of as many bytes as there may be, and of one more."""
    file = context.new_file("long")
    for number, prefix in ((1, b""), (2, b"2\t")):
        text = prefix + b'{"key":"l%d","edits":[]}' % number
        context.run("apply", file, sent=text.ljust(MOST_OF_LINE) + b"\n")
        context.check("a long line", context.run("check", file), b"ok 0 0 %d\n" % number)
        over, fault = text.ljust(MOST_OF_LINE + 1) + b"\n", "line_too_long 1"
        context.run("apply", file, sent=over, status=1, code=fault)
    kept = b'{"key":"l3","edits":[]}\n'
    context.run("apply", file, sent=kept + over, status=1, code="line_too_long 2")
    context.check("what is before it", context.run("check", file), b"ok 0 0 3\n")


def check_large_batch(context: Context) -> None:
    """An import whose batch text is larger than a body comes out as a line, and goes in again."""
    opened = post(sent("o", [open_collection("lamps")]))
    file, other = context.new_file("large", opened), context.new_file("large-too")
    features = [
        '{"type":"Feature","geometry":{"type":"Point","coordinates":[%d,7]},"properties":'
        '{"t":"%s"}}' % (at, "x" * 720)
        for at in range(10_000)
    ]
    text = f'{{"type":"FeatureCollection","features":[{",".join(features)}]}}'
    source = text_path(context, "large.json", text)
    context.run("import", file, source, "--key", "i", "--collection", "lamps")
    printed = context.run("batches", file)
    context.check("a text larger than a body", len(printed) > MOST_OF_BODY > len(text), True)
    context.check("its lines", printed == b"".join(journal_of(file)), True)
    context.run("apply", other, sent=printed)
    context.check("its rows", kept_rows(other) == kept_rows(file), True)


def check_printed_load(context: Context) -> None:
    """What `load --print` writes comes by `apply` to what `load` does."""
    text = sequence([compact(insert_lamp(at)["feature"]) for at in range(100)])
    words = ["--open", "--each", "7"]
    loaded, applied = context.new_file("loaded"), context.new_file("applied")
    context.run(*load_words(loaded, None, "k", *words), sent=text)
    printed = context.run(*load_words(applied, None, "k", *words, "--print"), sent=text)
    context.run("apply", applied, sent=printed)
    context.check("printed and applied", kept_rows(applied) == kept_rows(loaded), True)


def check_words(context: Context, town: Path) -> None:
    """Options, files and devices that are at fault."""
    for line in ("apply", "apply a b c", "apply a --nothing", "apply a --replace b"):
        context.run(*line.split(), status=2, code="usage")
    journal = text_path(context, "words.journal", b"".join(journal_of(town)))
    none, file = context.folder / "none", context.new_file("words")
    context.run("apply", none, journal, status=1, code="no_file")
    context.run("apply", file, none, status=1, code="no_text")
    context.run("apply", file, context.folder, status=3, code="read_failed")
    context.check("nothing is applied", context.run("check", file), b"ok 0 0 0\n")
    with context.serve(file):
        context.run("apply", file, journal, status=3, code="device")
    with open("/dev/full", "wb") as full:
        ended = context.start("apply", file, journal, stdout=full)
    failed = (3, b"streetmap: write_failed\n")
    context.check("a full output", (ended.returncode, ended.stderr), failed)
    context.run("apply", file, journal)
    context.check("gone on with", kept_rows(file) == kept_rows(town), True)


def check_applying(context: Context, town: Path) -> None:
    """All of `apply` that needs no other command."""
    follower = Follower.of(context, town)
    check_whole(follower)
    check_sittings(follower)
    check_faults(follower)
    check_cuts(follower)
    check_long_lines(context)
    check_words(context, town)


# What check --replay finds

# Changes of the town's rows, each of which leaves the rows of a state, and what is found.
CHANGES = {
    "body = replace(body, '\"no\":1', '\"no\":2') WHERE id = 'dig'": "works",
    "x0 = 999, x1 = 999, body = replace(body, '1000,', '999,') WHERE id = 'L1'": "lamps",
    "title = 'Woods' WHERE id = 'trees'": "trees",
    "time = 'when' WHERE id = 'trees'": "trees",
    "body = 'none' WHERE serial = 2": "2",
    'body = \'{"edits":[],"key":"b3"}\' WHERE serial = 3': "3",
    "inserted = 7 WHERE serial = 7": "7",
    "key = 'b9' WHERE serial = 8": "8",
}


def table_of(changed: str) -> str:
    """The table that has the column which says where a change is."""
    if "serial" in changed:
        return "batches"
    return "collections" if "'trees'" in changed else "features"


def check_replays(context: Context, town: Path) -> None:
    def replayed(file: Path) -> tuple[int, bytes, bytes]:
        ended = context.start("check", file, "--replay")
        return ended.returncode, ended.stdout, ended.stderr

    context.check("a town is its replay", replayed(town), (0, COUNTED, b""))
    empty = context.new_file("no batches")
    context.check("so is no batch at all", replayed(empty), (0, b"ok 0 0 0\n", b""))
    file = context.folder / "changed"
    for changed, wanted in CHANGES.items():
        copy_file(town, file)
        change(file, f"UPDATE streetmap_{table_of(changed)} SET {changed}")
        fault = f"streetmap: not_replayed {wanted}\n".encode()
        context.check(changed, replayed(file), (1, b"", fault))
    copy_file(town, file)
    change(file, "DELETE FROM streetmap_collections WHERE id = 'trees'")
    fault = b"streetmap: not_replayed trees\n"
    context.check("a collection is missing", replayed(file), (1, b"", fault))


def run(context: Context) -> None:
    town, none = town_file(context, "town"), context.folder / "none"
    context.check("the counts of the town", context.run("check", town), COUNTED)
    batches, applies = context.takes("batches", none), context.takes("apply", none)
    loads = context.takes(*load_words(none, None, "k"))
    if batches:
        check_batches(context, town)
        check_posts(context, town)
    if applies:
        check_applying(context, town)
    if batches and applies:
        check_large_batch(context)
    if loads and applies:
        check_printed_load(context)
    words = ("--port", "1", "--journal", context.folder / "none.journal")
    if context.takes("serve", none, *words):
        check_serving(context, town)
    if context.takes("check", none, "--replay"):
        check_replays(context, town)
