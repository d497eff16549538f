"""`load` beside plain rules: rows, random sessions, limits, kills, memory, progress.

A row (examples/loads.jsonl) has the texts of the batches before, the options, the TEXT, the batches
of the load (their keys, and of each edit the id, or `open`), the opening if any,
the causes of the features at fault that are listed, and the fault that ends it. A session loads a
TEXT, the same again, and changed ones, into one file. The rows of each file are those of the model.
"""

import json
import os
import random
import re
import sqlite3
import subprocess
import time
from collections.abc import Callable, Iterator
from dataclasses import dataclass, replace
from pathlib import Path
from typing import Any

from examples import Row, rows_of, text_path
from harness import Context, Ended, Word, first_line
from loading import (
    MOST_BYTES,
    MOST_OF_EDIT,
    MOST_OF_KEY,
    Load,
    Loader,
    batch_text,
    faults_in,
    known_faults,
    ledger_rows,
    load_words,
    output_line,
    sequence,
)
from messages import OPEN_LAMPS, batch, feature, insert_lamp, point, post, put
from model import Ledger, compact, edit_text
from sqlite_file import Rows, copy_file, forget, kept_rows, rows

OPENING = {"key": "o", "edits": [OPEN_LAMPS]}
BATCHES = "SELECT key, body FROM streetmap_batches WHERE serial > {} ORDER BY serial"
NO_SEQUENCE = b"streetmap: not_a_sequence\n"
# What the description of a TEXT that is no sequence names.
MAKERS = (b"ogr2ogr -f GeoJSONSeq", b"jq -c '.features[]'")


# Rows


def name_of(edit: dict[str, Any]) -> str:
    found: str = "open" if edit["op"] == "open" else edit["feature"]["id"]
    return found


def errors_of(listed: dict[int, str], fault: str | None) -> bytes:
    """What standard error has: the features at fault, and the fault that ended the load."""
    told = [f"bad_feature {place} {cause}" for place, cause in sorted(listed.items())]
    return "".join(f"streetmap: {it}\n" for it in [*told, *([fault] if fault else [])]).encode()


def check_errors(context: Context, what: str, ended: Ended, wanted: bytes) -> None:
    """Standard error. If it says more of a TEXT that is no sequence, it names what makes one."""
    named = wanted == NO_SEQUENCE and all(it in ended.stderr for it in MAKERS)
    if named and ended.stderr.startswith(NO_SEQUENCE.rstrip()):
        wanted = ended.stderr
    context.check(f"{what}: standard error", ended.stderr, wanted)


def check_row(context: Context, name: str, row: Row, is_input: bool) -> None:
    """A row over a new file; its TEXT is a file, or standard input."""
    what = f"{row['what']}: {row['text']!r} {row['words']}"
    file = context.new_file(name, *map(post, row["before"]))
    text = row["text"].encode()
    source = None if is_input else text_path(context, f"{name}.text", text)
    words = load_words(file, source, "k", *row["words"].split())
    ended = context.start(*words, sent=text if is_input else b"")
    listed = {int(place): cause for place, cause in row.get("listed", {}).items()}
    fault, loaded = row.get("fault"), row["loaded"]
    context.check(f"{what}: status", ended.returncode, 1 if fault or listed else 0)
    check_errors(context, what, ended, errors_of(listed, fault))
    count = len(row["before"])
    batches = [(key, json.loads(body)) for key, body in rows(file, BATCHES.format(count))]
    kept = {key: [name_of(edit) for edit in body["edits"]] for key, body in batches}
    context.check(f"{what}: batches", kept, loaded)
    operations = {edit["op"] for _, body in batches for edit in body["edits"]} - {"open"}
    wanted = {"replace" if "--replace" in row["words"] else "insert"}
    context.check(f"{what}: {operations}", operations <= wanted, True)
    if "opening" in row:
        context.check(f"{what}: opening", batches[0][1]["edits"][0], row["opening"])
    if loaded and not fault:
        features = sum(it != "open" for names in loaded.values() for it in names)
        line = output_line(len(loaded), features, count + len(loaded))
        context.check(f"{what}: output", ended.stdout, line)


def check_rows(context: Context) -> None:
    for number, row in enumerate(rows_of("loads.jsonl")):
        for is_input in (False, True):
            check_row(context, f"row-{number}-{is_input}", row, is_input)


# Sessions


GEOMETRIES: list[Any] = [
    None,
    point(7, -31),
    {"type": "LineString", "coordinates": [[0, 12], [33, 29, 5]]},
    {"type": "Polygon", "coordinates": [[[5, 5], [5, 25], [25, 25], [5, 5]]]},
    {"type": "GeometryCollection", "geometries": [point(1, 2), None, point(3, 4)]},
    {"type": "MultiPoint", "coordinates": []},
]
PROPERTIES: list[Any] = [
    None,
    {"when": "2024-05-01", "name": 'Am "Tor" 3\\4, \u00e9\u20ac\U0001f5fa\t'},
    {"when": "2024-05-02T10:00:00.5Z", "no": [1, -2, {"b": None, "a": True}]},
    {"when": "../2024-04-01T00:00:00Z"},
    {"when": None, "": ""},
]
SOON = {"when": "soon"}
DECORATIONS = ("{}\n", "{}\n", "{}\r\n", "\x1e{}\n", "\n{}\n", " {} \n", "\x1e{}\r\n\r\n")


@dataclass
class Source:
    """A TEXT of a session: the JSON texts of its features, and those among them that are at fault
    by the places of these."""

    texts: list[str]
    bad: dict[int, str]
    ending: str = "\n"

    def text(self, chance: random.Random) -> bytes:
        lines = [chance.choice(DECORATIONS).format(it) for it in self.all()]
        mark = chance.choice(("", "", "\ufeff"))
        text = (mark + "".join(lines)).removesuffix("\r\n").removesuffix("\n")
        return text.encode() + self.ending.encode()

    def all(self) -> list[str]:
        return [self.bad.get(at, text) for at, text in enumerate(self.texts)]


# In front of others: foreign members, and members that are given once more after them.
IN_FRONT = (
    '"bbox":[0,0,1,1]',
    '"note":{"a":[1,"b"]}',
    '"id":"other"',
    '"type":"Other"',
    '"geometry":{"type":"Point","coordinates":[1]}',
    '"properties":0',
)


def a_feature(chance: random.Random, name: str, soon: float) -> str:
    """The text of a feature that can be read, in some order of members, now and then an unusual
    one."""
    properties = SOON if chance.random() < soon else chance.choice(PROPERTIES)
    made = feature(name, chance.choice(GEOMETRIES), properties)
    if chance.random() < 0.15:
        del made["id"]
    members = list(made.items())
    chance.shuffle(members)
    is_plain = chance.random() < 0.5
    text = json.dumps(dict(members), ensure_ascii=is_plain)
    is_usual = chance.random() < 0.8
    return text if is_usual else f"{{{chance.choice(IN_FRONT)},{text[1:]}"


def a_source(chance: random.Random, faults: list[str], count: int) -> Source:
    """Features, now and then one twice or at fault; the first line has a sound one."""
    soon = chance.choice((0, 0, 0.1))
    names = [f"f{at}" for at in range(count)]
    if count > 3 and chance.random() < 0.2:
        names[chance.randrange(count)] = "f1"
    texts = [a_feature(chance, name, soon) for name in names]
    often = chance.choice((0, 0, 0.05, 0.3))
    bad = {at: chance.choice(faults) for at in range(1, count) if chance.random() < often}
    return Source(texts, bad, chance.choice(("\n", "")))


def a_load(chance: random.Random) -> Load:
    opens = chance.random() < 0.6
    return Load(
        key="k",
        each=chance.choice((1, 2, 3, 5, 10, 1_000)),
        opens=opens,
        title=chance.choice((None, "Lampen \u00e9")) if opens else None,
        time=chance.choice((None, "when")) if opens else None,
        skips=chance.random() < 0.4,
    )


def changed_load(chance: random.Random, load: Load) -> Load:
    """The options with another one, which changes the texts or not, or another key."""
    others = [
        replace(load, each=chance.choice((1, 2, 4, 7, 1_000))),
        replace(load, replaces=not load.replaces),
        replace(load, key="l", opens=False, title=None, time=None, replaces=True, skips=False),
        replace(load, skips=not load.skips),
    ]
    if load.opens:
        others.append(replace(load, title="Other"))
    return chance.choice(others)


@dataclass
class Session:
    """Loads into one file, each beside the model."""

    context: Context
    file: Path
    ledger: Ledger
    faults: dict[str, str]

    def load(self, what: str, load: Load, text: bytes) -> None:
        model = Loader(self.ledger, load, self.faults)
        fault = model.run(text)
        ended = self.context.start("load", self.file, *load.words(), sent=text)
        what = f"{self.file.name}, {what}: {' '.join(load.words())}"
        self.context.check(f"{what}: status", ended.returncode, 1 if fault or model.listed else 0)
        errors = errors_of(model.listed, fault)
        self.context.check(f"{what}: standard error", ended.stderr, errors)
        if fault is None and model.batches:
            self.context.check(f"{what}: output", ended.stdout, model.output())
        same = kept_rows(self.file) == ledger_rows(self.ledger)
        self.context.check(f"{what}: the rows of the model", same, True)


def play(context: Context, name: str, chance: random.Random, faults: dict[str, str]) -> None:
    """A TEXT, the same options again, the TEXT mended, with more text, and with other options."""
    load = a_load(chance)
    opening = {"key": "o", "edits": [{**OPEN_LAMPS, "time": "when"}]}
    ledger, before = Ledger(), [] if load.opens else [opening]
    for made in before:
        ledger.apply(made)
    file = context.new_file(name, *(post(json.dumps(it)) for it in before))
    session = Session(context, file, ledger, faults)
    source = a_source(chance, list(faults), chance.choice((0, 1, 4, 12, 30)))
    text = source.text(chance)
    session.load("first", load, text)
    session.load("again", load, text)
    mended = Source(source.texts, {}, "\n")
    session.load("mended", load, mended.text(chance))
    more = [a_feature(chance, f"g{at}", 0) for at in range(chance.randint(1, 5))]
    session.load("more", load, Source(source.texts + more, {}).text(chance))
    session.load("changed", changed_load(chance, load), text)
    session.load("again at last", load, mended.text(chance))
    context.check(f"{name}: the counts", context.run("check", file), ledger.counted())
    forget(file)


def check_sessions(context: Context) -> None:
    known = known_faults()
    for seed in range(600 if context.slow else 60):
        play(context, f"session-{seed}", random.Random(seed), known)


# Limits


def named_text(name: str, size: int) -> str:
    """The text of a feature of `size` bytes, as it is kept."""
    made = feature(name, None, {"t": ""})
    return compact({**made, "properties": {"t": "x" * (size - len(compact(made)))}})


def edit_size(text: str) -> int:
    return len(compact(edit_text(put("insert", "lamps", json.loads(text)))))


def check_large_features(context: Context) -> None:
    """Batches end by their bytes, at the limit and one after it."""
    ledger = Ledger()
    ledger.apply(OPENING)
    file = context.new_file("large", batch("o", [OPEN_LAMPS]))
    session = Session(context, file, ledger, {"{": "not_json"})
    beyond = edit_size(named_text("a", 100)) - 100
    empty = len(batch_text({"key": "k.1", "edits": []}))
    left = MOST_BYTES - empty - 3 * beyond - len(",,") - 3_000_000 - 2_000_000
    for key, more in (("k", 0), ("l", 1)):
        sizes = (3_000_000, 2_000_000, left + more, 4_000_000, 5_000_000, 700)
        texts = [named_text(f"{key}{at}", size) for at, size in enumerate(sizes)]
        session.load("up to a fault", Load(key), sequence([*texts, "{"]))
        session.load("mended", Load(key), sequence(texts))
    sizes_kept = "SELECT max(length(CAST(body AS BLOB))) FROM streetmap_batches"
    context.check("a batch at the limit", rows(file, sizes_kept), [(MOST_BYTES,)])


def check_large_edits(context: Context) -> None:
    """The largest edit, and one byte more."""
    file = context.new_file("edits", batch("o", [OPEN_LAMPS]))
    beyond = edit_size(named_text("a", 100)) - 100
    most, over = (named_text(name, MOST_OF_EDIT - beyond + at) for at, name in enumerate("ab"))
    sent = sequence([named_text("z", 90), most])
    ended = context.start(*load_words(file, None, "m"), sent=sent)
    context.check("the largest edit", (ended.returncode, ended.stderr), (0, b""))
    context.check("its batches", ended.stdout, output_line(2, 2, 3))
    sent, words = sequence([named_text("y", 90), over]), load_words(file, None, "o", "--each", "1")
    context.run(*words, sent=sent, status=1, code="too_large 2")
    context.check("what is before it", context.run("check", file), b"ok 1 3 4\n")
    sent = sequence([named_text("x", 90), over])
    context.run(*load_words(file, None, "p"), sent=sent, status=1, code="too_large 2")
    context.check("nothing of a batch under way", context.run("check", file), b"ok 1 3 4\n")


def check_long_lines(context: Context) -> None:
    """Lines of as many bytes as there may be, and of one more, which ends the load."""
    file = context.new_file("lines", batch("o", [OPEN_LAMPS]))
    most, over = ('{"type":"Feature"}'.ljust(MOST_BYTES + at) for at in (0, 1))
    sent = sequence(['{"type":"Feature"}', most])
    context.check("a long line", context.run(*load_words(file, None, "k"), sent=sent)[:12], LINE)
    context.check("its features", context.run("check", file), b"ok 1 2 2\n")
    for number, (words, end) in enumerate((((), "\n"), (("--skip",), "\n"), ((), ""))):
        sent = sequence(['{"type":"Feature","id":"a"}', "", over])[:-1] + end.encode()
        given = load_words(file, None, f"l{number}", *words)
        context.run(*given, sent=sent, status=1, code="line_too_long 2")
        context.check("nothing of it", context.run("check", file), b"ok 1 2 2\n")
    checked = load_words(file, None, "l", "--check")
    context.run(*checked, sent=sent, status=1, code="line_too_long 2")


LINE = b'{"batches":1'


def check_counts(context: Context) -> None:
    """The most edits of a batch; the longest key."""
    file, key = context.new_file("counts"), "k" * MOST_OF_KEY
    sent = sequence(['{"type":"Feature"}'] * 20_001)
    words = load_words(file, None, key, "--open", "--each", "10000")
    context.check("20,001 features", context.run(*words, sent=sent), output_line(3, 20_001, 3))
    kept = rows(file, "SELECT key, opened + inserted FROM streetmap_batches ORDER BY serial")
    context.check("batches", kept, [(f"{key}.{at}", it) for at, it in LARGEST])
    context.check("again", context.run(*words, sent=sent), output_line(3, 20_001, 3))


LARGEST = ((1, 10_000), (2, 10_000), (3, 2))


# Faults of options, files and devices


WRONG_WORDS = """
load
load a
load a --key k
load a --collection c
load a t u --key k --collection c
load a --key k --collection c --each 0
load a --key k --collection c --each 10001
load a --key k --collection c --each x
load a --key k --collection c --each -1
load a --key k --collection c --title T
load a --key k --collection c --time P
load a --key k --collection c --open --open
load a --key k --collection c --replace=true
load a --key k --collection c --nothing
"""


def check_faults(context: Context) -> None:
    for line in WRONG_WORDS.split("\n")[1:-1]:
        context.run(*line.split(), status=2, code="usage")
    none, file = context.folder / "none", context.folder / "faults"
    source = text_path(context, "one.text", sequence(['{"type":"Feature"}']))
    context.run(*load_words(file, source, "k"), status=1, code="no_file")
    context.check("no file is made", file.exists(), False)
    context.new_file("faults", batch("o", [OPEN_LAMPS]))
    context.run(*load_words(file, none, "k"), status=1, code="no_text")
    for key in ("k" * (MOST_OF_KEY + 1), "k 1", "\u00e9"):
        context.run(*load_words(file, none, key), status=1, code="bad_key")
    context.run(*load_words(file, context.folder, "k"), status=3, code="read_failed")
    words: list[Word] = ["load", file, source, "--key", "k", "--collection"]
    context.run(*words, "a b", status=1, code="bad_batch")
    context.run(*load_words(source, source, "k"), status=1, code="same_file")
    other = text_path(context, "other.text", sequence(many(1)))
    context.run(*load_words(source, other, "k"), status=1, code="not_ours")
    context.check("nothing is applied", context.run("check", file), b"ok 1 0 1\n")
    with context.serve(file):
        context.run(*load_words(file, source, "k"), status=3, code="device")
    with open("/dev/full", "wb") as full:
        ended = context.start(*load_words(file, source, "k"), stdout=full)
    failed = (3, b"streetmap: write_failed\n")
    context.check("a full output", (ended.returncode, ended.stderr), failed)
    again = context.run(*load_words(file, source, "k"))
    context.check("sent again for its line", again, output_line(1, 1, 2))
    sent = b'{"type":"Feature","id":"a"}\n{"type":"Feature","id":"\xff"}\n'
    context.run(*load_words(file, None, "u"), sent=sent, status=1, code="bad_feature 2 not_json")


# Prints, progress


def many(count: int, start: int = 0) -> list[str]:
    """The texts of lamps."""
    return [compact(insert_lamp(at)["feature"]) for at in range(start, start + count)]


def check_print(context: Context) -> None:
    """`--print` writes the texts of the batches, a line each, and applies none."""
    ledger, load = Ledger(), Load("k", each=7, opens=True, time="when")
    Loader(ledger, load, {}).run(sequence(many(40)))
    file = context.new_file("printed")
    wanted = [json.loads(row[1]) for row in ledger_rows(ledger)[2]]
    wanted.sort(key=lambda it: int(it["key"].removeprefix("k.")))
    before = kept_rows(file)
    words: list[Word] = ["load", file, *load.words(), "--print"]
    printed = context.run(*words, sent=sequence(many(40)))
    lines = "".join(f"{compact(it)}\n" for it in wanted).encode()
    context.check("the lines of --print", printed, lines)
    context.check("nothing is applied", kept_rows(file), before)


def check_progress(context: Context) -> None:
    """Lines on standard error say how far it is, and all else is as without them."""
    source = text_path(context, "many.text", sequence(many(3_000)))
    file = context.new_file("progress")
    ended = context.start(*load_words(file, source, "k", "--open", "--progress"))
    context.check("progress: status", ended.returncode, 0)
    context.check("progress: output", ended.stdout, output_line(4, 3_000, 4))
    told = [line.startswith(b"streetmap: ") for line in ended.stderr.splitlines()]
    context.check(f"progress: {ended.stderr!r}", told and all(told), True)
    line = rb"streetmap: 2000 features, \d+ bytes, \d+ %(, \d+ a second)?, \d+ s left\n"
    context.check("progress of the text", bool(re.search(line, ended.stderr)), True)
    with source.open("rb") as text:
        words = load_words(context.new_file("piped"), None, "k", "--open", "--progress")
        ended = context.start(*words, stdin=text)
    line = rb"streetmap: 2000 features, \d+ bytes(, \d+ a second)?\n"
    context.check("progress of standard input", bool(re.search(line, ended.stderr)), True)
    other = context.new_file("quiet")
    context.run(*load_words(other, source, "k", "--open"))
    context.check("the rows are the same", kept_rows(file) == kept_rows(other), True)
    own, terminal = os.openpty()
    ended = context.start(*load_words(other, source, "k", "--open"), stderr=terminal)
    os.close(terminal)
    context.check("on a terminal: output", ended.stdout, output_line(4, 3_000, 4))
    context.check("on a terminal: features", b"features" in read_terminal(own), True)
    os.close(own)


def read_terminal(descriptor: int) -> bytes:
    """What was written to a terminal whose other end is shut."""
    os.set_blocking(descriptor, False)
    try:
        return os.read(descriptor, 65_536)
    except OSError:
        return b""


# Streams, kills, memory


def within_seconds(test: Callable[[], bool]) -> bool:
    """Whether a test passes before long."""
    end = time.monotonic() + STREAM_SECONDS
    while time.monotonic() < end:
        if test():
            return True
        time.sleep(0.02)
    return False


STREAM_SECONDS = 20


def started(context: Context, file: Path, *words: str) -> subprocess.Popen[bytes]:
    """A load of standard input, in batches of two."""
    given = [str(context.program), *map(str, load_words(file, None, "k", "--each", "2", *words))]
    return subprocess.Popen(given, stdin=subprocess.PIPE, stdout=subprocess.PIPE)


def send_lamps(process: subprocess.Popen[bytes], number: int) -> None:
    assert process.stdin is not None
    process.stdin.write(sequence(many(2, 2 * number)))
    process.stdin.flush()


def count_left(context: Context, file: Path) -> int:
    """How many batches a copy of a file has that is being written."""
    try:
        return len(left_rows(context, file)[2])
    except sqlite3.Error:
        return 0


def check_streams(context: Context) -> None:
    """A batch is applied, or printed, once it has its number of edits, before more comes."""
    opened = batch("o", [OPEN_LAMPS])
    file, printed = (context.new_file(name, opened) for name in ("stream", "stream-printed"))
    with started(context, file) as process:
        for number in range(3):
            send_lamps(process, number)
            came = within_seconds(lambda: count_left(context, file) == number + 2)
            context.check(f"batch {number + 1} of a stream is applied", came, True)
        process.kill()
    context.check("what a killed stream leaves", count_left(context, file), 4)
    with started(context, printed, "--print") as process:
        assert process.stdout is not None
        for number in range(3):
            send_lamps(process, number)
            line = first_line(process.stdout, STREAM_SECONDS) or b"{}"
            key = json.loads(line).get("key")
            context.check("a batch of a stream is printed", key, f"k.{number + 1}")
        process.kill()
    context.check("what is printed is not applied", count_left(context, printed), 1)


def start_load(context: Context, file: Path, source: Path) -> subprocess.Popen[bytes]:
    words = [str(context.program), *map(str, load_words(file, source, "k", *STOPPED_WORDS))]
    return subprocess.Popen(words, stdout=subprocess.DEVNULL, stderr=subprocess.DEVNULL)


STOPPED_WORDS = ("--open", "--each", "50")
STOPPED_FEATURES = 6_000


def killed(context: Context, file: Path, source: Path, seconds: float) -> bool:
    """Starts a load and kills it so late. Returns whether it had not ended."""
    process = start_load(context, file, source)
    time.sleep(seconds)
    is_running = process.poll() is None
    process.kill()
    process.wait(context.seconds)
    return is_running


def left_rows(context: Context, file: Path) -> list[Rows]:
    """The rows that a kill has left. They are read in a copy, which SQLite changes."""
    return kept_rows(copy_file(file, context.folder / "left"))


def begins(left: list[Rows], whole: list[Rows]) -> bool:
    """Whether rows are those of the first batches of the whole."""
    count = len(left[2])
    batches = [row for row in whole[2] if row[-1] <= count]
    names = [name_of(it) for row in batches for it in json.loads(row[1])["edits"]]
    features = [row for row in whole[3] if row[1] in set(names)]
    return left[2] == batches and left[3] == features


def check_stops(context: Context) -> None:
    """Loads that are killed at random moments, each continued with the same options."""
    source = text_path(context, "stopped.text", sequence(many(STOPPED_FEATURES)))
    file = context.new_file("whole")
    words = load_words(file, source, "k", *STOPPED_WORDS)
    begun = time.monotonic()
    printed = context.run(*words)
    took = time.monotonic() - begun
    whole, ledger = kept_rows(file), Ledger()
    Loader(ledger, Load("k", each=50, opens=True), {}).run(source.read_bytes())
    context.check("a load that is not stopped", whole == ledger_rows(ledger), True)
    chance, stopped = random.Random(time.time_ns()), 0
    for at in range(50 if context.slow else 3):
        file, late = context.new_file(f"stopped-{at}"), chance.uniform(0, took)
        stopped += killed(context, file, source, late)
        what = f"stopped after {late:.3f} s"
        context.check(f"{what}: first batches", begins(left_rows(context, file), whole), True)
        while chance.random() < 0.5:
            killed(context, file, source, chance.uniform(0, took))
        context.check(what, context.run("load", file, *words[2:]), printed)
        context.check(f"{what}: the rows", kept_rows(file) == whole, True)
        forget(file)
    print(f"  stops: {stopped} before the end, in {took:.2f} s")


def peak_of(context: Context, words: list[Word], texts: Iterator[bytes]) -> int:
    """The most memory in KiB that a load of standard input has held before the last bytes."""
    given = [str(context.program), *map(str, words)]
    with subprocess.Popen(
        given, stdin=subprocess.PIPE, stdout=subprocess.DEVNULL, stderr=subprocess.DEVNULL
    ) as process:
        assert process.stdin is not None
        for text in texts:
            process.stdin.write(text)
        process.stdin.flush()
        status = Path(f"/proc/{process.pid}/status").read_text()
        process.stdin.close()
        context.check(f"{words[0]}: status", process.wait(context.seconds), 0)
    return int(status.partition("VmHWM:")[2].split()[0])


def lamps_by_thousands(count: int) -> Iterator[bytes]:
    for start in range(0, count, 1_000):
        yield sequence(many(1_000, start))


# The most KiB by which a longer TEXT may take more memory.
GROWTH = 2_048


def check_memory(context: Context) -> None:
    """Memory does not grow with TEXT: ten times as many features are checked, and loaded again."""
    file = context.new_file("memory", batch("o", [OPEN_LAMPS]))
    words = load_words(file, None, "k")
    peaks = [
        peak_of(context, [*words, "--check"], lamps_by_thousands(it)) for it in (20_000, 200_000)
    ]
    context.check(f"--check of 20,000 and 200,000: {peaks} KiB", grows(peaks), False)
    peak_of(context, words, lamps_by_thousands(100_000))
    loaded = [peak_of(context, words, lamps_by_thousands(it)) for it in (10_000, 100_000)]
    context.check(f"again 10,000 and 100,000: {loaded} KiB", grows(loaded), False)
    print(f"  KiB: {peaks} with --check, {loaded} again")


def grows(peaks: list[int]) -> bool:
    return peaks[1] > peaks[0] + GROWTH


def run(context: Context) -> None:
    if not context.takes(*load_words(context.folder / "none", None, "k")):
        return
    check_rows(context)
    check_sessions(context)
    check_large_features(context)
    check_large_edits(context)
    check_long_lines(context)
    check_counts(context)
    check_faults(context)
    check_print(context)
    check_progress(context)
    check_streams(context)
    check_stops(context)
    check_memory(context)
