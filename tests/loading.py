"""The rules of `load` in plain Python: from the lines of a TEXT to batches, and how it ends.

Nothing here was taken from an answer of the program. What a feature at fault is refused for is
in rows (examples/features.jsonl); the model knows such lines by their text.
"""

import json
import re
from collections.abc import Iterator
from dataclasses import dataclass, field
from pathlib import Path
from typing import Any

from examples import rows_of
from harness import Word
from messages import Edit, open_collection, put
from model import Interval, Ledger, Refused, box_of, compact, edit_text, read_time, vertices
from sqlite_file import Rows

MOST_BYTES = 8_388_608
# The most bytes of the text of one edit, and of a key that is numbered.
MOST_OF_EDIT, MOST_OF_KEY = 8_388_480, 44
EACH = 1_000
BOM, SEPARATOR = b"\xef\xbb\xbf", b"\x1e"
SECOND = 10**9
# The seconds of an interval that is open.
FIRST_SECOND, LAST_SECOND = -(10**12), 10**12
EXPONENT = re.compile(r"[0-9][eE]")


def sequence(texts: list[str]) -> bytes:
    """A TEXT with a feature a line."""
    return "".join(f"{text}\n" for text in texts).encode()


def load_words(file: Path, source: Path | None, key: str, *more: str) -> list[Word]:
    """The options of a load into the collection `lamps`; without a TEXT of standard input."""
    text: list[Word] = [] if source is None else [source]
    return ["load", file, *text, "--key", key, "--collection", "lamps", *more]


def output_line(batches: int, features: int, serial: int) -> bytes:
    """What `load` prints."""
    counts = {"batches": batches, "features": features, "serial": serial}
    return f"{compact(counts)}\n".encode()


def faults_in(errors: bytes) -> dict[int, str]:
    """The causes of the features at fault that standard error lists, by their places; a line that
    lists none has a negative number."""
    found: dict[int, str] = {}
    for at, line in enumerate(errors.decode().splitlines(), 1):
        words = line.split(" ")
        if words[:2] == ["streetmap:", "bad_feature"] and len(words) == 4 and words[2].isdigit():
            found[int(words[2])] = words[3]
        else:
            found[-at] = line
    return found


# From lines to features


def known_faults() -> dict[str, str]:
    """The causes of features at fault by their texts, but for faults of times, ids that are left
    out, and numbers with an exponent."""
    found = {row["feature"].strip(): row["answer"] for row in rows_of("features.jsonl")}
    return {
        text: answer
        for text, answer in found.items()
        if answer[0] != "{" and '"id"' in text and answer not in ("bad_time", "empty_interval")
        if EXPONENT.search(text) is None and "\n" not in text
    }


def lines_in(text: bytes) -> Iterator[str]:
    """The JSON texts of a TEXT, a line each."""
    for line in text.removeprefix(BOM).split(b"\n"):
        if found := line.removesuffix(b"\r").removeprefix(SEPARATOR):
            yield found.decode()


# From features to batches


@dataclass(frozen=True)
class Load:
    """The options of a load, but for its FILE and its TEXT."""

    key: str
    collection: str = "lamps"
    each: int = EACH
    opens: bool = False
    title: str | None = None
    time: str | None = None
    replaces: bool = False
    skips: bool = False

    def words(self) -> list[str]:
        words = ["--key", self.key, "--collection", self.collection]
        words += [] if self.each == EACH else ["--each", str(self.each)]
        words += ["--open"][: self.opens]
        words += [] if self.title is None else ["--title", self.title]
        words += [] if self.time is None else ["--time", self.time]
        return [*words, *["--replace"][: self.replaces], *["--skip"][: self.skips]]

    def opening(self) -> Edit:
        members = {"title": self.title, "time": self.time}
        given = {name: value for name, value in members.items() if value is not None}
        return open_collection(self.collection, **given)

    def edit(self, feature: Any) -> Edit:
        return put("replace" if self.replaces else "insert", self.collection, feature)

    def batch(self, number: int, edits: list[Edit]) -> dict[str, Any]:
        return {"key": f"{self.key}.{number}", "edits": edits}


class LoadEnded(Exception):
    """A load that ends before its end, by the fault that it reports."""


def batch_text(batch: dict[str, Any]) -> str:
    """The text of a batch, as a file keeps it."""
    return compact({"key": batch["key"], "edits": [edit_text(it) for it in batch["edits"]]})


@dataclass
class Loader:
    """A load into a ledger: the batch under way with the places of its edits, and what was done."""

    ledger: Ledger
    load: Load
    faults: dict[str, str]
    edits: list[Edit] = field(default_factory=list)
    places: list[int] = field(default_factory=list)
    size: int = 0
    listed: dict[int, str] = field(default_factory=dict)
    batches: int = 0
    features: int = 0
    serial: int = 0

    def run(self, text: bytes) -> str | None:
        """Loads a TEXT. Returns the fault that ended it."""
        try:
            if self.load.opens:
                self.add(self.load.opening(), 0)
            for place, line in enumerate(lines_in(text), 1):
                self.take(place, line)
            self.send()
        except LoadEnded as ended:
            return str(ended)
        return None

    def take(self, place: int, line: str) -> None:
        """The feature of a line, or the end if it is at fault and none is passed over."""
        cause = self.faults.get(line.strip())
        if cause is None:
            feature = {"id": str(place), **json.loads(line)}
            cause = self.cause_of_time(feature)
        if cause is None:
            self.add(self.load.edit(feature), place)
        elif self.load.skips:
            self.listed[place] = cause
        else:
            raise LoadEnded(f"bad_feature {place} {cause}")

    def cause_of_time(self, feature: Any) -> str | None:
        """What is wrong with the time of a feature, if features at fault are passed over."""
        kept = self.ledger.collections.get(self.load.collection)
        name = self.load.time if self.load.opens or kept is None else kept.time_property
        if self.load.skips:
            try:
                read_time(feature.get("properties"), name)
            except ValueError:
                return "bad_time"
        return None

    def add(self, edit: Edit, place: int) -> None:
        """Puts an edit into the batch under way, or into the next if that has no room for it."""
        size = len(compact(edit_text(edit)).encode())
        if size > MOST_OF_EDIT:
            raise LoadEnded(f"too_large {place}")
        if self.edits and self.size_with(size) > MOST_BYTES:
            self.send()
        self.size = self.size_with(size)
        self.edits.append(edit)
        self.places.append(place)
        if len(self.edits) == self.load.each:
            self.send()

    def size_with(self, size: int) -> int:
        """The bytes of the text of the batch under way with one more edit of `size` bytes."""
        if self.edits:
            return self.size + 1 + size
        return len(batch_text(self.load.batch(self.batches + 1, [])).encode()) + size

    def send(self) -> None:
        """Applies the batch under way, if it has an edit."""
        if not self.edits:
            return
        try:
            reply = self.ledger.apply(self.load.batch(self.batches + 1, self.edits))
        except Refused as refused:
            at = self.places[refused.body["place"] - 1] if "place" in refused.body else 0
            place = f" {at}" if at else ""
            raise LoadEnded(refused.body["code"] + place) from None
        self.batches += 1
        self.features += sum(place > 0 for place in self.places)
        self.serial = reply["serial"]
        self.edits, self.places = [], []

    def output(self) -> bytes:
        return output_line(self.batches, self.features, self.serial)


# The rows of a file


def seconds(time: Interval | None) -> tuple[int | None, int | None]:
    """The first and the last second of a time, as the rows of features have them."""
    if time is None:
        return None, None
    start = FIRST_SECOND if time.start is None else time.start // SECOND
    return start, LAST_SECOND if time.end is None else time.end // SECOND


def feature_rows(ledger: Ledger) -> Rows:
    found: Rows = []
    for name, collection in ledger.collections.items():
        for identity, feature in collection.features.items():
            box = box_of(vertices(feature.geometry))
            bounds = (None,) * 4 if box is None else (box.west, box.south, box.east, box.north)
            text = compact(feature.value)
            found.append((name, identity, text, *bounds, *seconds(feature.time)))
    return sorted(found, key=lambda row: (row[0].encode(), row[1].encode()))


def batch_rows(ledger: Ledger) -> Rows:
    found: Rows = []
    for key, (edits, reply) in ledger.accepted.items():
        counts = (reply[name] for name in ("opened", "inserted", "replaced", "deleted", "serial"))
        found.append((key, f'{{"edits":{edits},"key":"{key}"}}', *counts))
    return sorted(found, key=lambda row: str.encode(row[0]))


def ledger_rows(ledger: Ledger) -> list[Rows]:
    """The rows of the four tables of a file that keeps this (`kept_rows`)."""
    collections: Rows = [
        (name, it.title, it.time_property) for name, it in ledger.collections.items()
    ]
    return [[("format", 2)], sorted(collections), batch_rows(ledger), feature_rows(ledger)]
