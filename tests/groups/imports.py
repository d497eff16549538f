"""Rows of imports and exports, and of the texts that a file keeps of batches.

A row of imports (examples/imports.jsonl) has the text of a FeatureCollection, or the name of its
file, and what is exported once it was imported, or the fault that is reported; `key` and
`collection` are those of the command, if they are not `k` and `lamps`. A row of batches
(examples/batches.jsonl) has the batches that are there before, a batch, and the text that is kept.
"""

import contextlib
import sqlite3
from dataclasses import dataclass

from examples import EXAMPLES, rows_of, text_path
from harness import Context
from messages import OPEN_LAMPS, batch, open_collection, post

MOST_BYTES = 8_388_608
MOST_FEATURES = 10_000
TIMED = open_collection("timed", time="when")


@dataclass
class Importer:
    """Imports texts, each into a new file."""

    context: Context
    count: int = 0

    def exported(self, text: bytes, key: str = "k", collection: str = "lamps") -> str:
        """What is exported of a new file after the import of a text, or the fault reported."""
        self.count += 1
        file = self.context.new_file(f"{self.count}", batch("open", [OPEN_LAMPS, TIMED]))
        source = text_path(self.context, "text", text)
        into = ("--key", key, "--collection", collection)
        ended = self.context.start("import", file, source, *into)
        if ended.returncode != 0:
            return ended.stderr.decode().removeprefix("streetmap: ").removesuffix("\n")
        return self.context.run("export", file, "--collection", collection).decode()

    def check(self, what: str, wanted: str, text: bytes | str, **words: str) -> None:
        sent = text.encode() if isinstance(text, str) else text
        self.context.check(what, self.exported(sent, **words), wanted)


def check_rows(importer: Importer) -> None:
    for row in rows_of("imports.jsonl"):
        text = (EXAMPLES / row["file"]).read_bytes() if "file" in row else row["text"].encode()
        words = {name: row[name] for name in ("key", "collection") if name in row}
        wanted = row.get("fault") or row["exported"] + "\n"
        importer.check(f"{row['what']}: {text[:200]!r}", wanted, text, **words)


def collection_of(features: list[str]) -> str:
    return f'{{"features":[{",".join(features)}],"type":"FeatureCollection"}}'


def check_limits(importer: Importer) -> None:
    """Texts of as many bytes and features as there may be, and of one more; and bytes that are
    no UTF-8."""
    importer.check("no UTF-8 in a string", "not_json", b'"\xff"')
    importer.check("no UTF-8 behind a number", "not_json", b'[1.0,"\xc3"]')
    importer.check("a text at the limit", "not_json", b" " * MOST_BYTES)
    importer.check("a text over the limit", "text_too_large", b" " * (MOST_BYTES + 1))
    nameless = ['{"type":"Feature"}'] * MOST_FEATURES
    most, over = collection_of(nameless), collection_of([*nameless, nameless[0]])
    kept = [
        f'{{"geometry":null,"id":"{name}","properties":null,"type":"Feature"}}'
        for name in sorted(str(place) for place in range(1, MOST_FEATURES + 1))
    ]
    empty = collection_of([])
    importer.check("no feature", empty + "\n", empty)
    importer.check("as many features as there may be", collection_of(kept) + "\n", most)
    importer.check("one more", "too_many_edits", over)
    importer.check("one more under no key", "bad_key", over, key="b 1")
    importer.check("no feature under no key", "bad_key", empty, key="")
    behind = collection_of([*nameless, nameless[0], '{"type":"Point"}'])
    wanted = f"bad_feature {MOST_FEATURES + 2} wrong_type"
    importer.check("one at fault behind them", wanted, behind)


def check_exports_again(importer: Importer) -> None:
    """What is exported is in the order of ids, whatever order it came in, and it is exported
    again when it is imported."""
    for count in (0, 1, 1000, 1001, 2500):
        features = [
            f'{{"geometry":{{"coordinates":[{number},7],"type":"Point"}},'
            f'"id":"L{number}","properties":null,"type":"Feature"}}'
            for number in range(1001, 1001 + count)
        ]
        wanted = collection_of(features) + "\n"
        importer.check(f"an export of {count}", wanted, collection_of(features[::-1]))
        importer.check(f"the export of {count} again", wanted, wanted)


def check_kept_texts(context: Context) -> None:
    """What a file keeps of a batch; and that text under the same key is the same batch."""
    for number, row in enumerate(rows_of("batches.jsonl")):
        file = context.new_file(f"batches-{number}", *map(post, row["before"]))
        (accepted,) = context.pipe(file, post(row["batch"]))
        with contextlib.closing(sqlite3.connect(f"file:{file}?mode=ro", uri=True)) as db:
            asked = db.execute("SELECT body FROM streetmap_batches WHERE key = 'b1'")
            ((kept,),) = asked.fetchall()
        (again,) = context.pipe(file, post(kept))
        context.check(f"the text of {row['batch']}", kept, row["text"])
        context.check(f"the text of {row['batch']}, sent again", again, accepted)


def run(context: Context) -> None:
    importer = Importer(context)
    check_rows(importer)
    check_limits(importer)
    check_exports_again(importer)
    check_kept_texts(context)
