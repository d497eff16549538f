"""Rows of lines and of features, limits, walks over pages, pages of large collections.

Each row is run over a ledger of its own. A row of lines (examples/rows.jsonl) has the lines that
are sent and the last answer. A row of features (examples/features.jsonl) has the text of a feature,
and the text that it is kept as or its first fault; its time is read from the property `when`.
"""

import json
from collections.abc import Iterator
from dataclasses import dataclass

from examples import answers_to, batch_line, error_text, rows_of
from harness import Context
from messages import OPEN_LAMPS, delete, feature, open_collection, point, put

MOST_BYTES = 8_388_608
MOST_EDITS = 10_000
MOST_POSITIONS = 100_000
TOO_MANY_EDITS = error_text("too_many_edits", "The batch has more than 10000 edits.")
UNREADABLE = "The batch cannot be read."
Asked = tuple[list[str], str]


def asked_of_feature(text: str, wanted: str) -> Asked:
    """The lines that insert and show a feature, and the last answer: it, or why it is refused."""
    opened = '{"op":"open","collection":"lamps","time":"when"}'
    inserted = f'{{"op":"insert","collection":"lamps","feature":{text}}}'
    sent = f'batch {{"key":"b1","edits":[{opened},{inserted}]}}'
    if wanted.startswith("{"):
        page = f'{{"features":[{wanted}],"numberMatched":1,"numberReturned":1}}'
        return [sent, "page lamps"], page
    if wanted == "not_json":
        return [sent], error_text("bad_batch", UNREADABLE)
    if wanted == "bad_time":
        description = "The time property of the feature cannot be read."
        return [sent], error_text("bad_time", description, place=2)
    description = "A feature of the batch cannot be read."
    return [sent], error_text("bad_feature", description, place=2, cause=wanted)


def points(before: int, *last: str) -> str:
    """A multipoint of `before` positions and these."""
    positions = ",".join([*["[1,2]"] * before, *last])
    return f'{{"type":"MultiPoint","coordinates":[{positions}]}}'


def kept_points(before: int, *last: str) -> str:
    positions = ",".join([*["[1,2]"] * before, *last])
    return f'{{"coordinates":[{positions}],"type":"MultiPoint"}}'


def limits_of_positions() -> Iterator[Asked]:
    """Features of as many positions as there may be, and of one more, which is not read further
    than that it is an array."""

    def answered(geometry: str, wanted: str) -> Asked:
        return asked_of_feature(
            f'{{"type":"Feature","id":1,"geometry":{geometry},"properties":null}}', wanted
        )

    def kept(geometry: str) -> str:
        return f'{{"geometry":{geometry},"id":"1","properties":null,"type":"Feature"}}'

    def both(first: str) -> str:
        second = '{"type":"Point","coordinates":[5,6]}'
        return f'{{"type":"GeometryCollection","geometries":[{first},{second}]}}'

    def kept_both(first: str) -> str:
        second = '{"coordinates":[5,6],"type":"Point"}'
        return f'{{"geometries":[{first},{second}],"type":"GeometryCollection"}}'

    most, last = MOST_POSITIONS, "[3,4]"
    yield answered(points(most - 1, last), kept(kept_points(most - 1, last)))
    for over in (last, "[3]", "[0.5,0]"):
        yield answered(points(most, over), "too_many_positions")
    yield answered(points(most, "7"), "bad_position")
    yield answered(both(points(most - 2, last)), kept(kept_both(kept_points(most - 2, last))))
    yield answered(both(points(most - 1, last)), "too_many_positions")


def limits_of_edits() -> Iterator[Asked]:
    """Batches of as many edits as there may be and of one more. Edits are counted after the key,
    and before they are read."""
    opened = batch_line("b1", [OPEN_LAMPS])
    turns = [put("insert", "lamps", feature("T")), delete("lamps", "T")] * (MOST_EDITS // 2 + 1)
    reply = '{"deleted":5000,"inserted":5000,"key":"m","opened":0,"replaced":0,"serial":2}'
    yield [opened, batch_line("m", turns[:MOST_EDITS])], reply
    yield [opened, batch_line("m", turns[: MOST_EDITS + 1])], TOO_MANY_EDITS
    nothing = [0] * MOST_EDITS
    yield [batch_line("b1", nothing)], error_text("bad_batch", UNREADABLE, place=1)
    yield [batch_line("b1", [*nothing, 0])], TOO_MANY_EDITS
    yield [batch_line("b 1", [*nothing, 0])], error_text(
        "bad_key", "The key of the batch cannot be read."
    )


def check_answers(context: Context) -> None:
    asked = [(row["lines"], row["answer"]) for row in rows_of("rows.jsonl")]
    asked += [asked_of_feature(row["feature"], row["answer"]) for row in rows_of("features.jsonl")]
    asked += [*limits_of_positions(), *limits_of_edits()]
    for lines, wanted in asked:
        got = answers_to(context, lines)[-1]
        context.check(f"at {[line[:200] for line in lines]}", got, wanted)


@dataclass(frozen=True)
class Page:
    """A query, the ids that its page shows, how many are selected, and the last id shown if
    more follow."""

    query: str
    shown: list[str]
    matched: int
    following: str | None = None


# Of this number of features, those of a thousand numbers in a row, a millimetre apart.
PAGES = {
    2_500: [
        Page("bbox=0,0,999,2&limit=3&after=p2499", ["p2500"], 2_500),
        Page("bbox=0,0,999,2&limit=3&after=p0010", ["p0011", "p0012", "p0013"], 2_500, "p0013"),
    ],
    100_000: [
        Page("bbox=10,20,12,22&limit=4", ["p20010", "p20011", "p20012", "p21010"], 9, "p21010"),
        Page("limit=3&after=p9999", ["p99990", "p99991", "p99992"], 100_000, "p99992"),
        Page("limit=3&after=p99997", ["p99998", "p99999"], 100_000),
        Page("bbox=0,0,999,100&limit=1&after=p99997", ["p99998"], 100_000, "p99998"),
    ],
}


def check_large_collections(context: Context) -> None:
    for count, pages in PAGES.items():
        numbers = range(1, count + 1)
        lines = [batch_line("open", [open_collection("many")])]
        for first in range(0, count, MOST_EDITS):
            edits = [
                put("insert", "many", feature(f"p{it:04}", point(it % 1000, it // 1000)))
                for it in numbers[first : first + MOST_EDITS]
            ]
            lines.append(batch_line(f"from{first}", edits))
        told = answers_to(context, [*lines, *(f"page many {page.query}" for page in pages)])
        for answer, wanted in zip(told[-len(pages) :], pages, strict=True):
            page = json.loads(answer)
            shown = [it["id"] for it in page["features"]]
            got = Page(wanted.query, shown, page["numberMatched"], page.get("next"))
            context.check(f"a page of {count} features", got, wanted)


SEVEN = {
    "g": point(5, 5),
    "b": point(6, 0),
    "d": point(2, 3),
    "a": point(0, 0),
    "f": None,
    "e": {"type": "LineString", "coordinates": [[-1, 1], [1, -1]]},
    "c": point(5, 0),
}


def check_walks(context: Context) -> None:
    """Walks over the pages of seven features, of which five meet a box: each page is read after
    the one before."""
    inserted = [put("insert", "seven", feature(*it)) for it in SEVEN.items()]
    opened = batch_line("seven", [open_collection("seven"), *inserted])
    for box, selected in (("", "abcdefg"), ("&bbox=0,0,5,5", "acdeg")):
        for limit in range(1, 9):
            last_ids = [selected[at - 1] for at in range(limit, len(selected), limit)]
            asked = [
                f"page seven limit={limit}{box}{after}"
                for after in ["", *(f"&after={it}" for it in last_ids)]
            ]
            pages = [json.loads(it) for it in answers_to(context, [opened, *asked])[1:]]
            shown = "".join(it["id"] for page in pages for it in page["features"])
            following = [page.get("next") for page in pages]
            matched = {page["numberMatched"] for page in pages}
            what = f"a walk by limit={limit}{box}"
            wanted = (selected, [*last_ids, None], {len(selected)})
            context.check(what, (shown, following, matched), wanted)


def check_lengths_of_lines(context: Context) -> None:
    """A line of as many bytes as there may be and of one more, its end not counted."""
    known = error_text("bad_command", "The command is not known.").encode() + b"\n"
    for length, end, fits in (
        (MOST_BYTES, b"", True),
        (MOST_BYTES, b"\n", True),
        (MOST_BYTES - 1, b"\r\n", True),
        (MOST_BYTES, b"\r\n", False),
        (MOST_BYTES + 1, b"", False),
        (MOST_BYTES + 1, b"\n", False),
        (10 * MOST_BYTES, b"", False),
    ):
        ended = context.start("lines", sent=b"x\n" + b"a" * length + end)
        got = ended.returncode, ended.stdout, ended.stderr
        wanted = (0, known * 2, b"") if fits else (1, known, b"streetmap: line_too_long\n")
        context.check(f"a line of {length} bytes and {end!r}", got, wanted)


def run(context: Context) -> None:
    check_answers(context)
    check_large_collections(context)
    check_walks(context)
    check_lengths_of_lines(context)
