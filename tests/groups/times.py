"""Rows of times: what a text means as a property and in a query; random texts.

A row (examples/times.jsonl) has a text, and the first and the last nanosecond since 1970 that it
means as the time property of a feature (`property`) and as a `datetime` (`interval`): null for an
open end, and in place of both if it is refused. Or it has two texts, and whether they meet. What
is meant is found by the seconds that a file keeps, and by pages that begin and end at nanoseconds.
"""

import contextlib
import json
import sqlite3
from collections.abc import Iterator
from datetime import datetime, timezone
from urllib.parse import quote

from examples import Row, answers_to, batch_line, error_text, rows_of
from harness import Context
from messages import Edit, batch, feature, open_collection, put

SECOND = 10**9
# 0000-01-01T00:00:00+23:59 and 9999-12-31T23:59:59.999999999-23:59.
FIRST = -62_167_305_540 * SECOND
LAST = 253_402_387_139 * SECOND + 999_999_999
# The seconds that a file keeps of an open end.
OPEN_END = 10**12
# The seconds of 400 years.
CYCLE = 146_097 * 86_400
TIMES = open_collection("times", time="when")
Ends = tuple[int | None, int | None]


def moment(nanoseconds: int) -> str:
    """A date-time of that moment; at the edges of the calendar in another offset than UTC."""
    seconds, part = divmod(nanoseconds, SECOND)
    offset = "Z"
    if seconds < -62_167_219_200:
        seconds, offset = seconds + 86_340, "+23:59"
    elif seconds > 253_402_300_799:
        seconds, offset = seconds - 86_340, "-23:59"
    # The year 0, which Python does not have, is as the year 400.
    cycles = 1 if seconds < -62_135_596_800 else 0
    day = datetime.fromtimestamp(seconds + cycles * CYCLE, timezone.utc)
    return f"{day.year - 400 * cycles:04}-{day:%m-%dT%H:%M:%S}.{part:09}{offset}"


def dated(identity: str, time: str) -> Edit:
    return put("insert", "times", feature(identity, properties={"when": time}))


def edges(ends: Ends) -> list[tuple[str, int, bool]]:
    """The moments at both ends and just outside: a letter of each, and whether it is within."""
    start = FIRST if ends[0] is None else ends[0]
    end = LAST if ends[1] is None else ends[1]
    found = [("s", start, True), ("e", end, True), ("t", start - 1, False), ("f", end + 1, False)]
    return [(letter, at, within) for letter, at, within in found if FIRST <= at <= LAST]


def page_line(time: str) -> str:
    return f"page times datetime={quote(time, safe='')}&limit=1000"


def shown(answer: str) -> set[str]:
    return {it["id"] for it in json.loads(answer)["features"]}


def check_property(context: Context, time: str, ends: Ends | None) -> None:
    """The text as a property: its feature is refused, or shown by the pages at its ends."""
    lines = [batch_line("b", [TIMES, dated("x", time)])]
    what = f"the property {time}"
    if ends is None:
        description = "The time property of the feature cannot be read."
        refusal = error_text("bad_time", description, place=2)
        context.check(what, answers_to(context, lines), [refusal])
        return
    intervals = [
        f"../{moment(at)}" if letter in "st" else f"{moment(at)}/.."
        for letter, at, _ in edges(ends)
    ]
    pages = answers_to(context, [*lines, *map(page_line, intervals)])[1:]
    wanted = [within for _, _, within in edges(ends)]
    context.check(what, [bool(shown(page)) for page in pages], wanted)


def check_interval(context: Context, time: str, ends: Ends | None) -> None:
    """The text in a query: it is refused, or its page shows the moments at its ends, and none
    just outside."""
    what = f"datetime={time}"
    if ends is None:
        refusal = error_text("bad_datetime", "The date-time or interval cannot be read.")
        got = answers_to(context, [batch_line("b", [TIMES]), page_line(time)])[1:]
        context.check(what, got, [refusal])
        return
    moments = [dated(letter, moment(at)) for letter, at, _ in edges(ends)]
    pages = answers_to(context, [batch_line("b", [TIMES, *moments]), page_line(time)])[1:]
    wanted = {letter for letter, _, within in edges(ends) if within}
    context.check(what, [shown(page) for page in pages], [wanted])


def check_meeting(context: Context, row: Row) -> None:
    """Two texts, one as a property and the other in a query, and the other way round."""
    for one, other in ((row["time"], row["interval"]), (row["interval"], row["time"])):
        lines = [batch_line("b", [TIMES, dated("x", one)]), page_line(other)]
        got = bool(shown(answers_to(context, lines)[-1]))
        context.check(f"{one} and {other}", got, row["meets"])


def kept_seconds(context: Context, name: str, times: list[str]) -> list[tuple[int, int]]:
    """The first and the last second that a file keeps of the times of features, in order."""
    features = [dated(f"{number:04}", time) for number, time in enumerate(times)]
    file = context.new_file(name, batch("b", [TIMES, *features]))
    with contextlib.closing(sqlite3.connect(f"file:{file}?mode=ro", uri=True)) as db:
        return db.execute("SELECT s0, s1 FROM streetmap_features ORDER BY id").fetchall()


def seconds(ends: Ends) -> tuple[int, int]:
    start, end = ends
    first = -OPEN_END if start is None else start // SECOND
    return first, OPEN_END if end is None else end // SECOND


def random_numbers(seed: int) -> Iterator[int]:
    while True:
        seed = (seed * 1_103_515_245 + 12_345) % 2_147_483_648
        yield seed


ZONES = {"Z": 0, "z": 0, "+00:00": 0, "-23:59": -86_340, "+12:45": 45_900, "+23:59": 86_340}
FRACTIONS = {
    "": 0,
    ".0": 0,
    ".5": 500_000_000,
    ".000000001": 1,
    ".123456789": 123_456_789,
    ".99": 990_000_000,
}


def random_times() -> Iterator[tuple[str, int | None]]:
    """A thousand texts, some of days that the calendar does not have, and the nanoseconds that
    Python's calendar gives."""
    numbers = random_numbers(2024)
    zones, fractions = list(ZONES.items()), list(FRACTIONS.items())
    for index in range(1000):
        year, date, time = next(numbers) % 9998 + 1, next(numbers), next(numbers)
        month, day = date % 13, date // 64 % 32
        clock = time % 24, time // 64 % 60, time // 8192 % 60
        (zone, offset), (fraction, part) = zones[index % 6], fractions[index // 6 % 6]
        hours = ":".join(f"{number:02}" for number in clock)
        text = f"{year:04}-{month:02}-{day:02}T{hours}{fraction}{zone}"
        try:
            whole = datetime(year, month, day, *clock, tzinfo=timezone.utc).timestamp()
        except ValueError:
            yield text, None
        else:
            yield text, (round(whole) - offset) * SECOND + part


def check_random_times(context: Context) -> None:
    """One ledger for all: each text in a batch of its own, and a page at its moment."""
    texts = list(random_times())
    lines = [batch_line("open", [TIMES])]
    for number, (text, at) in enumerate(texts):
        lines.append(batch_line(f"b{number}", [dated(f"x{number}", text)]))
        lines.append(page_line(moment(at or 0)))
    told = answers_to(context, lines)[1:]
    description = "The time property of the feature cannot be read."
    refusal = error_text("bad_time", description, place=1)
    for number, (text, at) in enumerate(texts):
        reply, page = told[2 * number], told[2 * number + 1]
        if at is None:
            context.check(f"{text} is no day", reply, refusal)
        else:
            context.check(text, f"x{number}" in shown(page), True)
    read = {text: at for text, at in texts if at is not None}
    context.check("some days are none of the calendar", 800 < len(read) < 1000, True)
    got = kept_seconds(context, "random.streetmap", list(read))
    context.check("the seconds of random texts", got, [seconds((at, at)) for at in read.values()])


def run(context: Context) -> None:
    rows = rows_of("times.jsonl")
    for row in rows:
        if "meets" in row:
            check_meeting(context, row)
        else:
            check_property(context, row["time"], row["property"])
            check_interval(context, row["time"], row["interval"])
    read = [row for row in rows if row.get("property")]
    got = kept_seconds(context, "rows.streetmap", [row["time"] for row in read])
    context.check("the seconds of the rows", got, [seconds(row["property"]) for row in read])
    check_random_times(context)
