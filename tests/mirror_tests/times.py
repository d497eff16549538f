"""Texts of times, by the rows of examples/times.jsonl and at random: the ranges that they are."""

from examples import rows_of
from groups.times import random_times
from mirror_tests.mirrors import Mirror, time_columns
from model import Interval

RANGES = """
SELECT isempty(it), (1000000 * extract(epoch FROM lower(it)))::bigint,
    (1000000 * extract(epoch FROM upper(it)))::bigint, upper_inc(it)
FROM unnest(%s::text[]) WITH ORDINALITY AS given (text, number)
CROSS JOIN LATERAL streetmap_time(to_jsonb(text)) AS it ORDER BY number
"""
NONE = (True, None, None, False)


def check_times(mirror: Mirror) -> None:
    """In a database with another time zone, and another order of dates."""
    name = mirror.database.name
    mirror.database.ask(f"ALTER DATABASE {name} SET timezone = 'America/St_Johns'")
    mirror.database.ask(f"ALTER DATABASE {name} SET datestyle = 'SQL, DMY'")
    rows = [row for row in rows_of("times.jsonl") if "property" in row]
    wanted = [
        (row["time"], None if row["property"] is None else Interval(*row["property"]))
        for row in rows
    ]
    wanted += [(text, None if at is None else Interval(at, at)) for text, at in random_times()]
    found = mirror.database.ask(RANGES, [text for text, _ in wanted])
    for (text, time), got in zip(wanted, found, strict=True):
        want = NONE if time is None else (False, *time_columns(time))
        mirror.context.check(f"the time {text!r}", got, want)
