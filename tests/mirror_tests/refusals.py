"""What the gateway refuses of the mirror's parameters, and that texts stay texts."""

from typing import Any

from gateway_tests.data import batch, feature, insert, opening
from gateway_tests.service import json_of
from harness import Context
from mirror_tests.front import Front

# A filter, the number of the character that the refusal names, and a part of what was expected.
FAULTS = [
    ("", 1, "a property"),
    ("no", 3, "a comparison operator"),
    ("no =", 5, "a number"),
    ("no == 1", 5, "a number"),
    ("no = 1 AND", 11, "a property"),
    ("no = 1 no = 2", 8, "AND"),
    ("(no = 1", 8, ")"),
    ("no = 1)", 7, "the end"),
    ("no ~ 1", 4, "LIKE"),
    ("no = 'x'", 6, "a number"),
    ("name = 5", 8, "a text"),
    ("lit > 'x'", 7, "true or false"),
    ("nowhere = 1", 1, "name"),
    ('no = 1 OR "nowhere" IS NULL', 11, "name"),
    ("tags = 'a'", 1, "name"),
    ("geometry = 1", 1, ""),
    ("name LIKE 5", 11, "a text in '..'"),
    ("name LIKE 'a\\\\\\'", 11, ""),
    ("no BETWEEN 1", 13, "AND"),
    ("no BETWEEN 1 AND 'x'", 18, "a number"),
    ("no IN ()", 8, "a number"),
    ("no IN (1, 'x')", 11, "a number"),
    ("no IS 5", 7, "NULL"),
    ("set > DATE('2010-02-30')", 12, ""),
    ("set > DATE('2010')", 12, ""),
    ("set > TIMESTAMP('2010-01-01')", 17, ""),
    ("no = DATE('2010-01-01')", 6, "a number"),
    ("no = 1e999", 6, ""),
    ("no = 'open", 6, "a number"),
    ("S_INTERSECTS(name, POINT(1 2))", 14, "geometry"),
    ("S_INTERSECTS(geometry, POINT(1))", 31, "a number"),
    ("S_INTERSECTS(geometry, CIRCLE(1 2))", 24, "POINT"),
    ("S_INTERSECTS(geometry, LINESTRING(1 2))", 24, ""),
    ("S_INTERSECTS(geometry, POLYGON((0 0,1 0,1 1)))", 24, ""),
    ("S_INTERSECTS(geometry, BBOX(1,2,3))", 24, ""),
    ("S_INTERSECTS(geometry, BBOX(9,54,10,53))", 24, ""),
    ("S_INTERSECTS(geometry, POINT(100 0))", 24, ""),
    ("S_INTERSECTS(geometry, POINT(1e30 0))", 24, ""),
    ("S_WITHIN(geometry, POINT(9 53))", 9, "a comparison operator"),
    ("no = 1; DROP TABLE streetmap_features", 7, "AND"),
    ("no = 1 -- AND", 8, "AND"),
    ("name = 'a\u0000b'", 8, ""),
    ("no = 1 AND " * 800, 8193, ""),
    ("NOT " * 40 + "no = 1", 129, ""),
    ("no IN (" + "1," * 2001 + "1)", 1, ""),
    ("(" * 3000 + "no", 3003, ""),
]
# Parameters, and the code of the refusal.
OTHERS = [
    ({"filter_lang": "cql2-json", "filter": "no=1"}, "bad_filter_lang"),
    ({"filter_crs": "EPSG:4326", "filter": "no=1"}, "bad_filter_crs"),
    ({"sortby": "nowhere"}, "bad_sortby"),
    ({"sortby": "tags"}, "bad_sortby"),
    ({"sortby": ""}, "bad_sortby"),
    ({"sortby": ",".join(["no"] * 9)}, "bad_sortby"),
    ({"sortby": "no", "after": "nobody"}, "bad_after"),
    ({"properties": "no,nowhere"}, "bad_properties"),
    ({"serial": "x"}, "bad_serial"),
    ({"no": "five"}, "bad_property_value"),
    ({"lit": "yes"}, "bad_property_value"),
    ({"nowhere": "1"}, "unknown_parameter"),
    ({"tags": "a"}, "unknown_parameter"),
    ({"geometry": "x"}, "unknown_parameter"),
    ({"no": "1", "datetime": "soon"}, "bad_datetime"),
    ({"no": "1", "datetime": "../.."}, "bad_datetime"),
    ({"no": "1", "bbox": "1,2,3"}, "bad_bbox"),
    ({"no": "1", "limit": "0"}, "bad_limit"),
    ({"no": "1", "crs": "x"}, "bad_crs"),
]
# Texts that would be SQL if they were not quoted, and others that quoting may trip over.
HOSTILE = [
    "'; DROP TABLE streetmap_features; --",
    "' OR '1'='1",
    "x' AND pg_sleep(9) IS NULL --",
    "\\ '; SELECT 1 --",
    "\\x",
    "%s %(x)s {0} {x} %%",
    "$$; DROP TABLE streetmap_mirror; $$",
    "E'\\x27'",
    "/* */",
    "\u2019 OR TRUE --",
    "\U0001f600",
    '"; DROP SCHEMA public CASCADE; --',
]
PAGE = "/collections/assets/items"
COUNTS = (
    "SELECT (SELECT count(*) FROM streetmap_features), (SELECT count(*) FROM streetmap_collections)"
)


def check_faults(context: Context, front: Front) -> None:
    """Each fault of a filter is a 400 whose body names the place and what was expected."""
    for text, position, expected in FAULTS:
        answer = front.asked.ask(PAGE, filter=text)
        what = f"filter {text[:60]!r}"
        body: dict[str, Any] = answer.json()
        found = answer.status_code, body.get("code"), body.get("position"), body.get("parameter")
        context.check(what, found, (400, "bad_filter", position, "filter"))
        context.check(f"{what}: the text there", body.get("found"), text[position - 1 :][:30])
        if expected:
            context.check(f"{what}: expected", expected in body.get("expected", ()), True)
    for parameters, code in OTHERS:
        answer = front.asked.ask(PAGE, **parameters)
        context.check(f"{parameters}", (answer.status_code, answer.json().get("code")), (400, code))
    for name in ("queryables", "schema", "sortables", "tiles", "items?filter=no=1"):
        answer = front.asked.ask(f"/collections/nowhere/{name}")
        context.check(f"{name} of no collection", answer.status_code, 404)


def check_texts(context: Context, front: Front) -> None:
    """Texts that resemble SQL are values like others: as values, as names, and wherever a
    parameter takes a text."""
    made = [
        feature(f"H{number:02}", None, {"said": text, text: number})
        for number, text in enumerate(HOSTILE)
    ]
    edits = [opening("hostile"), *(insert("hostile", it) for it in made)]
    front.wait(front.post(batch("hostile", edits)))
    before = front.database.ask(COUNTS)
    path = "/collections/hostile/items"
    for number, text in enumerate(HOSTILE):
        found = [f"H{number:02}"]
        value, name = text.replace("'", "''"), text.replace('"', '""')
        what = f"the text {text!r}"
        context.check(f"{what} as a value", front.ids("hostile", filter=f"said = '{value}'"), found)
        context.check(
            f"{what} in a list", front.ids("hostile", filter=f"said IN ('{value}')"), found
        )
        context.check(
            f"{what} as a name", front.ids("hostile", filter=f'"{name}" = {number}'), found
        )
        context.check(f"{what} as a parameter", front.ids("hostile", said=text), found)
        answer = front.asked.client.get(front.asked.url + path, params={text: str(number)})
        ids = [it["id"] for it in json_of(answer)["features"]]
        context.check(f"{what} as the name of one", ids, found)
        for parameter in ("filter", "sortby", "properties", "serial", "filter-crs", "filter-lang"):
            answer = front.asked.client.get(front.asked.url + PAGE, params={parameter: text})
            context.check(f"{what} as {parameter}", answer.status_code, 400)
        answer = front.asked.ask(PAGE, filter="no > 0", after=text, limit=1)
        context.check(f"{what} as an id", answer.status_code, 200)
    context.check("all tables", front.database.ask(COUNTS), before)
