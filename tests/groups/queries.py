"""Rows of queries: the first fault, the links of pages, ids that come back from them.

A row (examples/queries.jsonl) has a query, and its fault (`answer`), or the query of its page's
link to itself (`self`), or that of the link to the page after the id `last` (`next`).
"""

from urllib.parse import parse_qs, quote_plus

from examples import Row, answers_to, batch_line, error_text, rows_of
from harness import Context
from messages import Answer, Edit, batch, feature, get, open_collection, point, put

LAMPS = open_collection("lamps", time="when")
ITEMS = "/collections/lamps/items"
DESCRIPTIONS = {
    "unknown_parameter": "A parameter is not known here.",
    "repeated_parameter": "A parameter stands twice.",
    "bad_limit": "The limit must be a whole number from 1.",
    "bad_bbox": "The box must be four whole numbers in order.",
    "bad_datetime": "The date-time or interval cannot be read.",
    "bad_after": "The value of after is no id.",
}
Links = dict[str, str]


def lamp(identity: str) -> Edit:
    return put("insert", "lamps", feature(identity, point(1, 7), {"when": "2024-04-01"}))


def links_of(page: Answer) -> Links:
    """The queries of a page's links, by their relations."""
    if page.status != 200:
        return {"refused": page.body.decode()}
    start = f"http://localhost{ITEMS}?"
    return {it["rel"]: it["href"].removeprefix(start) for it in page.json()["links"]}


def links(context: Context, name: str, ids: list[str], queries: list[str | None]) -> list[Links]:
    """The links of pages of a new file with these lamps."""
    file = context.new_file(f"{name}.streetmap", batch("b", [LAMPS, *map(lamp, ids)]))
    targets = [ITEMS if query is None else f"{ITEMS}?{query}" for query in queries]
    return [links_of(page) for page in context.pipe(file, *map(get, targets))]


def check_faults(context: Context, rows: list[Row]) -> None:
    asked = [f"page lamps {row['query']}" for row in rows]
    told = answers_to(context, [batch_line("b", [LAMPS]), *asked])[1:]
    for row, answer in zip(rows, told, strict=True):
        wanted = error_text(row["answer"], DESCRIPTIONS[row["answer"]])
        context.check(f"{row['what']}: {row['query']}", answer, wanted)


def check_links(context: Context, rows: list[Row]) -> None:
    to_themselves = [row for row in rows if "self" in row]
    found = links(context, "self", [], [row["query"] for row in to_themselves])
    for row, page in zip(to_themselves, found, strict=True):
        context.check(f"{row['what']}: {row['query']}", page, {"self": row["self"]})
    for number, row in enumerate(row for row in rows if "next" in row):
        (page,) = links(context, f"next-{number}", ids_of_full_page(row), [row["query"]])
        context.check(f"{row['what']}: {row['query']}", page.get("next"), row["next"])


def ids_of_full_page(row: Row) -> list[str]:
    """The ids of lamps of which the page of a row shows as many as it may, the last of them
    `last`, and one more."""
    asked = parse_qs(row["query"])
    after, limit = asked.get("after", [""])[0], int(asked.get("limit", ["10"])[0])
    before = [f"{after}!{number:02}" for number in range(limit - 1)]
    return [*before, row["last"], row["last"] + "~"]


def form_value(identity: str) -> str:
    """An id as the value of a form (URL Standard, section 5.2)."""
    return quote_plus(identity, safe="*").replace("~", "%7E")


PRINTABLE = [f"a{chr(byte)}b" for byte in range(ord(" "), ord("~") + 1)]
OTHER_IDS = [" ", "+", "%", "%2B", "&limit=3", "a=b&c=d;e", "way/12?x#y", "\u00a0", "é", "ß/ÿ"]
OTHER_IDS += ["€", "日本", "\ufffd", "\U0010ffff", "😀+😀", "x" * 128]


def check_ids_come_back(context: Context) -> None:
    """Each id is in the link to the page after it, and the page that this link requests
    begins after it."""
    ids = sorted(PRINTABLE + OTHER_IDS, key=str.encode)
    queries = ["limit=1", *(f"after={form_value(it)}&limit=1" for it in ids[:-1])]
    found = links(context, "ids", ids, list(queries))
    for number, (it, page) in enumerate(zip(ids, found, strict=True)):
        wanted = {"self": queries[number]}
        if number + 1 < len(queries):
            wanted["next"] = queries[number + 1]
        context.check(f"the id {it}", page, wanted)


def run(context: Context) -> None:
    rows = rows_of("queries.jsonl")
    check_faults(context, [row for row in rows if "answer" in row])
    check_links(context, rows)
    check_ids_come_back(context)
