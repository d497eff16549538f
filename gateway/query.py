"""The query parameters of requests."""

import re
from dataclasses import dataclass
from decimal import Decimal

from starlette.requests import Request

from .gateway import gateway_of
from .grid import decimal_of
from .problems import bad_query
from .systems import CRS84, System, Systems

# Features of a page if no limit is given, and at most (reading.json).
DEFAULT_LIMIT, MOST = 10, 1000
BOX_NUMBER = re.compile(r"-?[0-9]+(\.[0-9]*)?([eE][+-]?[0-9]{1,3})?")
# A number of a box is at most this far from zero.
FARTHEST = 10**12
# RFC 3339, 5.6: full-date. The server reads the rest.
FULL_DATE = re.compile(r"[0-9]{4}-[0-9]{2}-[0-9]{2}")
# The server's times have nanoseconds.
FIRST_MOMENT, LAST_MOMENT = "T00:00:00Z", "T23:59:59.999999999Z"


@dataclass(frozen=True)
class ItemsQuery:
    """The query of a page: the reference system of the answer, the bounds of a box in the order of
    the axes of their own system, a time as the server reads it, and which page."""

    system: System
    box: list[Decimal] | None
    box_system: System
    datetime: str | None
    limit: int
    after: str | None


def read_parameters(request: Request, any_name: bool = False) -> dict[str, str]:
    """The parameters of a request, each of which the description has, unless any name may be there,
    and is given once."""
    known = gateway_of(request).description.query_names[request.scope["endpoint"].__name__]
    found: dict[str, str] = {}
    for name, value in request.query_params.multi_items():
        if name not in known and not any_name:
            raise bad_query("unknown_parameter", f"The parameter {name} is not known here.")
        if name in found:
            raise bad_query("repeated_parameter", f"The parameter {name} is given twice.")
        found[name] = value
    return found


def read_items_query(found: dict[str, str], systems: Systems) -> ItemsQuery:
    """The query of a page. The server judges `after`, and times beside dates."""
    box = found.get("bbox")
    return ItemsQuery(
        system=systems.named(found.get("crs", CRS84), "bad_crs"),
        box=None if box is None else read_box(box),
        box_system=systems.named(found.get("bbox-crs", CRS84), "bad_bbox_crs"),
        datetime=None if "datetime" not in found else moments(found["datetime"]),
        limit=read_limit(found.get("limit")),
        after=found.get("after"),
    )


def read_limit(text: str | None) -> int:
    """The limit; what is above the most is taken as the most."""
    if text is None:
        return DEFAULT_LIMIT
    if not re.fullmatch("[0-9]+", text) or not text.strip("0"):
        raise bad_query("bad_limit", "The limit must be a whole number from 1.")
    return MOST if len(text.lstrip("0")) > 4 else min(int(text), MOST)


def read_box(text: str) -> list[Decimal]:
    """Both lower bounds of a box, then both upper ones. A box of six numbers has heights, which
    are passed over (OGC 17-069r4, 7.15.3)."""
    pieces = text.split(",")
    numbers = [decimal_of(piece) for piece in pieces if BOX_NUMBER.fullmatch(piece)]
    box = [number for number in numbers if number is not None and abs(number) <= FARTHEST]
    if len(pieces) not in (4, 6) or len(box) != len(pieces):
        detail = "The box must be four numbers, or six with heights: lower bounds, then upper ones."
        raise bad_query("bad_bbox", detail)
    axes = len(box) // 2
    return [*box[:2], *box[axes : axes + 2]]


def moments(text: str) -> str:
    """A time with date-times in the place of dates, each of which is a whole day of UTC (OGC
    17-069r4, 7.15.4)."""
    first, mark, last = text.partition("/")
    if not mark and FULL_DATE.fullmatch(first):
        return f"{first}{FIRST_MOMENT}/{first}{LAST_MOMENT}"
    first = first + FIRST_MOMENT if FULL_DATE.fullmatch(first) else first
    last = last + LAST_MOMENT if FULL_DATE.fullmatch(last) else last
    return f"{first}{mark}{last}"
