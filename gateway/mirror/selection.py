"""What a request for items selects in the mirror: a filter, values of properties, an order, which
properties are shown, and the serial that a walk is over."""

import re
from collections.abc import Collection, Mapping
from dataclasses import dataclass
from typing import TYPE_CHECKING

from ..problems import Problem, bad_query
from ..systems import CRS84, System, Systems

if TYPE_CHECKING:
    from ..query import ItemsQuery

FILTER, LANGUAGE, FILTER_CRS = "filter", "filter-lang", "filter-crs"
SORT, SHOWN, SERIAL = "sortby", "properties", "serial"
# The parameters that only the mirror takes.
OWN = frozenset({FILTER, LANGUAGE, FILTER_CRS, SORT, SHOWN, SERIAL})
# How the description calls the parameters that have names of properties.
QUERYABLES = "queryables"
CQL2_TEXT = "cql2-text"
# The most properties that may be sorted by, and selected by their values.
MOST_KEYS, MOST_VALUES = 8, 20
WHOLE = re.compile("[0-9]{1,18}")


@dataclass(frozen=True)
class SortKey:
    """A property to sort by, and whether its largest values come first."""

    name: str
    is_descending: bool


@dataclass(frozen=True)
class Selection:
    """A query and what is said of it for the mirror. `values` are texts that properties have to be
    equal to. `shown` are the properties of the answer, all if it is None."""

    query: "ItemsQuery"
    filter: str | None
    filter_system: System
    values: Mapping[str, str]
    sort: tuple[SortKey, ...]
    shown: frozenset[str] | None
    serial: int | None


def own_names(known: Collection[str]) -> frozenset[str]:
    """The parameters of a page that no property can have. The description has one more, for all
    names of properties."""
    return frozenset(known) - {QUERYABLES}


def is_for_mirror(found: Mapping[str, str], named: Collection[str]) -> bool:
    """Whether parameters have one that the server does not answer: one of the mirror's, or the name
    of a property."""
    return any(name in OWN or name not in named for name in found)


def read_selection(
    found: Mapping[str, str], named: Collection[str], query: "ItemsQuery", systems: Systems
) -> Selection:
    """What parameters select. Those that are not among the `named` are names of properties."""
    if found.get(LANGUAGE, CQL2_TEXT) != CQL2_TEXT:
        raise bad_query("bad_filter_lang", f"The language of filters is {CQL2_TEXT}.")
    values = {name: value for name, value in found.items() if name not in named}
    if len(values) > MOST_VALUES:
        raise bad_query("too_many_parameters", f"At most {MOST_VALUES} properties can be named.")
    shown = found.get(SHOWN)
    return Selection(
        query=query,
        filter=found.get(FILTER),
        filter_system=systems.named(found.get(FILTER_CRS, CRS84), "bad_filter_crs"),
        values=values,
        sort=read_sort(found[SORT]) if SORT in found else (),
        shown=None if shown is None else frozenset(name for name in shown.split(",") if name),
        serial=read_serial(found.get(SERIAL)),
    )


def read_sort(text: str) -> tuple[SortKey, ...]:
    """The keys of an order. A plus that a form has made a space is read as one."""
    keys = tuple(SortKey(name.lstrip("+- "), name.startswith("-")) for name in text.split(","))
    if len(keys) > MOST_KEYS:
        raise bad_query("bad_sortby", f"At most {MOST_KEYS} properties can be sorted by.")
    return keys


def read_serial(text: str | None) -> int | None:
    if text is None:
        return None
    if not WHOLE.fullmatch(text):
        raise bad_query("bad_serial", "A serial is a whole number.")
    return int(text)


def check_serial(serial: int | None, changed: int, present: int) -> None:
    """Refuses a page of a state that is no longer there, or is not there yet."""
    if serial is None:
        return
    if serial < changed:
        detail = (
            f"The collection has changed since serial {serial}, so this page would be of another"
            " state than those before it. Begin again, or go on in this state without serial."
        )
        raise Problem(410, "state_moved_on", detail)
    if serial > present:
        detail = f"The mirror has serial {present}, and not yet {serial}."
        raise Problem(503, "mirror_behind", detail, headers={"Retry-After": "1"})
