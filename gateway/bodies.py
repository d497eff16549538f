"""Bodies of requests: a feature is read, transformed to the grid, and becomes a batch of one edit.

Only coordinates change, and with `fractions = "text"` the numbers of properties. A body that is
JSON and no feature is sent on, so that the server refuses it with its own code. Two of the server's
limits are checked here first, since what follows takes time for each position and a call for each
level.
"""

import json
import re
from dataclasses import dataclass
from decimal import Decimal
from itertools import islice
from typing import Any

from .geojson import NumberText, compact, positions_of
from .grid import STEPS, decimal_of, nearest_step
from .patches import patched
from .problems import Problem
from .systems import System, Systems

ZEROS = re.compile(r"(-?[0-9]+)\.0+")
LONGEST_WHOLE = 20
# The server's limits of a feature.
MOST_POSITIONS, MOST_LEVELS = 100_000, 64


@dataclass(frozen=True)
class Sent:
    """A request that inserts or replaces a feature: the key of its batch, the URI of the reference
    system of its body, and the id for a feature that has none. One that replaces has to have that
    id. The body is a patch if there is a text of the feature that it patches."""

    op: str
    collection: str
    feature: str
    key: str
    system: str
    body: bytes
    patches: bytes | None = None

    @property
    def size(self) -> int:
        """How many bytes have to be read."""
        return len(self.body) + len(self.patches or b"")


@dataclass(frozen=True)
class Batch:
    """A batch for the server, and the id of its feature."""

    text: bytes
    feature: str


def batch_of(sent: Sent, systems: Systems, fractions: str) -> Batch:
    """The batch of a request; a Problem if its body is refused."""
    feature = grid_feature(read_body(sent.body), systems.by_uri[sent.system], fractions)
    if sent.patches is not None:
        feature = patched(json.loads(sent.patches), feature)
    identity = sent.feature
    if isinstance(feature, dict):
        identity = str(feature.setdefault("id", sent.feature))
        if sent.op == "replace" and identity != sent.feature:
            raise Problem(400, "other_id", "The feature's id is not that of the path.")
    edit = {"op": sent.op, "collection": sent.collection, "feature": feature}
    return Batch(batch_text(sent.key, edit), identity)


def batch_text(key: str, edit: dict[str, Any]) -> bytes:
    """The text of a batch of one edit."""
    try:
        return json_text({"key": key, "edits": [edit]}).encode()
    except UnicodeEncodeError as fault:
        raise Problem(400, "bad_feature", "The feature cannot be read.") from fault


def read_body(body: bytes) -> Any:
    """The JSON value of a body. A number that is not whole is a NumberText."""
    try:
        value = json.loads(
            body.decode("utf-8"), parse_float=fraction, parse_int=whole, parse_constant=no_number
        )
    except (ValueError, RecursionError) as fault:
        raise Problem(400, "not_json", "The body is no JSON in UTF-8.") from fault
    if is_deep(value):
        detail = f"The feature has more than {MOST_LEVELS} levels."
        raise Problem(400, "bad_feature", detail, cause="too_deep")
    return value


def is_deep(value: Any) -> bool:
    """Whether arrays and objects are nested in more levels than the server takes."""
    level = [value] if isinstance(value, (dict, list)) else []
    for _ in range(MOST_LEVELS):
        each = [member.values() if isinstance(member, dict) else member for member in level]
        level = [inner for outer in each for inner in outer if isinstance(inner, (dict, list))]
        if not level:
            return False
    return True


def whole(text: str) -> int | NumberText:
    """The number of a text of digits; a NumberText if it has more than 64 bits."""
    value = int(text) if len(text) <= LONGEST_WHOLE else None
    return value if value is not None and -(2**63) <= value < 2**64 else NumberText(text)


def fraction(text: str) -> int | NumberText:
    """The number of a text with a point or an exponent. It is whole if its fraction has only zeros,
    as the server reads it."""
    digits = ZEROS.fullmatch(text) if text.endswith("0") else None
    found = whole(digits[1]) if digits else text
    return found if isinstance(found, int) else NumberText(text)


def no_number(text: str) -> Any:
    raise ValueError(f"{text} is no JSON")


def json_text(value: Any) -> str:
    """The compact text of a value that `read_body` read."""
    if type(value) is int:
        return repr(value)
    if isinstance(value, NumberText):
        return str(value)
    if isinstance(value, dict):
        members = (f"{compact(name)}:{json_text(member)}" for name, member in value.items())
        return f"{{{','.join(members)}}}"
    if isinstance(value, list):
        return f"[{','.join(map(json_text, value))}]"
    return compact(value)


def to_grid(geometry: Any, system: System) -> None:
    """Puts the nearest grid position in the place of each position of a geometry."""
    if not isinstance(geometry, dict):
        return
    positions = list(islice(positions_of(geometry), MOST_POSITIONS + 1))
    if len(positions) > MOST_POSITIONS:
        detail = f"The feature has more than {MOST_POSITIONS} positions."
        raise Problem(400, "bad_feature", detail, cause="too_many_positions")
    numbers = [[coordinate(value) for value in position] for position in positions]
    placed = system.to_grid([(first, second) for first, second, *_ in numbers])
    for position, (x, y), (_, _, *height) in zip(positions, placed, numbers):
        position[:] = [x, y, *(nearest_step(each * STEPS) for each in height)]


def coordinate(value: int | NumberText) -> Decimal:
    found = decimal_of(str(value))
    if found is None:
        raise Problem(400, "too_many_digits", "A coordinate has too many digits.")
    return found


def with_fractions_as_text(value: Any) -> Any:
    """The value with the text of its digits in the place of each number that is not whole."""
    if isinstance(value, NumberText):
        return str(value)
    if isinstance(value, dict):
        return {name: with_fractions_as_text(member) for name, member in value.items()}
    if isinstance(value, list):
        return [with_fractions_as_text(each) for each in value]
    return value


def grid_feature(feature: Any, system: System, fractions: str) -> Any:
    """The feature of a request as it is sent to the server."""
    if not isinstance(feature, dict):
        return feature
    if "crs" in feature:
        detail = "A member crs is not read. Name the reference system in a field Content-Crs."
        raise Problem(400, "crs_member", detail)
    to_grid(feature.get("geometry"), system)
    if fractions == "text" and "properties" in feature:
        feature["properties"] = with_fractions_as_text(feature["properties"])
    return feature
