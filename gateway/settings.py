"""The settings of a gateway: a file in TOML, as gateway.toml is."""

import re
import tomllib
from decimal import Decimal
from pathlib import Path
from typing import Any, Literal

from pydantic import BaseModel, ConstrainedInt, ConstrainedStr, Extra, StrictBool, StrictStr
from pydantic import ValidationError, root_validator, validator

# The false origin is at most this far from zero, in the unit of the office's system.
FARTHEST_ORIGIN = 10**9
# What pydantic calls the faults that these sentences name.
SENTENCES = {"value_error.missing": "is missing", "value_error.extra": "is not known"}


class SettingsFault(Exception):
    """The settings file cannot be used; the text says why."""


class Address(ConstrainedStr):
    """An http or https URL that paths are added to. It is kept without its last slash."""

    strict = True
    regex = re.compile(r"https?://[^/?#@\s]+(/[^?#\s]*)?\Z")

    @classmethod
    def validate(cls, value: str) -> str:
        return super().validate(value).rstrip("/")


class Origin(ConstrainedStr):
    """The origin of a page, scheme://host[:port], or * for all."""

    strict = True
    regex = re.compile(r"(https?://[^/?#@\s]+|\*)\Z")


class WriterName(ConstrainedStr):
    """A name that fits into the key of a batch: 1 to 20 of the characters that a key has."""

    strict = True
    regex = re.compile(r"[A-Za-z0-9._-]{1,20}\Z")


class Port(ConstrainedInt):
    """A port of TCP."""

    strict = True
    ge, le = 1, 65535


class Connections(ConstrainedInt):
    """A number of connections."""

    strict = True
    ge, le = 1, 1024


class Seconds(ConstrainedInt):
    """A time in seconds."""

    strict = True
    ge, le = 1, 600


class Table(BaseModel):
    """A table of the file. A key that it does not have is refused."""

    class Config:
        extra = Extra.forbid
        allow_mutation = False


class Listen(Table):
    """Where the gateway listens, and whether it logs each request on standard output."""

    host: StrictStr = "127.0.0.1"
    port: Port = Port(8070)
    access_log: StrictBool = True


class Server(Table):
    """The server, and the most connections to it, which is to be less than its `--clients`."""

    address: Address
    connections: Connections = Connections(32)


class Office(Table):
    """The office's reference system: its name in EPSG, its unit, and its false origin.

    A coordinate is origin + grid / 1000. The origin has at most three decimal places, so that each
    grid position has an exact coordinate."""

    name: StrictStr
    unit: StrictStr = "metre"
    easting: Decimal
    northing: Decimal
    operation: StrictStr | None = None

    @validator("easting", "northing", pre=True)
    def is_exact(cls, value: Any) -> Decimal:
        if isinstance(value, bool) or not isinstance(value, (int, Decimal)):
            raise TypeError("is no number")
        number = Decimal(value)
        is_near = number.is_finite() and abs(number) <= FARTHEST_ORIGIN
        if not is_near or number * 1000 % 1:
            raise ValueError("has more than three decimal places, or is beyond 10^9")
        return number


class Edits(Table):
    """How a number within properties that is not whole is sent on: as it is, so that the server
    refuses it, or as the text of its digits. And whether an edit of a feature needs If-Match."""

    fractions: Literal["refuse", "text"] = "refuse"
    require_if_match: StrictBool = False


class Cors(Table):
    """The origins whose pages may read the answers (CORS). None may write."""

    origins: tuple[Origin, ...] = ()


class Mirror(Table):
    """The mirror in PostGIS: a connection string of PostgreSQL, how many connections at most, the
    seconds that a request may take there, and whether tiles are served."""

    database: StrictStr
    connections: Connections = Connections(4)
    seconds: Seconds = Seconds(5)
    tiles: StrictBool = True


class Writer(Table):
    """One who may write, by a bearer token, a password, or both, as `gateway.access` makes
    them."""

    name: WriterName
    token: StrictStr | None = None
    password: StrictStr | None = None

    @root_validator(skip_on_failure=True)
    def has_either(cls, values: dict[str, Any]) -> dict[str, Any]:
        if values["token"] is None and values["password"] is None:
            raise ValueError(f"the writer {values['name']} has neither a token nor a password")
        return values


class Settings(Table):
    """The whole file."""

    title: StrictStr = "Street map"
    description: StrictStr = "Street assets, good to a millimetre."
    contact: dict[Literal["name", "url", "email"], StrictStr] = {}
    address: Address
    listen: Listen = Listen()
    server: Server
    system: Office
    edits: Edits = Edits()
    cors: Cors = Cors()
    mirror: Mirror | None = None
    writers: tuple[Writer, ...] = ()


def read_settings(path: Path) -> Settings:
    """Reads and checks the settings file."""
    try:
        text = path.read_text("utf-8")
        values = tomllib.loads(text, parse_float=Decimal)
    except (OSError, UnicodeDecodeError, tomllib.TOMLDecodeError) as fault:
        raise SettingsFault(f"{path}: {fault}") from fault
    try:
        return Settings.parse_obj(values)
    except ValidationError as fault:
        raise SettingsFault("; ".join(map(sentence, fault.errors()))) from fault


def sentence(error: Any) -> str:
    """A fault that pydantic found, in one sentence that begins with the key."""
    key = ".".join(part for part in map(str, error["loc"]) if part != "__root__")
    if error["type"].startswith("type_error"):
        return f"{key} has the wrong type"
    return f"{key} {SENTENCES.get(error['type'], error['msg'])}"
