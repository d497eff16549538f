"""HTML pages of resources, by the templates below templates/. Jinja escapes all text in them."""

from collections.abc import Iterable, Mapping
from pathlib import Path
from typing import Any
from urllib.parse import quote, urlencode

from jinja2 import Environment, FileSystemLoader
from starlette.requests import Request
from starlette.responses import Response

from .description import resolved
from .gateway import gateway_of
from .geojson import compact
from .links import HTML


# A table with a column for each of thousands of names would be too large.
MOST_COLUMNS = 40


def segment(text: str) -> str:
    """A text as a segment of a path, or as a value of a query."""
    return quote(text, safe="")


def plain(value: Any) -> str:
    """The text of a property: that of a text itself, of others their JSON, none of null."""
    if value is None:
        return ""
    return value if isinstance(value, str) else compact(value)


def columns(features: Iterable[Mapping[str, Any]]) -> list[str]:
    """The names of properties of features that have a column, in the order in which they come
    first."""
    names = (name for feature in features for name in feature["properties"] or ())
    return list(dict.fromkeys(names))[:MOST_COLUMNS]


def others(properties: Mapping[str, Any] | None, listed: list[str]) -> str:
    """The properties of a feature that have no column, as JSON."""
    left = {name: value for name, value in (properties or {}).items() if name not in listed}
    return compact(left) if left else ""


def environment() -> Environment:
    made = Environment(
        loader=FileSystemLoader(Path(__file__).parent / "templates"),
        autoescape=True,
        trim_blocks=True,
        lstrip_blocks=True,
    )
    made.filters |= {
        "columns": columns,
        "others": others,
        "plain": plain,
        "resolved": lambda value, document: resolved(document, value),
        "segment": segment,
        "written": compact,
    }
    return made


TEMPLATES = environment()


def html_response(
    request: Request, template: str, shown: Mapping[str, Any], **values: Any
) -> Response:
    """A page of a template over a resource. It names files of the gateway relative to itself, so
    that it is whole at any address that leads to it."""
    query = dict(request.query_params)
    depth = request.scope["raw_path"].count(b"/") - 1
    rendered = TEMPLATES.get_template(template).render(
        root="../" * depth or "./",
        service=gateway_of(request).settings.title,
        query=query,
        json_query=query_without((), query | {"f": "json"}),
        map_query=query_without(("crs",), query | {"f": "json"}),
        first_query=query_without(("after",), query),
        shown=shown,
        **values,
    )
    return Response(rendered, media_type=HTML, headers={"Vary": "Accept"})


def query_without(names: Iterable[str], query: Mapping[str, str]) -> str:
    """A reference to the same path with this query, but for some names."""
    return "?" + urlencode({name: value for name, value in query.items() if name not in names})
