"""The two forms of an answer: JSON for programs, and HTML for people.

A request names the form by `f`, or says by `Accept` that it prefers HTML, as browsers do (RFC 9110,
12.5.1). All else is answered with JSON.
"""

from collections.abc import Iterator, Mapping
from typing import Any

from starlette.requests import Request
from starlette.responses import Response

from .geojson import compact
from .links import JSON
from .problems import bad_query

FORMS = ("json", "html")
# The ranges of media types that mean each form, the most specific first.
HTML_RANGES = ("text/html", "text/*", "*/*")
JSON_RANGES = ("application/geo+json", "application/json", "application/*", "*/*")


def wants_html(request: Request, found: Mapping[str, str]) -> bool:
    """Whether the answer is to be HTML."""
    form = found.get("f")
    if form is None:
        ranges = dict(accepted(request.headers.getlist("accept")))
        return weight(ranges, HTML_RANGES) > weight(ranges, JSON_RANGES)
    if form not in FORMS:
        raise bad_query("bad_f", f"The parameter f must be {' or '.join(FORMS)}.")
    return form == "html"


def accepted(fields: list[str]) -> Iterator[tuple[str, float]]:
    """The media ranges of `Accept`, with their weights; a weight that cannot be read is 0."""
    for part in ",".join(fields).split(","):
        name, *parameters = (piece.strip().lower() for piece in part.split(";"))
        weights = [each[2:] for each in parameters if each.startswith("q=")]
        try:
            yield name, float(weights[0]) if weights else 1.0
        except ValueError:
            yield name, 0.0


def weight(ranges: Mapping[str, float], names: tuple[str, ...]) -> float:
    """The weight of the first of these names that is accepted; 0 if none is."""
    return next((ranges[name] for name in names if name in ranges), 0.0)


def json_response(value: Any, media_type: str = JSON) -> Response:
    return Response(compact(value), media_type=media_type, headers={"Vary": "Accept"})
