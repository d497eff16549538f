"""Other offices: systems that are northing first, and one whose operation shifts the datum."""

import warnings
from decimal import Decimal
from typing import Any

import pyproj
from gateway_tests.answers import parsed
from gateway_tests.data import KILOMETRE, Maker, batches, feature, shape
from gateway_tests.service import CRS84, EPSG, Gateway, gateway
from gateway_tests.settings import BRITAIN, OSGB
from harness import Context
from messages import post
from pyproj.transformer import TransformerGroup

ITEMS = "/collections/lamps/items"
COUNT = 40
# A system's code, its false origin, whether northings come first, and the operation's name.
OFFICES = (
    (31467, (3565000, 5934000), True, None),
    (2180, (500000, 500000), True, None),
    (27700, (400000, 300000), False, OSGB),
)


def check_orders(context: Context) -> None:
    """Each office has the same lamps on its grid."""
    maker = Maker(9)
    spots = [maker.position(90 * KILOMETRE) for _ in range(COUNT)]
    made = [feature(f"L{n:02}", shape("Point", spot)) for n, spot in enumerate(spots)]
    file = context.new_file("orders.streetmap", *map(post, batches({"lamps": made})))
    with context.serve(file, "--clients", "32") as server:
        for code, origin, is_turned, name in OFFICES:
            system = f'name = "EPSG:{code}"\neasting = {origin[0]}\nnorthing = {origin[1]}'
            if name is not None:
                system = f'{BRITAIN}\noperation = "{name}"'
            with gateway(context, server.url, system) as asked:
                wanted = [
                    [origin[0] + Decimal(x) / 1000, origin[1] + Decimal(y) / 1000] for x, y in spots
                ]
                check_office(context, asked, code, wanted, is_turned)
                check_degrees(context, asked, code, wanted)
                check_sent_back(context, asked, code, wanted, is_turned)


def coordinates(asked: Gateway, uri: str) -> list[Any]:
    shown = parsed(asked.ask(ITEMS, crs=uri, limit=1000))
    return [each["geometry"]["coordinates"] for each in shown]


def in_order(wanted: list[Any], is_turned: bool) -> list[Any]:
    return [place[::-1] if is_turned else place for place in wanted]


def check_office(
    context: Context, asked: Gateway, code: int, wanted: list[Any], is_turned: bool
) -> None:
    """Coordinates and boxes in the order of the system's axes."""
    uri = f"{EPSG}{code}"
    context.check(f"EPSG:{code}", coordinates(asked, uri), in_order(wanted, is_turned))
    for number in (0, 7):
        (a, b) = in_order(wanted, is_turned)[number]
        box = f"{a},{b},{a},{b}"
        found = asked.ids("lamps", bbox=box, bbox_crs=uri)
        context.check(f"EPSG:{code}: a box on a lamp", found, [f"L{number:02}"])


def check_degrees(context: Context, asked: Gateway, code: int, wanted: list[Any]) -> None:
    """Degrees as PROJ's best operation that is there gives them."""
    with warnings.catch_warnings():
        warnings.simplefilter("ignore")
        best = TransformerGroup(f"EPSG:{code}", "OGC:CRS84", always_xy=True).transformers[0]
    for got, place in zip(coordinates(asked, CRS84), wanted):
        exact = best.transform(float(place[0]), float(place[1]))
        off = max(abs(Decimal(value) - each) for value, each in zip(exact, got))
        context.check(f"EPSG:{code} in degrees", off <= Decimal("0.5000001e-9"), True)


def check_sent_back(
    context: Context, asked: Gateway, code: int, wanted: list[Any], is_turned: bool
) -> None:
    """What was read in degrees and is sent back is the same millimetre; PROJ's own inverse of
    EPSG:27700 would be one off."""
    for uri in (CRS84, f"{EPSG}3857"):
        for shown in asked.ask(ITEMS, crs=uri, limit=10).json()["features"]:
            path = f"{ITEMS}/{shown['id']}"
            sent = asked.send("PUT", path, shown, Content_Crs=f"<{uri}>")
            context.check(f"{shown['id']} sent back", sent.status_code, 204)
    after = coordinates(asked, f"{EPSG}{code}")
    context.check(f"EPSG:{code}: as it was", after, in_order(wanted, is_turned))
