"""The table that places the grid in WGS 84 and in the office's reference system, one's own position,
and an image in the background."""

import json
import re
from pathlib import Path
from typing import Any

import numpy
from harness import Context
from numpy.polynomial import chebyshev, polynomial
from PIL import Image
from pyproj import Geod, Transformer

from browser.browsers import browser
from browser.page import Page
from browser.site import ROOT, Site, site
from browser.towns import quarter

# The grid is EPSG:25832 less this origin, in metres; the table holds for 40 by 30 km.
ORIGIN = (565_000.0, 5_934_000.0)
BOXES = [[-20_000_000, -15_000_000, 0, 15_000_000], [0, -15_000_000, 20_000_000, 15_000_000]]
DEGREE = 6


def degrees(x: Any, y: Any) -> tuple[Any, Any]:
    """Longitude and latitude of positions in millimetres, by PROJ."""
    transformer = Transformer.from_crs(25832, 4326, always_xy=True)
    return transformer.transform(ORIGIN[0] + x / 1000, ORIGIN[1] + y / 1000)


def patch(box: list[int]) -> dict[str, Any]:
    """The polynomials over a box, through the values at Chebyshev's nodes."""
    nodes = chebyshev.chebpts1(DEGREE + 2)
    u, v = (grid.ravel() for grid in numpy.meshgrid(nodes, nodes))
    x = ((box[0] + box[2]) + u * (box[2] - box[0])) / 2
    y = ((box[1] + box[3]) + v * (box[3] - box[1])) / 2
    matrix = polynomial.polyvander2d(u, v, [DEGREE, DEGREE])
    sides = [numpy.linalg.lstsq(matrix, side, rcond=None)[0] for side in degrees(x, y)]
    longitude, latitude = (side.reshape(DEGREE + 1, DEGREE + 1).tolist() for side in sides)
    return {"box": box, "longitude": longitude, "latitude": latitude}


def table() -> dict[str, Any]:
    patches = [patch(box) for box in BOXES]
    grid = {"system": "EPSG:25832", "scale": 1000, "shift": ORIGIN}
    return {"place": {"system": "EPSG:25832", "error": 0.002, "patches": patches}, "grid": grid}


def reader(context: Context, page: Page) -> None:
    """The reader is good to 1 cm in both directions."""
    chance = numpy.random.default_rng(3)
    x = chance.integers(-20_000_000, 20_000_000, 400)
    y = chance.integers(-15_000_000, 15_000_000, 400)
    exact = numpy.column_stack(degrees(x, y))
    given = numpy.column_stack((x, y)).tolist()
    there = """it.readOffice().then(({ place }) =>
        given[0].map((at) => Object.values(place.toDegrees(at))))"""
    got = numpy.array(page.module("office", there, given))
    _, _, misses = Geod(ellps="GRS80").inv(*exact.T, *got.T)
    context.check("to degrees", max(misses) < 0.01 or max(misses), True)
    back = """it.readOffice().then(({ place }) =>
        given[0].map(([longitude, latitude]) => place.toGrid({longitude, latitude})))"""
    found = numpy.array(page.module("office", back, exact.tolist()))
    worst = numpy.abs(found - numpy.column_stack((x, y))).max()
    context.check("to the grid, in millimetres", worst < 10 or worst, True)
    outside = """it.readOffice().then(({ place }) =>
        [place.toDegrees([30000000, 0]), place.toGrid({longitude: 0, latitude: 0})])"""
    context.check("outside", page.module("office", outside), [None, None])


def own_position(context: Context, page: Page) -> None:
    """One's own position is shown where it is on the grid."""
    longitude, latitude = degrees(200_000, 128_000)
    where = {"longitude": longitude, "latitude": latitude, "accuracy": 4}
    page.driver.execute_cdp_cmd("Browser.grantPermissions", {"permissions": ["geolocation"]})
    page.driver.execute_cdp_cmd("Emulation.setGeolocationOverride", where)
    page.press("My position", "#tools")
    page.wait_text("#message", "good to 4 m")

    def is_there() -> bool:
        x, y, _ = page.view()
        return abs(x - 200) < 0.01 and abs(y - 128) < 0.01

    context.check("where one stands", page.wait("the position", is_there), True)
    own = page.script(
        "return getComputedStyle(document.documentElement).getPropertyValue('--own').trim()"
    )
    context.check("it is drawn", page.colour_at(200, 128), own)
    page.press("My position", "#tools")
    text = page.text("#place")
    context.check("degrees of the middle", f"{latitude:.6f}"[:9] in text, True)
    east = re.search(r"([\d.]+) E, ([\d.]+) N \(EPSG:25832\)", text)
    middle = [float(value) for value in east.groups()] if east else []
    near = [abs(it - at) < 0.01 for it, at in zip(middle, (565_200, 5_934_128))]
    context.check("the office's system", near or text, [True, True])
    lamp = next(
        it["feature"] for it in quarter()["edits"] if it.get("feature", {}).get("id") == "L010"
    )
    x, y = lamp["geometry"]["coordinates"]
    page.choose("L010")
    beside = page.texts("#panel-feature .beside")
    wanted = f"{565_000 + x / 1000:.3f} E, {5_934_000 + y / 1000:.3f} N (EPSG:25832)"
    context.check("a feature in it", beside[0], wanted)


def background(context: Context, page: Page, made: Site) -> None:
    """An image of this device lies below; one of another address is not requested."""
    picture = context.folder / "plan.png"
    Image.new("RGB", (40, 20), "#1030f0").save(picture)
    page.tab("settings")
    corners = {"x0": "300", "y0": "220", "x1": "400", "y1": "270"}
    for name, text in corners.items():
        page.fill(f"#image-{name}", text)
    page.fill("#image-url", "https://tiles.example/plan.png")
    page.press("Show it")
    page.wait_text("#panel-settings .problem", "has to lie on")
    page.fill("#image-url", "")
    page.one("#image-file").send_keys(str(picture))
    page.press("Show it")
    page.wait("the image", lambda: page.all("img.leaflet-image-layer"))
    page.look_at(350, 240, 1)
    red, _, blue = (int(page.colour_at(341, 238)[at : at + 2], 16) for at in (1, 3, 5))
    context.check("the image is shown", blue - red > 100, True)
    page.reload()
    page.wait("the image again", lambda: page.all("img.leaflet-image-layer"))


def placed(context: Context) -> None:
    """A town whose office placed its grid."""
    place = context.folder / "map.json"
    place.write_text(json.dumps(table()))
    with site(context, "placed", quarter(), place=place) as made, browser() as page:
        page.open(made.address)
        reader(context, page)
        own_position(context, page)
        background(context, page, made)


def kept_files(context: Context) -> None:
    """The service worker keeps all modules that are there."""
    listed = json.loads((ROOT / "map" / "files.json").read_text())
    modules = sorted(file for file in listed if file.startswith("modules/"))
    there = sorted(f"modules/{path.name}" for path in (ROOT / "map/modules").glob("*.js"))
    context.check("the service worker keeps all files", modules, there)


PARTS = (placed, kept_files)
