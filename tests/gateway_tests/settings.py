"""Settings that are refused, and the table of the map page."""

import json
import random
import shutil
import subprocess
from pathlib import Path
from typing import Any

import numpy
from gateway_tests.plain import Plain
from gateway_tests.service import PYTHON, ROOT, SYSTEM, Gateway, environment, settings_text
from harness import Context

SECONDS = 240
OSGB = "Inverse of British National Grid + OSGB36 to WGS 84 (6) + axis order change (2D)"
BRITAIN = 'name = "EPSG:27700"\neasting = 400000\nnorthing = 300000'


REFUSED = {
    "system.name is missing": "easting = 1\nnorthing = 1",
    "system.name is no projected system": SYSTEM.replace("25832", "4326"),
    "system.name: ": SYSTEM.replace("25832", "1"),
    "system.unit is not the system's: metre": SYSTEM + '\nunit = "foot"',
    "system.easting has more than three decimal places": SYSTEM.replace("565000.000", "0.0001"),
    "system.easting has the wrong type": SYSTEM.replace("565000.000", '"1"'),
    "system.scale is not known": SYSTEM + "\nscale = 1",
    "the false origin is too far": SYSTEM.replace("5934000.000", "-30000000"),
    "the best operation to WGS 84 is not there": BRITAIN,
    "system.operation is none of": BRITAIN + '\noperation = "the best"',
}


def check_settings(context: Context) -> None:
    """Each fault of the settings ends the gateway before it listens, and says what it is."""
    for words, system in REFUSED.items():
        check_refused(context, words, settings_text("http://127.0.0.1:1", 1, system))
    whole = settings_text("http://127.0.0.1:1", 1)
    check_refused(context, "address is missing", whole.partition("\n")[2])
    check_refused(context, "", "[")
    check_refused(
        context, "edits.fractions unexpected value", whole + '[edits]\nfractions = "round"\n'
    )
    check_refused(
        context, "edits.require_if_match value", whole + '[edits]\nrequire_if_match = "yes"\n'
    )
    check_refused(
        context, "writers.0.name string does not match", whole.replace("crew-7", "crew 7")
    )
    check_refused(context, "has neither a token", whole.replace("token =", "# token ="))
    named = settings_text("http://127.0.0.1:1", 1, f'{BRITAIN}\noperation = "{OSGB}"')
    file = write(context, named)
    ended = python(["-m", "gateway.place", file, "--box", "0", "0", "1000000", "1000000"])
    context.check("a named operation is taken", (ended.returncode, ended.stderr), (0, ""))


def check_refused(context: Context, words: str, text: str) -> None:
    ended = python(["-m", "gateway", write(context, text)])
    context.check(f"refused: {words}", (ended.returncode, words in ended.stderr), (2, True))
    context.check("one line", ended.stderr.count("\n"), 1)


def write(context: Context, text: str) -> str:
    file = context.folder / "settings.toml"
    file.write_text(text)
    return str(file)


def python(words: list[str]) -> subprocess.CompletedProcess[str]:
    given = [PYTHON, *words]
    return subprocess.run(
        given, cwd=ROOT, env=environment(), capture_output=True, text=True, timeout=SECONDS
    )


def check_place(context: Context, asked: Gateway) -> None:
    """The table for the map page is good to a centimetre, here by a plain reader of its form and
    by the page's own if that and Node are there."""
    file = context.folder / f"gateway-{asked.url.rpartition(':')[2]}.toml"
    ended = python(["-m", "gateway.place", str(file)])
    context.check("the table", (ended.returncode, ended.stderr), (0, ""))
    table = json.loads(ended.stdout)["place"]
    context.check("its error", 0 < table["error"] < 0.01, True)
    source, plain = random.Random(8), Plain("EPSG:25832", 565000, 5934000)
    spots = [[source.randint(-60_000_000, 60_000_000) for _ in range(2)] for _ in range(300)]
    wanted = plain.degrees(*numpy.array(spots, float).T)
    got = numpy.array([placed(table, x, y) for x, y in spots])
    off = float(numpy.abs(got - wanted).max())
    context.check(f"off by {off} degrees", off < 2e-8, True)
    reader = ROOT / "map" / "modules" / "place.js"
    if reader.exists() and shutil.which("node"):
        got = numpy.array(placed_by_page(context.folder, reader, ended.stdout, spots))
        context.check("by the page", float(numpy.abs(got - wanted).max()) < 2e-8, True)


def placed(table: dict[str, Any], x: int, y: int) -> list[float]:
    """Longitude and latitude of a grid position by the table."""
    for patch in table["patches"]:
        x0, y0, x1, y1 = patch["box"]
        if x0 <= x <= x1 and y0 <= y <= y1:
            u, v = (2 * x - x0 - x1) / (x1 - x0), (2 * y - y0 - y1) / (y1 - y0)
            return [
                sum(
                    c * u**i * v**j
                    for i, row in enumerate(patch[name])
                    for j, c in enumerate(row)
                )
                for name in ("longitude", "latitude")
            ]
    raise ValueError("the position is in no patch")


def placed_by_page(folder: Path, reader: Path, table: str, spots: list[list[int]]) -> Any:
    """The same by the module of the map page."""
    script = folder / "place.mjs"
    script.write_text(
        f'import {{ Place }} from "{reader.as_uri()}";\n'
        f"const place = Place.of({table});\n"
        f"const found = {json.dumps(spots)}.map((spot) => place.toDegrees(spot));\n"
        "console.log(JSON.stringify(found.map((each) => [each.longitude, each.latitude])));\n"
    )
    ended = subprocess.run(["node", str(script)], capture_output=True, text=True, timeout=SECONDS)
    return json.loads(ended.stdout)
