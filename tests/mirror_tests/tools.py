"""The mirror's views as an office's tools read them: psql, ogr2ogr, QGIS and its server, MapServer.
All of them sign in as a role that only reads."""

import json
import os
import re
import subprocess
from collections.abc import Callable
from dataclasses import dataclass
from pathlib import Path
from urllib.parse import urlencode

from followers_tests.postgres import Database
from gateway_tests.data import collections, insert, opening
from harness import Context
from mirror_tests.mirrors import SYSTEM, Mirror
from model import Box, Feature, meets

PYTHON = "/usr/bin/python3"
TESTS = Path(__file__).resolve().parents[1]
SECONDS = 300
# The views that have one kind of geometry each, as QGIS names it.
KINDS = {"kerbs": "LineString", "lamps": "Point", "parks": "Polygon"}
# Boxes in millimetres of the grid.
BOXES = (
    Box(-2_000_000, -2_000_000, 3_000_000, 1_000_000),
    Box(0, 0, 40_000_000, 40_000_000),
    Box(-5, -5, 5, 5),
)
# What is drawn, and where nothing is.
GROUND = Box(-8_000_000, -5_000_000, 7_000_000, 5_000_000)
NOTHING = Box(792_000_000, 795_000_000, 807_000_000, 805_000_000)
PNG = b"\x89PNG"
MAP_FILE = """
MAP
  NAME "mirror"
  SIZE 400 300
  EXTENT {extent}
  PROJECTION "init=epsg:25832" END
  WEB METADATA
    "ows_title" "mirror" "ows_onlineresource" "http://localhost/?" "ows_enable_request" "*"
    "ows_srs" "EPSG:25832"
  END END
  SYMBOL
    NAME "dot" TYPE ELLIPSE POINTS 1 1 END FILLED TRUE
  END
  LAYER
    NAME "lamps" TYPE POINT STATUS ON
    CONNECTIONTYPE POSTGIS
    CONNECTION "host=127.0.0.1 port={port} dbname={name} user=streetmap_reader"
    DATA "geometry FROM collections.lamps USING UNIQUE id USING SRID=25832"
    PROJECTION "init=epsg:25832" END
    METADATA "ows_title" "lamps" "gml_include_items" "all" "gml_featureid" "id" END
    CLASS STYLE COLOR 255 0 0 SYMBOL "dot" SIZE 6 END END
  END
END
"""


def office(box: Box) -> str:
    """A box in the office's system, exactly."""
    pairs = ((box.west, box.south), (box.east, box.north))
    return ",".join(
        f"{(SYSTEM.easting + x) / 1000:.3f},{(SYSTEM.northing + y) / 1000:.3f}" for x, y in pairs
    )


def number_of(feature: Feature) -> int:
    """The property `no`."""
    return int(feature.value["properties"]["no"])


@dataclass(frozen=True)
class Tools:
    """A mirror of the collections of the gateway's tests."""

    context: Context
    mirror: Mirror

    @property
    def database(self) -> Database:
        return self.mirror.database

    def features(self, name: str) -> list[Feature]:
        return self.mirror.ledger.collections[name].ordered()

    def ids(self, name: str, holds: Callable[[Feature], bool] = lambda _: True) -> list[str]:
        return [it.value["id"] for it in self.features(name) if holds(it)]

    def meeting(self, name: str, box: Box) -> list[str]:
        """The ids of the features that meet a box, by the model."""
        return self.ids(name, lambda it: it.geometry is not None and meets(it.geometry, box))

    def run(self, *words: str, **more: str) -> bytes:
        """What a command prints, which has to succeed."""
        folder = str(self.context.folder)
        seen = os.environ | {"QT_QPA_PLATFORM": "offscreen", "HOME": folder, "TMPDIR": folder}
        seen |= {"PYTHONPATH": str(TESTS), "PYTHONDONTWRITEBYTECODE": "1"} | more
        ended = subprocess.run(words, env=seen, capture_output=True, timeout=SECONDS, check=False)
        said = ended.stderr.decode(errors="replace")[-400:] if ended.returncode else ""
        self.context.check(f"{words[0]} ends", (ended.returncode, said), (0, ""))
        return ended.stdout

    def source(self) -> str:
        """The database as libpq names it, for the role that only reads."""
        return (
            f"host=127.0.0.1 port={self.database.port} dbname={self.database.name}"
            " user=streetmap_reader"
        )


def check_psql(tools: Tools) -> None:
    for name in tools.mirror.ledger.collections:
        query = f'SELECT id FROM collections."{name}" ORDER BY id'
        got = tools.run("psql", "-Atc", query, tools.source()).decode().splitlines()
        tools.context.check(f"psql reads {name}", got, tools.ids(name))


def check_ogr(tools: Tools) -> None:
    """ogr2ogr writes each view to a file; its coordinates are exact."""
    for name in KINDS:
        file = tools.context.folder / f"{name}.geojsonl"
        source = f"PG:{tools.source()} schemas=collections"
        words = ["-f", "GeoJSONSeq", "-lco", "COORDINATE_PRECISION=3", str(file), source, name]
        tools.run("ogr2ogr", *words, "-oo", "LIST_ALL_TABLES=YES")
        made = [json.loads(line) for line in file.read_text().splitlines()]
        by_id = {it["properties"]["id"]: it for it in made}
        tools.context.check(f"ogr2ogr writes {name}", sorted(by_id), sorted(tools.ids(name)))
        numbers = {it["properties"]["id"]: it["properties"]["no"] for it in made}
        wanted = {it.value["id"]: it.value["properties"]["no"] for it in tools.features(name)}
        tools.context.check(f"ogr2ogr: numbers of {name}", numbers, wanted)
    box = office(BOXES[0]).split(",")
    words = [
        "-ro",
        "-al",
        "-so",
        "-spat",
        *box,
        f"PG:{tools.source()} schemas=collections",
        "lamps",
    ]
    printed = tools.run("ogrinfo", *words).decode()
    count = re.search(r"Feature Count: (\d+)", printed)
    wanted_count = str(len(tools.meeting("lamps", BOXES[0])))
    tools.context.check("ogrinfo in a box", count and count[1], wanted_count)
    tools.context.check("ogrinfo: the system", 'ID["EPSG",25832]' in printed, True)


def check_qgis(tools: Tools) -> None:
    """QGIS opens views, counts, reads all, requests boxes and filters, and draws."""
    folder = tools.context.folder
    words = ["127.0.0.1", str(tools.database.port), tools.database.name]
    words += [str(folder / "mirror.png"), str(folder / "mirror.qgs"), office(GROUND)]
    words += [f"{name}:{kind}" for name, kind in KINDS.items()]
    script = str(Path(__file__).with_name("qgis_mirror.py"))
    printed = tools.run(PYTHON, script, *words, *map(office, BOXES))
    found = json.loads(printed.splitlines()[-1])
    check = tools.context.check
    for name in KINDS:
        layer = found[name]
        check(f"QGIS opens {name}", (layer["valid"], layer["crs"]), (True, "EPSG:25832"))
        check(f"QGIS counts {name}", layer["count"], len(tools.features(name)))
        check(f"QGIS reads {name}", layer["ids"], sorted(tools.ids(name)))
        check(f"QGIS: types of {name}", layer["fields"]["no"], "int8")
        for box in BOXES:
            got = layer["boxes"][office(box)]
            check(f"QGIS asks {name} in {box}", got, sorted(tools.meeting(name, box)))
        few = tools.ids(name, lambda it: number_of(it) < 10)
        check(f"QGIS filters {name}", layer["filtered"], few)
        check(f"QGIS counts the filtered {name}", layer["filtered count"], len(few))
        one = tools.ids(name, lambda it: number_of(it) == 7)
        check(f"QGIS finds in {name}", layer["expression"], one)
    check("QGIS draws", found["drawn"] > 1000, True)
    check("QGIS keeps a project", found["project"], True)


def served(tools: Tools, program: str, asked: dict[str, object], **more: str) -> tuple[str, bytes]:
    """What a server of maps answers to a query, run as CGI: its content type, and its body."""
    query = urlencode(asked, safe=":,/")
    printed = tools.run(program, QUERY_STRING=query, REQUEST_METHOD="GET", **more)
    head, _, body = printed.replace(b"\r\n", b"\n", 3).partition(b"\n\n")
    kind = re.search(rb"Content-Type: *([^;\r\n]*)", head, re.IGNORECASE)
    return kind[1].decode() if kind else "", body


def check_picture(tools: Tools, program: str, layer: str, **more: str) -> None:
    """WMS draws a picture, which is another one where nothing is."""
    pictures = []
    for box in (GROUND, NOTHING):
        asked: dict[str, object] = {"map": "mirror", "SERVICE": "WMS", "VERSION": "1.3.0"}
        asked |= {"REQUEST": "GetMap", "LAYERS": layer, "STYLES": "", "CRS": "EPSG:25832"}
        asked |= {"BBOX": office(box), "WIDTH": 400, "HEIGHT": 267, "FORMAT": "image/png"}
        kind, picture = served(tools, program, asked, **more)
        tools.context.check(f"{program}: WMS", (kind, picture[:4]), ("image/png", PNG))
        pictures.append(picture)
    tools.context.check(f"{program}: its picture", len(pictures[0]) > len(pictures[1]), True)


def check_features(tools: Tools, program: str, layer: str, **more: str) -> None:
    """WFS gives all features of a view, and those of a box."""
    for box in (None, BOXES[0]):
        asked: dict[str, object] = {"map": "mirror", "SERVICE": "WFS", "VERSION": "1.1.0"}
        asked |= {"REQUEST": "GetFeature", "TYPENAME": layer}
        asked |= {"BBOX": f"{office(box)},EPSG:25832"} if box else {}
        _, body = served(tools, program, asked, **more)
        wanted = tools.meeting(layer, box) if box else tools.ids(layer)
        found = sorted({it.decode() for it in re.findall(rb"<[a-z]+:id>([^<]*)</", body)})
        tools.context.check(f"{program}: WFS, {box}", found, wanted)


def check_served(tools: Tools, program: str, layer: str, **more: str) -> None:
    check_picture(tools, program, layer, **more)
    check_features(tools, program, layer, **more)


def check_tools(context: Context, cluster: Database) -> None:
    mirror = Mirror.new(context, cluster, "mirror_tools")
    kept = collections()
    lines = [mirror.accept("t0", [opening(name) for name in kept])]
    lines += [
        mirror.accept(f"t-{name}", [insert(name, it) for it in features])
        for name, features in kept.items()
    ]
    context.check("the collections act", mirror.put(*lines), None)
    mirror.check("the collections")
    mirror.database.ask("ALTER ROLE streetmap_reader LOGIN")
    tools = Tools(context, mirror)
    check_psql(tools)
    check_ogr(tools)
    check_qgis(tools)
    project = {"QGIS_PROJECT_FILE": str(context.folder / "mirror.qgs")}
    check_served(tools, "/usr/lib/cgi-bin/qgis_mapserv.fcgi", "lamps", **project)
    extent = office(GROUND).replace(",", " ")
    map_file = context.folder / "mirror.map"
    map_file.write_text(
        MAP_FILE.format(extent=extent, port=mirror.database.port, name=mirror.database.name)
    )
    settings = context.folder / "mapserver.conf"
    settings.write_text(f'CONFIG\n  MAPS\n    "mirror" "{map_file}"\n  END\nEND\n')
    check_served(tools, "/usr/bin/mapserv", "lamps", MAPSERVER_CONFIG_FILE=str(settings))
