"""Pages of 100 features by the gateway, beside QGIS Server and MapServer over the same 100,000.

It needs the gateway's packages (tests/packages.txt), `nginx` and `gdal-bin`. QGIS Server
(`qgis-server`, `python3-qgis`) and MapServer (`cgi-mapserver`) are compared with it if they are
installed: Debian's packages of these names, by apt-get. No test needs them.

The lamps are in a file of the program and in a GeoPackage in EPSG:25832, which has an R*Tree. Each
server is four processes behind nginx: gateways in front of one `streetmap serve`, and QGIS Server
and MapServer by FastCGI, which answer by OGC API - Features too. All write GeoJSON in degrees, and
report the number of lamps; of a box the gateway does not. A dash is for pages of a walk by
MapServer 8.0, which ignores `offset`.
"""

import contextlib
import json
import os
import random
import shutil
import socket
import statistics
import subprocess
import urllib.request
from collections.abc import Iterator
from dataclasses import dataclass
from pathlib import Path

from clients import Started, serve, until_done
from harness import free_port
from loader import Loader
from measures import compact, create, fail, report
from messages import open_collection
from tables import FEATURES, batches, lamp

ROOT = Path(__file__).resolve().parents[1]
PYTHON = "/usr/bin/python3"
# The false origin of the gateway, in metres of EPSG:25832.
EASTING, NORTHING = 565_000, 5_934_000
LIMIT, BOXES, SECONDS, ROUNDS = 100, 200, 4, 3
CONNECTIONS = (1, 4)
# Of a walk through all lamps every N-th page is requested.
EACH_WALKED = 50
PROCESSES = 4
# How many times QGIS Server's pages a second are wanted.
WANTED = {"of a walk": 6, "of a box": 2, "of a property": 3}
# A box of some 160 m each way has some 250 lamps. Degrees.
WIDE, HIGH = 0.0024, 0.00144
QGIS_SERVER = Path("/usr/lib/cgi-bin/qgis_mapserv.fcgi")
MAPSERVER = Path("/usr/lib/cgi-bin/mapserv")

SETTINGS = """
address = "http://127.0.0.1/"
[listen]
port = {port}
[server]
address = "http://127.0.0.1:{server}/"
connections = 8
[system]
name = "EPSG:25832"
easting = {easting}
northing = {northing}
"""
PROJECT = """
import sys
from qgis.core import QgsApplication, QgsProject, QgsVectorLayer
application = QgsApplication([], False)
application.initQgis()
layer, project = QgsVectorLayer(f"{sys.argv[1]}|layername=lamps", "lamps"), QgsProject.instance()
project.addMapLayer(layer)
project.setCrs(layer.crs())
project.writeEntry("WFSLayers", "/", [layer.id()])
sys.exit(not project.write(sys.argv[2]))
"""
MAP = """
MAP
  NAME "town"
  EXTENT {easting} {northing} {east} {north}
  SIZE 100 100
  PROJECTION "init=epsg:25832" END
  WEB METADATA "oga_onlineresource" "http://127.0.0.1/town" "ows_enable_request" "*" END END
  LAYER
    NAME "lamps"
    TYPE {kind}
    STATUS ON
    TEMPLATE "none"
    CONNECTIONTYPE OGR
    CONNECTION "{lamps}"
    DATA "lamps"
    PROCESSING "CLOSE_CONNECTION=DEFER"
    PROJECTION "init=epsg:25832" END
    METADATA "ows_include_items" "all" "gml_include_items" "all" "gml_featureid" "id" END
  END
END
"""
MAPS = 'CONFIG ENV MS_MAP_PATTERN "." END MAPS town "{town}" END END\n'
NGINX = """
worker_processes 1;
daemon off;
pid {folder}/nginx.pid;
error_log {folder}/error.log;
{user}
events {{ worker_connections 1024; }}
http {{
    access_log off;
    keepalive_requests 100000000;
    client_body_temp_path {folder}/body;
    proxy_temp_path {folder}/proxy;
    fastcgi_temp_path {folder}/fastcgi;
    uwsgi_temp_path {folder}/uwsgi;
    scgi_temp_path {folder}/scgi;
    proxy_buffers 16 64k;
    fastcgi_buffers 16 64k;
    upstream gateways {{ {gateways} keepalive 16; }}
    server {{
        listen 127.0.0.1:{port};
        location / {{ {passed} }}
    }}
}}
"""
PROXY = 'proxy_pass http://gateways; proxy_http_version 1.1; proxy_set_header Connection "";'
FASTCGI = """
    fastcgi_pass unix:{folder}/socket;
    fastcgi_param REQUEST_METHOD $request_method;
    fastcgi_param REQUEST_URI $request_uri;
    fastcgi_param QUERY_STRING $query_string;
    fastcgi_param PATH_INFO $uri;
    fastcgi_param SERVER_NAME 127.0.0.1;
    fastcgi_param SERVER_PORT $server_port;
    fastcgi_param HTTP_HOST $http_host;
"""


@dataclass(frozen=True)
class Service:
    """A server that answers pages of lamps: its port, and the path of the pages."""

    name: str
    port: int
    items: str

    def target(self, query: str = "") -> str:
        mark = "&" if "?" in self.items else "?"
        return f"{self.items}{mark}limit={LIMIT}{query}"

    def page(self, target: str) -> bytes:
        with urllib.request.urlopen(f"http://127.0.0.1:{self.port}{target}", timeout=60) as answer:
            text: bytes = answer.read()
        return text


def write_geopackage(folder: Path) -> Path:
    """The same lamps in metres of EPSG:25832, their ids in a field."""
    text, made = folder / "lamps.geojsonl", folder / "lamps.gpkg"
    with text.open("w") as lines:
        for at in range(FEATURES):
            feature = lamp(at, f"lamp-{at:06}")
            x, y = feature["geometry"]["coordinates"]
            feature["geometry"]["coordinates"] = [EASTING + x / 1000, NORTHING + y / 1000]
            feature["properties"]["id"] = feature.pop("id")
            lines.write(f"{compact(feature)}\n")
    words = ["ogr2ogr", "-f", "GPKG", "-a_srs", "EPSG:25832", "-nln", "lamps", str(made)]
    subprocess.run([*words, f"GeoJSONSeq:{text}"], check=True)
    return made


def nginx(
    folder: Path, passed: str, ports: list[int]
) -> contextlib.AbstractContextManager[Started]:
    """nginx in front of what a location passes requests on to."""
    port, conf = free_port(), folder / "nginx.conf"
    user = "user root;" if os.getuid() == 0 else ""
    gateways = " ".join(f"server 127.0.0.1:{it};" for it in ports or [port])
    given = {"folder": folder, "port": port, "user": user, "gateways": gateways}
    conf.write_text(NGINX.format(passed=passed, **given))
    words = ["nginx", "-p", str(folder), "-c", str(conf)]
    return until_done(subprocess.Popen(words, stderr=subprocess.DEVNULL), port)


@contextlib.contextmanager
def one_gateway(server: int, folder: Path) -> Iterator[int]:
    """A gateway in front of a served file. Gives its port."""
    port = free_port()
    settings = folder / f"gateway-{port}.toml"
    origin = {"easting": EASTING, "northing": NORTHING}
    settings.write_text(SETTINGS.format(port=port, server=server, **origin))
    seen = os.environ | {"PYTHONDONTWRITEBYTECODE": "1", "PYTHONPATH": str(ROOT)}
    with (folder / f"access-{port}").open("wb") as log:
        words = [PYTHON, "-m", "gateway", str(settings)]
        process = subprocess.Popen(words, cwd=ROOT, env=seen, stdout=log)
    with until_done(process, port):
        yield port


@contextlib.contextmanager
def gateways(program: Path, file: Path, folder: Path) -> Iterator[Service]:
    """Gateways behind nginx, in front of one served file."""
    folder.mkdir()
    with contextlib.ExitStack() as started:
        _, server = started.enter_context(serve(program, file, "--warm"))
        ports = [started.enter_context(one_gateway(server, folder)) for _ in range(PROCESSES)]
        _, port = started.enter_context(nginx(folder, PROXY, ports))
        yield Service("gateway", port, "/collections/lamps/items")


@contextlib.contextmanager
def by_fastcgi(
    program: Path, folder: Path, seen: dict[str, str], processes: int = PROCESSES
) -> Iterator[int]:
    """A FastCGI program as some processes behind nginx. Gives the port."""
    folder.mkdir()
    seen = seen | {"TMPDIR": str(folder)}
    with contextlib.ExitStack() as started:
        listener = started.enter_context(socket.socket(socket.AF_UNIX))
        listener.bind(str(folder / "socket"))
        listener.listen(128)
        errors = started.enter_context((folder / "errors").open("wb"))
        for _ in range(processes):
            process = subprocess.Popen(
                [str(program)],
                env=os.environ | seen,
                stdin=listener.fileno(),
                stdout=errors,
                stderr=errors,
            )
            # QGIS Server ignores a request to end.
            started.callback(process.wait)
            started.callback(process.kill)
        _, port = started.enter_context(nginx(folder, FASTCGI.format(folder=folder), []))
        yield port


@contextlib.contextmanager
def qgis_server(lamps: Path, folder: Path) -> Iterator[Service]:
    project = lamps.with_suffix(".qgs")
    seen = {"QT_QPA_PLATFORM": "offscreen", "HOME": str(lamps.parent), "TMPDIR": str(lamps.parent)}
    words = [PYTHON, "-c", PROJECT, str(lamps), str(project)]
    subprocess.run(words, env=os.environ | seen, stderr=subprocess.DEVNULL, check=True)
    seen["QGIS_PROJECT_FILE"] = str(project)
    with by_fastcgi(QGIS_SERVER, folder, seen) as port:
        yield Service("QGIS Server", port, "/wfs3/collections/lamps/items.json")


@contextlib.contextmanager
def mapserver(
    lamps: Path, folder: Path, kind: str = "POINT", reach: tuple[int, int] = (3_160, 3_170)
) -> Iterator[Service]:
    town, maps = lamps.with_suffix(".map"), lamps.with_suffix(".conf")
    east, north = EASTING + reach[0], NORTHING + reach[1]
    bounds = {"easting": EASTING, "northing": NORTHING, "east": east, "north": north}
    town.write_text(MAP.format(lamps=lamps, kind=kind, **bounds))
    maps.write_text(MAPS.format(town=town))
    with by_fastcgi(MAPSERVER, folder, {"MAPSERVER_CONFIG_FILE": str(maps)}) as port:
        yield Service("MapServer", port, "/town/ogcapi/collections/lamps/items?f=json")


def boxes(service: Service) -> list[str]:
    """Boxes within the town, in degrees."""
    collection = json.loads(service.page("/collections/lamps"))
    west, south, east, north = collection["extent"]["spatial"]["bbox"][0]
    chance, inner = random.Random(3), (0.05, 0.9)
    found = []
    for _ in range(BOXES):
        x = west + (east - west) * chance.uniform(*inner)
        y = south + (north - south) * chance.uniform(*inner)
        found.append(f"{x:.6f},{y:.6f},{x + WIDE:.6f},{y + HIGH:.6f}")
    return found


def next_target(service: Service, target: str) -> str | None:
    """The page after a page of the gateway, by its link."""
    links = json.loads(service.page(target))["links"]
    found = [link["href"] for link in links if link["rel"] == "next"]
    return "/" + found[0].split("/", 3)[3] if found else None


def walked(service: Service) -> list[str]:
    """Pages spread over a walk through all lamps: the gateway goes on by `next`, the others by
    `offset`. None if that is ignored."""
    if service.name != "gateway":
        offsets = range(0, FEATURES, EACH_WALKED * LIMIT)
        targets = [service.target(f"&offset={offset}") for offset in offsets]
        first, second = (json.loads(service.page(it))["features"] for it in targets[:2])
        return targets if first != second else []
    found: list[str] = []
    target: str | None = service.target()
    while target is not None:
        found.append(target)
        target = next_target(service, target)
    return found[::EACH_WALKED]


def bytes_of(service: Service, targets: list[str], is_full: bool = True) -> float:
    """The bytes of these pages on the average, 0 of none. Each has to have 100 lamps, or some if
    it need not be full."""
    sizes = []
    for target in targets:
        text = service.page(target)
        count = len(json.loads(text)["features"])
        if count != LIMIT and (is_full or count == 0):
            fail(f"{service.name} has {count} lamps at {target}: {text[:300]!r}")
        sizes.append(len(text))
    return statistics.mean(sizes or [0])


def rates(asked: dict[Service, list[str]], many: int) -> list[float]:
    """Pages a second over a number of connections, 0 without targets: the medians of several
    rounds, in each of which the servers take turns."""
    rounds = [
        [Loader(it.port, each, SECONDS).rate(many) if each else 0 for it, each in asked.items()]
        for _ in range(ROUNDS)
    ]
    return [statistics.median(taken) for taken in zip(*rounds)]


def print_heading(what: str, services: list[Service]) -> None:
    """The columns of a table: the servers, how many times the second one's figure that of the
    gateway is, and how many are wanted."""
    names = [what, *(it.name for it in services), "times", "wanted"]
    print("| " + " | ".join(names) + " |")
    print("|---" * len(names) + "|")


def print_row(name: str, figures: list[float], wanted: float | None = None) -> None:
    shown = [f"{it:,.0f}" if it >= 10 else f"{it:,.1f}" if it > 0 else "-" for it in figures]
    times = f"{figures[0] / figures[1]:.2f}" if len(figures) > 1 and figures[1] else "-"
    ends = (times, "-" if wanted is None else f"at least {wanted:g}")
    print(f"| {name} | {' | '.join([*shown, *ends])} |", flush=True)


def table(services: list[Service]) -> None:
    """Prints the pages a second of each server."""
    areas = boxes(services[0])
    kinds = {
        "the first": {it: [it.target()] for it in services},
        "of a walk": {it: walked(it) for it in services},
        "of a box": {it: [it.target(f"&bbox={area}") for area in areas] for it in services},
    }
    print_heading("Pages of 100, a second", services)
    for name, asked in kinds.items():
        sizes = [bytes_of(service, targets) for service, targets in asked.items()]
        for many in CONNECTIONS:
            print_row(f"{name}, connections: {many}", rates(asked, many), WANTED.get(name))
        print_row(f"{name}, bytes of a page", sizes)


def run(program: Path, folder: Path) -> None:
    folder.chmod(0o755)
    if missing := [it for it in ("nginx", "ogr2ogr") if not shutil.which(it)]:
        report("pages", f"not installed: {' '.join(missing)}")
        return
    opening = {"key": "open", "edits": [open_collection("lamps")]}
    file = create(program, folder / "lamps.streetmap", opening, *batches("lamps", 1))
    lamps = write_geopackage(folder)
    with contextlib.ExitStack() as started:
        services = [started.enter_context(gateways(program, file, folder / "gateways"))]
        if QGIS_SERVER.exists():
            services.append(started.enter_context(qgis_server(lamps, folder / "qgis")))
        if MAPSERVER.exists():
            services.append(started.enter_context(mapserver(lamps, folder / "mapserver")))
        table(services)
        report("the load of the machine", " ".join(f"{it:.1f}" for it in os.getloadavg()))
