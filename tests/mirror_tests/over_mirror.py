"""What the gateway answers from the mirror, with a server, its transport and clients."""

import json
import re
import subprocess
from pathlib import Path
from urllib.parse import urlsplit

from followers_tests.postgres import Database
from gateway_tests.service import PYTHON, ROOT, SYSTEM, environment, gateway, json_of, settings_text
from harness import Context, free_port
from mirror_tests import filters, refusals, schemas, tiles, walks
from mirror_tests.front import Front, front, mirror_settings, reader_of

CLASSES = """
features-3/queryables features-3/queryables-query-parameters features-3/filter
features-3/features-filter features-5/schemas features-5/returnables-and-receivables
features-5/queryables features-5/sortables cql2/cql2-text cql2/basic-cql2
cql2/advanced-comparison-operators cql2/basic-spatial-functions
cql2/basic-spatial-functions-plus tiles-1/core tiles-1/tileset tiles-1/tilesets-list
tiles-1/geodata-tilesets tiles-1/mvt
""".split()
VALIDATE = """
use JSON::Validator::Schema::OpenAPIv3;
print scalar @{JSON::Validator::Schema::OpenAPIv3->new($ARGV[0])->errors};
"""
GDAL_FILTERS = ("no < 5", "kind = 'lamp' AND (no = 7 OR no > 297)")
SECONDS = 300
ADDED = ("/queryables", "/sortables", "/schema", "/tiles", "/tiles/WebMercatorQuad")


def check_gateway(context: Context, cluster: Database, count: int) -> None:
    with front(context, cluster) as made:
        walks.check_pages(context, made)
        walks.check_values(context, made)
        walks.check_orders(context, made)
        filters.check_places(context, made)
        filters.check_filters(context, made.asked, made.kept["assets"], count)
        refusals.check_faults(context, made)
        refusals.check_texts(context, made)
        tiles.check_tiles(context, made)
        check_classes(context, made)
        schemas.check_schemas(context, made)
        check_gdal(context, made)
        check_qgis(context, made)
        walks.check_walks(context, made)
        check_without(context, made)
        check_bounds(context, made)


def short(uri: str) -> str:
    """A conformance class as standard and name."""
    path = urlsplit(uri).path.removeprefix("/spec/").removeprefix("ogcapi-")
    return "/".join([path.split("/")[0], path.split("/")[-1]])


def check_classes(context: Context, made: Front) -> None:
    """The conformance classes and the description."""
    listed = {short(it) for it in json_of(made.asked.ask("/conformance"))["conformsTo"]}
    context.check("the classes", set(CLASSES) - listed, set())
    described = json_of(made.asked.ask("/api"))["paths"]
    file = context.folder / "api.json"
    file.write_bytes(made.asked.ask("/api").content)
    ended = subprocess.run(["perl", "-e", VALIDATE, file], capture_output=True, text=True)
    context.check("the description is valid", (ended.stdout, ended.stderr), ("0", ""))
    there = [f"/collections/{{collectionId}}{path}" in described for path in ADDED[:4]]
    context.check("the description", there, [True] * 4)
    page = made.asked.ask("/collections/assets/items", filter="no < 50", f="html")
    has_link = "serial=" in page.text and "after=" in page.text
    context.check("a page for people", (page.status_code, has_link), (200, True))
    links = {
        it["rel"].rpartition("/")[2]
        for it in json_of(made.asked.ask("/collections/assets"))["links"]
    }
    wanted_links = {"queryables", "sortables", "schema", "tilesets-vector"}
    context.check("links", wanted_links - links, set())


def check_gdal(context: Context, made: Front) -> None:
    """GDAL takes a filter, and applies it to what it has read."""
    for where in GDAL_FILTERS:
        wanted = made.ids("lamps", filter=where, limit=1000)
        words = ["ogrinfo", "-ro", "-q", "-al", "-geom=NO", "-where", where, "--debug", "on"]
        words += ["-oo", "PAGE_SIZE=1000", f"OAPIF:{made.asked.url}", "lamps"]
        ended = subprocess.run(words, capture_output=True, text=True, timeout=SECONDS)
        found = re.findall(r"^  id \(String\) = (.+)$", ended.stdout, re.MULTILINE)
        context.check(f"GDAL: {where}", found, wanted)
        is_own = "filter will be evaluated on client side" in ended.stderr
        context.check(f"GDAL: {where} by itself", is_own, True)


def check_qgis(context: Context, made: Front) -> None:
    """QGIS takes a filter, and applies it to what it has read."""
    wanted = made.ids("lamps", filter="no < 5", limit=1000)
    script = Path(__file__).with_name("qgis_filter.py")
    words = [PYTHON, str(script), made.asked.url, "lamps", '"no" < 5']
    folder = str(context.folder)
    seen = environment() | {"QT_QPA_PLATFORM": "offscreen", "HOME": folder, "TMPDIR": folder}
    ended = subprocess.run(words, env=seen, capture_output=True, text=True, timeout=SECONDS)
    found = json.loads((ended.stdout.splitlines() or ["{}"])[-1])
    context.check("QGIS with a filter", found, {"valid": True, "taken": True, "ids": wanted})


def check_without(context: Context, made: Front) -> None:
    """Without a mirror none of it is there, and the conformance says so; one that is away answers
    503, and all else goes on; and one of another office is refused."""
    with gateway(context, made.server) as asked:
        listed = {short(it) for it in json_of(asked.ask("/conformance"))["conformsTo"]}
        context.check("no classes", set(CLASSES) & listed, set())
        for path in ADDED:
            context.check(f"no {path}", asked.ask(f"/collections/lamps{path}").status_code, 404)
        for name in ("filter", "sortby", "properties", "no"):
            answer = asked.ask("/collections/lamps/items", **{name: "no"}).json()
            context.check(f"no parameter {name}", answer["code"], "unknown_parameter")
    away = mirror_settings(f"postgresql://127.0.0.1:{free_port()}/none")
    with gateway(context, made.server, more=away) as asked:
        answer = asked.ask("/collections/lamps/items", filter="no=1")
        found = answer.status_code, answer.json()["code"], answer.headers["retry-after"]
        context.check("a mirror that is away", found, (503, "mirror_away", "5"))
        context.check("all else", asked.ask("/collections/lamps/items").status_code, 200)
    file = context.folder / "other.toml"
    text = settings_text(
        made.server, free_port(), SYSTEM, mirror_settings(reader_of(made.database))
    )
    file.write_text(text)
    words = [PYTHON, "-m", "gateway", str(file)]
    ended = subprocess.run(words, cwd=ROOT, env=environment(), capture_output=True, timeout=240)
    said = "gateway: mirror: The mirror's system and origin are" in ended.stderr.decode()
    context.check("the mirror of another office", (ended.returncode, said), (2, True))


def check_bounds(context: Context, made: Front) -> None:
    """A connection that breaks is replaced, and a request that takes too long is ended."""
    end = (
        "SELECT pg_terminate_backend(pid) FROM pg_stat_activity WHERE usename = 'streetmap_reader'"
    )
    made.database.ask(end)
    answer = made.asked.ask("/collections/lamps/items", filter="no=1")
    context.check("after connections broke", answer.status_code, 200)
    slow = mirror_settings(reader_of(made.database), "seconds = 1\nconnections = 1")
    system = 'name = "EPSG:25832"\neasting = 565000.000\nnorthing = 5934000.125'
    with gateway(context, made.server, system, slow) as asked:
        made.database.ask(SLEEPING)
        answer = asked.ask("/collections/assets/items", filter="seen > DATE('2010-01-01')")
        found = answer.status_code, answer.json()["code"]
        context.check("a request that takes too long", found, (503, "too_slow"))
        again = asked.ask("/collections/assets/items", filter="no > 3")
        context.check("the next one", again.status_code, 200)


SLEEPING = """
CREATE OR REPLACE FUNCTION streetmap_day(given text) RETURNS tstzrange LANGUAGE plpgsql AS
$$ BEGIN PERFORM pg_sleep(2); RETURN NULL; END $$
"""
