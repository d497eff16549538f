"""The gateway in real reference systems: boxes, edits, faults, and QGIS, GDAL and OWSLib."""

from gateway_tests import answers, boxes, clients, costs, doubles, edits, faults
from gateway_tests import html_pages, network, orders, pages, round_trip, settings, tags, texts
from gateway_tests import writing
from gateway_tests.data import batches, collections
from gateway_tests.service import gateway
from harness import Context
from messages import post

PACKAGES = (
    "libjson-validator-perl",
    "python3-aiohttp",
    "python3-jinja2",
    "python3-pydantic",
    "python3-starlette",
    "python3-uvicorn",
    "python3-httptools",
    "python3-uvloop",
    "python3-httpx",
    "python3-lark",
    "python3-psycopg2",
    "python3-pyproj",
    "python3-qgis",
    "python3-gdal",
    "gdal-bin",
    "python3-owslib",
    "libjs-leaflet",
    "nginx",
    "openssl",
)


def run(context: Context) -> None:
    settings.check_settings(context)
    writing.check_token(context)
    doubles.check_doubles(context)
    texts.check_texts(context)
    file = context.new_file("town.streetmap", *map(post, batches(collections())))
    with context.serve(file, "--clients", "48") as server:
        with gateway(context, server.url) as asked, network.Rude(context, asked):
            costs.check_boxes(context, asked)
            answers.check_resources(context, asked)
            answers.check_systems(context, asked)
            answers.check_refusals(context, asked)
            html_pages.check_forms(context, asked)
            pages.check_pages(context, asked)
            pages.check_times(context, asked)
            boxes.check_office_boxes(context, asked)
            boxes.check_turned_orders(context, asked)
            boxes.check_wide_boxes(context, asked)
            boxes.check_small_boxes(context, asked)
            boxes.check_long_lines(context, asked)
            boxes.check_random_boxes(context, asked)
            clients.check_clients(context, asked)
            settings.check_place(context, asked)
            faults.check_many(context, asked)
        pages.check_walk(context, server.url)
        boxes.check_turned_boxes(context, server.url)
        network.check_front(context, server)
        network.check_patience(context, server)
    round_trip.check_round_trips(context)
    boxes.check_antimeridian(context)
    orders.check_orders(context)
    pages.check_short_pages(context)
    html_pages.check_pages(context)
    edits.check_edits(context)
    tags.check_tags(context)
    faults.check_faults(context)
