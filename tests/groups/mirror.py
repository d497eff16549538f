"""The mirror: PostGIS tables that are the ledger's state, under kills, and the tools that read them.

Lines of a journal act in a database as the plain model says, or are refused by name. A server, the
transport and PostgreSQL are killed in turn under load, and what the mirror then has is compared
with the server's exports by `mirror_check.py`. QGIS and others open the views.
"""

from followers_tests import postgres
from followers_tests.processes import running, wait_until
from harness import Context
from mirror_tests import acting, changes, drawn, filling, kills, over_mirror, rows, times, tools
from mirror_tests import views
from mirror_tests.mirrors import Mirror

PACKAGES = (
    "cgi-mapserver",
    "gdal-bin",
    "libjson-validator-perl",
    "postgresql",
    "postgresql-15-postgis-3",
    "python3-aiohttp",
    "python3-httptools",
    "python3-httpx",
    "python3-jinja2",
    "python3-jsonschema",
    "python3-lark",
    "python3-psycopg2",
    "python3-pydantic",
    "python3-pyproj",
    "python3-qgis",
    "python3-starlette",
    "python3-uvicorn",
    "python3-uvloop",
    "qgis-server",
)
# Groups of random batches, and rounds of killing, in the short form and in the long one.
GROUPS, SLOW_GROUPS = 40, 1000
ROUNDS, SLOW_ROUNDS = 3, 50
# Random filters of the gateway.
FILTERS, SLOW_FILTERS = 700, 10_000


def run(context: Context) -> None:
    cluster = postgres.primary(context)
    with running(cluster.process):
        wait_until("PostgreSQL answers", cluster.answers, context.seconds)
        times.check_times(Mirror.new(context, cluster, "mirror_times"))
        acting.check_acting(context, cluster, SLOW_GROUPS if context.slow else GROUPS)
        rows.check_rows(context, cluster)
        rows.check_made_later(context, cluster)
        rows.check_made_late(context, cluster)
        rows.check_owner(context, cluster)
        rows.check_towns(context, cluster)
        changes.check_changes(context, cluster)
        changes.check_places(context, cluster)
        drawn.check_drawn(context, cluster)
        views.check_views(context, cluster)
        tools.check_tools(context, cluster)
        filling.check_filling(context, cluster)
        over_mirror.check_gateway(context, cluster, SLOW_FILTERS if context.slow else FILTERS)
        kills.check_kills(context, cluster, SLOW_ROUNDS if context.slow else ROUNDS)
