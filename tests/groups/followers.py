"""Followers: a first server, PostgreSQL with a standby, two followers and nginx, killed in turn.

The first is under load, and its journal goes by `journal_to_postgres.py` into a PostgreSQL that has
a streaming standby. `follow.py` brings one follower the lines of the table, and another those of
the standby's. nginx sends what reads to the followers, and what writes to the first alone. At the
end each collection's export is the same bytes on all, and each journal that of the first.

Before that, over a PostgreSQL of its own: digests and audits, single bits that are flipped in files
and tables, leases and promotions, restores up to a serial or a time, followers that somebody else
has given batches, followers with a token, and primaries that are fenced.
"""

import random
import time

from followers_tests import audits, figures, flips, forks, fronts, leases, parts, postgres
from followers_tests import promotions, reading, restores, roles, rows, tables
from followers_tests.load import Load, delays, tell_delays
from followers_tests.processes import running, wait_until
from followers_tests.site import Site, site
from harness import Context

PACKAGES = (
    "libjs-leaflet",
    "nginx",
    "openssl",
    "postgresql",
    "python3-prometheus-client",
    "python3-psycopg2",
)
# Rounds of killing, in the short form and in the long one.
ROUNDS, SLOW_ROUNDS = 3, 50
READERS, PROBES = 6, 15
# The collections of the writers, while nothing is killed and then.
QUIET, KILLED = [f"quiet-{at}" for at in range(4)], [f"killed-{at}" for at in range(4)]
# In seconds: how long all run between two kills, at most.
BETWEEN_SECONDS = 0.4


def check_quiet(site: Site) -> None:
    """Nothing is killed: how late followers are, and that no client's pages go back in time."""
    context = site.context
    followers = [site.left.port, site.right.port]
    idle = delays(site.first.port, followers, "idle", PROBES)
    with Load(site.port, QUIET, READERS) as load:
        busy = delays(site.first.port, followers, "busy", PROBES)
    for what, found in (("no load", idle), ("load", busy)):
        tell_delays(context, f"by the primary, {what}", found[0])
        tell_delays(context, f"by the standby, {what}", found[1])
    for reader in load.pages():
        context.check("no page goes back in time", reader.numbers, sorted(reader.numbers))


def check_beginnings(site: Site) -> None:
    """The whole lines of each follower's journal begin the first's."""
    kept = [served.journal.read_bytes() for served in (site.left, site.right)]
    whole = site.first.journal.read_bytes()
    for journal in kept:
        lines = journal[: journal.rfind(b"\n") + 1]
        site.context.check("a beginning of the first's journal", whole.startswith(lines), True)


def check_killed(site: Site, rounds: int) -> dict[str, int]:
    """Rounds in which all are killed hard in turn, under load; what was acknowledged."""
    chance = random.Random(rounds)
    with Load(site.port, KILLED, READERS) as load:
        for _ in range(rounds):
            for process in site.to_kill():
                process.kill()
                check_beginnings(site)
                process.start()
                time.sleep(chance.uniform(0, BETWEEN_SECONDS))
    for reader in load.pages():
        # A follower that has not come so far lacks the collection. One that is killed within its
        # answer cuts it, which is status 0. As one is away at a time, another answers.
        others = reader.others <= {0, 404}
        site.context.check(f"other answers under kills: {reader.others}", others, True)
    return load.serials()


def check_end(site: Site, acknowledged: dict[str, int]) -> None:
    """What is kept at the end, once all are stopped: the same everywhere."""
    context = site.context
    journal, wanted = site.first.journal.read_bytes(), None
    for database in (site.primary, site.standby):
        wait_until("a table has all lines", lambda: database.has(journal), context.seconds)
    for served in site.all_served():
        served.process.kill()
        name = served.file.name
        context.check(f"the journal of {name}", served.journal.read_bytes() == journal, True)
        context.check(f"the batches of {name}", context.run("batches", served.file), journal)
        exports = {
            it: context.run("export", served.file, "--collection", it) for it in QUIET + KILLED
        }
        wanted = wanted or exports
        context.check(f"the exports of {name}", exports == wanted, True)
    keys = {line[1:].rpartition(b'"key":"')[2][:-2].decode(): line for line in journal.splitlines()}
    found = {key: int(keys[key].partition(b"\t")[0]) for key in acknowledged if key in keys}
    context.check("each acknowledged batch has its serial", found == acknowledged, True)
    print(f"  {len(journal.splitlines())} batches, {len(acknowledged)} acknowledged under kills")


def check_tables_alone(context: Context) -> None:
    """What needs a PostgreSQL, and no server that runs all the time."""
    own = postgres.primary(context, "alone")
    with running(own.process):
        wait_until("PostgreSQL answers", own.answers, context.seconds)
        audits.check_audits(context, own)
        leases.check_leases(context, own)
        promotions.check_promotions(context, own)
        roles.check_roles(context, own)
        restores.check_restores(context, own)
        flips.check_flips(context, own)


def run(context: Context) -> None:
    rows.check_rows(context)
    rows.check_large(context)
    parts.check_parts(context)
    words = ("--port", "1", "--journal", context.folder / "none.journal")
    if not context.takes("serve", context.folder / "none", *words):
        return
    forks.check_forks(context)
    roles.check_guards(context)
    check_tables_alone(context)
    with site(context) as made:
        tables.check_tables(context, made.primary)
        check_quiet(made)
        fronts.check_fronts(made)
        reading.check_reading(made)
        figures.check_figures(made)
        acknowledged = check_killed(made, SLOW_ROUNDS if context.slow else ROUNDS)
        made.catch_up()
        check_end(made, acknowledged)
