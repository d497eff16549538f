"""Who reads through nginx is answered, whatever happens to the followers."""

import subprocess

from followers_tests.fronts import found
from followers_tests.load import Client, Load, batch_text
from followers_tests.processes import Process, wait_until
from followers_tests.site import Served, Site
from messages import feature, open_collection, point, put
from operating_tests.document import commands_of

READERS = 8
# How many pages each reader has after a follower has failed.
PAGES = 5
# Restarts of each follower, one after the other.
RESTARTS = 2
# What a reader may be answered besides a page: that a follower has no such collection yet, and
# half an answer (0) of one that is killed.
ALLOWED = {0, 404}
# In bytes: how much more a follower may write before its disk is full, and a feature's text. How
# many batches fill it at most: the longest file may be a log that begins again.
ROOM, TEXT, MOST_BATCHES = 400_000, 20_000, 100


def check_readers(load: Load, site: Site, what: str) -> None:
    for reader in load.pages():
        site.context.check(f"{what}: {reader.others}", reader.others <= ALLOWED, True)
        site.context.check(f"{what}: pages", len(reader.numbers) > 0, True)


def check_rolling(site: Site) -> None:
    """The followers are restarted in turn, at once one after the other."""
    with Load(site.port, ["rolling"], READERS) as load:
        for served in (site.left, site.right) * RESTARTS:
            served.process.kill()
            served.process.start()
        wait_until("pages", lambda: all(it.numbers for it in load.pages()), 30)
    check_readers(load, site, "a rolling restart")


def asked_for(served: Served, collection: str) -> int:
    """How many requests for a collection a server has answered, by its log."""
    return served.process.log.read_text().count(f"GET /collections/{collection}/")


def check_drained(site: Site) -> None:
    """The documented commands take a follower out, so that nobody queries it when it is killed."""
    served, folder = site.left, site.context.folder / site.nginx.name
    (commands,) = commands_of("Restarting a follower")
    places = {
        "sudo ": "",
        "8081": str(served.port),
        "/etc/nginx/streetmap/nginx-followers.conf": f"{folder}/nginx.conf",
        "/run/nginx.pid": f"{folder}/nginx.pid",
        "systemctl reload nginx": f"kill -HUP $(cat {folder}/nginx.pid)",
    }
    for old, new in places.items():
        commands = commands.replace(old, new)
    out, back = commands.split("systemctl restart streetmap@town\n")

    def run(what: str, given: str) -> None:
        ended = subprocess.run(["sh", "-ec", given], capture_output=True, timeout=120, check=False)
        site.context.check(what, ended.returncode, 0)

    with Load(site.port, ["drained"], READERS) as load:
        wait_until("pages", lambda: all(it.numbers for it in load.pages()), 30)
        run("it is taken out", out)
        before = asked_for(served, "drained")
        wanted = [len(reader.numbers) + PAGES for reader in load.pages()]
        more = lambda: all(len(it.numbers) > at for it, at in zip(load.pages(), wanted))
        wait_until("readers go on", more, 30)
        site.context.check("it had clients", before > 0, True)
        site.context.check("it is asked no more", asked_for(served, "drained"), before)
        served.process.kill()
        served.process.start()
        run("it is put back", back)
        wait_until("it is asked", lambda: asked_for(served, "drained") > before, 30)
    check_readers(load, site, "a restart that nobody sees")


def check_both_away(site: Site) -> None:
    """The primary answers alone, and a follower that is back has its clients at once."""
    client = Client(site.port)
    for served in (site.left, site.right):
        served.process.kill()
    for method in ("GET", "HEAD"):
        status, _ = client.ask(method, f"/collections/rolling?mark={method}")
        site.context.check(f"{method} without followers", status, 400)
        wait_until(method, lambda: found(site, method) == [1, 0, 0], 30)
        status, body = client.ask(method, "/collections/rolling/items?limit=1")
        site.context.check(f"a page by {method}", (status, bool(body)), (200, method == "GET"))
    for served in (site.left, site.right):
        served.process.start()
    client.ask("GET", "/collections?mark=back")
    wait_until("an answer", lambda: sum(found(site, "back")) > 0, 30)
    site.context.check("a follower is back", found(site, "back")[0], 0)
    client.close()


def limited(process: Process, bytes_: int) -> Process:
    """The same process, none of whose files may be longer. A write after that fails, as on a full
    disk."""
    before = ["env", "--ignore-signal=XFSZ", "prlimit", f"--fsize={bytes_}"]
    return Process(process.context, process.name, [*before, *process.words], process.port)


def is_failed(served: Served) -> bool:
    """Whether a follower has failed: it answers so, or has ended."""
    client = Client(served.port)
    status, _ = client.ask("GET", "/collections")
    client.close()
    return status in (0, 500)


def fill(client: Client, served: Served, number: int) -> None:
    """Posts a batch with long texts, and waits until the follower has it, or has failed."""
    made = [
        put("insert", "full", feature(f"F{number}-{at}", point(at, at), {"t": "x" * TEXT}))
        for at in range(10)
    ]
    reply = client.post(batch_text(f"full-{number}", *made))

    def there() -> bool:
        last = served.journal.read_bytes().rpartition(b"\n")[0].rpartition(b"\n")[2]
        return int(last.partition(b"\t")[0]) >= reply["serial"] or is_failed(served)

    wait_until("the follower goes on", there, 30)


def check_full_disk(site: Site) -> None:
    """The disk of a follower is full: its clients are answered by another, and those that have
    seen the latest state by it still are."""
    client, served = Client(site.port), site.left
    client.post(batch_text("full-open", open_collection("full")))
    served.process.kill()
    paths = (served.file, served.file.with_name(f"{served.file.name}-wal"), served.journal)
    size = max(path.stat().st_size for path in paths if path.exists())
    full = limited(served.process, size + ROOM)
    full.start()
    with Load(site.port, ["filling"], READERS) as load:
        number = 0
        while not is_failed(served) and number < MOST_BATCHES:
            fill(client, served, number)
            number += 1
        site.context.check("its disk is full", is_failed(served), True)
        wanted = [len(reader.numbers) + PAGES for reader in load.pages()]
        more = lambda: all(len(it.numbers) > at for it, at in zip(load.pages(), wanted))
        wait_until("readers go on", more, 30)
    check_readers(load, site, "a full disk")
    full.kill()
    served.process.start()
    client.close()


def check_reading(site: Site) -> None:
    check_rolling(site)
    check_drained(site)
    check_both_away(site)
    check_full_disk(site)
    site.catch_up()
