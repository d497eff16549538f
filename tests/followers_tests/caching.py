"""nginx that keeps the pages of a server with tags, and requests them again by these."""

import json
import re
import threading
from pathlib import Path

from conditional import Watched
from followers_tests.fronted import Front
from followers_tests.processes import running
from harness import Context, free_port
from messages import feature, open_collection, point, put

PAGE = "/collections/kept/items?limit=1000"
ITEM = "/collections/kept/items/K"
# How often a page is changed and read, and how many others read it meanwhile.
ROUNDS, READERS = 60, 4


def switch_on(folder: Path) -> None:
    """Takes away the signs before what is off, and gives it ports and a folder of the test."""
    site, cache = folder / "site.conf", folder / "streetmap" / "nginx-cache.conf"
    text, count = re.subn(r"# (include streetmap/\S*cache\S*;)", r"\1", site.read_text())
    assert count == 2, count
    site.write_text(text)
    kept, hop = cache.read_text(), free_port()
    assert kept.count("127.0.0.1:8079") == 2, kept
    assert kept.count("/var/lib/nginx/streetmap") == 1, kept
    kept = kept.replace("127.0.0.1:8079", f"127.0.0.1:{hop}")
    cache.write_text(kept.replace("/var/lib/nginx/streetmap", str(folder / "kept")))


def lamp(number: int) -> dict[str, object]:
    return feature("K", point(number, 7), {"n": number, "text": "x" * 2000})


def number_of(body: bytes) -> int:
    """The number of the feature that a page, or the feature itself, shows."""
    shown = json.loads(body)
    found: int = (shown["features"][0] if "features" in shown else shown)["properties"]["n"]
    return found


def statuses(front: Front, since: int) -> list[int]:
    """What the server has answered since a moment, by the number of requests before it."""
    return [status for _, _, status in front.server.proxy.requests[since:]]


def check_kept(front: Front) -> None:
    """A page is asked for again by its tag, and comes from what nginx keeps while it is the same:
    by GET, by HEAD, compressed, and for a client that has it."""
    check, asked = front.context.check, front.server.proxy.requests
    check(
        "opened", front.send("kept", open_collection("kept"), put("insert", "kept", lamp(0))), 200
    )
    first = front.read(PAGE)
    check("a page", (first[0], number_of(first[2])), (200, 0))
    since = len(asked)
    check("again", front.read(PAGE), first)
    check("HEAD", front.read(PAGE, "HEAD"), (200, first[1], b""))
    check("one that has it", front.read(PAGE, If_None_Match=first[1])[0], 304)
    check("one that has another", front.read(PAGE, If_None_Match='"other"')[0], 200)
    zipped = front.read(PAGE, Accept_Encoding="gzip")
    check("compressed", (zipped[0], zipped[1], zipped[2][:2]), (200, f"W/{first[1]}", b"\x1f\x8b"))
    check("by its weak tag", front.read(PAGE, If_None_Match=zipped[1])[0], 304)
    check("the server's answers", statuses(front, since), [304] * 6)
    since = len(asked)
    refused = [front.read("/collections/no/items")[0] for _ in range(2)]
    check("what is refused", (refused, statuses(front, since)), ([404, 404], [404, 404]))
    held = [path for path in (front.folder / "kept").rglob("*") if path.is_file()]
    check("what is kept", len(held) > 0, True)


def check_never_old(front: Front) -> None:
    """Each page that is requested after a batch was acknowledged shows it, whoever else reads the
    page meanwhile."""
    acknowledged, wrong, stop = [0], [], threading.Event()

    def reader() -> None:
        while not stop.is_set():
            least = acknowledged[0]
            status, _, body = front.read(PAGE)
            if status != 200 or number_of(body) < least:
                wrong.append((status, body[:300], least))

    threads = [threading.Thread(target=reader, daemon=True) for _ in range(READERS)]
    for thread in threads:
        thread.start()
    for number in range(1, ROUNDS + 1):
        status = front.send(f"kept-{number}", put("replace", "kept", lamp(number)))
        acknowledged[0] = number
        shown = [number_of(front.read(path)[2]) for path in (PAGE, ITEM)]
        front.context.check(f"round {number}", (status, shown), (200, [number] * 2))
    stop.set()
    for thread in threads:
        thread.join(60)
    front.context.check("no page is old", wrong, [])


def check_untagged(front: Front) -> None:
    """A server that gives no tags: nothing is kept, and no page is old."""
    front.server.proxy.gives_tags = False
    path = f"{PAGE}&after=0"
    for number in (1, 2, 3):
        front.send(f"untagged-{number}", put("replace", "kept", lamp(-number)))
        status, tag, body = front.read(path)
        got = (status, tag, number_of(body))
        front.context.check("without tags", got, (200, "", -number))
    front.server.proxy.gives_tags = True


def check_pages(context: Context, server: Watched) -> None:
    front = Front.new(context, server, "keeping", switch_on)
    with running(front.process):
        check_kept(front)
        check_never_old(front)
        check_untagged(front)
