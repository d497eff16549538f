"""nginx in front of a first server and its followers: which server each request comes to."""

import base64
import subprocess
from pathlib import Path

from followers_tests import origins
from followers_tests.load import Client, batch_text
from followers_tests.origins import asked
from followers_tests.processes import DEPLOY, ROOT, Process, running, wait_until
from followers_tests.site import BASE, Served, Site, serve_map
from harness import free_port

CLIENTS = 24
READS, OTHERS = ("GET", "HEAD"), ("POST", "PUT", "PATCH", "DELETE", "OPTIONS")
PATHS = ("/batches", "//batches", "/%62atches", "/x/../batches", "/collections", "/")


def marked(served: Served, mark: str) -> int:
    """How many requests with a mark a server has answered, by its log."""
    return served.process.log.read_text().count(f"mark={mark} HTTP/")


def found(site: Site, mark: str) -> list[int]:
    return [marked(served, mark) for served in site.all_served()]


def check_methods(site: Site) -> None:
    """What reads comes to a follower, and all else to the first alone, however its path is
    written."""
    client = Client(site.port)
    for number, method in enumerate((*READS, *OTHERS)):
        for at, path in enumerate(PATHS):
            mark = f"m{number}-{at}"
            status, _ = client.ask(method, f"{path}?mark={mark}", "" if method == "POST" else None)
            site.context.check(f"{method} {path}", status in (400, 404, 405), True)
            wait_until(f"{method} {path}", lambda: sum(found(site, mark)) > 0, 30)
            first, *followers = found(site, mark)
            got = (first, sum(followers))
            site.context.check(f"{method} {path}", got, (0, 1) if method in READS else (1, 0))
    client.close()


def pins(site: Site, name: str) -> list[int]:
    """Which follower answers each client: a client sends three requests, on connections of its
    own, and is always answered."""
    chosen = []
    for number in range(CLIENTS):
        mark = f"{name}-{number}-"
        for _ in range(3):
            client = Client(site.port, f"127.0.2.{number + 1}")
            site.context.check(
                f"client {number}", client.ask("GET", f"/collections?mark={mark}")[0], 400
            )
            client.close()
        wait_until(mark, lambda: sum(found(site, mark)) >= 3, 30)
        first, left, right = found(site, mark)
        site.context.check(f"client {number} has one follower", (first, left * right), (0, 0))
        chosen.append(1 if left else 2)
    return chosen


def check_pins(site: Site) -> None:
    """A client stays with one follower. Without that follower it is answered by the other, and the
    clients of the other stay."""
    before = pins(site, "both")
    site.context.check("both followers have clients", set(before), {1, 2})
    site.left.process.kill()
    site.context.check("one follower is away", set(pins(site, "right")), {2})
    site.left.process.start()


def check_batch(site: Site) -> None:
    """A batch through nginx is a follower's state soon, with the links that clients see."""
    client = Client(site.port)
    reply = client.post(batch_text("front", {"collection": "front", "op": "open", "title": "F"}))
    site.context.check("a batch", reply["opened"], 1)
    wait_until("it is there", lambda: client.ask("GET", "/collections/front")[0] == 200, 30)
    body = client.ask("GET", "/collections/front/items")[1]
    site.context.check("its links", f'"href":"{BASE}collections/front'.encode() in body, True)
    site.first.process.kill()
    asked = client.ask("POST", "/batches?mark=none", batch_text("none"))
    site.context.check("a batch without the first", (asked[0], found(site, "none")), (502, [0] * 3))
    site.context.check("a page without it", client.ask("GET", "/collections/front")[0], 200)
    site.first.process.start()
    client.close()


def office(site: Site, folder: Path, port: int) -> Process:
    """nginx with the office's configuration, and followers in the place of one server, as
    docs/OPERATING.md says."""
    kept = folder / "streetmap"
    kept.mkdir(parents=True)
    words = "openssl req -x509 -newkey rsa:2048 -nodes -days 2 -subj /CN=localhost"
    made = [*words.split(), "-keyout", "key.pem", "-out", "certificate.pem"]
    subprocess.run(made, cwd=kept, check=True, capture_output=True)
    (kept / "passwords").write_text("anna:{PLAIN}street\n")
    for name in ("locations.conf", "gateway.conf"):
        (kept / name).write_text((DEPLOY / name).read_text())
    followers = (DEPLOY / "nginx-followers.conf").read_text()
    for old, served in zip((8080, 8081, 8082), site.all_served(), strict=True):
        followers = followers.replace(f"server 127.0.0.1:{old}", f"server 127.0.0.1:{served.port}")
    (kept / "nginx-followers.conf").write_text(followers)
    text = (DEPLOY / "nginx.conf").read_text()
    begin, end = text.index("# One server."), text.index("\nserver {")
    text = f"{text[:begin]}include streetmap/nginx-followers.conf;\n{text[end:]}"
    text = text.replace("listen 80;", f"listen 127.0.0.1:{free_port()};")
    text = text.replace("listen 443 ", f"listen 127.0.0.1:{port} ")
    text = text.replace("/usr/share/streetmap;", f"{ROOT};").replace("/etc/nginx/", f"{folder}/")
    surrounding = serve_map.configuration(folder, port, port, folder / "map.json")
    begin, end = surrounding.index("    map $request_method"), surrounding.rindex("}")
    (folder / "nginx.conf").write_text(surrounding[:begin] + text + surrounding[end:])
    return Process(
        site.context, "office", serve_map.nginx_command(folder, folder / "nginx.conf"), port
    )


def check_office(site: Site) -> None:
    """Over TLS reading needs no password, and goes to followers; a batch needs one. With one it is
    refused too if a page of another origin sends it."""
    port, check = free_port(), site.context.check
    url = f"https://localhost:{port}"
    signed = {"Authorization": "Basic " + base64.b64encode(b"anna:street").decode()}
    batch = batch_text("office")
    with running(office(site, site.context.folder / "office", port)):
        check("a page", asked(f"{url}/collections"), 200)
        check("the map", asked(f"{url}/map/"), 200)
        check("a batch", asked(f"{url}/batches", batch), 401)
        check("a signed batch", asked(f"{url}/batches", batch, **signed), 200)
        check("a marked page", asked(f"{url}/collections?mark=office"), 400)
        check("a follower has it", found(site, "office")[0], 0)
        check("of now", asked(f"{url}/collections?mark=now", Streetmap_Primary="yes"), 400)
        wait_until("of now", lambda: sum(found(site, "now")) > 0, 30)
        check("the first has it", found(site, "now"), [1, 0, 0])
        origins.check_origins(site, url, **signed)


def check_fronts(site: Site) -> None:
    check_methods(site)
    check_pins(site)
    check_batch(site)
    check_office(site)
    origins.check_map_origins(site)
