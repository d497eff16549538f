"""nginx's configuration: what is deployed passes `nginx -t`, and does what it says."""

import base64
import gzip
import json
import re
import subprocess
import tempfile
from pathlib import Path

from harness import Context, free_port
from office_site import PASSWORD, asked, office

from browser.browsers import browser
from browser.site import Site, serve_map, site
from browser.towns import town


def tested(command: list[str]) -> str:
    """What `nginx -t` says, but for the names of files."""
    told = subprocess.run([*command, "-t"], capture_output=True, text=True, check=False).stderr
    return re.sub(r"nginx: |configuration file \S+ ", "", told).strip()


def configurations(context: Context) -> None:
    """Both configurations are right, and warn of nothing."""
    fine = "the syntax is ok\ntest is successful"
    with tempfile.TemporaryDirectory() as name:
        folder = Path(name)
        text = serve_map.configuration(folder, free_port(), free_port(), folder / "map.json")
        (folder / "nginx.conf").write_text(text)
        command = serve_map.nginx_command(folder, folder / "nginx.conf")
        context.check("nginx -t of make map", tested(command), fine)
    with tempfile.TemporaryDirectory() as name:
        file, _ = office(Path(name), free_port())
        context.check(
            "nginx -t of nginx.conf", tested(serve_map.nginx_command(Path(name), file)), fine
        )


def secured(context: Context) -> None:
    """TLS, the password for POST, compression, limits and the policy, through deploy/nginx.conf."""
    with site(context, "office", town()) as made, tempfile.TemporaryDirectory() as name:
        folder = Path(name)
        file, port = office(folder, made.relay.port)
        with serve_map.running(serve_map.nginx_command(folder, file), port):
            base = f"https://localhost:{port}"
            check_access(context, base)
            check_answers(context, base)
            signed_in(context, made, base)


def check_access(context: Context, base: str) -> None:
    check = context.check
    batch = b'{"key":"n1","edits":[]}'
    signed = "Basic " + base64.b64encode(PASSWORD.encode()).decode()
    wrong = "Basic " + base64.b64encode(b"crew:other").decode()
    check("GET needs no password", asked(f"{base}/collections")[0], 200)
    status, fields, _ = asked(f"{base}/batches", batch)
    check("POST does", (status, fields["WWW-Authenticate"]), (401, 'Basic realm="Streetmap"'))
    check("a wrong password", asked(f"{base}/batches", batch, Authorization=wrong)[0], 401)
    check("the right password", asked(f"{base}/batches", batch, Authorization=signed)[0], 200)
    large = b" " * 8_388_609
    status, _, body = asked(f"{base}/batches", large, Authorization=signed)
    check("the server's own 413", (status, json.loads(body)["code"]), (413, "body_too_large"))
    check("nginx's 413", asked(f"{base}/batches", b" " * 9_500_000, Authorization=signed)[0], 413)
    check("the page is read only", asked(f"{base}/map/", b"x", Authorization=signed)[0], 403)


def check_answers(context: Context, base: str) -> None:
    check = context.check
    status, fields, body = asked(
        f"{base}/collections/lamps/items?limit=1000", Accept_Encoding="gzip"
    )
    check("pages are compressed", (status, fields["Content-Encoding"]), (200, "gzip"))
    check("the page of features", json.loads(gzip.decompress(body))["numberMatched"], 12)
    _, fields, _ = asked(f"{base}/map/")
    policy = dict(
        part.strip().split(" ", 1) for part in fields["Content-Security-Policy"].split(";")
    )
    wanted = {
        "default-src": "'none'",
        "script-src": "'self'",
        "style-src": "'self'",
        "connect-src": "'self'",
    }
    check("the policy", {name: policy[name] for name in wanted}, wanted)
    check("images", policy["img-src"], "'self' data: blob:")
    check("no table", asked(f"{base}/map/map.json")[2], b"{}")
    check("outside of the page", asked(f"{base}/map/../Makefile")[0], 404)
    check("a way out of Leaflet", asked(f"{base}/map/leaflet/%2e%2e/nodejs/")[0], 404)


def signed_in(context: Context, made: Site, base: str) -> None:
    """The page over TLS, with the name and password that a browser wants at the first 401."""
    with browser() as page:
        signed = "Basic " + base64.b64encode(PASSWORD.encode()).decode()
        page.driver.execute_cdp_cmd("Network.enable", {})
        headers = {"headers": {"Authorization": signed}}
        page.driver.execute_cdp_cmd("Network.setExtraHTTPHeaders", headers)
        page.open(f"{base}/map/")
        page.wait_kept()
        page.press("Point", "#tools")
        page.fill("#edit-id", "TLS")
        page.click_at(*page.view()[:2])
        page.press("Put in basket")
        page.save()
        page.wait_sent()
        context.check("sent with them", made.ask("/collections/lamps/items/TLS")["id"], "TLS")


PARTS = (configurations, secured)
