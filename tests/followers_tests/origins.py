"""Requests that pages of other origins send, through nginx: none of them may write."""

import ssl
import urllib.error
import urllib.request
from dataclasses import dataclass

from followers_tests.load import batch_text
from followers_tests.processes import Script
from followers_tests.rows import ENDED
from followers_tests.site import Site

# What a form of any page can send: its text is a batch, and no preflight is sent.
FORM = {"Content-Type": "text/plain"}
SITE, ORIGIN = "Sec-Fetch-Site", "Origin"


def asked(url: str, body: str | None = None, **fields: str) -> int:
    """The status of a request with these fields; certificates are taken as they are."""
    given = {name.replace("_", "-"): value for name, value in fields.items()}
    data = None if body is None else body.encode()
    request = urllib.request.Request(url, data, FORM | given)
    trusting = ssl.create_default_context()
    trusting.check_hostname, trusting.verify_mode = False, ssl.CERT_NONE
    try:
        with urllib.request.urlopen(request, timeout=60, context=trusting) as answer:
            status: int = answer.status
            return status
    except urllib.error.HTTPError as error:
        return error.code


@dataclass
class Origins:
    """An address of nginx in front of a site, and the fields of who is signed in there."""

    site: Site
    url: str
    signed: dict[str, str]
    count: int = 0

    def row(self, what: str, status: int, **fields: str) -> None:
        """Posts a batch that was not sent before. It acts if it is answered 200, else nothing is
        changed."""
        self.count += 1
        before = self.site.serial()
        batch = batch_text(f"origin-{self.url.rpartition(':')[2]}-{self.count}")
        got = asked(f"{self.url}/batches", batch, **self.signed, **fields)
        what = f"{self.url[:5]} {what}"
        self.site.context.check(what, got, status)
        acted = self.site.serial() - before
        self.site.context.check(f"{what}: batches", acted, 1 if status == 200 else 0)


def check_allowed(origins: Origins) -> None:
    row, own = origins.row, origins.url
    row("no browser", 200)
    row("the page", 200, Sec_Fetch_Site="same-origin", Origin=own)
    row("a person", 200, Sec_Fetch_Site="none")
    row("the page in an older browser", 200, Origin=own)
    row("TLS at a proxy in front", 200, Origin=own.replace("http:", "https:"))


def check_refused(origins: Origins) -> None:
    row, own = origins.row, origins.url
    row("a page of another site", 403, Sec_Fetch_Site="cross-site", Origin="https://evil.example")
    row("a page of a site beside", 403, Sec_Fetch_Site="same-site", Origin="https://x.example")
    row("one without an origin", 403, Sec_Fetch_Site="cross-site", Origin="null")
    row("one that says another origin", 403, Sec_Fetch_Site="cross-site", Origin=own)
    row("one of another relation", 403, Sec_Fetch_Site="another", Origin=own)
    scheme, _, host = own.partition("://")
    for origin in (
        "null",
        "https://evil.example",
        f"{own}.evil.example",
        f"{own}1",
        f"{own}/",
        f"{own}@evil.example",
        f"https://evil.example/{own}",
        f"{scheme}://localhost",
        f"{scheme}://localhost:1",
        f"ftp://{host}",
    ):
        row(f"an older browser at {origin}", 403, Origin=origin)
    if scheme == "https":
        row("the same host without TLS", 403, Origin=f"http://{host}")


def check_reading(origins: Origins) -> None:
    """A link of another page leads here; what only reads is answered."""
    url = f"{origins.url}/collections"
    got = asked(url, Sec_Fetch_Site="cross-site", Origin="https://evil.example")
    origins.site.context.check("reading by another page", got, 200)


def check_origins(site: Site, url: str, **signed: str) -> None:
    origins = Origins(site, url, signed)
    check_allowed(origins)
    check_refused(origins)
    check_reading(origins)


def check_map_origins(site: Site) -> None:
    """What `make map` listens at: also under the name of a host that was turned to this machine.
    follow.py passes."""
    url = f"http://localhost:{site.port}"
    check_origins(site, url)
    rebound = {"Host": f"evil.example:{site.port}", "Sec-Fetch-Site": "same-origin"}
    got = asked(f"{url}/batches", batch_text("rebound"), **rebound)
    site.context.check("a host that was turned here", got, 421)
    got = asked(f"{url}/collections", Host="evil.example")
    site.context.check("reading by it", got, 421)
    ends = Script(site.context, "follow.py").ends(site.first.journal, url, "--once")
    site.context.check("follow.py through nginx", ends, ENDED)
