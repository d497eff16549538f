"""A gateway that runs beside a served file, and requests to it."""

import contextlib
import hashlib
import json
import os
import select
import subprocess
from collections.abc import Iterator
from dataclasses import dataclass
from pathlib import Path
from typing import Any

import httpx
from harness import Context, free_port

ROOT = Path(__file__).resolve().parents[2]
PYTHON = "/usr/bin/python3"
TOKEN = "a token of the tests"
WRITER = f"""
[[writers]]
name = "crew-7"
token = "sha256:{hashlib.sha256(TOKEN.encode()).hexdigest()}"
"""
CRS84 = "http://www.opengis.net/def/crs/OGC/1.3/CRS84"
EPSG = "http://www.opengis.net/def/crs/EPSG/0/"
# The office of the tests: Hamburg, in ETRS89 / UTM zone 32N.
OFFICE = f"{EPSG}25832"
SYSTEM = 'name = "EPSG:25832"\neasting = 565000.000\nnorthing = 5934000.000'
READY_SECONDS = 240
STARTED = "\nimport runpy; runpy.run_module('gateway', run_name='__main__')"


@dataclass
class Gateway:
    """A gateway that answers."""

    url: str
    process: subprocess.Popen[bytes]
    client: httpx.Client
    access: Path

    def ask(self, path: str, **parameters: Any) -> httpx.Response:
        """A GET; in the names of parameters `_` represents `-`."""
        named = {name.replace("_", "-"): value for name, value in parameters.items()}
        return self.client.get(self.url + path, params=named or None)

    def send(self, method: str, path: str, body: Any = None, **fields: str) -> httpx.Response:
        """An edit by the writer of the tests; in the names of fields `_` represents `-`."""
        headers = {"Authorization": f"Bearer {TOKEN}"}
        if isinstance(body, bytes):
            headers["Content-Type"] = "application/geo+json"
        headers |= {name.replace("_", "-"): value for name, value in fields.items()}
        url = self.url + path
        if isinstance(body, bytes):
            return self.client.request(method, url, headers=headers, content=body)
        return self.client.request(method, url, headers=headers, json=body)

    def all_items(self, collection: str, **parameters: Any) -> list[dict[str, Any]]:
        """All features of a query, page after page."""
        page = json_of(self.ask(f"/collections/{collection}/items", **parameters))
        found = list(page["features"])
        while following := next_link(page):
            page = json_of(self.client.get(following))
            found += page["features"]
        return found

    def ids(self, collection: str, **parameters: Any) -> list[str]:
        return [feature["id"] for feature in self.all_items(collection, **parameters)]


def json_of(answer: httpx.Response) -> Any:
    """What a request was answered, which has to be 200."""
    assert answer.status_code == 200, f"{answer.status_code} {answer.text}"
    return answer.json()


def next_link(page: dict[str, Any]) -> str | None:
    return next((link["href"] for link in page["links"] if link["rel"] == "next"), None)


def settings_text(
    server: str,
    port: int,
    system: str = SYSTEM,
    more: str = WRITER,
    address: str | None = None,
    title: str = "Streets",
) -> str:
    """The text of a settings file."""
    return (
        f'address = "{address or f"http://127.0.0.1:{port}"}/"\n'
        f"title = {json.dumps(title)}\n[listen]\nport = {port}\n"
        f'[server]\naddress = "{server}/"\nconnections = 24\n[system]\n{system}\n{more}'
    )


@contextlib.contextmanager
def gateway(
    context: Context,
    server: str,
    system: str = SYSTEM,
    more: str = WRITER,
    address: str | None = None,
    title: str = "Streets",
    patience: str = "",
) -> Iterator[Gateway]:
    """A gateway in front of a server's URL, until the block ends. Its links begin with `address`,
    or with where it is. `patience` are statements that change its limits."""
    port = free_port()
    file = context.folder / f"gateway-{port}.toml"
    file.write_text(settings_text(server, port, system, more, address, title))
    log, access = file.with_suffix(".log"), file.with_suffix(".access")
    with log.open("wb") as errors, access.open("wb") as output:
        given = [PYTHON, "-c", patience + STARTED, str(file)]
        process = subprocess.Popen(given, cwd=ROOT, stdout=output, stderr=errors, env=environment())
    with httpx.Client(timeout=90) as client:
        try:
            wait_until_ready(client, f"http://127.0.0.1:{port}")
            yield Gateway(f"http://127.0.0.1:{port}", process, client, access)
        finally:
            process.kill()
            process.wait(timeout=READY_SECONDS)
    context.check("the log of the gateway", log.read_text(), "")


def environment() -> dict[str, str]:
    return os.environ | {"PYTHONDONTWRITEBYTECODE": "1", "PYTHONPATH": str(ROOT)}


def wait_until_ready(client: httpx.Client, url: str) -> None:
    for _ in range(READY_SECONDS * 5):
        try:
            client.get(f"{url}/conformance")
            return
        except httpx.ConnectError:
            select.select([], [], [], 0.2)
    raise TimeoutError("the gateway does not answer")
