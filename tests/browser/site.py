"""A file that is served, a relay in front of the server, and nginx in front of the relay."""

import contextlib
import json
import sys
import tempfile
import urllib.request
from collections.abc import Iterator
from dataclasses import dataclass
from pathlib import Path
from typing import Any
from urllib.error import HTTPError

from conditional import NONE, Options, served
from harness import Context, Server, free_port

from browser.relay import Relay

# A large batch takes long on a busy machine.
SECONDS = 600
ROOT = Path(__file__).resolve().parents[2]
sys.path.insert(0, str(ROOT / "deploy"))

import serve_map as serve_map  # noqa: E402


@dataclass
class Site:
    """What one address of the map is served by."""

    context: Context
    file: Path
    port: int
    relay: Relay
    place: Path | None = None
    root: Path = ROOT
    options: Options = NONE
    server: Server | None = None
    _running: contextlib.ExitStack | None = None
    _nginx: contextlib.ExitStack | None = None

    @property
    def base(self) -> str:
        return f"http://localhost:{self.port}"

    @property
    def address(self) -> str:
        return f"{self.base}/map/"

    def start(self) -> None:
        """Serves the file."""
        self._running = contextlib.ExitStack()
        self.server, self.relay.server = self.serve(self._running, self.file)

    def serve(self, running: contextlib.ExitStack, file: Path) -> tuple[Server, int]:
        """Serves a file with the options of this site. Returns the program, which other clients
        reach, and the port that the page's requests go to."""
        words = ["--clients", "64", "--base", f"{self.base}/"]
        if self.options == NONE:
            server = running.enter_context(self.context.serve(file, *words))
            return server, server.port
        made = running.enter_context(served(self.context, file, *words, options=self.options))
        return made.server, made.port

    def stop(self) -> None:
        """Kills the server."""
        self.relay.server = None
        if self._running is not None:
            self._running.close()
        self._running = None

    def start_nginx(self) -> None:
        self._nginx = contextlib.ExitStack()
        folder = self._nginx.enter_context(tempfile.TemporaryDirectory(dir=self.context.folder))
        front = serve_map.front(Path(folder), self.port, self.relay.port, self.place, self.root)
        self._nginx.enter_context(front)

    def stop_nginx(self) -> None:
        if self._nginx is not None:
            self._nginx.close()
        self._nginx = None

    def serve_other(self, file: Path) -> None:
        """Serves another file at the same address."""
        self.stop()
        self.file = file
        self.start()

    def ask(self, target: str, body: Any = None) -> Any:
        """What another client gets: JSON, of an error too."""
        data = None if body is None else json.dumps(body).encode()
        server = self.server
        assert server is not None
        try:
            with urllib.request.urlopen(f"{server.url}{target}", data, timeout=SECONDS) as answer:
                return json.load(answer)
        except HTTPError as error:
            return json.load(error)

    def edit(self, key: str, *edits: dict[str, Any]) -> Any:
        """Another client's batch."""
        return self.ask("/batches", {"key": key, "edits": edits})

    def features(self, collection: str) -> dict[str, Any]:
        """The features of a collection, by id; as another client gets them."""
        page = self.ask(f"/collections/{collection}/items?limit=1000")
        names = ("type", "id", "geometry", "properties")
        bare = [{name: it[name] for name in names} for it in page["features"]]
        return {feature["id"]: feature for feature in bare}


@contextlib.contextmanager
def site(
    context: Context,
    name: str,
    *batches: Any,
    place: Path | None = None,
    root: Path = ROOT,
    options: Options = NONE,
) -> Iterator[Site]:
    """A new file with batches, served."""
    file = context.new_file(f"{name}.streetmap")
    made = Site(context, file, free_port(), Relay(), place, root, options)
    try:
        made.start()
        for batch in batches:
            context.check(f"{name}: batch", "serial" in made.ask("/batches", batch), True)
        made.start_nginx()
        yield made
    finally:
        made.stop_nginx()
        made.stop()
        made.relay.close()
