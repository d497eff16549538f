"""Serves a file with entity tags and conditions (`--conditional`), and with `/changes`."""

import contextlib
from collections.abc import Iterator
from dataclasses import dataclass
from pathlib import Path

from harness import Context, Server
from proxy import Proxy, listening


@dataclass(frozen=True)
class Options:
    """Options of a server: `--conditional` and `--changes`."""

    tags: bool = False
    changes: bool = False

    @property
    def words(self) -> list[str]:
        return ["--conditional"] * self.tags + ["--changes"] * self.changes


NONE, TAGS, BOTH = Options(), Options(tags=True), Options(tags=True, changes=True)


@dataclass(frozen=True)
class Served:
    """A file that is served with a journal beside it."""

    server: Server
    port: int
    journal: Path

    @property
    def url(self) -> str:
        return f"http://127.0.0.1:{self.port}"


@dataclass(frozen=True)
class Watched(Served):
    """One with a proxy in front, at the port."""

    proxy: Proxy


@contextlib.contextmanager
def served(context: Context, file: Path, *words: str, options: Options = BOTH) -> Iterator[Served]:
    """Serves a file with options."""
    journal = file.with_name(f"{file.name}.journal")
    with context.serve(file, "--journal", str(journal), *words, *options.words) as server:
        yield Served(server, server.port, journal)


@contextlib.contextmanager
def watched(context: Context, file: Path, *words: str) -> Iterator[Watched]:
    """Serves a file with both options, and a proxy in front."""
    with served(context, file, *words) as made:
        proxy = Proxy(server=made.port)
        with listening(proxy) as port:
            yield Watched(made.server, port, made.journal, proxy)
