"""The first steps of `make try`: its quarter, over its program in memory and over a file."""

import contextlib
import importlib.util
import socket
import subprocess
import sys
from collections.abc import Iterator
from typing import Any

from harness import TESTS, Context, first_line, free_port
from messages import answers_in, batch, delete, get, post, read_all

TOOL = TESTS.parent / "tools" / "try_town.py"
# The program as the gate leaves it. `make build` has no need of it.
BUILT = TESTS.parent / "crates" / "streetmap_try" / "out" / "streetmap_try"
ITEMS = "/collections/lamps/items"
LOOKS = (
    f"{ITEMS}?bbox=0,0,50000,70000&limit=1",
    f"{ITEMS}?datetime=2018-01-01T00:00:00Z/..",
    f"{ITEMS}/L001",
    "/collections",
    "/conformance",
)


def load_tool() -> Any:
    """The script of `make try` as a module."""
    spec = importlib.util.spec_from_file_location("try_town", TOOL)
    assert spec is not None and spec.loader is not None
    tool = importlib.util.module_from_spec(spec)
    spec.loader.exec_module(tool)
    return tool


def answers_at(port: int, sent: bytes) -> list[tuple[int, bytes]]:
    """The statuses and bodies that a connection answers, their links without the port."""
    with socket.create_connection(("127.0.0.1", port), timeout=60) as stream:
        stream.sendall(sent)
        stream.shutdown(socket.SHUT_WR)
        found = answers_in(read_all(stream))
    own = f"//localhost:{port}/".encode()
    return [(it.status, it.body.replace(own, b"//localhost/")) for it in found]


@contextlib.contextmanager
def in_memory(context: Context) -> Iterator[int]:
    """Serves a port by the program of `make try`."""
    port = free_port()
    with subprocess.Popen([str(BUILT), str(port)], stdout=subprocess.PIPE) as process:
        assert process.stdout is not None
        line = first_line(process.stdout, context.seconds)
        context.check("a first look listens", line, f"listening 127.0.0.1:{port}\n".encode())
        try:
            yield port
        finally:
            process.kill()


def check_words(context: Context) -> None:
    """A port is requested, and nothing else."""
    for words in ((), ("0",), ("65536",), ("8080", "8081"), ("town",)):
        ended = subprocess.run([str(BUILT), *words], capture_output=True, check=False)
        got = (ended.returncode, ended.stdout, ended.stderr)
        context.check(f"a first look of {words}", got, (2, b"", b"usage: streetmap_try PORT\n"))


def check_tool(context: Context) -> None:
    """`make try` itself, from its compiling to its end. The addresses come first."""
    port = free_port()
    words = [sys.executable, str(TOOL), str(port), "5"]
    printed = subprocess.run(words, capture_output=True, text=True, check=False).stdout
    first = f"The server: http://localhost:{port}/\n"
    context.check("what make try prints first", printed[: len(first)], first)
    for text in ("It listens after", '"inserted":145', "Nothing of this is proved", "make serve"):
        context.check(f"make try prints {text!r}", text in printed, True)


def run(context: Context) -> None:
    quarter = post(load_tool().QUARTER.read_bytes())
    gone = batch("crew-7", [delete("lamps", "L003")])
    looks = b"".join(map(get, LOOKS))
    sent = quarter + looks + gone + looks + get(f"{ITEMS}/L003")
    with context.serve(context.new_file("town")) as server:
        wanted = answers_at(server.port, sent)
    statuses = [200] * (2 + 2 * len(LOOKS)) + [404]
    context.check("the statuses of the quarter", [status for status, _ in wanted], statuses)
    context.check("the page that README shows", b'"numberMatched":2' in wanted[1][1], True)
    if BUILT.exists():
        check_words(context)
        with in_memory(context) as port:
            context.check("the quarter in memory and in a file", answers_at(port, sent), wanted)
    if context.slow:
        check_tool(context)
