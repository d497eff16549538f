"""Serves the sample quarter from memory, with no proof: python3 tools/try_town.py [PORT] [SECONDS]

`rt try` compiles `streetmap_try`, which serves a keeper in memory, with a check at each access in
place of the proofs, and runs it. The quarter is sent as a batch over HTTP. If nginx and Leaflet are
installed, the map page is served too, on the next free port. All ends after SECONDS, an hour if
left out, or at Ctrl-C.
"""

import contextlib
import importlib.util
import itertools
import signal
import socket
import subprocess
import sys
import tempfile
import time
import urllib.request
from collections.abc import Iterator
from pathlib import Path
from types import ModuleType

ROOT = Path(__file__).resolve().parent.parent
QUARTER = ROOT / "examples" / "quarter.json"
PROGRAM = ROOT / "crates" / "streetmap_try"
HELP = """\
Nothing of this is proved: the program is compiled with a check at each access in place of the
proofs, and it is slower. The quarter is in memory, and gone at the end. make serve proves the
program first, and keeps a file. Ask in another shell, for example:

curl 'localhost:{port}/collections/lamps/items?bbox=0,0,50000,70000&limit=1'
curl 'localhost:{port}/collections/lamps/items?datetime=2018-01-01T00:00:00Z/..'
curl -d '{{"key":"crew-7","edits":[{{"op":"delete","collection":"lamps","id":"L003"}}]}}' \
localhost:{port}/batches

Ctrl-C ends it."""


def is_taken(port: int) -> bool:
    """Whether something listens at the port."""
    with socket.socket() as probe:
        return probe.connect_ex(("127.0.0.1", port)) == 0


def map_server() -> ModuleType | None:
    """deploy/serve_map.py as a module; nothing if nginx or Leaflet is not installed."""
    spec = importlib.util.spec_from_file_location("serve_map", ROOT / "deploy" / "serve_map.py")
    assert spec is not None and spec.loader is not None
    module = importlib.util.module_from_spec(spec)
    spec.loader.exec_module(module)
    try:
        module.nginx_command(ROOT, ROOT)
    except SystemExit:
        return None
    return module


def send(port: int, batch: bytes) -> str:
    request = urllib.request.Request(f"http://127.0.0.1:{port}/batches", data=batch)
    with urllib.request.urlopen(request, timeout=60) as answer:
        return str(answer.read().decode())


def wait_for(port: int, running: subprocess.Popen[bytes]) -> bool:
    """Waits until the port answers; returns whether it does before the program ends."""
    begun = shown = time.monotonic()
    while not is_taken(port):
        if running.poll() is not None:
            return False
        if time.monotonic() - shown > 30:
            shown = time.monotonic()
            print(f"Still compiling, {shown - begun:.0f} s.", flush=True)
        time.sleep(0.2)
    print(f"It listens after {time.monotonic() - begun:.0f} s.")
    return True


@contextlib.contextmanager
def compiled(folder: Path, port: int, seconds: int) -> Iterator[subprocess.Popen[bytes]]:
    """The program as `rt try` compiles and runs it; it is ended after the block."""
    words = ["rt", "try", "--steps", "1", "--seconds", str(seconds), "--", str(port)]
    with (
        (folder / "log").open("wb") as log,
        subprocess.Popen(
            words, cwd=PROGRAM, stdin=subprocess.DEVNULL, stdout=log, stderr=log
        ) as running,
    ):
        try:
            yield running
        finally:
            running.terminate()


def serve(folder: Path, port: int, seconds: int) -> int:
    serve_map = map_server()
    map_port = next(it for it in itertools.count(port + 1) if not is_taken(it))
    print(f"The server: http://localhost:{port}/")
    if serve_map is not None:
        print(f"The map:    http://localhost:{map_port}/map/")
    print("Both are there once it listens. Compiling takes a minute or two.", flush=True)
    with contextlib.ExitStack() as stack:
        running = stack.enter_context(compiled(folder, port, seconds))
        if not wait_for(port, running):
            print((folder / "log").read_text(errors="replace"), end="")
            return 1
        print(f"The sample quarter is there: {send(port, QUARTER.read_bytes())}\n")
        if serve_map is not None:
            stack.enter_context(serve_map.front(folder, map_port, port))
        print(HELP.format(port=port), flush=True)
        running.wait()
    return 0


def main() -> int:
    port = int(sys.argv[1]) if len(sys.argv) > 1 else 8080
    seconds = int(sys.argv[2]) if len(sys.argv) > 2 else 3600
    if is_taken(port):
        print(f"Something listens at port {port}: name another one, as make try PORT=8081")
        return 1
    # So that the program is ended when this script gets a signal to end.
    signal.signal(signal.SIGTERM, lambda number, _: sys.exit(128 + number))
    with tempfile.TemporaryDirectory(prefix="streetmap-try-") as folder:
        with contextlib.suppress(KeyboardInterrupt):
            return serve(Path(folder), port, seconds)
    return 0


if __name__ == "__main__":
    sys.exit(main())
