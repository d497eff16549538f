"""Serves a file and its map on one port of this machine, as an ordinary user, until it is stopped.

    python3 deploy/serve_map.py PROGRAM FILE [--port PORT] [--place TABLE] [--town quarter]

The program listens on a free port, and nginx on PORT in front of it: the page at /map/, all else
the program's. nginx's files are in a scratch folder. A FILE that is not there is made. If the
program or nginx ends, all of it ends, with that status. With `--town quarter` the sample quarter is
sent to it at each start: it is one batch under one key, so it acts once.

The page keeps edits apart by the town that they are for. It reads the town's name in map.json,
which is here the path of FILE, unless TABLE has another.
"""

import argparse
import contextlib
import json
import os
import shutil
import signal
import socket
import subprocess
import sys
import tempfile
import time
import urllib.request
from collections.abc import Iterator
from pathlib import Path
from typing import Any
from urllib.error import HTTPError

DEPLOY = Path(__file__).resolve().parent
ROOT = DEPLOY.parent
LEAFLET = Path("/usr/share/javascript/leaflet")
# The sample towns, each a batch.
TOWNS = {"quarter": ROOT / "examples" / "quarter.json"}
EMPTY = """\
The town is empty. Open a collection on the page (Map, "Open a collection"), or fill a file with the
sample quarter: make map TOWN=quarter
"""


def free_port() -> int:
    """A port of this machine that nothing listens on."""
    with socket.create_server(("127.0.0.1", 0)) as listener:
        port: int = listener.getsockname()[1]
        return port


def wait_for(port: int, process: subprocess.Popen[bytes], name: str) -> None:
    """Waits until something listens on the port, however long a large file takes to open; fails if
    the process ends first."""
    while process.poll() is None:
        with contextlib.suppress(OSError), socket.create_connection(("127.0.0.1", port), 1):
            return
        time.sleep(0.05)
    raise SystemExit(f"{name} ended with status {process.returncode}")


def configuration(folder: Path, port: int, server: int, place: Path, root: Path = ROOT) -> str:
    """The text of serve_map.conf, its names filled in."""
    words = {
        "folder": folder,
        "port": port,
        "server": server,
        "user": "user root;" if os.geteuid() == 0 else "",
        "root": root,
        "leaflet": LEAFLET,
        "place": place,
        "locations": DEPLOY / "locations.conf",
    }
    text = (DEPLOY / "serve_map.conf").read_text()
    for name, value in words.items():
        text = text.replace(f"@{name}@", str(value))
    return text


def nginx_command(folder: Path, file: Path) -> list[str]:
    """nginx over a configuration file, with the folder in place of the system's."""
    nginx = shutil.which("nginx") or shutil.which("nginx", path="/usr/sbin:/sbin")
    if nginx is None or not LEAFLET.is_dir():
        raise SystemExit("The map needs Debian's packages nginx and libjs-leaflet.")
    return [nginx, "-e", "stderr", "-p", str(folder), "-c", str(file)]


@contextlib.contextmanager
def running(command: list[str], port: int, **options: Any) -> Iterator[subprocess.Popen[bytes]]:
    """A process that listens on the port; it is ended after the block."""
    process: subprocess.Popen[bytes] = subprocess.Popen(command, **options)
    try:
        wait_for(port, process, command[0])
        yield process
    finally:
        process.terminate()
        try:
            process.wait(10)
        except subprocess.TimeoutExpired:
            process.kill()
            process.wait()


@contextlib.contextmanager
def front(
    folder: Path, port: int, server: int, place: Path | None = None, root: Path = ROOT
) -> Iterator[subprocess.Popen[bytes]]:
    """nginx on a port, in front of a server on another: the page of `root` is at /map/."""
    file = folder / "nginx.conf"
    file.write_text(configuration(folder, port, server, place or folder / "map.json", root))
    with running(nginx_command(folder, file), port) as nginx:
        yield nginx


def map_json(table: Path | None, town: str) -> str:
    """What the page reads of the office: the table that places the grid, and the town's name."""
    try:
        held = json.loads(table.read_text()) if table else {}
    except (OSError, ValueError) as fault:
        raise SystemExit(f"{table} cannot be read: {fault}") from fault
    return json.dumps({"town": town} | held)


def fill(server: int, town: str) -> None:
    """Sends a sample town to the server, which takes it once."""
    batch = TOWNS[town].read_bytes()
    try:
        with urllib.request.urlopen(f"http://127.0.0.1:{server}/batches", batch, timeout=60):
            return
    except HTTPError as error:
        why = json.load(error)["description"]
        raise SystemExit(f"The sample {town} does not go into this file: {why}") from error


def is_empty(server: int) -> bool:
    """Whether no collection is open there."""
    with urllib.request.urlopen(f"http://127.0.0.1:{server}/collections", timeout=60) as answer:
        return not json.load(answer)["collections"]


def wait_for_end(processes: dict[str, subprocess.Popen[bytes]]) -> int:
    """Waits until one of the processes ends, and reports it. Returns its status, or as a shell
    does 128 and the number of the signal that ended it."""
    while True:
        for name, process in processes.items():
            status = process.poll()
            if status is not None:
                print(f"{name} ended with status {status}", file=sys.stderr)
                return status if status >= 0 else 128 - status
        os.waitid(os.P_ALL, 0, os.WEXITED | os.WNOWAIT)


def main() -> None:
    words = argparse.ArgumentParser(description=(__doc__ or "").splitlines()[0])
    words.add_argument("program", type=Path)
    words.add_argument("file", type=Path)
    words.add_argument("--port", type=int, default=8080)
    words.add_argument("--place", type=Path, help="the table that places the grid in WGS 84")
    words.add_argument("--town", choices=TOWNS, help="a sample town to fill FILE with")
    asked = words.parse_args()
    signal.signal(signal.SIGTERM, lambda *_: sys.exit(0))
    program = str(asked.program.resolve())
    if not asked.file.exists():
        subprocess.run([program, "create", asked.file], check=True)
    server = free_port()
    serve = [program, "serve", str(asked.file), "--port", str(server), "--clients", "64"]
    serve += ["--base", f"http://localhost:{asked.port}/"]
    held = map_json(asked.place, str(asked.file.resolve()))
    with contextlib.ExitStack() as stack:
        folder = Path(stack.enter_context(tempfile.TemporaryDirectory()))
        (folder / "map.json").write_text(held)
        started = stack.enter_context(running(serve, server, stdout=subprocess.DEVNULL))
        if asked.town:
            fill(server, asked.town)
        how = EMPTY if is_empty(server) else ""
        nginx = stack.enter_context(front(folder, asked.port, server))
        print(f"The map: http://localhost:{asked.port}/map/ (Ctrl-C ends it)\n{how}", end="")
        sys.stdout.flush()
        with contextlib.suppress(KeyboardInterrupt):
            sys.exit(wait_for_end({program: started, "nginx": nginx}))


if __name__ == "__main__":
    main()
