"""Requests over sockets, on 1, 10 and 100 connections, beside nginx with a file of the same size.

It needs `wrk`, and `nginx` for the comparison (Debian's packages of these names); if they are
missing it says so. Then the slowest of 1,000 requests beside 200 idle connections.
"""

import contextlib
import os
import shutil
import socket
import subprocess
import time
from collections.abc import Iterator
from pathlib import Path

from harness import free_port
from measures import CONFORMANCE, create, fail, peak_of, report

BODY = b'{"conformsTo":["tag:streetmap.invalid,2024:conf/grid-features"]}'
SECONDS = 3
NGINX = """
worker_processes 1;
daemon off;
pid {folder}/nginx.pid;
error_log {folder}/error.log;
{user}
events {{ worker_connections 1024; }}
http {{
    access_log off;
    keepalive_requests 100000000;
    client_body_temp_path {folder}/body;
    proxy_temp_path {folder}/proxy;
    fastcgi_temp_path {folder}/fastcgi;
    uwsgi_temp_path {folder}/uwsgi;
    scgi_temp_path {folder}/scgi;
    server {{
        listen 127.0.0.1:{port};
        root {folder}/www;
        location / {{ default_type application/json; }}
    }}
}}
"""
Started = tuple[subprocess.Popen[bytes], int]


@contextlib.contextmanager
def until_done(process: subprocess.Popen[bytes], port: int) -> Iterator[Started]:
    """A server from the time that it listens on; it is stopped at the end of the block."""
    try:
        for _ in range(600):
            with contextlib.suppress(OSError):
                socket.create_connection(("127.0.0.1", port), timeout=1).close()
                break
            time.sleep(0.05)
        else:
            fail(f"nothing listens at port {port}")
        yield process, port
    finally:
        process.terminate()
        process.wait()


def serve(program: Path, file: Path, *words: str) -> contextlib.AbstractContextManager[Started]:
    port = free_port()
    given: list[str | Path] = [program, "serve", file, "--port", str(port), *words]
    return until_done(subprocess.Popen(given, stdout=subprocess.DEVNULL), port)


def nginx(folder: Path) -> contextlib.AbstractContextManager[Started]:
    port, written = free_port(), folder / "nginx.conf"
    (folder / "www").mkdir()
    (folder / "www" / "conformance").write_bytes(BODY)
    user = "user root;" if os.getuid() == 0 else ""
    written.write_text(NGINX.format(folder=folder, port=port, user=user))
    given = ["nginx", "-p", str(folder), "-c", str(written)]
    return until_done(subprocess.Popen(given, stderr=subprocess.DEVNULL), port)


def rate(port: int, connections: int) -> float:
    """Requests a second."""
    url = f"http://127.0.0.1:{port}/conformance"
    given = ["wrk", "-t1", f"-c{connections}", f"-d{SECONDS}s", url]
    done = subprocess.run(given, capture_output=True, text=True, check=True).stdout
    if "Non-2xx" in done or "Socket errors" in done:
        fail(f"wrk reports errors: {done}")
    return float(done.partition("Requests/sec:")[2].split()[0])


def report_rates(name: str, port: int, counts: tuple[int, ...]) -> None:
    found = ", ".join(f"{rate(port, count):,.0f} on {count}" for count in counts)
    report(f"{name}, requests a second by connections", found)


def rates(program: Path, folder: Path) -> None:
    if not shutil.which("wrk"):
        report("requests a second", "wrk is not installed")
        return
    file = create(program, folder / "rates.streetmap")
    with serve(program, file, "--clients", "256") as (_, port):
        report_rates("serve --clients 256", port, (1, 10, 100))
    with serve(program, file) as (_, port):
        report_rates("serve, one connection after the other", port, (1,))
    if not shutil.which("nginx"):
        report("nginx", "it is not installed")
        return
    with nginx(folder) as (_, port):
        report_rates("nginx", port, (1, 10, 100))


def one_answer(stream: socket.socket) -> float:
    """Seconds of one request."""
    start, came = time.perf_counter(), b""
    stream.sendall(CONFORMANCE)
    while not came.endswith(BODY):
        came += stream.recv(65536)
    return time.perf_counter() - start


def beside_idle_clients(program: Path, folder: Path) -> None:
    file = create(program, folder / "idle.streetmap")
    with contextlib.ExitStack() as open_ones:
        process, port = open_ones.enter_context(serve(program, file, "--clients", "256"))
        address = ("127.0.0.1", port)
        for _ in range(200):
            open_ones.enter_context(socket.create_connection(address))
        asks = open_ones.enter_context(socket.create_connection(address))
        took = [one_answer(asks) for _ in range(1000)]
        figures = f"{sum(took):.3f} s, the slowest {max(took) * 1000:.2f} ms"
        peak = f"the process held {peak_of(process) / 2**20:.1f} MiB"
        report("1,000 requests beside 200 idle connections", f"{figures}; {peak}")


def run(program: Path, folder: Path) -> None:
    folder.chmod(0o755)
    rates(program, folder)
    beside_idle_clients(program, folder)
