"""nginx as an office has it: deploy/nginx.conf in a folder like /etc/nginx, and requests to it."""

import os
import shutil
import ssl
import subprocess
import urllib.request
from email.message import Message
from pathlib import Path
from urllib.error import HTTPError

from harness import free_port

ROOT = Path(__file__).resolve().parents[1]
DEPLOY = ROOT / "deploy"
PASSWORD = "crew:street"
SURROUNDINGS = """
daemon off; pid {folder}/nginx.pid; error_log stderr error; {user}
events {{}}
http {{
    include /etc/nginx/mime.types; access_log off;
    client_body_temp_path {folder}/body; proxy_temp_path {folder}/proxy;
    fastcgi_temp_path {folder}/fastcgi; uwsgi_temp_path {folder}/uwsgi;
    scgi_temp_path {folder}/scgi;
    include site.conf;
}}
"""


def office(
    folder: Path, server: int, gateway: int = 8070, port: int | None = None
) -> tuple[Path, int]:
    """A folder like /etc/nginx with deploy/nginx.conf in it, but for ports and paths: those of a
    server, perhaps of a gateway, and of nginx. Gives the file that nginx begins with, and its
    port."""
    kept = folder / "streetmap"
    kept.mkdir()
    for name in ("locations.conf", "gateway.conf", "nginx-cache.conf", "cache-locations.conf"):
        shutil.copy(DEPLOY / name, kept)
    words = "openssl req -x509 -newkey rsa:2048 -nodes -days 2 -subj /CN=localhost"
    made = [*words.split(), "-keyout", "key.pem", "-out", "certificate.pem"]
    subprocess.run(made, cwd=kept, check=True, capture_output=True)
    hashed = subprocess.run(
        ["openssl", "passwd", "-apr1", PASSWORD.partition(":")[2]], check=True, capture_output=True
    )
    (kept / "passwords").write_text(f"{PASSWORD.partition(':')[0]}:{hashed.stdout.decode()}")
    port = port or free_port()
    text = (DEPLOY / "nginx.conf").read_text()
    for old, new in (
        ("127.0.0.1:8080", f"127.0.0.1:{server}"),
        ("127.0.0.1:8070", f"127.0.0.1:{gateway}"),
        ("listen 80;", f"listen 127.0.0.1:{free_port()};"),
        ("listen 443 ", f"listen 127.0.0.1:{port} "),
        ("/usr/share/streetmap;", f"{ROOT};"),
        ("/etc/nginx/streetmap", str(kept)),
    ):
        assert text.count(old) == 1, old
        text = text.replace(old, new)
    (folder / "site.conf").write_text(text)
    user = "user root;" if os.geteuid() == 0 else ""
    (folder / "nginx.conf").write_text(SURROUNDINGS.format(folder=folder, user=user))
    return folder / "nginx.conf", port


def asked(
    url: str, data: bytes | None = None, method: str | None = None, **fields: str
) -> tuple[int, Message, bytes]:
    """A request over TLS, and its answer."""
    trusting = ssl._create_unverified_context()
    headers = {name.replace("_", "-"): it for name, it in fields.items()}
    request = urllib.request.Request(url, data, headers, method=method)
    try:
        with urllib.request.urlopen(request, timeout=60, context=trusting) as answer:
            return answer.status, answer.headers, answer.read()
    except HTTPError as error:
        return error.code, error.headers, error.read()
