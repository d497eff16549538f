"""A follower without a shared disk and without PostgreSQL: by the primary's changes, over TLS, with
a password of nginx that writes nothing."""

import base64
from collections.abc import Callable
from dataclasses import dataclass
from pathlib import Path

import office_site
from conditional import Watched
from followers_tests.changes import is_this
from followers_tests.load import batch_text, delays, tell_delays
from followers_tests.processes import Process, Script, running, wait_until
from followers_tests.rows import ENDED
from followers_tests.site import Served, serve_map
from harness import Context
from messages import open_collection

SIGNED = "Basic " + base64.b64encode(office_site.PASSWORD.encode()).decode()
LOGIN = "site-2:follows"
PROBES = 15
BAD = {
    401: (1, ["bad_source 401", "it wants a password, or another one"]),
    403: (1, ["bad_source 403", "it does not let this one in"]),
}


@dataclass(frozen=True)
class Front:
    """nginx over TLS in front of a server with tags and changes."""

    context: Context
    server: Watched
    folder: Path
    port: int
    process: Process

    @classmethod
    def new(
        cls,
        context: Context,
        server: Watched,
        name: str,
        prepare: Callable[[Path], None] | None = None,
    ) -> "Front":
        """The office's nginx, in a folder that may be prepared before it begins."""
        folder = context.folder / name
        folder.mkdir()
        file, port = office_site.office(folder, server.port)
        if prepare is not None:
            prepare(folder)
        process = Process(context, name, serve_map.nginx_command(folder, file), port)
        return cls(context, server, folder, port, process)

    @property
    def url(self) -> str:
        return f"https://localhost:{self.port}"

    def read(self, path: str, method: str = "GET", **fields: str) -> tuple[int, str, bytes]:
        """The status, the tag and the body of an answer."""
        status, headers, body = office_site.asked(f"{self.url}{path}", None, method, **fields)
        return status, headers["ETag"] or "", body

    def send(self, key: str, *edits: dict[str, object]) -> int:
        """The status of a batch that is sent through nginx."""
        body = batch_text(key, *edits).encode()
        return office_site.asked(f"{self.url}/batches", body, Authorization=SIGNED)[0]


def check_followed(context: Context, server: Watched) -> None:
    front = Front.new(context, server, "front")
    with running(front.process):
        opened = front.send("front", open_collection("front"))
        context.check("a batch", opened, 200)
        check_passwords(front)


def check_passwords(front: Front) -> None:
    """Who is let in, what a follower's password is good for, and what it gets."""
    context, source = front.context, f"{front.url}/primary/changes"
    follower, login = Served.new(context, "follower"), context.folder / "follower.login"
    authority, script = front.folder / "streetmap" / "certificate.pem", Script(context, "follow.py")
    login.write_text(LOGIN)
    login.chmod(0o600)
    words: list[str | Path] = [source, follower.url, "--journal", follower.journal]
    trusted: list[str | Path] = [*words, "--login", login, "--ca", authority]
    with running(follower.process):
        context.check("no passwords", script.ends(*trusted, "--once"), BAD[403])
        (front.folder / "streetmap" / "followers").write_text(LOGIN.replace(":", ":{PLAIN}"))
        context.check("no password", script.ends(*words, "--ca", authority, "--once"), BAD[401])
        by_password = {"Authorization": SIGNED}
        status = front.read("/primary/changes?after=0", **by_password)[0]
        context.check("a password of one who writes", status, 401)
        follows = {"Authorization": "Basic " + base64.b64encode(LOGIN.encode()).decode()}
        for method in ("POST", "PUT", "DELETE"):
            status = front.read("/primary/changes", method, **follows)[0]
            context.check(f"{method} by a follower", status, 403)
        batch = office_site.asked(f"{front.url}/batches", b"{}", **follows)[0]
        context.check("a batch by a follower", batch, 401)
        context.check("followed", script.ends(*trusted, "--once"), ENDED)
        context.check("the lines", is_this(follower.journal, front.server.journal), True)
        check_certificates(front, words, login)
        check_delays(front, trusted, follower)


def check_certificates(front: Front, words: list[str | Path], login: Path) -> None:
    """A certificate that nobody trusts, or of another name: no request is sent."""
    context, before = front.context, front.folder / "streetmap" / "certificate.pem"
    other = [str(words[0]).replace("localhost", "127.0.0.1"), *words[1:], "--ca", before]
    for name, given in (("untrusted", words), ("other-name", other)):
        command = Script(context, "follow.py").command(*given, "--login", login)
        process = Process(context, f"follow-{name}", command)
        with running(process):
            said = lambda: "certificate verify failed" in process.log.read_text()
            wait_until(f"{name}: it says so", said, context.seconds)


def check_delays(front: Front, words: list[str | Path], follower: Served) -> None:
    """How late the follower is, by /changes over TLS, and by the journal's file."""
    context, server = front.context, front.server
    changed = Process(context, "follow-tls", Script(context, "follow.py").command(*words))
    by_file = [server.journal, *words[1:]]
    filed = Process(context, "follow-file", Script(context, "follow.py").command(*by_file))
    for name, process in (("changes", changed), ("a file", filed)):
        with running(process):
            begun = lambda: "going on" in process.log.read_text()
            wait_until("it begins", begun, context.seconds)
            (found,) = delays(server.port, [follower.port], f"by {name}".replace(" ", "-"), PROBES)
        tell_delays(context, f"by {name}", found)
    wait_until("all lines", lambda: is_this(follower.journal, server.journal), context.seconds)
