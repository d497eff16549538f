"""Servers that refuse batches: followers with a token, and primaries that are fenced."""

import base64
from collections.abc import Iterator
from contextlib import contextmanager
from dataclasses import dataclass, replace
from pathlib import Path

from followers_tests.postgres import Database
from followers_tests.processes import DEPLOY, Process, Script, running, wait_until
from followers_tests.rows import ENDED, LINES, OTHER, TEXTS, lamp, text_of
from followers_tests.site import front
from harness import Context, Server, free_port
from messages import get, post, request
from office_site import asked
from operating_tests.document import commands_of
from operating_tests.machine import Machine, machine
from units import started, stop_commands

TOKEN = "a-token-of-a-script"
JOURNAL_UNIT, FOLLOWER_UNIT = (
    DEPLOY / f"streetmap-{name}@.service" for name in ("journal", "follower")
)
PAGE = "/collections/lamps/items?limit=1"


@dataclass
class Guards:
    """Servers of one file, a journal that is sent to them, and a file with their token."""

    context: Context
    file: Path

    @property
    def journal(self) -> Path:
        return self.context.folder / "guarded.journal"

    def token(self, name: str = "token", text: str = TOKEN, mode: int = 0o600) -> Path:
        path = self.context.folder / f"guarded.{name}"
        path.write_text(f"{text}\n")
        path.chmod(mode)
        return path

    def follow(self, url: str, count: int, *words: str | Path) -> tuple[int, list[str]]:
        """Sends the first lines; how the script ends."""
        self.journal.write_bytes(b"".join(LINES[:count]))
        return Script(self.context, "follow.py").ends(self.journal, url, *words, "--once")

    def refused(self, what: str, server: Server, code: str) -> None:
        """Batches of others are refused, and change nothing."""
        other = {"Authorization": f"Bearer {TOKEN}s"}
        sent = post(OTHER) + request("POST", "/batches", OTHER, fields=other)
        got = [(it.status, it.json()["code"]) for it in server.ask(sent)]
        self.context.check(f"{what}: batches of others", got, [(403, code)] * 2)

    def has(self, what: str, count: int) -> None:
        found = self.context.run("batches", self.file)
        self.context.check(f"{what}: its batches", found, b"".join(LINES[:count]))


def check_token(guards: Guards) -> None:
    """A follower takes its script's lines alone, also after a restart."""
    token, check = guards.token(), guards.context.check
    for count in (3, 5):
        with guards.context.serve(guards.file, "--follower", str(token)) as server:
            guards.refused(f"up to {count}", server, "follower")
            got = guards.follow(server.url, count, "--token", token)
            check("by the script", got, ENDED)
            for other in ("", str(guards.token("other", f"{TOKEN}s"))):
                got = guards.follow(server.url, 6, "--token", other)
                check(f"the token of {other!r}", got, (1, ["refused b1 follower"]))
            guards.refused(f"from {count} on", server, "follower")
            check("a page", server.ask(get(PAGE))[0].status, 200)
        guards.has("a follower", count)


def check_token_files(guards: Guards) -> None:
    """Files without a token, which the server refuses too, and one that all may read."""
    url, no_token = f"http://127.0.0.1:{free_port()}", "its first line is no token"
    private = "a token is sent over https, or to this machine"
    for text in ("", TOKEN[:15], f"{TOKEN[:9]} {TOKEN[9:]}", "t" * 129, f"\n{TOKEN}", f"{TOKEN}\r"):
        file = guards.token("none", text)
        got = guards.follow(url, 1, "--token", file)
        guards.context.check(f"the token {text!r}", got, (2, [f"bad_token {file} {no_token}"]))
    shared, missing = guards.token("shared", mode=0o644), guards.journal.with_name("missing")
    for words, wanted in (
        ((url, 1, "--token", shared), f"bad_token {shared} any user may read it: chmod 600"),
        ((url, 1, "--token", missing), f"bad_token {missing} [Errno 2] No such file"),
        (("http://192.0.2.1", 1, "--token", guards.token()), f"bad_token {private}"),
    ):
        status, said = guards.follow(*words)
        guards.context.check(wanted, (status, said[0][: len(wanted)]), (2, wanted))


def check_nginx(guards: Guards) -> None:
    """nginx passes neither a token nor a password on: both stay without effect."""
    basic = base64.b64encode(f"x:{TOKEN}".encode()).decode()
    port = free_port()
    with guards.context.serve(guards.file, "--follower", str(guards.token())) as server:
        nginx = front(guards.context, server.port, (server.port, server.port), port)
        with running(nginx):
            for field in (f"Bearer {TOKEN}", f"Basic {basic}"):
                url = f"http://127.0.0.1:{port}/batches"
                status, _, body = asked(url, OTHER, Authorization=field)
                got = status, b'"code":"follower"' in body
                guards.context.check(f"{field.split()[0]} by nginx", got, (403, True))
    guards.has("by nginx", 5)


def check_fenced(guards: Guards) -> None:
    """A fenced server takes no line either, and answers pages."""
    token = guards.token()
    with guards.context.serve(guards.file, "--fenced") as server:
        guards.refused("fenced", server, "fenced")
        got = guards.follow(server.url, 6, "--token", token)
        guards.context.check("its script", got, (1, ["refused b1 fenced"]))
        guards.context.check("its page", server.ask(get(PAGE))[0].json()["numberMatched"], 4)
    guards.has("fenced", 5)


def check_guards(context: Context) -> None:
    guards = Guards(context, context.new_file("guarded"))
    check_token(guards)
    check_token_files(guards)
    check_nginx(guards)
    check_fenced(guards)


@dataclass
class Town:
    """A machine that serves a town by the lines of its units, over a database."""

    made: Machine
    database: Database

    @property
    def context(self) -> Context:
        return self.made.context

    def set(self, **settings: str) -> None:
        """Writes settings, in the lines that they have."""
        text = self.made.settings.read_text()
        for name, value in settings.items():
            assert f"\n{name}=\n" in text, name
            text = text.replace(f"\n{name}=\n", f"\n{name}={value}\n")
        self.made.settings.write_text(text)

    def place(self, name: str) -> str:
        return str(self.made.path(f"/var/lib/streetmap/{name}"))

    def lines(self) -> bytes:
        return Path(self.place("town.journal.000000000001")).read_bytes()

    def unit(self, unit: Path) -> Process:
        """What a unit starts here."""
        words = started(unit, self.made.settings.read_text())
        words = [it.replace("/usr/share/streetmap/deploy", str(DEPLOY)) for it in words]
        words = [self.place(Path(it).name) if it.startswith("/var/lib/") else it for it in words]
        return Process(self.context, f"{self.made.folder.name}-{unit.name}", words)

    def do(self, commands: str) -> None:
        """Commands of the documents, over the database."""
        ended = self.made.run(commands.replace("postgresql:///streetmap", self.database.dsn))
        self.context.check(commands.split("\n")[0], (ended.returncode, ended.stderr), (0, ""))

    def stopped(self, unit: Path, status: int) -> None:
        """What a unit does here once its program has ended."""
        for command in stop_commands(unit, status):
            self.made.done(command)

    def answers(self, what: str, batch: bytes, *wanted: object) -> None:
        """What a batch is answered, with its code if it is refused, and a page."""
        self.made.wait()
        url = f"http://127.0.0.1:{self.made.port}"
        status, _, body = asked(f"{url}/batches", batch)
        code = body.partition(b'"code":"')[2].partition(b'"')[0].decode()
        got = [status, *([code] if code else []), asked(f"{url}{PAGE}")[0]]
        self.context.check(f"{what}: a batch and a page", got, [*wanted, 200])


@contextmanager
def town(context: Context, database: Database, name: str) -> Iterator[Town]:
    with machine(context, name) as made:
        found = Town(made, database)
        context.run("create", made.town)
        found.set(JOURNAL=found.place("town.journal.000000000001"))
        yield found


def begun(old: Town, new: Town) -> None:
    """The settings of a primary, and of a follower whose token the documented command makes."""
    old.set(DATABASE=old.database.dsn)
    (made,) = [it for it in commands_of("Followers") if "base64" in it]
    command = made[made.index("sudo -u streetmap sh") :].partition("town.token'\n")
    new.made.done("".join(command[:2]))
    token = Path(new.place("town.token"))
    new.context.check("the token's file", oct(token.stat().st_mode & 0o777), "0o600")
    new.set(SOURCE=new.database.dsn, FOLLOWER_TOKEN=str(token))
    for each in (old, new):
        each.made.done("systemctl start streetmap@town")


def check_switch(old: Town, new: Town) -> None:
    """A follower is promoted by the documented commands while the old primary runs, whose unit
    fences it. No batch of others gets in."""
    blocks = commands_of("Becoming the first")
    promote, take = ([it for it in blocks if word in it][-1] for word in ("--promote", "fenced"))
    context, seconds, whole = old.context, old.context.seconds, b"".join(LINES[:2])
    copier = old.unit(JOURNAL_UNIT)
    with running(copier, new.unit(FOLLOWER_UNIT)):
        for text in TEXTS[:2]:
            old.answers("the primary", text, 200)
        wait_until("the follower has them", lambda: new.lines() == whole, seconds)
        new.answers("the follower", OTHER, 403, "follower")
        new.made.run(promote.replace("postgresql:///streetmap", new.database.dsn))
        assert copier.process is not None
        context.check("the old one's script", copier.process.wait(seconds), 4)
    old.stopped(JOURNAL_UNIT, 1)
    old.answers("another fault", TEXTS[1], 200)
    old.stopped(JOURNAL_UNIT, 4)
    old.answers("fenced", TEXTS[2], 403, "fenced")
    new.answers("not promoted yet", TEXTS[2], 403, "follower")
    new.do(take)
    new.answers("promoted", TEXTS[2], 200)
    context.check("the old one's batches", old.lines(), whole)
    context.check("the new one's", new.lines(), b"".join(LINES[:3]))


def check_return(old: Town, new: Town) -> None:
    """The old primary comes back, again and again, and is fenced by hand too."""
    fence, *_ = [it for it in commands_of("Becoming the first") if "fenced" in it]
    with running(new.unit(JOURNAL_UNIT)):
        has = lambda: new.database.has(new.lines())
        wait_until("the new one's script", has, new.context.seconds)
    for _ in range(2):
        old.made.done("systemctl stop streetmap@town")
        old.stopped(JOURNAL_UNIT, 4)
        old.context.check("one that is stopped stays so", old.made.is_active(), False)
        old.made.done("systemctl start streetmap@town")
        old.answers("it is back", text_of("b4", lamp(4)), 403, "fenced")
        copier = old.unit(JOURNAL_UNIT)
        with running(copier):
            assert copier.process is not None
            old.context.check("its script", copier.process.wait(old.context.seconds), 4)
    old.do(fence)
    old.answers("fenced by hand", TEXTS[1], 403, "fenced")


def check_roles(context: Context, cluster: Database) -> None:
    cluster.ask_alone("CREATE DATABASE roles")
    database = replace(cluster, name="roles")
    with town(context, database, "role-old") as old, town(context, database, "role-new") as new:
        begun(old, new)
        check_switch(old, new)
        check_return(old, new)
