"""A follower by `/changes` of a server: where it goes on, what it sees, and how it ends."""

import re
import sys
import threading
from collections.abc import Callable, Iterator
from contextlib import contextmanager
from dataclasses import dataclass, field
from http.server import BaseHTTPRequestHandler, ThreadingHTTPServer
from pathlib import Path
from urllib.parse import parse_qsl, urlsplit

from followers_tests.forks import fork
from followers_tests.processes import DEPLOY, Process, Script, running, wait_until
from followers_tests.rows import ENDED, LINES, OTHER, TEXTS, UNKNOWN, Rows, lamp, lines_of, text_of
from harness import Context

sys.path.insert(0, str(DEPLOY))

from journal_changes import AT_ONCE, Changes, lines_of as lines_in  # noqa: E402
from journal_files import JournalFiles  # noqa: E402
from journal_lines import Fault, Line, SourceAway  # noqa: E402

# A status, and a body; a body that is None is cut within itself.
Found = tuple[int, bytes | None]
TAG = re.compile(r'"-?[0-9]+"')


@dataclass
class Source:
    """A server that answers `/changes` as it is made to, also wrongly: it has these lines, gives
    these answers first, and keeps what it was asked."""

    lines: list[bytes]
    first: list[Found] = field(default_factory=list)
    asked: list[tuple[str, int]] = field(default_factory=list)
    login: str = ""
    gives_tags: bool = True
    most: int = AT_ONCE
    port: int = 0

    @property
    def url(self) -> str:
        return f"http://127.0.0.1:{self.port}/changes"

    @property
    def tag(self) -> str:
        return f'"{hash(tuple(self.lines))}"'

    def after(self, query: str) -> bytes:
        """The lines after the serial of a query, by what each says of itself."""
        asked = {name: int(value) for name, value in parse_qsl(query)}
        later = [it for it in self.lines if serial_of(it) > asked["after"]]
        return b"".join(later[: min(asked["limit"], self.most)])


def serial_of(line: bytes) -> int:
    found = line.partition(b"\t")[0]
    return int(found) if found.isdigit() else 1 << 60


class Handler(BaseHTTPRequestHandler):
    """A connection to a source."""

    protocol_version = "HTTP/1.1"
    disable_nagle_algorithm = True
    source: Source

    def log_message(self, *_words: object) -> None:
        """Nothing is logged."""

    def do_GET(self) -> None:
        status, body = self.found()
        known = self.headers.get("If-None-Match", "")
        self.source.asked.append((f"{self.path} {known}".strip(), status))
        self.send_response_only(status)
        if self.source.gives_tags and status in (200, 304):
            self.send_header("ETag", self.source.tag)
        if status != 304:
            self.send_header("Content-Length", "99" if body is None else str(len(body)))
        self.end_headers()
        self.wfile.write(b"1\t" if body is None else body)
        self.close_connection = body is None

    def found(self) -> Found:
        source, known = self.source, self.headers.get("If-None-Match", "")
        if source.first:
            return source.first.pop(0)
        if self.headers.get("Authorization", "") != source.login:
            return 401, b""
        assert not known or TAG.fullmatch(known), known
        if source.gives_tags and known == source.tag:
            return 304, b""
        return 200, source.after(urlsplit(self.path).query)


class Listener(ThreadingHTTPServer):
    """Where a source listens."""

    daemon_threads = True

    def handle_error(self, *_words: object) -> None:
        """A client that went away is nothing to report."""


@contextmanager
def serving(source: Source) -> Iterator[Source]:
    bound = type("Bound", (Handler,), {"source": source})
    with Listener(("127.0.0.1", 0), bound) as listener:
        source.port = listener.server_port
        threading.Thread(target=listener.serve_forever, args=[0.05], daemon=True).start()
        try:
            yield source
        finally:
            listener.shutdown()


@dataclass
class ChangeRows:
    """A follower, and sources whose changes are sent to it."""

    rows: Rows

    def words(self, source: Source, *more: str) -> list[str | Path]:
        """What follow.py is given."""
        return [source.url, self.rows.server.url, "--position", self.rows.position, *more]

    def row(
        self,
        what: str,
        lines: list[bytes],
        begun: str | None,
        ends: str | None,
        count: int,
        *first: Found,
    ) -> Source:
        """Follows a source from a position on. Wanted: the fault, and the number of batches after
        it."""
        position, context = self.rows.position, self.rows.context
        position.unlink(missing_ok=True)
        if begun is not None:
            position.write_text(begun)
        with serving(Source(lines, list(first))) as source:
            words = self.words(source, "--once")
            status, said = Script(context, "follow.py").ends(*words)
        said = [it for it in said if not it.startswith(("away: ", "back"))]
        context.check(what, (status, said[:1]), (1, [ends]) if ends else ENDED)
        context.check(f"{what}: the follower", self.rows.count(), count)
        return source


def check_places(made: ChangeRows) -> None:
    """Where it goes on: from nothing, in sittings, with the position lost."""
    row, check = made.row, made.rows.context.check
    row("the first lines", LINES[:3], None, None, 3)
    check("the position", made.rows.kept(), "3 b3\n")
    row("more lines", LINES[:4], "3 b3\n", None, 4)
    row("a lost position", LINES[:5], None, None, 5)
    row("an older position", LINES[:5], "1 b1\n", None, 5)
    row("nothing new", LINES[:5], "5 b5\n", None, 5)
    row("a source that begins after the place", LINES[5:6], "5 b5\n", None, 6)
    row("no lines", [], "6 b6\n", None, 6)


def check_faults(made: ChangeRows) -> None:
    """What is seen, and changes nothing of the follower: the faults of a journal's file."""
    row = made.row
    row("a line is missing", LINES[6:], "5 b5\n", "lines_missing 6 6", 6)
    row("it begins too late", LINES[1:], None, "lines_missing 1 1", 6)
    row("a gap", [*LINES[:6], LINES[7]], "5 b5\n", "bad_line 7", 6)
    row("another order", [LINES[0], LINES[2], LINES[1]], None, "bad_line 2", 6)
    row("a line twice", [*LINES[:6], LINES[5]], "5 b5\n", "bad_line 7", 6)
    row("a line that is none", [*LINES[:6], b"7 x\n"], "6 b6\n", "bad_line 7", 6)
    row("a line without a key", [*LINES[:6], b"7\t{}\n"], "6 b6\n", "bad_line 7", 6)
    row("no line feed", [*LINES[:6], LINES[6][:-1]], "6 b6\n", "bad_line 7", 6)
    zeroed = LINES[6][:9] + b"\0" + LINES[6][10:]
    row("a zero byte", [*LINES[:6], zeroed], "6 b6\n", "bad_line 7", 6)
    row("HTML", LINES, "6 b6\n", "bad_line 6", 6, (200, b"<html>\n"))
    swapped = lines_of([TEXTS[2], TEXTS[1]], 2)
    row("a refused line", [*LINES[:6], *lines_of([UNKNOWN], 7)], "6 b6\n", REFUSED, 6)
    row("another text, again", lines_of([*TEXTS[:2], OTHER]), "3 b3\n", "forked 3 key_used", 6)
    row("another text, next", lines_of([*TEXTS[:2], OTHER]), "2 b2\n", "forked 3 key_used", 6)
    row("another serial, next", [LINES[0], *swapped], "1 b1\n", "forked 2 3", 6)
    row("another key", LINES, "4 b5\n", "forked 4 b5 is b4 in the source", 6)
    row("a place that the follower lacks", LINES, "8 b8\n", "position_ahead 8", 6)
    for status in (301, 400, 401, 403, 404, 412):
        row(f"{status}", LINES, "6 b6\n", f"bad_source {status}", 6, (status, b""))
    for status in (429, 500, 502, 503, 504):
        row(f"{status}, and then lines", LINES[:6], "5 b5\n", None, 6, (status, b"no"))
    row("a cut answer, and then lines", LINES[:6], "5 b5\n", None, 6, (200, None))


REFUSED = "refused 7 no_collection 1"


def check_growing(made: ChangeRows) -> None:
    """What comes is followed. While nothing does, the source is asked by the tag of its last answer
    that had nothing, and answers 304. Once its history is another, nothing more is sent."""
    context, rows = made.rows.context, made.rows
    rows.position.write_text("6 b6\n")
    with serving(Source(LINES[:6])) as source:
        words = made.words(source)
        process = Process(context, "follow-changes", Script(context, "follow.py").command(*words))
        with running(process):
            wait_until("a 304", lambda: is_quiet(source), context.seconds)
            tag, before = source.tag, len(source.asked)
            source.lines = LINES[:7]
            wait_until("the line", lambda: rows.kept() == "7 b7\n", context.seconds)
            wait_until("a 304 again", lambda: is_quiet(source), context.seconds)
            after = [target for target, _ in source.asked[before:] if "after=7" in target]
            context.check("no old tag", [it for it in after if tag in it], [])
            source.lines = LINES[:5]
            waits = "waiting: the source has no serial 7 yet"
            wait_until(waits, lambda: waits in process.log.read_text(), context.seconds)
            source.lines = LINES[:7]
            wait_until("it is there again", lambda: is_quiet(source), context.seconds)
            source.lines = [*LINES[:6], *lines_of([OTHER, TEXTS[7]], 7)]
            assert process.process is not None
            context.check("another history", process.process.wait(context.seconds), 1)
    said = process.log.read_text().splitlines()[-1]
    context.check("what it says", said, "follow: forked 7 b7 is b3 in the source")
    context.check("nothing of it is sent", rows.count(), 7)
    check_set_back(made)


def is_quiet(source: Source) -> bool:
    return [status for _, status in source.asked[-3:]] == [304] * 3


def check_set_back(made: ChangeRows) -> None:
    """A source that was restored to before the place is waited for, and followed once it has the
    same lines again."""
    context, rows = made.rows.context, made.rows
    rows.position.write_text("7 b7\n")
    with serving(Source(LINES[:5], gives_tags=False)) as source:
        words = made.words(source)
        process = Process(context, "follow-back", Script(context, "follow.py").command(*words))
        with running(process):
            wait_until("it waits", lambda: "waiting" in process.log.read_text(), context.seconds)
            source.lines = LINES
            wait_until("the line", lambda: rows.kept() == "8 b8\n", context.seconds)
    context.check("the follower", rows.count(), 8)


def read_all(source: Source, login: str = "") -> list[Line]:
    return list(Changes(source.url, login).behind(0))


def many(count: int) -> list[bytes]:
    return lines_of([text_of(f"k{at}") for at in range(1, count + 1)])


def check_pages(context: Context) -> None:
    """Lines by answers of at most a thousand, or of as many as the server sends at once."""
    lines = many(AT_ONCE + 500)
    for most in (AT_ONCE, 7, 1):
        kept = lines if most == AT_ONCE else lines[: 20 * most]
        with serving(Source(kept, most=most)) as source:
            found = read_all(source)
        got = [b"%d\t%b\n" % (line.serial, line.text) for line in found]
        context.check(f"lines by {most}", got == kept, True)
    with serving(Source(many(3))) as source:
        changes = Changes(source.url)
        first = next(changes.behind(1))
        source.lines = lines_of([text_of("other")] * 5)
        compared = (first.serial, ends(lambda: list(changes.behind(2))))
        context.check("another line than before", compared, (2, "away"))
        context.check("once", [line.serial for line in changes.behind(2)], [3, 4, 5])
    for body, wanted in ((b"1\t" + b"x" * (1 << 24), "bad_line 1"), (b"\n", "bad_line 1")):
        context.check(f"{body[:9]!r}", ends(lambda: lines_in(body, 0)), wanted)
    long = b"1\t" + b"x" * (1 << 24) + b"\n"
    context.check("a long line", ends(lambda: lines_in(long, 0)), "line_too_long 1")
    with serving(Source([long * 2])) as source:
        context.check("a long answer", ends(lambda: read_all(source)), "line_too_long 1")


def ends(work: Callable[[], object]) -> str:
    """How a call ends."""
    try:
        work()
    except SourceAway:
        return "away"
    except Fault as fault:
        return str(fault)
    return "ended"


def check_digests(context: Context) -> None:
    """The digest of the lines up to a serial is that of a file; each line is requested once."""
    file = context.folder / "digests"
    file.write_bytes(b"".join(LINES))
    serials = (0, 3, 8)
    wanted = [JournalFiles(file).digest_at(serial) for serial in serials]
    with serving(Source(LINES)) as source:
        changes = Changes(source.url)
        context.check("digests", [changes.digest_at(it) for it in serials], wanted)
        asked = [target.partition("&")[0] for target, _ in source.asked]
        context.check("requests", asked, ["/changes?after=0", "/changes?after=3"])
        context.check("a serial that it lacks", changes.digest_at(9), None)
        context.check("an earlier one", changes.digest_at(3), wanted[1])
    with serving(Source(LINES[2:])) as source:
        context.check("without the first lines", Changes(source.url).digest_at(5), None)


def check_own(context: Context) -> None:
    """A follower with a journal of its own whose past is another one, or that somebody else gave a
    batch, is sent nothing."""
    stray = text_of("stray", lamp(99))
    for name, texts, ends in (
        ("past", [*TEXTS[:2], OTHER, *TEXTS[3:6]], "forked 3 b3 has another text"),
        ("stray", [*TEXTS[:5], stray], "forked 6 stray is b6 in the source"),
        ("same", TEXTS[:6], None),
    ):
        kept = lines_of(texts)
        with serving(Source(LINES)) as source, fork(context, f"own-{name}", lines=kept) as made:
            script = Script(context, "follow.py")
            words: list[str | Path] = ["--journal", made.own, "--once"]
            got = script.ends(source.url, made.server.url, *words)
            context.check(name, got, (1, [ends]) if ends else ENDED)
            made.has(name, kept if ends else LINES)


def check_audit(context: Context) -> None:
    """An audit of a follower's journal beside the lines of a server."""
    journal, script = context.folder / "audited", Script(context, "journal_digest.py")
    stray = lines_of([text_of("stray", lamp(99))], 5)
    cases: list[tuple[str, list[bytes], str | None]] = [
        ("more lines there", LINES, None),
        ("another line", [*LINES[:4], *stray, *LINES[5:]], "differs 5"),
        ("fewer lines", LINES[:4], "lines_missing 5 6"),
        ("none", [], "lines_missing 6 6"),
    ]
    for what, lines, said in cases:
        journal.write_bytes(b"".join(LINES[:6]))
        with serving(Source(lines)) as source:
            printed, faults = script.prints(journal, "--other", source.url, "--login=", "--ca=")
        context.check(
            f"{what}: the audit", (printed, faults[:1]), AUDITED if said is None else ("", [said])
        )
    with serving(Source(LINES, login="Basic eA==")) as source:
        faults = script.prints(journal, "--other", source.url)[1]
    context.check("no password for an audit", faults[:1], ["bad_source 401"])


AUDITED: tuple[str, list[str]] = ("the same up to 6\n", [])


def check_login(made: ChangeRows) -> None:
    """USER:PASSWORD of a file that others cannot read, or of the environment. A command line has
    none, and none is sent over plain HTTP to another machine."""
    context, rows = made.rows.context, made.rows
    file, script = context.folder / "login", Script(context, "follow.py")
    signed = "Basic Zm9sbG93ZXI6cMOkc3M="
    with serving(Source(LINES, login=signed)) as source:
        words: list[str | Path] = [source.url, rows.server.url, "--once"]
        context.check("no password", script.ends(*words)[1][:1], ["bad_source 401"])
        file.write_text("follower:päss\n", "utf-8")
        for mode, wanted in ((0o644, 2), (0o604, 2), (0o640, 0), (0o600, 0)):
            file.chmod(mode)
            context.check(f"{mode:o}", script.ends(*words, "--login", file)[0], wanted)
        context.check("no file", script.ends(*words, "--login", context.folder / "no")[0], 2)
        context.check("an empty setting", script.ends(*words, "--login=", "--ca=")[0], 1)
        file.write_text("follower\n")
        context.check("no password in it", script.ends(*words, "--login", file)[0], 2)
        for name, wanted in (("follower:päss", 0), ("follower:x", 1), ("follower", 2)):
            ended = script.ends(*words, added={"STREETMAP_SOURCE_LOGIN": name})
            context.check(f"{name} of the environment", ended[0], wanted)
    file.write_text("follower:päss\n", "utf-8")
    for address in (
        "http://a:b@127.0.0.1/changes",
        "http://127.0.0.1/changes?after=1",
        "http://127.0.0.1/changes#a",
        "http:///changes",
        "https://127.0.0.1:0/changes",
    ):
        context.check(address, script.ends(address, rows.server.url, "--once")[0], 2)
    for address in ("http://maps.example/changes", "http://10.0.0.1/changes"):
        ended = script.ends(address, rows.server.url, "--once", "--login", file)
        context.check(f"{address} with a password", ended[0], 2)


def is_this(journal: Path, wanted: Path) -> bool:
    """Whether a follower's journal has the same bytes as its source's."""
    return journal.read_bytes() == wanted.read_bytes()


def check_changes(context: Context) -> None:
    check_pages(context)
    check_digests(context)
    check_own(context)
    check_audit(context)
    file = context.new_file("changes")
    with context.serve(file, "--clients", "16") as server:
        made = ChangeRows(Rows(context, server))
        check_places(made)
        check_faults(made)
        check_growing(made)
        check_login(made)
    context.check("the follower's batches", context.run("batches", file), b"".join(LINES))
