"""Posts the lines of a journal, in order, to another Streetmap: a follower, which answers pages.

    python3 deploy/follow.py SOURCE URL [--town NAME] [--login FILE] [--ca FILE]
                             [--token FILE] [--position FILE] [--journal F] [--once]

SOURCE is one of these. URL is that of the follower, which nobody else sends batches to. It runs
until it is stopped, at any time and in any way, and then goes on where the follower is.

- The path of a journal. It names all files of its journal, with the number of one of them or
  without it (journal_files.py): once a file has ended, the next one is read.
- A PostgreSQL with the table of journal_to_postgres.py, as `postgresql://..`, with the NAME of a
  town if that script has one.
- The changes of a server, as `https://HOST/changes` or `http://..` (journal_changes.py). It signs
  in by the line USER:PASSWORD of the `--login` FILE, or of STREETMAP_SOURCE_LOGIN in the
  environment. Certificates are checked by the system's, or by those of the `--ca` FILE. Lines are
  requested each 0.03 s while some have come within 30 s, and then each 0.2 s.

It goes on after a serial: that of the last whole line of F, the follower's own journal (`serve
--journal F`), if one is given; else that in FILE, which it keeps there. Without both, or if they
have none, it finds out by keys which of the lines the follower has. It begins with the first if the
follower has neither that nor a collection. With `--once` it ends with the lines that are there.

It finds out where the follower is before it sends. At first on each connection it sends again the
last line that it holds for acknowledged, if the follower has its key: the answer has to have that
serial, and each further one the next. With F it compares all lines of F with those of SOURCE at its
start, by their digests, and before each line what F has there: so nothing is sent to a follower
that somebody else gave a batch. Without F, and of a batch that comes between the comparison and the
line, that is seen once one line was sent, and no further one is.

With `--token FILE` each request to the follower has `Authorization: Bearer TOKEN`, and a follower
that `serve --follower` guards takes batches of nobody else. TOKEN is the first line of FILE: 16 to
128 visible ASCII characters. It is sent over TLS, and over plain HTTP to this machine alone.

Who is away is tried again, with pauses that grow to ten seconds; standard error says so. It ends
with status 1 at what a person has to examine, and sends nothing after it:

    forked SERIAL ANSWERED    the follower has another batch there, or has it elsewhere
    not_a_follower KEY        the follower has collections, and lacks the first batch
    refused SERIAL CODE ..    the follower refused the batch, with the place and the cause; or all
                              (`fenced`), or all without its token (`follower`)
    body_too_large SERIAL     the batch text is longer than a body; the options that help follow
    position_ahead SERIAL     the follower lacks the batch up to which it should go on
    lines_missing FROM TO     SOURCE begins after what the follower needs next
    bad_line SERIAL           SOURCE has no line there, or a zero byte amid others;
                              line_too_long SERIAL likewise
    bad_position FILE         FILE has no position
    bad_source CODE           the database refuses a query, or the server a request

`position_not_written FILE` has status 3; `usage`, `bad_login`, `bad_authority` and `bad_token FILE`
have 2.
"""

import argparse
import bisect
import http.client
import json
import re
import sys
import time
from contextlib import suppress
from dataclasses import dataclass, field
from pathlib import Path
from typing import Any
from urllib.parse import urlsplit

from journal_changes import Changes, is_address, is_this_machine, login_of
from journal_files import JournalFiles, last_line, replace_file
from journal_lines import (
    MOST_OF_BODY,
    Away,
    Fault,
    Line,
    Pauses,
    Source,
    SourceAway,
    end,
    not_empty,
    path_of,
    tell,
    town_of,
)

NAME = "follow"
# In seconds: for a connection, and for one answer of a follower; between two writings of a
# position; and after how long an idle connection is made again, before the follower ends it (30 s).
CONNECT_SECONDS, ANSWER_SECONDS = 10, 300
POSITION_SECONDS = 0.5
IDLE_SECONDS = 20
# Of so many lines one is asked for, as long as the follower has it.
PROBED = 100
# The token of a follower, and one byte more than it has at most.
TOKEN, MOST_OF_TOKEN = re.compile(rb"[!-~]{16,128}"), 129
# Answers of a follower, or of a proxy before it, that is away for now.
PASSING = (408, 429, 500, 502, 503, 504)


@dataclass(frozen=True)
class Place:
    """Up to where a follower has acknowledged: the serial and key of that batch, and its line if
    that is at hand. Serial 0 is before the first batch."""

    serial: int = 0
    key: str = ""
    line: Line | None = field(default=None, compare=False)

    @classmethod
    def of(cls, line: Line) -> "Place":
        return cls(line.serial, line.key, line)


@dataclass(frozen=True)
class Answer:
    """What a follower answered to a batch. The code is that of a refusal, or the status as text."""

    status: int
    body: dict[str, Any]

    @property
    def code(self) -> str:
        return str(self.body.get("code", self.status))

    @property
    def words(self) -> list[Any]:
        """The code, and the place and cause, if any."""
        return [self.code, *(self.body[it] for it in ("place", "cause") if it in self.body)]


class Follower:
    """A Streetmap at a URL, over one connection that is kept. Each request has the token, if it has
    one."""

    def __init__(self, url: str, token: str = "") -> None:
        parts = urlsplit(url)
        over_tls, plain = http.client.HTTPSConnection, http.client.HTTPConnection
        self.kind = over_tls if parts.scheme == "https" else plain
        self.url, self.host, self.port = url, parts.hostname or "", parts.port
        self.path = parts.path.rstrip("/")
        if token and self.kind is plain and not is_this_machine(self.host):
            raise Fault("bad_token", "a token is sent over https, or to this machine", status=2)
        self.fields = {"Authorization": f"Bearer {token}"} if token else {}
        self.connection: http.client.HTTPConnection | None = None
        self.used = 0.0

    @property
    def is_connected(self) -> bool:
        """Whether the connection is there, and was used of late."""
        return self.connection is not None and time.monotonic() - self.used < IDLE_SECONDS

    def connected(self) -> http.client.HTTPConnection:
        """The connection, which is made if it is missing. An answer may take longer than it."""
        if self.connection is None:
            made = self.kind(self.host, self.port, timeout=CONNECT_SECONDS)
            made.connect()
            made.sock.settimeout(ANSWER_SECONDS)
            self.connection = made
        return self.connection

    def close(self) -> None:
        if self.connection is not None:
            self.connection.close()
        self.connection = None

    def ask(self, method: str, path: str, body: bytes | None = None) -> Answer:
        """What is answered to a request. Ends as `Away` if no answer comes, or a passing one."""
        try:
            connection = self.connected()
            connection.request(method, self.path + path, body, self.fields)
            response = connection.getresponse()
            answer = Answer(response.status, read_json(response.read()))
        except (OSError, http.client.HTTPException) as error:
            self.close()
            raise Away(f"{self.url}: {error!r}") from error
        self.used = time.monotonic()
        if response.will_close:
            self.close()
        if answer.status in PASSING:
            self.close()
            raise Away(f"{self.url}: {answer.code}")
        return answer

    def post(self, batch: bytes) -> Answer:
        return self.ask("POST", "/batches", batch)

    def has_collections(self) -> bool:
        """Whether it has a collection, as each has to which a batch was sent that changed it."""
        answer = self.ask("GET", "/collections")
        if answer.status != 200:
            raise Fault("refused", "collections", *answer.words)
        return answer.body.get("collections") != []

    def has(self, key: str) -> bool:
        """Whether a batch with this key was accepted, with any text. Nothing changes: what is sent
        opens a collection twice, so it is refused, and for its key first."""
        opened = {"op": "open", "collection": "streetmap-follow"}
        answer = self.post(json.dumps({"key": key, "edits": [opened, opened]}).encode())
        if answer.code not in ("key_used", "collection_exists"):
            raise Fault("refused", key, *answer.words)
        return answer.code == "key_used"


def read_json(body: bytes) -> dict[str, Any]:
    """The object of an answer; an empty one if it is not a Streetmap answer."""
    with suppress(ValueError):
        found = json.loads(body)
        if isinstance(found, dict):
            return found
    return {}


@dataclass
class PositionFile:
    """A file that keeps a place. It is written as a whole, and not more often than it has to be."""

    path: Path
    written: Place = Place()
    moment: float = 0.0

    def read(self) -> Place:
        try:
            kept = self.path.read_bytes()
        except FileNotFoundError:
            return Place()
        except OSError as error:
            raise Fault("bad_position", self.path, more=(str(error),)) from error
        serial, _, key = kept.decode("ascii", "replace").strip().partition(" ")
        if not serial.isascii() or not serial.isdecimal() or not key:
            raise Fault("bad_position", self.path)
        self.written = Place(int(serial), key)
        return self.written

    def keep(self, place: Place, now: bool) -> None:
        """Writes a place, now or if the last writing is some time ago."""
        late = time.monotonic() - self.moment > POSITION_SECONDS
        if place == self.written or not (now or late):
            return
        try:
            replace_file(self.path, f"{place.serial} {place.key}\n")
        except OSError as error:
            raise Fault("position_not_written", self.path, error.strerror, status=3) from error
        self.written, self.moment = place, time.monotonic()


@dataclass
class Following:
    """A source, a follower of it, and up to where the follower has acknowledged."""

    source: Source
    follower: Follower
    place: Place
    position: PositionFile | None = None
    # The follower's own journal, and whether all of it was compared.
    own: JournalFiles | None = None
    is_own_compared: bool = False
    agreed: bool = False
    waits: bool = False

    def go_on(self) -> None:
        """Sends all lines that are there now."""
        if self.place.serial == 0:
            self.place = self.found_place()
        if not self.has_line():
            return
        if not self.agreed:
            self.agree()
        try:
            for line in self.source.behind(self.place.serial):
                self.check_next(line)
                if not self.follower.is_connected:
                    self.agree()
                self.compare_own(line)
                self.send(line)
                self.place = Place.of(line)
                self.keep(now=False)
        finally:
            self.keep(now=True)

    def keep(self, now: bool) -> None:
        if self.position is not None:
            self.position.keep(self.place, now)

    def lose(self, away: Away) -> None:
        """Forgets the connection before a new try, and the line of a source that was away."""
        self.follower.close()
        self.agreed = False
        if isinstance(away, SourceAway):
            self.place = Place(self.place.serial, self.place.key)
            self.is_own_compared = False

    def has_line(self) -> bool:
        """Whether the line of the place is at hand. It is taken from the source, which may not have
        come to it yet; one that begins right after it needs none."""
        if self.place.line is not None or self.place.serial == 0:
            return True
        line = next(self.source.behind(self.place.serial - 1), None)
        if line is None:
            if not self.waits:
                tell(NAME, f"waiting: the source has no serial {self.place.serial} yet")
            self.waits = True
            return False
        if line.serial == self.place.serial:
            if line.key != self.place.key:
                raise Fault("forked", line.serial, f"{self.place.key} is {line.key} in the source")
            self.compare_own(line)
            self.compare_history()
            self.place = Place.of(line)
        return True

    def compare_history(self) -> None:
        """Compares all lines of the own journal up to the place with those of the source, once, if
        both have them from the first on."""
        if self.own is None or self.is_own_compared:
            return
        own, serial = JournalFiles(self.own.path), self.place.serial
        digests = own.digest_at(serial), self.source.digest_at(serial)
        if None not in digests and digests[0] != digests[1]:
            for there, line in zip(own.behind(0), self.source.behind(0), strict=False):
                if there != line:
                    raise forked(there, line)
            tell(NAME, f"the source has the same lines up to {serial}, and another digest")
        self.is_own_compared = True

    def compare_own(self, line: Line) -> None:
        """Compares a line with what the follower's own journal has from there on, if that is given.
        The line is sent if that has nothing there, or the line itself."""
        if self.own is None:
            return
        there = next(self.own.behind(line.serial - 1), None)
        if there is not None and there != line:
            raise forked(there, line)

    def found_place(self) -> Place:
        """The place of a follower of which nothing is known: the last of the lines that it has, by
        their keys. Nothing changes. A follower without the first has to be empty."""
        first = next(self.source.behind(0), None)
        if first is None:
            return Place()
        self.check_next(first)
        if not self.follower.has(first.key):
            if self.follower.has_collections():
                raise Fault("not_a_follower", first.key)
            return Place()
        group = [Place(first.serial, first.key)]
        for line in self.source.behind(first.serial):
            group.append(Place(line.serial, line.key))
            if len(group) > PROBED:
                if not self.follower.has(line.key):
                    break
                group = group[-1:]
        # It has the first of the group.
        count = bisect.bisect_left(group, True, key=lambda it: not self.follower.has(it.key))
        return group[count - 1]

    def check_next(self, line: Line) -> None:
        wanted = self.place.serial + 1
        if line.serial != wanted:
            raise Fault("lines_missing", wanted, line.serial - 1)

    def agree(self) -> None:
        """Sends the last acknowledged line again, over a new connection, if the follower has its
        key: one that lacks it would take the line for a new batch."""
        self.follower.close()
        if self.place.serial > 0 and not self.follower.has(self.place.key):
            raise Fault("position_ahead", self.place.serial)
        if self.place.line is not None and len(self.place.line.text) <= MOST_OF_BODY:
            self.send(self.place.line)
        self.agreed = True

    def send(self, line: Line) -> None:
        """Posts a line, whose serial the answer has to have. A line that is longer than a body is
        passed over if the follower has its key, by `streetmap apply`."""
        if len(line.text) > MOST_OF_BODY:
            if self.follower.has(line.key):
                return
            raise self.too_large(line)
        answer = self.follower.post(line.text)
        if answer.status == 413:
            raise self.too_large(line)
        if answer.status != 200 and answer.code != "key_used":
            raise Fault("refused", line.serial, *answer.words)
        if answer.body.get("serial") != line.serial:
            raise Fault("forked", line.serial, answer.body.get("serial", answer.code))

    def too_large(self, line: Line) -> Fault:
        return Fault(
            "body_too_large",
            line.serial,
            more=(
                f"its batch text has {len(line.text)} bytes, and a body at most {MOST_OF_BODY}",
                "stop the follower, bring its FILE over the line, and start both again:",
                f"  {self.source.words(line.serial)} | streetmap apply FILE",
            ),
        )


def forked(there: Line, line: Line) -> Fault:
    """That a follower has another line than the source."""
    same = (there.serial, there.key) == (line.serial, line.key)
    other = "has another text" if same else f"is {line.key} in the source"
    return Fault("forked", line.serial, f"{there.key} {other}")


def run(following: Following, once: bool) -> None:
    """Follows until it is stopped, or with `once` until all present lines are sent."""
    pauses = Pauses(NAME)
    tell(NAME, f"going on behind serial {following.place.serial}")
    while True:
        try:
            following.go_on()
            pauses.end()
            if once:
                return
            following.source.wait()
        except Away as away:
            following.lose(away)
            pauses.wait(str(away))


def url(text: str) -> str:
    """An argument that is the URL of a server."""
    parts = urlsplit(text)
    if parts.scheme not in ("http", "https") or not parts.hostname or parts.port == 0:
        raise ValueError(text)
    return text


def source(text: str) -> str:
    """An argument that is a source. An address has no user, since others see a command line, and no
    query."""
    if is_address(text):
        parts = urlsplit(url(text))
        if parts.username is not None or parts.query or parts.fragment:
            raise ValueError(text)
    return not_empty(text)


def source_of(asked: argparse.Namespace) -> Source:
    """The source of the arguments: a server, a database, with its town, or a journal."""
    text: str = asked.source
    if is_address(text):
        return Changes(text, login_of(asked.login), asked.ca)
    if not text.startswith(("postgresql://", "postgres://")):
        return JournalFiles(Path(text))
    from journal_table import TableSource

    return TableSource(text, asked.town)


def token_of(path: Path | None) -> str:
    """The token in the first line of a file; none without a file. It is read as the server reads
    it."""
    if path is None:
        return ""
    try:
        if path.stat().st_mode & 0o007:
            raise Fault("bad_token", path, "any user may read it: chmod 600", status=2)
        with path.open("rb") as file:
            line = file.read(MOST_OF_TOKEN).partition(b"\n")[0]
    except OSError as error:
        raise Fault("bad_token", path, error, status=2) from error
    if TOKEN.fullmatch(line) is None:
        raise Fault("bad_token", path, "its first line is no token", status=2)
    return line.decode()


def own_place(journal: Path) -> Place:
    """The place of a follower, by its own journal."""
    try:
        line = last_line(journal)
    except Away as away:
        raise Fault("bad_position", journal, more=(str(away),)) from away
    return Place() if line is None else Place(line.serial, line.key)


def arguments() -> argparse.Namespace:
    words = argparse.ArgumentParser(prog=NAME, description=(__doc__ or "").splitlines()[0])
    words.add_argument("source", type=source, help="a path, postgresql://.., https://../changes")
    words.add_argument("url", type=url, help="the follower's URL")
    words.add_argument("--town", type=town_of, default="", metavar="NAME", help="of several towns")
    words.add_argument("--login", type=path_of, metavar="FILE", help="has USER:PASSWORD")
    words.add_argument("--ca", type=path_of, metavar="FILE", help="certificates that are trusted")
    words.add_argument("--token", type=path_of, metavar="FILE", help="has the follower's token")
    words.add_argument("--position", type=Path, help="the file that keeps the serial")
    words.add_argument("--journal", default="", help="the follower's own journal, if it has one")
    words.add_argument("--once", action="store_true", help="ends with the lines that are there")
    return words.parse_args()


def main() -> int:
    asked = arguments()
    try:
        position = PositionFile(asked.position) if asked.position else None
        own = JournalFiles(Path(asked.journal)) if asked.journal else None
        place = own_place(own.path) if own else position.read() if position else Place()
        follower = Follower(asked.url, token_of(asked.token))
        run(Following(source_of(asked), follower, place, position, own), asked.once)
    except Fault as fault:
        return end(NAME, fault)
    return 0


if __name__ == "__main__":
    sys.exit(main())
