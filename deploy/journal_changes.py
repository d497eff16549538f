"""The changes of another Streetmap as a source of lines: `GET /changes` of a server that has it
(`serve --changes`), over HTTP or TLS.

A client signs in by USER:PASSWORD, if the server wants it: of the environment, or of a file that
not any user may read. It is sent over TLS, and over plain HTTP to this machine alone.
"""

import base64
import http.client
import ipaddress
import os
import re
import shlex
import ssl
import time
from collections.abc import Iterator
from contextlib import suppress
from pathlib import Path
from urllib.parse import urlencode, urlsplit

from journal_lines import MOST_OF_LINE, NO_LINES, Fault, Line, SourceAway

SCHEMES = ("http", "https")
# The variable of the environment that has USER:PASSWORD.
LOGIN = "STREETMAP_SOURCE_LOGIN"
# In seconds: for a connection, and for each part of an answer.
CONNECT_SECONDS, ANSWER_SECONDS = 10, 60
# In seconds: between two requests while lines have come of late, and then; how long "of late" is.
QUICK_SECONDS, IDLE_SECONDS, LATE_SECONDS = 0.03, 0.2, 30
# Lines that are requested at once, and the bytes of an answer, at most: the server sends about
# 8 MiB, or one line.
AT_ONCE, MOST_OF_ANSWER = 1000, (9 << 20) + MOST_OF_LINE
# Answers of a server, or of a proxy before it, that is away for now.
PASSING = (408, 429, 500, 502, 503, 504)
# The tag of a state, which a proxy that compresses marks as weak. A serial that no batch has.
TAG, BEYOND = re.compile(r'(?:W/)?"(0|[1-9][0-9]*)"'), (1 << 63) - 1


def is_address(text: str) -> bool:
    """Whether a source is an address of HTTP, and not a path."""
    return text.partition("://")[0] in SCHEMES


def login_of(path: Path | None) -> str:
    """USER:PASSWORD of a file, else of the environment; nothing if neither has it."""
    where, found = path or LOGIN, os.environ.get(LOGIN, "")
    if path is not None:
        try:
            if path.stat().st_mode & 0o007:
                raise Fault("bad_login", path, "any user may read it: chmod 600", status=2)
            found = path.read_text("utf-8").rstrip("\r\n")
        except (OSError, UnicodeDecodeError) as error:
            raise Fault("bad_login", path, error, status=2) from error
    if (path or found) and (":" not in found or not found.isprintable()):
        raise Fault("bad_login", where, "it is no line USER:PASSWORD", status=2)
    return found


def is_this_machine(host: str) -> bool:
    with suppress(ValueError):
        return ipaddress.ip_address(host).is_loopback
    return host == "localhost"


class Changes:
    """The lines of a server's batches, over one connection that is kept.

    Before lines are given, the last one before them is compared with what was given: a server that
    was restored, or is another, is `SourceAway` once, so that whoever reads it compares what is
    there with what was read.
    """

    def __init__(
        self,
        address: str,
        login: str = "",
        authority: Path | None = None,
        answer_seconds: int = ANSWER_SECONDS,
    ) -> None:
        parts = urlsplit(address)
        self.address, self.host, self.port = address, parts.hostname or "", parts.port
        self.path = parts.path or "/"
        self.trusted = trusting(authority) if parts.scheme == "https" else None
        if login and self.trusted is None and not is_this_machine(self.host):
            raise Fault("bad_login", "a password is sent over https, or to this machine", status=2)
        self.fields = {"Authorization": basic(login)} if login else {}
        self.connect_seconds = min(CONNECT_SECONDS, answer_seconds)
        self.answer_seconds = answer_seconds
        self.connection: http.client.HTTPConnection | None = None
        # The last line that was taken. The serial after which there was nothing, and the tag of
        # that answer.
        self.last: Line | None = None
        self.nothing: tuple[int, str] | None = None
        self.moment = 0.0
        # A serial, and the digest of the lines up to it.
        self.digested: tuple[int, bytes] = (0, NO_LINES)

    def behind(self, serial: int) -> Iterator[Line]:
        while lines := self.lines(serial):
            self.check_last(serial)
            for line in lines:
                self.last = self.last or line
                yield line
                self.last, serial = line, line.serial
            self.moment = time.monotonic()

    def digest_at(self, serial: int) -> bytes | None:
        """The digest of the lines up to a serial. Each line is requested once for it, however often
        the server was away meanwhile: the last one is what is compared again."""
        last, digest = self.digested if self.digested[0] <= serial else (0, NO_LINES)
        while last < serial:
            lines = self.lines(last)[: serial - last]
            if not lines or lines[0].serial != last + 1:
                return None
            for line in lines:
                last, digest = line.serial, line.digest(digest)
            self.digested = last, digest
        return digest

    def last_serial(self) -> int | None:
        """The last serial of the server, by the tag of an answer without lines; None if it gives no
        tags."""
        found = TAG.fullmatch(self.requested(BEYOND, 1)[1])
        return int(found[1]) if found else None

    def wait(self) -> None:
        is_late = time.monotonic() - self.moment > LATE_SECONDS
        time.sleep(IDLE_SECONDS if is_late else QUICK_SECONDS)

    def words(self, serial: int) -> str:
        target = f"{self.address}?{urlencode({'after': serial - 1, 'limit': 1})}"
        return f"curl --fail --user USER {shlex.quote(target)}"

    def lines(self, serial: int) -> list[Line]:
        """The lines after a serial. If there are none, the next request for them has the tag of
        this answer, and is answered 304 as long as there are none. A new tag may be that of a
        server that was restored to before the serial."""
        known = self.nothing[1] if self.nothing is not None and self.nothing[0] == serial else ""
        found, tag = self.requested(serial, AT_ONCE, known)
        if found is None:
            return []
        self.nothing = (serial, tag) if tag and not found else None
        if self.nothing is not None:
            self.check_last(serial)
        return found

    def check_last(self, serial: int) -> None:
        """Compares the line of a serial with the one that was taken."""
        last = self.last
        if last is None or last.serial != serial:
            return
        found, _ = self.requested(serial - 1, 1)
        if found != [last]:
            raise self.away(f"it has another line {serial} than before, or none")

    def requested(self, serial: int, limit: int, known: str = "") -> tuple[list[Line] | None, str]:
        """The lines after a serial and the tag of the answer; None for the lines if the state has
        the known tag."""
        target = f"{self.path}?{urlencode({'after': serial, 'limit': limit})}"
        tagged = {"If-None-Match": known} if known else {}
        try:
            connection = self.connected()
            connection.request("GET", target, headers=self.fields | tagged)
            response = connection.getresponse()
            body = read_body(response, serial)
        except (OSError, http.client.HTTPException) as error:
            raise self.away(repr(error)) from error
        if response.will_close:
            self.disconnect()
        if response.status == 304 and known:
            return None, known
        if response.status in PASSING:
            raise self.away(str(response.status))
        if response.status != 200:
            more = (MEANINGS[response.status],) if response.status in MEANINGS else ()
            raise Fault("bad_source", response.status, more=more)
        return lines_of(body, serial), response.headers.get("ETag", "")

    def connected(self) -> http.client.HTTPConnection:
        """The connection, which is made if it is missing."""
        if self.connection is None:
            given = (self.host, self.port)
            if self.trusted is None:
                made = http.client.HTTPConnection(*given, timeout=self.connect_seconds)
            else:
                made = http.client.HTTPSConnection(
                    *given, timeout=self.connect_seconds, context=self.trusted
                )
            made.connect()
            made.sock.settimeout(self.answer_seconds)
            self.connection = made
        return self.connection

    def disconnect(self) -> None:
        if self.connection is not None:
            self.connection.close()
        self.connection = None

    def away(self, reason: str) -> SourceAway:
        """Forgets the connection, and what was read over it: it is compared again."""
        self.disconnect()
        self.last = self.nothing = None
        return SourceAway(f"{self.address}: {reason}")


MEANINGS = {
    401: "it wants a password, or another one",
    403: "it does not let this one in",
    404: "nothing is there: the server lacks --changes, or the path is another",
}


def read_body(response: http.client.HTTPResponse, serial: int) -> bytes:
    """The whole body of an answer, up to its limit."""
    body = response.read(MOST_OF_ANSWER + 1)
    if len(body) > MOST_OF_ANSWER:
        raise Fault("line_too_long", serial + 1)
    if response.length:
        raise http.client.IncompleteRead(body, response.length)
    return body


def lines_of(body: bytes, serial: int) -> list[Line]:
    """The lines of an answer, which are in a row and come after a serial. The first may come later
    than the next serial: whoever reads them says what is missing."""
    lines: list[Line] = []
    *whole, rest = body.split(b"\n")
    for text in whole:
        if len(text) > MOST_OF_LINE:
            raise Fault("line_too_long", serial + 1)
        line = Line.of(text, serial + 1)
        if b"\0" in text or not (line.serial == serial + 1 or not lines and line.serial > serial):
            raise Fault("bad_line", serial + 1)
        lines.append(line)
        serial = line.serial
    if rest:
        raise Fault("bad_line", serial + 1)
    return lines


def trusting(authority: Path | None) -> ssl.SSLContext:
    """What checks certificates: those of a file, else of the system."""
    try:
        return ssl.create_default_context(cafile=authority)
    except (OSError, ssl.SSLError) as error:
        raise Fault("bad_authority", authority, error, status=2) from error


def basic(login: str) -> str:
    return "Basic " + base64.b64encode(login.encode()).decode()
