"""Who may write: bearer tokens and passwords of the settings file.

The file keeps no token and no password: `python3 -m gateway.access NAME` makes a token, and prints
the entry for the file on standard output and the token itself on standard error. With `--password`
it reads a password, and prints the entry.
"""

import argparse
import base64
import binascii
import getpass
import hashlib
import hmac
import secrets
import sys
from collections.abc import Callable, Sequence

from starlette.requests import Request

from .problems import Problem
from .settings import Writer

COST = {"n": 1 << 14, "r": 8, "p": 1}
CHALLENGE = 'Bearer, Basic realm="streetmap", charset="UTF-8"'


def token_line(token: str) -> str:
    return f"sha256:{hashlib.sha256(token.encode()).hexdigest()}"


def password_line(password: str, salt: bytes) -> str:
    made = hashlib.scrypt(password.encode(), salt=salt, **COST)
    return f"scrypt:{salt.hex()}:{made.hex()}"


class Access:
    """Finds the writer of a request. Credentials that were right are kept, as a digest, so that a
    password costs its time once."""

    def __init__(self, writers: Sequence[Writer]) -> None:
        self.writers = writers
        self.known: dict[bytes, str] = {}

    def writer(self, request: Request) -> str:
        """The name of the writer whose token or password the request has."""
        field = request.headers.get("authorization", "")
        digest = hashlib.sha256(field.encode()).digest()
        name = self.known.get(digest) or self.judge(field)
        if name is None:
            detail = "Writing needs the token or the password of a writer."
            raise Problem(401, "no_access", detail, headers={"WWW-Authenticate": CHALLENGE})
        self.known[digest] = name
        return name

    def judge(self, field: str) -> str | None:
        scheme, _, rest = field.partition(" ")
        if scheme.lower() == "bearer":
            return self.by_token(rest.strip())
        if scheme.lower() == "basic":
            return self.by_password(rest.strip())
        return None

    def by_token(self, token: str) -> str | None:
        return self.first(lambda writer: matches(writer.token, token_line(token)))

    def by_password(self, encoded: str) -> str | None:
        try:
            text = base64.b64decode(encoded, validate=True).decode("utf-8")
        except (binascii.Error, ValueError):
            return None
        name, _, password = text.partition(":")
        return self.first(lambda writer: writer.name == name and has_password(writer, password))

    def first(self, is_right: Callable[[Writer], bool]) -> str | None:
        return next((writer.name for writer in self.writers if is_right(writer)), None)


def matches(kept: str | None, made: str) -> bool:
    return kept is not None and hmac.compare_digest(kept.encode(), made.encode())


def has_password(writer: Writer, password: str) -> bool:
    scheme, _, rest = (writer.password or "").partition(":")
    salt, _, _ = rest.partition(":")
    try:
        made = password_line(password, bytes.fromhex(salt))
    except ValueError:
        return False
    return scheme == "scrypt" and matches(writer.password, made)


def main() -> None:
    parser = argparse.ArgumentParser(description="Makes an entry of a writer for gateway.toml.")
    parser.add_argument("name")
    parser.add_argument("--password", action="store_true", help="asks for a password")
    given = parser.parse_args()
    print(f'[[writers]]\nname = "{given.name}"')
    if given.password:
        line = password_line(getpass.getpass(), secrets.token_bytes(16))
        print(f'password = "{line}"')
    else:
        token = secrets.token_urlsafe(24)
        print(f'token = "{token_line(token)}"')
        print(f"The token, which is kept nowhere: {token}", file=sys.stderr)


if __name__ == "__main__":
    main()
