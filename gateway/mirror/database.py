"""The database of the mirror: connections that only read, each request in a transaction of its own.

A transaction sees one state, that after one serial. What a request may cost is bounded: by the time
of a statement, by one processor, and by the number of connections.
"""

import asyncio
import io
import struct
import sys
import time
from collections.abc import Callable
from typing import Any, TypeVar

import psycopg2
from psycopg2 import errors
from psycopg2.sql import SQL, Composable, Literal
from starlette.concurrency import run_in_threadpool

from ..problems import RETRY_SECONDS, Problem
from ..settings import Mirror

CONNECT_SECONDS = 5
# So long a request waits for a connection that others use.
WAIT_SECONDS = 15
# A broken connection is replaced once in a request.
TRIES = 2
SESSION = """
SET statement_timeout = {milliseconds};
SET idle_in_transaction_session_timeout = '60s';
SET lock_timeout = '2s';
SET max_parallel_workers_per_gather = 0;
SET jit = off;
SET timezone = 'UTC'
"""
BINARY = "COPY ({}) TO STDOUT (FORMAT binary)"
# What is before the first row: a signature of 11 bytes, flags, and an extension that has no bytes.
HEAD_BYTES = 19
Value = TypeVar("Value")
Row = tuple[Any, ...]


class Reading:
    """A transaction, and when it has to end."""

    def __init__(self, cursor: Any, seconds: float) -> None:
        self.cursor = cursor
        self.ends = time.monotonic() + seconds

    def rows(self, query: Composable) -> list[Row]:
        self.cursor.execute(query)
        found: list[Row] = self.cursor.fetchall()
        return found

    def row(self, query: Composable) -> Row | None:
        rows = self.rows(query)
        return rows[0] if rows else None

    def values(self, query: Composable) -> list[bytes | None]:
        """The values of the one row of a query, as bytes: PostgreSQL's binary form, so that none of
        them is written as digits and read again."""
        file = io.BytesIO()
        self.cursor.copy_expert(SQL(BINARY).format(query), file)
        row, at, found = file.getbuffer()[HEAD_BYTES:], 2, list[bytes | None]()
        for _ in range(*struct.unpack_from("!h", row)):
            (size,) = struct.unpack_from("!i", row, at)
            at += 4
            found.append(None if size < 0 else bytes(row[at : at + size]))
            at += max(0, size)
        return found

    @property
    def is_late(self) -> bool:
        return time.monotonic() > self.ends

    def stream(self, query: Composable) -> Any:
        """A cursor over the rows of a query, which are not all read at once."""
        named = self.cursor.connection.cursor("streetmap")
        named.execute(query)
        return named


class Database:
    """A few connections to the mirror, made when they are needed."""

    def __init__(self, settings: Mirror) -> None:
        self.settings = settings
        self.turns = asyncio.Semaphore(settings.connections)
        self.idle: list[Any] = []

    async def read(self, work: Callable[[Reading], Value]) -> Value:
        """What `work` makes of one state; it may be called twice if a connection breaks."""
        try:
            await asyncio.wait_for(self.turns.acquire(), WAIT_SECONDS)
        except asyncio.TimeoutError:
            raise away("mirror_busy", "Too many requests wait for the mirror.") from None
        try:
            return await run_in_threadpool(lambda: self.read_now(work))
        finally:
            self.turns.release()

    def read_now(self, work: Callable[[Reading], Value]) -> Value:
        """The same in this thread."""
        for attempt in range(TRIES):
            try:
                return self.attempt(work)
            except errors.QueryCanceled as fault:
                seconds = self.settings.seconds
                detail = f"The request took more than {seconds} seconds. Ask for less."
                raise Problem(503, "too_slow", detail) from fault
            except (psycopg2.OperationalError, psycopg2.InterfaceError) as fault:
                if attempt == TRIES - 1:
                    raise away("mirror_away", "The mirror does not answer.") from fault
            except (errors.UndefinedTable, errors.UndefinedColumn) as fault:
                print(f"gateway: the mirror: {fault}", file=sys.stderr, flush=True)
                raise away("no_mirror", "The database has no such mirror.") from fault
            except psycopg2.Error as fault:
                print(f"gateway: the mirror: {fault}", file=sys.stderr, flush=True)
                raise Problem(500, "mirror_fault", "The mirror failed.") from fault
        raise AssertionError

    def attempt(self, work: Callable[[Reading], Value]) -> Value:
        connection = self.take()
        try:
            with connection.cursor() as cursor:
                made = work(Reading(cursor, self.settings.seconds))
        except (psycopg2.InterfaceError, psycopg2.OperationalError) as fault:
            if not isinstance(fault, errors.QueryCanceled):
                # What broke it has mostly broken the others too.
                connection.close()
                self.close()
            raise
        finally:
            self.give_back(connection)
        return made

    def take(self) -> Any:
        """A connection that no other request has."""
        try:
            return self.idle.pop()
        except IndexError:
            return self.connect()

    def give_back(self, connection: Any) -> None:
        """Ends the transaction; a connection that broke is dropped."""
        try:
            if not connection.closed:
                connection.rollback()
                self.idle.append(connection)
        except psycopg2.Error:
            connection.close()

    def connect(self) -> Any:
        connection = psycopg2.connect(
            self.settings.database,
            connect_timeout=CONNECT_SECONDS,
            application_name="streetmap-gateway",
        )
        connection.set_session(isolation_level="REPEATABLE READ", readonly=True, autocommit=True)
        milliseconds = Literal(int(self.settings.seconds * 1000))
        with connection.cursor() as cursor:
            cursor.execute(SQL(SESSION).format(milliseconds=milliseconds))
        connection.autocommit = False
        return connection

    def close(self) -> None:
        """Closes the connections that no request has."""
        idle, self.idle = self.idle, []
        for connection in idle:
            connection.close()


def away(code: str, detail: str) -> Problem:
    return Problem(503, code, detail, headers={"Retry-After": str(RETRY_SECONDS)})
