"""A PostgreSQL in a folder of the test, and a streaming standby of it."""

import os
import subprocess
from dataclasses import dataclass
from pathlib import Path

import psycopg2
from followers_tests.processes import Process
from harness import Context, free_port

BIN = Path("/usr/lib/postgresql/15/bin")
# PostgreSQL refuses root, so it runs as Debian's user of it.
USER = "postgres"
SETTINGS = """
port = {port}
listen_addresses = '127.0.0.1'
unix_socket_directories = ''
shared_buffers = 16MB
max_connections = 20
wal_keep_size = 64MB
wal_retrieve_retry_interval = 500ms
fsync = off
"""


def as_user(*words: str | Path) -> list[str]:
    """A command of PostgreSQL, as its user if the test runs as root."""
    before = ["setpriv", f"--reuid={USER}", f"--regid={USER}", "--clear-groups"]
    return [*(before if os.geteuid() == 0 else []), *map(str, words)]


@dataclass(frozen=True)
class Database:
    """A database of a cluster on a port of this machine, which trusts all of it."""

    process: Process
    port: int
    name: str = "postgres"

    @property
    def dsn(self) -> str:
        return f"postgresql://{USER}@127.0.0.1:{self.port}/{self.name}"

    def ask(self, query: str, *values: object) -> list[tuple[object, ...]]:
        connection = psycopg2.connect(self.dsn)
        try:
            with connection, connection.cursor() as cursor:
                cursor.execute(query, values)
                found: list[tuple[object, ...]] = cursor.fetchall() if cursor.description else []
                return found
        finally:
            connection.close()

    def ask_alone(self, query: str) -> None:
        """Queries in no transaction."""
        connection = psycopg2.connect(self.dsn)
        connection.autocommit = True
        try:
            connection.cursor().execute(query)
        finally:
            connection.close()

    def answers(self) -> bool:
        try:
            return bool(self.ask("SELECT 1"))
        except psycopg2.Error:
            return False

    def has(self, journal: bytes) -> bool:
        """Whether it answers, and its table has these lines."""
        try:
            return self.journal() == journal
        except psycopg2.Error:
            return False

    def journal(self) -> bytes:
        """The lines of the table."""
        query = "SELECT serial || E'\\t' || batch || E'\\n' FROM streetmap_journal ORDER BY serial"
        return "".join(str(row[0]) for row in self.ask(query)).encode()


def own_folder(context: Context, name: str) -> Path:
    """A folder of PostgreSQL's user. It has to reach it through that of the test."""
    context.folder.chmod(0o711)
    folder = context.folder / name
    folder.mkdir(mode=0o700)
    if os.geteuid() == 0:
        subprocess.run(["chown", f"{USER}:", folder], check=True)
    return folder


def run(context: Context, *words: str | Path) -> None:
    subprocess.run(
        as_user(*words), check=True, capture_output=True, timeout=context.seconds, cwd="/"
    )


def database(context: Context, name: str, folder: Path, port: int) -> Database:
    words = as_user(BIN / "postgres", "-D", folder, "-c", f"port={port}")
    return Database(Process(context, name, words, port), port)


def primary(context: Context, name: str = "primary") -> Database:
    """A new cluster, which is not started yet."""
    folder, port = own_folder(context, name), free_port()
    words = ["-U", USER, "-A", "trust", "-E", "UTF8", "--locale=C", "--no-sync", "-D", str(folder)]
    run(context, BIN / "initdb", *words)
    with (folder / "postgresql.conf").open("a") as settings:
        settings.write(SETTINGS.format(port=port))
    return database(context, name, folder, port)


def stop(cluster: Database) -> None:
    """Ends a cluster so that its files are complete."""
    folder = cluster.process.words[-3]
    run(cluster.process.context, BIN / "pg_ctl", "-D", folder, "-m", "fast", "-w", "stop")
    cluster.process.kill()


def standby(context: Context, first: Database) -> Database:
    """A streaming standby of a cluster that runs, which is not started yet."""
    folder, port = own_folder(context, "standby"), free_port()
    words = ["-R", "-X", "stream", "-c", "fast", "--no-sync", "-d", first.dsn, "-D", str(folder)]
    run(context, BIN / "pg_basebackup", *words)
    return database(context, "standby", folder, port)
