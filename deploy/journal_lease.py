"""The lease of a journal's table: which server's script puts lines in.

    streetmap_lease(is_only_row, epoch bigint, holder text, taken timestamptz)

Its one row has an epoch and a holder, and a script has both in a file of its own machine. Each
transaction that stores lines compares the two, and locks the row against others until it ends: a
script with an older epoch, or with none, is `fenced` (status 4), and puts nothing in. A promotion
raises the epoch by one for a new holder. The higher epoch counts, so a database that was set back
to before a promotion takes its lease from the file again. A script that has no line to store reads
the row each second, without a lock.

What it does not do: a server does not read it. The unit of a script that is `fenced` has its server
refuse batches from then on (streetmap-journal@.service). Nor does it bind another database, scripts
of versions before it, and whoever writes to the table by other means.
"""

import os
import secrets
from dataclasses import dataclass
from pathlib import Path
from typing import Any

from journal_files import replace_file
from journal_lines import Fault

# One script at a time makes a table: two that do at once fail, whatever `IF NOT EXISTS` says.
ALONE = "SELECT pg_advisory_xact_lock(hashtext('streetmap_journal'))"
TABLE = """
CREATE TABLE IF NOT EXISTS streetmap_lease (
    is_only_row boolean PRIMARY KEY DEFAULT true CHECK (is_only_row),
    epoch bigint NOT NULL, holder text NOT NULL, taken timestamptz NOT NULL DEFAULT now())
"""
FOUND = "SELECT epoch, holder, taken::text FROM streetmap_lease"
LOCKED = f"{FOUND} FOR SHARE"
TAKE = """
INSERT INTO streetmap_lease AS lease (epoch, holder) VALUES (%s, %s)
ON CONFLICT (is_only_row) DO UPDATE SET epoch = excluded.epoch, holder = excluded.holder,
    taken = now() WHERE lease.epoch < excluded.epoch
"""


@dataclass(frozen=True)
class Lease:
    """An epoch, and who has it: a machine's name and random digits. Epoch 0 is none."""

    epoch: int = 0
    holder: str = "nobody"

    @classmethod
    def of_epoch(cls, epoch: int) -> "Lease":
        return cls(epoch, f"{os.uname().nodename}-{secrets.token_hex(4)}")


@dataclass(frozen=True)
class LeaseFile:
    """The file in which a machine keeps its lease."""

    path: Path

    def read(self) -> Lease:
        """The lease of this machine; none if there is no file."""
        try:
            epoch, _, holder = self.path.read_text().strip().partition(" ")
        except FileNotFoundError:
            return Lease()
        except (OSError, ValueError) as error:
            raise Fault("bad_lease", self.path, more=(str(error),)) from error
        if not (epoch.isascii() and epoch.isdecimal() and holder):
            raise Fault("bad_lease", self.path)
        return Lease(int(epoch), holder)

    def write(self, lease: Lease) -> None:
        """It is written before the table has it. So a promotion that is cut between the two is
        complete once the script starts."""
        try:
            replace_file(self.path, f"{lease.epoch} {lease.holder}\n")
        except OSError as error:
            raise Fault("lease_not_written", self.path, error.strerror, status=3) from error


def held(cursor: Any, query: str = LOCKED) -> tuple[Lease, str]:
    """The lease of a table that is there, which stays until the transaction ends, and since when;
    epoch 0 if nobody has it."""
    cursor.execute(query)
    epoch, holder, since = cursor.fetchone() or (0, "nobody", "ever")
    return Lease(epoch, holder), since


def hold(cursor: Any, own: Lease, is_there: bool) -> None:
    """Has one's own lease hold until the transaction ends, and takes it if its epoch is higher.
    Ends as `fenced EPOCH OWN` if another has it."""
    if not is_there:
        if own.epoch == 0:
            return
        cursor.execute(ALONE)
        cursor.execute(TABLE)
    found, since = held(cursor)
    if found.epoch < own.epoch:
        cursor.execute(TAKE, (own.epoch, own.holder))
        found, since = held(cursor)
    refuse_other(found, since, own)


def check(cursor: Any, own: Lease) -> None:
    """Ends as `fenced EPOCH OWN` if another has the lease of a table that is there. Nothing is
    locked, so the database writes nothing."""
    refuse_other(*held(cursor, FOUND), own)


def refuse_other(found: Lease, since: str, own: Lease) -> None:
    if found.epoch >= own.epoch and found != own:
        more = f"{found.holder} has the lease since {since}, and this machine is {own.holder}"
        raise Fault("fenced", found.epoch, own.epoch, status=4, more=(more,))
