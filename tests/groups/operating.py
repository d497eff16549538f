"""Commands of docs/OPERATING.md as they are there: backup, rotation, restore, who may write.

A town is served by the line of its unit, its journal is copied by rsync over two rotations, and is
restored. Then what streetmap-rotate-journal does if it is killed, repeated or refused; what the
units find that audit a town and copy its journal; and what is reported of a unit that fails.
"""

import os
import subprocess
import sys
from pathlib import Path

from harness import Context
from operating_tests import audits, backup, firewall, reports, rotation

PACKAGES = ("nftables", "rsync")
TESTS = Path(__file__).resolve().parents[1]


def check_firewall(context: Context) -> None:
    """In a network of its own, which needs root."""
    apart = ["unshare", "--net"]
    if os.geteuid() != 0 or subprocess.run([*apart, "true"], check=False).returncode != 0:
        print("  skipped, the table of nftables: that needs root", flush=True)
        return
    words = [*apart, sys.executable, "-B", "-m", "operating_tests.firewall"]
    ended = subprocess.run(words, cwd=TESTS, capture_output=True, text=True, check=False)
    wanted = [f"{port} {' '.join(firewall.LET)}" for port in firewall.PORTS]
    wanted.append(f"8443 {' '.join((*firewall.LET, *firewall.OTHERS))}")
    context.check("who connects", (ended.stdout.splitlines(), ended.stderr), (wanted, ""))


def run(context: Context) -> None:
    check_firewall(context)
    reports.check_failing(context)
    if not context.takes("serve", context.folder / "none", "--port", "1", "--journal", "none"):
        return
    rotation.check_rotation(context)
    backup.check_backup(context)
    audits.check_units(context)
