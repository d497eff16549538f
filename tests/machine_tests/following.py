"""A follower on a second machine, and its promotion, by the commands of docs/OPERATING.md."""

import re

from machine_tests.booted import Booted
from machine_tests.first import LAST_LINE, STATUS, exported, post
from operating_tests.document import OPERATING, commands_of

# The settings of a follower, which the document shows for an editor.
SETTINGS = re.compile(r"(?ms)^```text\n(PORT=.*?)^```$")
EDITOR = "sudo editor /etc/streetmap/town.conf\n"
LAST_STORED = "sudo -u postgres psql -At streetmap -c 'SELECT max(serial) FROM streetmap_journal'"
STATE = "systemctl show --property SubState --value"
RESTARTS = "systemctl show --property NRestarts --value"


def settings_of_follower() -> dict[str, str]:
    (found,) = SETTINGS.findall(OPERATING.read_text())
    return dict(line.split("=", 1) for line in found.splitlines())


def check_stored(first: Booted) -> None:
    """The first server's journal goes into PostgreSQL."""
    (begin,) = [it for it in commands_of("Followers") if "createuser" in it]
    first.done(begin)
    first.wait_until("the last serial of the table", LAST_STORED, first.said(LAST_LINE))


def check_follower(first: Booted, follower: Booted) -> None:
    """It has what the first has, keeps up, and takes a batch from nobody else."""
    (begin,) = [it for it in commands_of("Followers") if EDITOR in it]
    files, start = begin.split(EDITOR)
    follower.done(files)
    follower.set(**settings_of_follower())
    follower.done(start)
    follower.wait_until("the last serial of the follower", LAST_LINE, first.said(LAST_LINE))
    check = first.context.check
    check("a batch to the first", post(first, "f1"), "200")
    follower.wait_until("and at the follower", LAST_LINE, first.said(LAST_LINE))
    check("the same pages", exported(follower, 8081), exported(first))
    check("a batch to the follower", post(follower, "f2", 8081), "403")
    for machine, unit in ((first, "streetmap-journal@town"), (follower, "streetmap-follower@town")):
        check(f"restarts of {unit}", machine.said(f"{RESTARTS} {unit}"), "0")
    follower.done("systemctl kill --kill-who main --signal KILL streetmap-follower@town")
    check("a batch while its script is away", post(first, "f3"), "200")
    follower.wait_until("caught up", LAST_LINE, first.said(LAST_LINE))


def check_promotion(first: Booted, follower: Booted) -> None:
    """The old first is fenced, and the follower takes batches; nobody else can."""
    check = first.context.check
    fence, serial, lease, promote, lost = commands_of("Becoming the first")
    first.done(fence)
    first.done(f"curl -s {STATUS} --retry 9 --retry-connrefused localhost:8080/")
    check("a batch to the old first", post(first, "p1"), "403")
    last = first.said(LAST_STORED)
    check("the follower's last", follower.done(serial).strip(), last)
    follower.done(lease)
    first.wait_until("the old first's script", f"{STATE} streetmap-journal@town", "failed")
    follower.done(promote)
    follower.done(f"curl -s {STATUS} --retry 9 --retry-connrefused localhost:8081/")
    check("a batch to the new first", post(follower, "p2", 8081), "200")
    first.wait_until("it is stored", LAST_STORED, str(int(last) + 1))
    first.done(lost.replace("--after N", f"--after {last}"))
    check("what the old first alone has", first.said("cat lost.journal"), "")
