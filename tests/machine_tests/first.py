"""What an office does first, in the order of docs/OPERATING.md and by its own commands."""

import json
import shutil
from pathlib import Path

from machine_tests.booted import Booted
from operating_tests.document import commands_of

HOST = "maps.town.example"
# What the commands of the document leave to a person: a name of a file, a password.
PACKAGE = "./streetmap_0.1.0-1_amd64.deb"
ASKED, GIVEN = "$(openssl passwd -apr1)", "$(openssl passwd -apr1 secret)"
CERTIFICATE = (
    "openssl req -x509 -newkey rsa:2048 -nodes -days 2 -subj /CN=maps.town.example"
    " -keyout key.pem -out certificate.pem 2>&1"
)
CURL = f"curl -sk --resolve {HOST}:443:127.0.0.1"
STATUS = "-o /dev/null -w '%{http_code}'"
LAST_LINE = "sudo sh -c 'cat /var/lib/streetmap/town.journal*' | tail -n 1 | cut -f1"


def post(machine: Booted, key: str, port: int = 8080) -> str:
    """The status of a batch without edits."""
    body = json.dumps({"edits": [], "key": key}, separators=(",", ":"))
    return machine.said(f"curl -s {STATUS} localhost:{port}/batches -d '{body}'")


def exported(machine: Booted, port: int = 8080) -> str:
    """All lamps of a server, as they are now."""
    return machine.done(f"curl -s 'localhost:{port}/collections/lamps/items?limit=1000'")


def install(machine: Booted, package: Path) -> str:
    """Installs the package; gives the commands that come after that."""
    shutil.copy(package, machine.path(f"/root/{PACKAGE}"))
    command, _, rest = commands_of("The quickest way")[0].partition("\n")
    machine.done(command)
    return rest


def check_served(machine: Booted, package: Path) -> None:
    """From a fresh Debian to a served file, and a second file."""
    check = machine.context.check
    begin, imports = install(machine, package), commands_of("The quickest way")[1]
    check("the collection", '"opened":1' in machine.done(begin), True)
    check("the import", '"numberReturned":2' in machine.done(imports), True)
    machine.done(commands_of("What is where")[0])
    found = machine.done("curl -s --retry 9 --retry-connrefused localhost:8090/collections")
    check("the second file", '"collections":[]' in found, True)


def check_restarts(machine: Booted) -> None:
    """A server that is killed is started again by systemd, and its failure is reported."""
    before = exported(machine)
    machine.done("systemctl kill --kill-who main --signal KILL streetmap@town")
    machine.done(f"curl -s {STATUS} --retry 20 --retry-connrefused localhost:8080/")
    machine.context.check("the same features", exported(machine), before)
    told = "journalctl --quiet -t streetmap-failed | grep -c streetmap@town"
    machine.wait_until("what is reported of it", told, "1")


def check_journal(machine: Booted) -> None:
    """The journal, its rotation, a copy, and a restore that takes the town's place."""
    check = machine.context.check
    machine.done(commands_of("The journal")[0])
    machine.done(f"curl -s {STATUS} --retry 9 --retry-connrefused localhost:8080/")
    check("a batch", post(machine, "b1"), "200")
    machine.done(commands_of("Rotation")[0])
    machine.done(f"curl -s {STATUS} --retry 9 --retry-connrefused localhost:8080/")
    check("a batch after a rotation", post(machine, "b2"), "200")
    last, before = machine.said(LAST_LINE), exported(machine)
    copy, timer, *_ = commands_of("Backup")
    machine.done("mkdir -p /srv/backup")
    machine.done(copy.replace("backup.example:", ""))
    machine.done(timer)
    restore, _, _, replace = commands_of("Restore")
    check("what a restore prints", f"has serial {last}: " in machine.done(restore), True)
    machine.done(replace)
    machine.done(f"curl -s {STATUS} --retry 9 --retry-connrefused localhost:8080/")
    check("what is restored", (exported(machine), machine.said(LAST_LINE)), (before, last))


def check_figures(machine: Booted) -> None:
    machine.done(commands_of("Figures and alerts")[0])
    figures = "curl -s --retry 9 --retry-connrefused localhost:9118/metrics"
    found = machine.done(figures).splitlines()
    for town in ("town", "harbour"):
        machine.context.check(f"{town} is up", f'streetmap_up{{town="{town}"}} 1.0' in found, True)


def check_nginx(machine: Booted) -> None:
    """The map page, a batch with a password, and who else can write."""
    check = machine.context.check
    machine.done(CERTIFICATE)
    machine.done(commands_of("nginx and the map")[0].replace(ASKED, GIVEN))
    machine.done(f"curl -s {STATUS} --retry 9 --retry-connrefused localhost:8080/")
    page = machine.done(f"{CURL} https://{HOST}/map/")
    check("the map page", "<title>" in page, True)
    for address, wanted in (("http://localhost:8080", "200"), (f"https://{HOST}", "404")):
        check(f"the status at {address}", machine.said(f"{CURL} {STATUS} {address}/status"), wanted)
    body = """-d '{"edits":[],"key":"by-nginx"}'"""
    for words, wanted in (("", "401"), ("-u anna:secret ", "200")):
        found = machine.said(f"{CURL} {words}{STATUS} {body} https://{HOST}/batches")
        check(f"a batch through nginx {words}", found, wanted)
    machine.done(commands_of("Who else can write")[0])
    for user, wanted in (("nobody", "000"), ("streetmap", "200")):
        found = machine.said(f"sudo -u {user} curl -s {STATUS} localhost:8080/")
        check(f"what {user} gets", found, wanted)


def check_units(machine: Booted) -> None:
    """No unit has failed, and those that were enabled start with the machine."""
    check = machine.context.check
    check("units that failed", machine.said("systemctl --failed --no-legend --plain"), "")
    for name in ("streetmap@town", "streetmap@harbour", "streetmap-backup@town.timer", "nginx"):
        check(f"{name} is enabled", machine.said(f"systemctl is-enabled {name}"), "enabled")
