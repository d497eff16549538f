"""What the theorem rests on: python3 tests/closure.py

Prints each module of definitions that the statement of `serve_town` needs, with its lines: those
that its contract names, those that these import, and so on. Modules of the toolchain are left out,
and so are the declarations that the toolchain makes of Rust's types.
"""

import re
from collections.abc import Iterator
from dataclasses import dataclass
from pathlib import Path

CRATES = Path(__file__).resolve().parent.parent / "crates"
# The files whose contract and trait the theorem is.
STATEMENT = ("streetmap_guarantee/src/town.rt", "streetmap_ledger/src/durable.rt")
# The crates whose definitions speak of states, requests and what is served.
FROM_STATE_UP = (
    *("streetmap_ledger", "streetmap_tags", "streetmap_routes", "streetmap_web"),
    *("streetmap_connections", "streetmap_guarantee"),
)
IMPORT = re.compile(
    r"^\s*(?:pub )?(?:ghost )?use Rattle\.(streetmap\w*)\.specs\.([\w.]+?)\.?\{", re.M
)


@dataclass(frozen=True, order=True)
class Module:
    """A module of definitions, by the name of its crate and its path in specs/."""

    crate: str
    path: str

    @property
    def file(self) -> Path:
        return CRATES / self.crate / "specs" / f"{self.path}.antt"

    @property
    def lines(self) -> int:
        return len(self.file.read_text().splitlines())

    @property
    def is_from_state_up(self) -> bool:
        return self.crate in FROM_STATE_UP


def imports_of(text: str) -> Iterator[Module]:
    """The modules of definitions that a text imports."""
    for crate, name in IMPORT.findall(text):
        if not name.startswith("declared"):
            yield Module(crate, name.replace(".", "/"))


def closure() -> list[Module]:
    """The modules that the statement needs, in order of crates and names."""
    waiting = [it for name in STATEMENT for it in imports_of((CRATES / name).read_text())]
    found: set[Module] = set()
    while waiting:
        module = waiting.pop()
        if module not in found:
            found.add(module)
            waiting += imports_of(module.file.read_text())
    return sorted(found)


def lines_from_state_up() -> int:
    """The lines of the modules from the definition of a state up."""
    return sum(module.lines for module in closure() if module.is_from_state_up)


def lines_in_all() -> int:
    """The lines of all modules that the statement needs."""
    return sum(module.lines for module in closure())


if __name__ == "__main__":
    for each in closure():
        print(f"{each.lines:5} {each.crate}/specs/{each.path}")
    print(f"{lines_from_state_up():5} lines from a state up, {lines_in_all()} in all")
