"""Compares docs/THEOREM.md with the sources that it quotes and counts."""

import re
from pathlib import Path

from closure import CRATES, lines_from_state_up, lines_in_all

PAGE = CRATES.parent / "docs" / "THEOREM.md"
MOST_LINES, MOST_FROM_STATE_UP, MOST_IN_ALL = 150, 1_850, 5_350
GUARANTEE = CRATES / "streetmap_guarantee"
ROW = re.compile(r"^\| `(streetmap_\w+)/specs/(\w+)` \| (\d+) \| (.*) \|$", re.MULTILINE)
QUOTED = re.compile(r"`([^`]+)`")


def block_of(page: str, language: str) -> str:
    """The page's block of a language, in single spaces."""
    found = re.search(rf"^```{language}\n(.*?)^```$", page, re.MULTILINE | re.DOTALL)
    return one_line(found[1]) if found else f"no block of {language}"


def one_line(text: str) -> str:
    return " ".join(text.split())


def without_comments(path: Path) -> str:
    """A file's text with no line of comments, in single spaces."""
    lines = path.read_text().splitlines()
    return one_line("\n".join(it for it in lines if not it.lstrip().startswith(("--", "//"))))


def faults_of_row(crate: str, module: str, lines: str, says: str) -> list[str]:
    """What the table says of a file that is not so."""
    file = CRATES / crate / "specs" / f"{module}.antt"
    if not file.exists():
        return [f"{file.name} of {crate} is not there"]
    text = file.read_text()
    count = len(text.splitlines())
    names = [name for name in QUOTED.findall(says) if not re.search(rf"\bpub {name}\b", text)]
    counted = [] if count == int(lines) else [f"{crate}/{module} has {count} lines"]
    return counted + [f"{crate}/{module} has no {name}" for name in names]


def page_faults() -> list[str]:
    """What the page says that is not so, a line each."""
    page = PAGE.read_text()
    faults = [it for row in ROW.findall(page) for it in faults_of_row(*row)]
    if block_of(page, "rust") not in without_comments(GUARANTEE / "src" / "town.rt"):
        faults.append("the function is another")
    if block_of(page, "antt") not in without_comments(GUARANTEE / "specs" / "Guarantee.antt"):
        faults.append("the record is another")
    upper, whole = lines_from_state_up(), lines_in_all()
    for lines, most in ((upper, MOST_FROM_STATE_UP), (whole, MOST_IN_ALL)):
        if lines > most:
            faults.append(f"the statement rests on {lines} lines")
        if f"{lines:,}" not in page:
            faults.append(f"the page does not say {lines:,} lines")
    if len(page.splitlines()) > MOST_LINES:
        faults.append("the page is too long")
    return faults
