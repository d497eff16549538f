"""The commands of a document, as they are printed there."""

import re
from pathlib import Path

OPERATING = Path(__file__).resolve().parents[2] / "docs" / "OPERATING.md"
HEADING = re.compile(r"(?m)^#+ (.+)$")
COMMANDS = re.compile(r"(?ms)^ *```sh\n(.*?)^ *```$")


def commands_of(heading: str, path: Path = OPERATING) -> list[str]:
    """The blocks of shell commands from a heading on, up to the next heading."""
    text = path.read_text()
    found = {it[1]: it.end() for it in HEADING.finditer(text)}
    begin = found[heading]
    following = HEADING.search(text, begin)
    return COMMANDS.findall(text[begin : following.start() if following else None])
