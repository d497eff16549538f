"""Counts the words that CONTRIBUTING's table replaces: python3 tools/words.py

The comments of all crates are read: at most 15 of these words may stand in 1,000 lines of them. A
word with a hint in brackets, such as `where (of a condition)`, is not counted: whether it is meant
takes a reader.
"""

import re
import sys
from collections import Counter
from collections.abc import Iterator
from pathlib import Path

ROOT = Path(__file__).resolve().parent.parent
MOST = 15
COMMENT = re.compile(r"(?://[/!]?|--) (.*)$")


def replaced_words() -> Iterator[str]:
    """The words of the table's first column, without those that have a hint."""
    rows = re.findall(r"^\| (.+?) \| .+ \|$", (ROOT / "CONTRIBUTING.md").read_text(), re.M)
    for cell in rows[1:]:
        for word in re.split(r"[,;] (?![^(]*\))", cell):
            if "(" not in word:
                yield word


def comments() -> Iterator[tuple[Path, str]]:
    """The lines of comments, each with its file."""
    for path in sorted((ROOT / "crates").glob("*/*/**/*")):
        if path.suffix in (".rt", ".antt") and "out" not in path.parts:
            for line in path.read_text().splitlines():
                found = COMMENT.search(line)
                if found:
                    yield path, found[1]


def main() -> int:
    words = re.compile(rf"\b(?:{'|'.join(map(re.escape, replaced_words()))})\b", re.I)
    lines = 0
    found: Counter[tuple[str, str]] = Counter()
    for path, text in comments():
        lines += 1
        found.update((str(path.relative_to(ROOT)), word.lower()) for word in words.findall(text))
    count = sum(found.values())
    if count * 1000 <= MOST * lines:
        return 0
    print(f"{count} of the replaced words in {lines} lines of comments:")
    for (file, word), times in found.most_common():
        print(f"  {file}: {word} ({times})")
    return 1


if __name__ == "__main__":
    sys.exit(main())
