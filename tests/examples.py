"""The rows of examples/, and lines with their answers."""

import json
from pathlib import Path
from typing import Any

from harness import TESTS, Context

EXAMPLES = TESTS.parent / "examples"
Row = dict[str, Any]


def rows_of(name: str) -> list[Row]:
    """The rows of a file: a JSON object a line."""
    return [json.loads(line) for line in (EXAMPLES / name).read_text().splitlines()]


def batch_line(key: str, edits: list[Any]) -> str:
    return f"batch {json.dumps({'key': key, 'edits': edits})}"


def answers_to(context: Context, lines: list[str]) -> list[str]:
    """The answers of `streetmap lines`, each line over what the ones before it left."""
    sent = "".join(f"{line}\n" for line in lines)
    written = context.run("lines", sent=sent.encode()).decode()
    return written.removesuffix("\n").split("\n")


def text_path(context: Context, name: str, text: bytes | str) -> Path:
    """A file of the scratch folder with this text."""
    path = context.folder / name
    path.write_bytes(text.encode() if isinstance(text, str) else text)
    return path


def error_text(code: str, description: str, **members: Any) -> str:
    """The compact text of an error."""
    error = {"code": code, "description": description, **members}
    return json.dumps(error, separators=(",", ":"), sort_keys=True)
