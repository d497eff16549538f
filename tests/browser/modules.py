"""The page's modules that use no DOM, by Node's own test runner."""

import subprocess
from pathlib import Path

from harness import Context

TESTS = Path(__file__).resolve().parents[1] / "map_modules"


def by_node(context: Context) -> None:
    """All tests of tests/map_modules pass, and at least one exists."""
    words = ["node", "--import", str(TESTS / "setup.mjs"), "--test", str(TESTS)]
    ended = subprocess.run(words, capture_output=True, text=True, timeout=300, check=False)
    counts = {
        name: line.removeprefix(f"# {name} ")
        for line in ended.stdout.splitlines()
        for name in ("pass", "fail")
        if line.startswith(f"# {name} ")
    }
    if ended.returncode != 0:
        print(ended.stdout[-4000:], flush=True)
    context.check("the modules", (ended.returncode, counts.get("fail")), (0, "0"))
    context.check("tests ran", int(counts.get("pass", "0")) > 0, True)


PARTS = (by_node,)
