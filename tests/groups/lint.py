"""The sources: black, mypy, shellcheck, ESLint, tsc and Rattle's formatter find nothing in them."""

import sys

from harness import TESTS, Context

sys.path.insert(0, str(TESTS.parent / "tools"))

from lint import all_checks  # noqa: E402

# What reads the sources, and the libraries whose types mypy reads.
PACKAGES = (
    "black",
    "eslint",
    "mypy",
    "node-typescript",
    "python3-jinja2",
    "python3-pydantic",
    "python3-starlette",
    "python3-httpx",
    "python3-lark",
    "python3-numpy",
    "python3-pyproj",
    "python3-selenium",
    "shellcheck",
)


def run(context: Context) -> None:
    for name, check in all_checks().items():
        context.check(name, check.found(), "")
