"""The Debian packages of the program and of the gateway, as `make deb` builds them."""

import subprocess
from pathlib import Path

from harness import Context, Word

REPOSITORY = Path(__file__).resolve().parents[1]
NAMES = ("streetmap", "streetmap-gateway")


def output_of(*words: Word) -> str:
    """What a command prints, which has to succeed."""
    given = list(map(str, words))
    ended = subprocess.run(given, capture_output=True, text=True, check=False)
    if ended.returncode != 0:
        raise RuntimeError(f"{' '.join(given)}: {ended.stdout}{ended.stderr}")
    return ended.stdout


def built_packages(context: Context, folder: Path) -> tuple[Path, Path]:
    """The packages of the program and of the gateway, in a folder."""
    output_of("bash", REPOSITORY / "packaging" / "deb.sh", context.program, folder)
    (package,), (gateway,) = (folder.glob(f"{name}_*.deb") for name in NAMES)
    return package, gateway
