"""Serves a gateway: python3 -m gateway gateway.toml"""

import argparse
import sys
from pathlib import Path

from .app import make_app
from .gateway import Gateway
from .serving import serve
from .settings import SettingsFault, read_settings


def main() -> int:
    parser = argparse.ArgumentParser(description="Serves a gateway of Streetmap.")
    parser.add_argument("settings", type=Path, help="the settings file, as gateway.toml is")
    given = parser.parse_args()
    try:
        gateway = Gateway.of(read_settings(given.settings))
    except SettingsFault as fault:
        print(f"gateway: {fault}", file=sys.stderr)
        return 2
    serve(make_app(gateway), gateway.settings.listen)
    return 0


if __name__ == "__main__":
    sys.exit(main())
