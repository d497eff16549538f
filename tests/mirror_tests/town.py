"""The made town of the gateway's picture, drawn by QGIS out of a mirror.

    /usr/bin/python3 tests/mirror_tests/town.py PICTURE
"""

import sys
import tempfile
from pathlib import Path

sys.path.insert(0, str(Path(__file__).resolve().parents[1]))

from followers_tests import postgres  # noqa: E402
from followers_tests.processes import running, wait_until  # noqa: E402
from gateway_tests.data import insert, opening  # noqa: E402
from gateway_tests.town import GROUND, Town  # noqa: E402
from harness import Context  # noqa: E402
from mirror_tests.mirrors import Mirror  # noqa: E402
from mirror_tests.tools import PYTHON, Tools  # noqa: E402

KINDS = {"buildings": "Polygon", "kerbs": "LineString", "lamps": "Point"}
KINDS |= {"parks": "Polygon", "trees": "Point"}


def main() -> None:
    (picture,) = (Path(word).resolve() for word in sys.argv[1:])
    with tempfile.TemporaryDirectory() as folder:
        context = Context(Path(), Path(folder))
        cluster = postgres.primary(context)
        with running(cluster.process):
            wait_until("PostgreSQL answers", cluster.answers, context.seconds)
            mirror = Mirror.new(context, cluster, "town")
            for name, made in Town().kept.items():
                edits = [opening(name), *(insert(name, it) for it in made)]
                mirror.put(mirror.accept(name, edits))
            mirror.database.ask("ALTER ROLE streetmap_reader LOGIN")
            words = ["127.0.0.1", str(mirror.database.port), "town", str(picture)]
            words += [str(context.folder / "town.qgs"), GROUND]
            words += [f"{name}:{kind}" for name, kind in KINDS.items()]
            script = Path(__file__).with_name("qgis_mirror.py")
            Tools(context, mirror).run(PYTHON, str(script), *words)


if __name__ == "__main__":
    main()
