"""Makes the picture of the documents: the sample quarter, the park chosen, two edits in the basket.

    python3 tests/browser/picture.py PROGRAM docs/map.png
"""

import sys
import tempfile
import time
from pathlib import Path

sys.path.insert(0, str(Path(__file__).resolve().parents[1]))

from browser.browsers import browser  # noqa: E402
from browser.site import site  # noqa: E402
from browser.towns import quarter  # noqa: E402
from harness import Context  # noqa: E402


def main(program: Path, picture: Path) -> None:
    with tempfile.TemporaryDirectory() as folder:
        context = Context(program, Path(folder))
        with site(context, "picture", quarter()) as made, browser(1280, 880) as page:
            page.open(made.address)
            page.wait_shown("trees", "72")
            page.press("Point", "#tools")
            page.click_at(170, 212)
            page.press("Put in basket")
            page.choose("L036")
            page.press("Delete", "#panel-feature")
            page.choose("P1")
            page.tab("collections")
            page.script("document.getElementById('panel-collections').scrollTop = 0")
            page.wait("no message", lambda: page.text("#message") == "")
            time.sleep(1)
            page.picture().save(picture, optimize=True)


if __name__ == "__main__":
    main(Path(sys.argv[1]).resolve(), Path(sys.argv[2]))
