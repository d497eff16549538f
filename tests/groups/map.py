"""The map page in a headless browser, over the program and nginx: seeing, editing, no network."""

from browser import (
    beginning,
    conditions,
    counting,
    deploying,
    drawing,
    editing,
    filling,
    foreign,
    forms,
    keeping,
    languages,
    looking,
    merging,
    modules,
    news,
    panning,
    phone,
    placing,
    reading,
    sending,
    showing,
    standing,
    taking,
)
from browser.parts import run_parts
from harness import Context

PACKAGES = (
    "chromium",
    "chromium-driver",
    "libjs-leaflet",
    "nginx",
    "nodejs",
    "openssl",
    "python3-numpy",
    "python3-pil",
    "python3-pyproj",
    "python3-selenium",
)


def run(context: Context) -> None:
    # Those with the longest parts first.
    longest = (panning, news, conditions, looking, keeping, sending, editing, reading)
    crews = (beginning, drawing, filling, standing, showing, merging, taking, counting, languages)
    others = (forms, phone, placing, deploying, foreign, modules)
    run_parts(context, [part for it in (*longest, *crews, *others) for part in it.PARTS])
