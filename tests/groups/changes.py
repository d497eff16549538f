"""A follower by `/changes`, with its faults and over TLS; nginx that keeps pages by their tags."""

from conditional import watched
from followers_tests import caching, changes, fronted
from harness import Context

PACKAGES = ("libjs-leaflet", "nginx", "openssl")


def run(context: Context) -> None:
    changes.check_changes(context)
    with watched(context, context.new_file("primary"), "--clients", "32") as server:
        fronted.check_followed(context, server)
        caching.check_pages(context, server)
