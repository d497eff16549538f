"""Pages of other origins in the browser, which post batches to the map's address: none of them
acts."""

import contextlib
import threading
from collections.abc import Iterator
from http.server import BaseHTTPRequestHandler, ThreadingHTTPServer

from harness import Context

from browser.browsers import browser
from browser.page import Page
from browser.site import Site, site
from browser.towns import town

# A form whose text is a batch: its one field is `name=value`.
FORM = """<!doctype html><title>form</title>
<form method="post" enctype="text/plain" action="{url}/batches">
<input name='{{"edits":[{{"op":"open","collection":"{key}","title":"' value='"}}],"key":"{key}"}}'>
</form><script>document.forms[0].submit()</script>"""
FETCH = """<!doctype html><title>fetch</title><script>
const body = '{{"edits":[{{"op":"open","collection":"{key}"}}],"key":"{key}"}}';
fetch("{url}/batches", {{ method: "POST", mode: "no-cors", credentials: "include", body }})
  .finally(() => {{ document.title = "done"; }});
</script>"""


@contextlib.contextmanager
def serving(texts: dict[str, str]) -> Iterator[int]:
    """Serves pages by their paths; gives the port."""

    class Handler(BaseHTTPRequestHandler):
        def do_GET(self) -> None:
            text = texts.get(self.path, "").encode()
            self.send_response(200 if text else 404)
            self.send_header("Content-Type", "text/html")
            self.send_header("Content-Length", str(len(text)))
            self.end_headers()
            self.wfile.write(text)

        def log_message(self, format: str, *arguments: object) -> None:
            pass

    with ThreadingHTTPServer(("127.0.0.1", 0), Handler) as server:
        threading.Thread(target=server.serve_forever, daemon=True).start()
        try:
            yield server.server_address[1]
        finally:
            server.shutdown()


def refused(context: Context, made: Site, page: Page, url: str, key: str) -> None:
    """Opens a page, which posts a batch, by a form or without showing the answer. Its collection is
    not there then."""
    page.go(url)
    ended = lambda: page.driver.current_url.endswith("/batches") or page.driver.title == "done"
    page.wait(url, ended)
    found = made.ask(f"/collections/{key}")
    context.check(f"{key}: its collection", found.get("code", found), "not_found")


def others(context: Context) -> None:
    """Forms and fetches of other origins do nothing; the page itself may."""
    with site(context, "foreign", town()) as made, browser() as page:
        texts = {
            f"/{host}-{kind}": text.format(url=made.base, key=f"{host[:1]}-{kind}")
            for host in ("localhost", "127.0.0.1")
            for kind, text in (("form", FORM), ("fetch", FETCH))
        }
        with serving(texts) as port:
            for path in texts:
                host, _, kind = path[1:].rpartition("-")
                refused(context, made, page, f"http://{host}:{port}{path}", f"{host[:1]}-{kind}")
        page.open(made.address)
        own = (
            "return fetch('/batches', {method: 'POST',"
            ' body: \'{"edits":[],"key":"own"}\'}).then(it => it.status)'
        )
        context.check("the page itself", page.script(own), 200)


PARTS = (others,)
