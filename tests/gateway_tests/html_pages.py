"""HTML: which requests get it, that it has what the JSON has, and that all text stays text."""

import json
from html.parser import HTMLParser
from urllib.parse import quote

import httpx
from gateway_tests.answers import check_problem
from gateway_tests.data import Feature, batches, feature, shape
from gateway_tests.service import WRITER, Gateway, gateway
from harness import Context
from messages import post

# What a browser, GDAL, QGIS and others say that they accept, and whether that is HTML.
ACCEPTS = {
    "text/html,application/xhtml+xml,application/xml;q=0.9,image/avif,*/*;q=0.8": True,
    "text/html": True,
    "text/*": True,
    "*/*": False,
    "application/geo+json, application/json": False,
    "application/json, text/html": False,
    "application/json;q=0.5, text/html;q=0.6": True,
    "text/html;q=0, */*": False,
    "text/html;q=nan": False,
    "text/html;q=x, ;;=,": False,
    "image/png": False,
    "": False,
}
# A text that ends any attribute, element or script in which it were written as it is.
EVIL = "<script>alert('1')</script>\"'&--><img src=x onerror=alert(2)>"
LINKED = "javascript:alert(3)"
PATHS = ("/", "/api", "/api.html", "/conformance", "/collections")
# Elements without an end.
VOID = {"br", "img", "input", "link", "meta"}
POLICY = {
    "default-src 'none'",
    "script-src 'self'",
    "style-src 'self'",
    "img-src 'self'",
    "connect-src 'self'",
    "base-uri 'none'",
    "form-action 'none'",
    "frame-ancestors 'none'",
}


class Page(HTMLParser):
    """What is on a page: its elements, the addresses of its links, and its texts."""

    def __init__(self, text: str) -> None:
        super().__init__()
        self.elements: list[tuple[str, dict[str, str | None]]] = []
        self.texts: list[str] = []
        self.open: list[str] = []
        self.is_nested = True
        self.feed(text)
        self.close()

    def handle_starttag(self, tag: str, attrs: list[tuple[str, str | None]]) -> None:
        self.elements.append((tag, dict(attrs)))
        if tag not in VOID:
            self.open.append(tag)

    def handle_endtag(self, tag: str) -> None:
        self.is_nested = self.is_nested and bool(self.open) and self.open.pop() == tag

    def handle_data(self, data: str) -> None:
        self.texts.append(data.strip())

    def values(self, tag: str, name: str) -> list[str | None]:
        return [attributes.get(name) for each, attributes in self.elements if each == tag]


def check_forms(context: Context, asked: Gateway) -> None:
    """The form of an answer is that of `f`, or else of `Accept`."""
    items = "/collections/lamps/items"
    for path in (*PATHS[:2], *PATHS[3:], "/collections/lamps", items, f"{items}/L00001"):
        for accept, is_html in ACCEPTS.items():
            answer = asked.client.get(asked.url + path, headers={"Accept": accept})
            shown = (answer.status_code, is_page(answer), answer.headers["vary"])
            context.check(f"{path}: {accept}", shown, (200, is_html, "Accept"))
        for form, is_html in (("html", True), ("json", False)):
            headers = {"Accept": "application/json" if is_html else "text/html"}
            answer = asked.client.get(asked.url + path, params={"f": form}, headers=headers)
            context.check(f"{path}: f={form}", is_page(answer), is_html)
        check_problem(context, asked.ask(path, f="xml"), 400, "bad_f")


def is_page(answer: httpx.Response) -> bool:
    return answer.headers["content-type"] == "text/html; charset=utf-8"


def evil_town() -> dict[str, list[Feature]]:
    """Features whose ids, names and values are texts that resemble HTML, one without geometry."""
    properties = {EVIL: EVIL, "plain": [EVIL], LINKED: LINKED, "null": None}
    many = {f"name {number:02}": number for number in range(60)}
    return {
        "signs": [
            feature(EVIL, shape("Point", [1, 2, 3]), properties),
            feature("way/12 ü?#%2F", None, None),
            feature("zone", shape("LineString", [[0, 0], [5, 5]]), many),
        ]
    }


def check_pages(context: Context) -> None:
    """All texts of an office that means ill, or was careless, are texts on its pages."""
    made = json.loads(batches(evil_town())[0])
    made["edits"][0]["title"] = EVIL
    file = context.new_file("html.streetmap", post(json.dumps(made).encode()))
    with context.serve(file, "--clients", "32") as server:
        with gateway(context, server.url, more=WRITER, title=EVIL) as asked:
            items = "/collections/signs/items"
            for path in (*PATHS, "/collections/signs", items):
                check_page(context, asked, path)
            for each in evil_town()["signs"]:
                check_page(context, asked, f"{items}/{quote(each['id'], safe='')}")
            check_table(context, asked, items)
            check_files(context, asked)


def check_page(context: Context, asked: Gateway, path: str) -> None:
    """The page of a resource: whole, with all links of the JSON, and nothing that runs but two
    scripts of the gateway's own files."""
    answer = asked.ask(path, f="html") if path != "/api.html" else asked.ask(path)
    page = Page(answer.text)
    context.check(f"{path}: nested", (page.is_nested, page.open), (True, []))
    scripts = page.values("script", "src")
    own = all(str(each).startswith(("./static/", "../")) for each in scripts)
    context.check(f"{path}: scripts {scripts}", own and len(scripts) in (0, 2), True)
    found = {name for _, attributes in page.elements for name in attributes}
    runs = [name for name in found if name.startswith("on") or name == "style"]
    context.check(f"{path}: nothing inline", (runs, page.values("style", "type")), ([], []))
    context.check(f"{path}: no image", page.values("img", "src"), [])
    links = [str(each) for each in page.values("a", "href")]
    good = [each for each in links if each.startswith(("http://127.0.0.1", "./", "../", "?"))]
    context.check(f"{path}: links", links, good)
    for link in links:
        if link.startswith(asked.url):
            context.check(f"{path}: {link}", asked.client.get(link).status_code, 200)
        else:
            target = httpx.URL(asked.url + path).join(link)
            context.check(f"{path}: {target}", asked.client.get(target).status_code, 200)
    policy = answer.headers["content-security-policy"].split("; ")
    context.check(f"{path}: policy", set(policy), POLICY)
    context.check("no sniffing", answer.headers["x-content-type-options"], "nosniff")
    if path not in ("/api", "/api.html"):
        wanted = {link["href"] for link in asked.ask(path).json()["links"]}
        named = {link.replace("f=html", "f=json") for link in links}
        missing = {each for each in wanted if each.replace("f=html", "f=json") not in named}
        context.check(f"{path}: links of the JSON", missing - {asked.url + path}, set())


def check_table(context: Context, asked: Gateway, items: str) -> None:
    """The table of a page has ids, names, values and coordinates, and its links go on."""
    page = Page(asked.ask(items, f="html", limit=1).text)
    for text in (EVIL, "plain", LINKED, json.dumps([EVIL]), "Point"):
        context.check(f"the table has {text}", text in page.texts, True)
    shown = asked.ask(items, limit=1).json()["features"][0]["geometry"]
    kept = [json.loads(text) for text in page.texts if text.startswith('{"coordinates"')]
    context.check("coordinates", kept, [shown])
    (data,) = (each for each in page.values("div", "data-features") if each)
    drawn = asked.client.get(f"{asked.url}{items}{data}").json()
    context.check("what the map draws", [each["id"] for each in drawn["features"]], [EVIL])
    check_columns(context, Page(asked.ask(items, f="html", after="way/13").text))
    found: list[str] = []
    target: str | None = f"{items}?f=html&limit=1"
    while target is not None:
        page = Page(asked.client.get(asked.url + target).text)
        found += [each for each in page.texts if each in ids()]
        following = [str(each) for each in page.values("a", "href") if "after=" in str(each)]
        forward = [each for each in following if each.startswith("?f=html")]
        target = items + forward[0] if forward else None
    context.check("pages of a walk", [each for each in found if each != EVIL], ids()[1:])


def check_columns(context: Context, page: Page) -> None:
    """Of 60 properties 40 have columns, and the others are in one."""
    rest = {f"name {number:02}": number for number in range(40, 60)}
    kept = [json.loads(text) for text in page.texts if text.startswith('{"name')]
    context.check("columns", (len(page.values("th", "scope")), kept), (43, [rest]))


def ids() -> list[str]:
    return [each["id"] for each in evil_town()["signs"]]


def check_files(context: Context, asked: Gateway) -> None:
    """The files that pages name are there, and nothing beside them."""
    for path, kind in (
        ("/static/style.css", "text/css"),
        ("/static/map.js", "javascript"),
        ("/static/leaflet/leaflet.js", "javascript"),
        ("/static/leaflet/leaflet.css", "text/css"),
    ):
        answer = asked.ask(path)
        shown = (answer.status_code, kind in answer.headers["content-type"])
        context.check(path, shown, (200, True))
        text = answer.text.replace("https://leafletjs.com", "")
        hosts = "url(http" in text or "import(" in text
        context.check(f"{path}: no other host", hosts, False)
    for path in ("/static/..%2fsettings.py", "/static/%2e%2e/app.py", "/static", "/static/leaflet"):
        check_problem(context, asked.ask(path), 404, "not_found")
    check_problem(context, asked.send("POST", "/static/style.css"), 405, "method_not_allowed")
