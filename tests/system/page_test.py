"""The page of web/ in a real browser, headless Chromium: over a real mirror, over one that lies, and from files.

The checker is built by web/build where that isn't done, or where a source is newer. What it tells of each right and each
spoiled answer is compared with the verdict of `osm_mirror check`. Without Chromium all but the build is skipped, and said
so. Pictures of the page go to tests/system/build/page.
"""

import base64
import hashlib
import json
import math
import re
import shutil
import subprocess
import sys
import tempfile
import threading
import time
from contextlib import contextmanager
from http.server import SimpleHTTPRequestHandler, ThreadingHTTPServer
from pathlib import Path
from urllib.parse import parse_qs, quote, urlsplit
from xml.etree import ElementTree

import browser
from lying_mirror import LIES, ROOTS, Checked, asked, lying_mirror, nodes_of, parts_of
from runs import PROGRAM, TOP, Tally, run
from serve_test import NGINX, nginx_before, server

WEB = TOP / "web"
MODULE = WEB / "out/osm_check.wasm"
PICTURES = Path(__file__).resolve().parent / "build/page"
OBJECTS = TOP / "examples/four-objects.opl"
ROOT = "e66900236b879ef283a337e2d57ae34c0a3a919610d5dc475f092354538f6732"
QUERY = "node(1);out;"
ANSWER = "n1 Thighway=crossing x13.4 y52.5\n"


# ---- the module ----


def built(*words):
    """Runs web/build, and gives its status, what it printed, and the module."""
    ended = subprocess.run([WEB / "build", *words], capture_output=True, text=True, timeout=1200, check=False)
    return ended.returncode, ended.stdout, ended.stderr, MODULE.read_bytes() if MODULE.exists() else None


def check_build(tally):
    """The module is built, and built anew it has the same bytes; its digest is printed."""
    status, said, complained, module = built()
    tally.check("web/build", status == 0 and module is not None, said, complained)
    if module is not None:
        status, said, complained, again = built("--anew")
        lines = said.splitlines()
        tally.check("web/build --anew", status == 0 and lines[0].startswith("logic=proved"), said, complained)
        tally.check("it makes the same bytes again", again == module)
        digest = hashlib.sha256(module).hexdigest()
        tally.check("it tells the digest", f"{digest}  osm_check.wasm" in lines, lines)
        print(*lines[1:], sep="\n")


HELPERS = r"""
#include <stdio.h>
#include <stdlib.h>
#include <string.h>
typedef unsigned __int128 u128;
typedef __int128 i128;
u128 t___multi3(u128, u128);
u128 t___ashlti3(u128, int);
u128 t___lshrti3(u128, int);
i128 t___ashrti3(i128, int);
void *t_memcpy(void *, const void *, unsigned long long);
void *t_memmove(void *, const void *, unsigned long long);
void *t_memset(void *, int, unsigned long long);
int t_memcmp(const void *, const void *, unsigned long long);
static unsigned long long state = 1;
static unsigned long long some(void) { state = state * 6364136223846793005ULL + 1442695040888963407ULL; return state ^ state >> 29; }
static u128 wide(void) { u128 it = (u128)some() << 64 | some(); int by = some() % 128; return some() & 1 ? it >> by : it << by; }
static int sign(int it) { return (it > 0) - (it < 0); }
int main(void) {
    for (int round = 0; round < 200000; round++) {
        u128 x = wide(), y = wide();
        int by = some() % 128;
        if (t___multi3(x, y) != x * y || t___ashlti3(x, by) != x << by || t___lshrti3(x, by) != x >> by) return 1;
        if (t___ashrti3((i128)x, by) != (i128)x >> by) return 2;
        unsigned char a[64], b[64];
        for (int at = 0; at < 64; at++) a[at] = b[at] = some() % 3;
        unsigned from = some() % 32, to = some() % 32, size = some() % 32, value = some();
        if (sign(t_memcmp(a + from, a + to, size)) != sign(memcmp(b + from, b + to, size))) return 3;
        t_memmove(a + to, a + from, size), memmove(b + to, b + from, size);
        if (memcmp(a, b, 64)) return 4;
        t_memset(a + to, value, size), memset(b + to, value, size);
        if (memcmp(a, b, 64)) return 5;
        unsigned char c[64];
        t_memcpy(c, a, 64);
        if (memcmp(c, a, 64)) return 6;
    }
    return 0;
}
"""


def check_helpers(tally):
    """What the module's own helpers calculate is what the system's compiler and C library calculate."""
    names = re.findall(r"^\w[\w *]*?(\w+)\(.*\) \{$", (WEB / "wasm/helpers.c").read_text(), re.MULTILINE)
    tally.check("the helpers are there", "__multi3" in names and "memcmp" in names, names)
    with tempfile.TemporaryDirectory() as folder:
        room = Path(folder)
        (room / "test.c").write_text(HELPERS)
        words = [f"-D{name}=t_{name}" for name in names]
        subprocess.run(["gcc", "-O1", "-fno-builtin", *words, "-c", WEB / "wasm/helpers.c", "-o", room / "helpers.o"], check=True)
        subprocess.run(["gcc", "-O1", room / "test.c", room / "helpers.o", "-o", room / "test"], check=True)
        outcome = run([room / "test"])
        tally.check("the helpers calculate as the C library does", outcome.status == 0, outcome)


# ---- the server of the page ----


def example_headers():
    """The header fields that examples/nginx.conf gives with the page."""
    block = NGINX.read_text(encoding="utf-8").split("location / {")[1].split("\n        }")[0]
    return dict(re.findall(r'add_header (\S+) "?(.*?)"?;\n', block))


def with_memory_limit(module, pages):
    """The module with a limit of its memory. (A section is a number, a length and bytes; 5 is that of memories.)"""

    def number_at(at):
        value = shift = 0
        while True:
            value |= (module[at] & 0x7F) << shift
            shift, at = shift + 7, at + 1
            if module[at - 1] < 0x80:
                return value, at

    def number(value):
        out = b""
        while value >= 0x80:
            out, value = out + bytes([value & 0x7F | 0x80]), value >> 7
        return out + bytes([value])

    at = 8
    while at < len(module):
        length, begin = number_at(at + 1)
        if module[at] == 5:
            assert module[begin] == 1 and module[begin + 1] & 1 == 0, module[begin:begin + 4]
            least, _ = number_at(begin + 2)
            section = bytes([1, module[begin + 1] | 1]) + number(least) + number(max(least, pages))
            return module[:at + 1] + number(len(section)) + section + module[begin + length:]
        at = begin + length
    raise AssertionError("the module has no memory")


@contextmanager
def page_server(data=None):
    """The address of a server of the page, with the header fields of the example. Below /limit-N/ the module may take no
    more than N pages of memory, below /limit-0/ there is no module; below /data/ are the files of a folder."""
    headers = example_headers()

    class Handler(SimpleHTTPRequestHandler):
        protocol_version = "HTTP/1.1"
        extensions_map = {".html": "text/html", ".js": "text/javascript", ".css": "text/css", ".svg": "image/svg+xml",
                          ".wasm": "application/wasm"}

        def __init__(self, *words):
            super().__init__(*words, directory=WEB)

        def log_message(self, *words):
            pass

        def end_headers(self):
            for name, value in headers.items():
                self.send_header(name, value)
            super().end_headers()

        def do_GET(self):
            # One handler serves all requests of a connection, each from its own folder.
            self.directory = str(WEB)
            if data is not None and self.path.startswith("/data/"):
                self.directory, self.path = str(data), self.path.removeprefix("/data")
            where = re.match(r"/limit-(\d+)(/.*)", self.path)
            if where:
                self.path = where[2]
            is_module = self.path.endswith(".wasm")
            if where and is_module and (where[1] == "0" or "_32" in self.path):
                return self.send_error(404)
            if where and is_module:
                module = WEB / "out" / self.path.rpartition("/")[2]
                body = with_memory_limit(module.read_bytes(), int(where[1]))
                self.send_response(200)
                self.send_header("Content-Type", "application/wasm")
                self.send_header("Content-Length", str(len(body)))
                self.end_headers()
                return self.wfile.write(body)
            return super().do_GET()

    serving = ThreadingHTTPServer(("127.0.0.1", 0), Handler)
    serving.daemon_threads = True
    threading.Thread(target=serving.serve_forever, daemon=True).start()
    try:
        yield f"http://127.0.0.1:{serving.server_port}"
    finally:
        serving.shutdown()
        serving.server_close()


# ---- what a user does ----


def words(value):
    return json.dumps(value)


def opened(page, site, path="/", fragment=""):
    """Opens the page, and waits until the checker is there or can't be had."""
    page.go_to(f"{site}{path}{fragment}")
    return page.until("document.body?.dataset.ready || document.getElementById('verdict')?.dataset.state === 'fault'")


def keep_root(page, name, digits):
    """Adds a root by the dialog, as a user does."""
    page.value("document.getElementById('manage-roots').click()")
    page.value(f"document.getElementById('root-name').value = {words(name)}")
    page.value(f"document.getElementById('root-digits').value = {words(digits)}")
    page.value("document.querySelector('#add-root .main').click()")
    said = page.value("document.getElementById('root-fault').textContent")
    page.value("document.querySelector('#roots [data-close]').click()")
    return said


def write_query(page, query):
    page.value(f"{{ const it = document.getElementById('query'); it.value = {words(query)}; "
               "it.dispatchEvent(new Event('input', {bubbles: true})); }")


def told(page, seconds=60):
    """The state and the text of the verdict, once there is one."""
    page.until("!document.body.dataset.busy && !['none', 'wait'].includes(document.getElementById('verdict').dataset.state)", seconds)
    return tuple(page.value("[verdict.dataset.state, verdict.textContent, details.textContent]"))


def ask(page, mirror, query, seconds=60):
    """Asks this mirror, and gives what is told."""
    page.value(f"document.getElementById('mirror').value = {words(mirror)}")
    write_query(page, query)
    page.value("document.getElementById('go').click()")
    return told(page, seconds)


def text_of(page, name):
    return page.value(f"document.getElementById({words(name)}).textContent")


def is_shown(page, name):
    return page.value(f"document.getElementById({words(name)}).checkVisibility()")


# ---- the checks ----


def native_verdict(root, query, checked):
    """What `osm_mirror check` says."""
    with tempfile.TemporaryDirectory() as folder:
        room = Path(folder)
        (room / "query").write_text(query, encoding="utf-8")
        (room / "answer").write_bytes(checked.answer)
        (room / "proof").write_bytes(checked.proof)
        outcome = run([PROGRAM, "check", root, room / "query", room / "answer", room / "proof"])
        return outcome.stdout.decode().strip()


def check_yes(tally, page, mirror):
    """A right answer is shown with what was checked, as text, list and map."""
    state, verdict, details = ask(page, mirror, QUERY)
    fits = re.fullmatch(r"Complete and exact under root e6690023\.\., checked here in (less than )?[\d.]+ ms; proof \d+ bytes", verdict)
    tally.check("a right answer", state == "yes" and fits, state, verdict, details)
    tally.check("what is told of it", details.startswith("1 object, 33 bytes; the mirror took"), details)
    tally.check("its text", text_of(page, "opl") == ANSWER, text_of(page, "opl"))
    row = page.value("[...document.querySelectorAll('#rows td')].map(it => it.textContent)")
    tally.check("its list", row == ["Node 1", "highway=crossing", "52.5, 13.4"], row)
    label = page.value("canvas.getAttribute('aria-label')")
    tally.check("its map", label == "Map of the answer: 1 node, 0 ways drawn", label)
    state, verdict, _ = ask(page, mirror, "node(99);out;")
    tally.check("an empty answer", state == "yes" and "empty" in text_of(page, "notes"), state, verdict, text_of(page, "notes"))


def check_lies(tally, page, mirror, liar):
    """Each lie is found, and told as the program tells it; nothing of a wrong answer is shown."""
    for name, root in ROOTS.items():
        keep_root(page, name, root)
    codes = set()
    for lie in LIES:
        root = ROOTS.get(lie, ROOT)
        page.value(f"{{ const it = document.getElementById('root'); it.value = {words(root)}; it.dispatchEvent(new Event('change')); }}")
        right, other = (parts_of(asked(mirror, it)[1]) for it in (QUERY, OTHER_QUERY))
        native = native_verdict(root, QUERY, LIES[lie](right, other))
        state, verdict, _ = ask(page, f"{liar}/{lie}", QUERY)
        codes |= {native.removeprefix("no ")[:2]}
        is_told = state == "yes" if native == "yes" else state == "no" and f"({native.removeprefix('no ')})" in verdict
        tally.check(f"a mirror that lies ({lie}): {native}", is_told, state, verdict)
        if native != "yes":
            hidden = not is_shown(page, "answer") and text_of(page, "opl") == "" and text_of(page, "rows") == ""
            tally.check(f"nothing is shown of it ({lie})", hidden, text_of(page, "opl"))
    query = "node(1);out count;"
    native = native_verdict(ROOT, query, parts_of(asked(mirror, OTHER_QUERY)[1]))
    page.value(f"{{ const it = document.getElementById('root'); it.value = {words(ROOT)}; it.dispatchEvent(new Event('change')); }}")
    state, verdict, _ = ask(page, f"{liar}/refused-answered", query)
    tally.check("a refused query that is answered", state == "no" and native.removeprefix("no ") in verdict, state, verdict, native)
    codes |= {native.removeprefix("no ")[:2]}
    tally.check("each verdict came", codes >= {"ye", *(f"C{it}" for it in range(1, 10))}, codes)
    _, _, details = ask(page, f"{liar}/other-root", QUERY)
    tally.check("a mirror's own root decides nothing", details.startswith("1 object"), details)


OTHER_QUERY = 'nwr["highway"];out meta;'


def check_no_answer(tally, page, liar):
    """Whatever keeps a mirror from answering is told in words."""
    for name, want in [
        ("not-found", "there is no /api/checked"), ("too-large", "413"), ("too-many", "429"), ("bad-gateway", "502"),
        ("no-memory", "out of memory (503)"), ("too-much-work", "too much work for this mirror (503)"),
        ("garbage", "something else"), ("short", "something else"), ("broken-off", "broke off"),
        ("closed", "no Access-Control-Allow-Origin"),
    ]:
        state, verdict, _ = ask(page, f"{liar}/{name}", QUERY)
        tally.check(f"no answer: {name}", state == "fault" and want in verdict, state, verdict)
    state, verdict, _ = ask(page, "http://127.0.0.1:9", QUERY)
    tally.check("no mirror", state == "fault" and verdict.startswith("No connection"), state, verdict)
    state, verdict, _ = ask(page, "nonsense", QUERY)
    tally.check("no address", state == "fault" and "isn't one of the form" in verdict, state, verdict)


def check_roots(tally, page, mirror):
    """Without a root nothing is asked; with another one the answer isn't accepted; a root that is none isn't kept."""
    state, verdict, _ = ask(page, mirror, QUERY)
    tally.check("no root", state == "fault" and verdict.startswith("Choose a root"), state, verdict)
    said = keep_root(page, "wrong", "12")
    tally.check("a root that is none", "64 hexadecimal digits" in said, said)
    keep_root(page, "another", "75a22f59df64013528dcb5e169ed9fd2305ff00f4b700f271af080582a6e0671")
    state, verdict, details = ask(page, mirror, QUERY)
    tally.check("another root", state == "no" and "(C4)" in verdict, state, verdict)
    tally.check("which root the mirror has", "e6690023.." in details and "75a22f59.." in details, details)
    said = keep_root(page, "four objects", ROOT.upper())
    tally.check("a root is saved", said == "four objects is saved." and page.value("root.value") == ROOT, said)


def check_queries(tally, page, mirror):
    """A refused query is marked at its place, as it is typed and when a mirror refuses it."""
    write_query(page, 'node["a"="é"](1);\nfoo;out;')
    shown = page.until("fault.textContent")
    tally.check("a fault while typing", shown and shown.startswith("Q5, line 2, column 1: a word that can't come here."), shown)
    mark = page.value("[...document.querySelectorAll('#marks mark')].map(it => it.textContent)")
    tally.check("the fault's mark", mark == ["f"], mark)
    write_query(page, QUERY)
    page.until("fault.textContent === ''")
    state, verdict, _ = ask(page, mirror, "node(1);out count;")
    tally.check("a refused query", state == "fault" and "refused" in verdict, state, verdict)
    place = page.value("[fault.textContent.slice(0, 22), query.selectionStart, document.activeElement.id]")
    tally.check("the cursor is at the fault", place == ["Q7, line 1, column 13:", 12, "query"], place)
    state, verdict, _ = ask(page, mirror, "node(1)")
    said = text_of(page, "fault")
    tally.check("a query that ends too early", said.startswith("Q11, at the end"), said)
    page.until("true")
    time.sleep(0.5)
    page.picture(PICTURES / "refused.png")


def mercator(longitude, latitude):
    """Web Mercator, in a square from 0 to 1."""
    return longitude / 360 + 0.5, 0.5 - math.log(math.tan(math.pi / 4 + math.radians(latitude) / 2)) / (2 * math.pi)


def pixel_of(place, places, size, margin=40):
    """Where a place is on a map of this size that shows all places."""
    spots = [mercator(*it) for it in places]
    low, high = [min(it[k] for it in spots) for k in (0, 1)], [max(it[k] for it in spots) for k in (0, 1)]
    scale = min((size[k] - 2 * margin) / (high[k] - low[k]) for k in (0, 1))
    return tuple((mercator(*place)[k] - (low[k] + high[k]) / 2) * scale + size[k] / 2 for k in (0, 1))


def is_coloured(page, place, colour):
    """Whether the map has this colour at this pixel, now or in a moment."""
    x, y = map(round, place)
    pixel = f"canvas.getContext('2d').getImageData({x}, {y}, 1, 1).data.join()"
    return page.until(f"{pixel} === {words(colour)}", 5)


def check_map(tally, page, mirror, places, query):
    """Objects are where Web Mercator says, and a click shows what is there."""
    page.resize(1200, 1000)
    state, verdict, _ = ask(page, mirror, query)
    tally.check("an answer with a place", state == "yes", state, verdict)
    size = page.value("[canvas.clientWidth, canvas.clientHeight]")
    for theme, point in (("light", "179,38,30,255"), ("dark", "255,138,128,255")):
        page.call("Emulation.setEmulatedMedia", features=[{"name": "prefers-color-scheme", "value": theme}])
        for name, place in places.items():
            found = is_coloured(page, pixel_of(place, places.values(), size), point)
            tally.check(f"node {name} is on the map ({theme})", found, place, size)
        tally.check(f"elsewhere there is nothing ({theme})", is_coloured(page, (12, 12), "0,0,0,0"))
    page.call("Emulation.setEmulatedMedia", features=[])
    page.value("canvas.scrollIntoView({block: 'center'})")
    box = page.value("(({left, top}) => [left, top])(canvas.getBoundingClientRect())")
    for name, place in places.items():
        x, y = pixel_of(place, places.values(), size)
        page.click(box[0] + x, box[1] + y)
        shown = page.until(f"document.getElementById('object-name').textContent === 'Node {name}'", 5)
        tally.check(f"a click shows node {name}", shown and is_shown(page, "object"), text_of(page, "object-name"))
        # (what is shown of a node takes room from the map)
        page.value("document.getElementById('close-object').click()")
        page.until(f"canvas.clientWidth === {size[0]}", 5)
        page.value("document.getElementById('zoom-fit').click()")
        is_coloured(page, pixel_of(place, places.values(), size), "179,38,30,255")
    page.call("Input.dispatchMouseEvent", type="mouseMoved", x=box[0] + size[0] / 2, y=box[1] + size[1] / 2)
    middle = page.until("pointed.textContent", 5)
    longitudes, latitudes = zip(*places.values())
    want = ((min(longitudes) + max(longitudes)) / 2, (min(latitudes) + max(latitudes)) / 2)
    got = [float(it) for it in (middle or "0, 0").split(", ")]
    near = abs(got[0] - want[1]) < 0.01 and abs(got[1] - want[0]) < 0.01
    tally.check("the place under the pointer", near, middle, want)


def check_ways(tally, page, mirror):
    """Ways without their nodes are told of, and drawn once the nodes are asked for as well."""
    state, _, _ = ask(page, mirror, "way(10);out;")
    notes = text_of(page, "notes")
    tally.check("a way without its nodes", state == "yes" and "1 way can't be drawn" in notes and is_shown(page, "add-nodes"), notes)
    page.value("document.getElementById('add-nodes').click()")
    state, verdict, _ = told(page)
    query = page.value("query.value")
    tally.check("its nodes are added", query == "way(10);(._;>;);out;" and state == "yes", query, verdict)
    label = page.value("canvas.getAttribute('aria-label')")
    tally.check("it is drawn", label == "Map of the answer: 2 nodes, 1 way drawn" and not is_shown(page, "add-nodes"), label)
    ask(page, mirror, "nwr;out meta;")
    page.value("document.getElementById('tab-list').click()")
    page.value("[...document.querySelectorAll('#rows button')].find(it => it.textContent === 'Relation 100').click()")
    shown = page.value("document.getElementById('object-fields').innerText")
    tally.check("a relation's members", "way 10 (outer)" in shown and "node 99 (stop)" in shown, shown)
    page.value("[...document.querySelectorAll('#object-fields button')].find(it => it.textContent === 'way 10').click()")
    shown = page.value("document.getElementById('object-fields').innerText")
    tally.check("from a member to the way", "A B" in shown and "1, 2, 1" in shown, shown)
    page.picture(PICTURES / "list.png")


WITH_NODES = [
    ("way(10);out;", "way(10);(._;>;);out;"),
    ("way(10);out ids;out;", "way(10);out ids;(._;>;);out;"),
    ("way(10)->.a;.a out ids;", "way(10)->.a;(.a;.a >;)->.a;.a out ids;"),
    ("way(10);._ out;", "way(10);(._;>;);._ out;"),
    ("[out:json];way(10);out;// out;", "[out:json];way(10);(._;>;);out;// out;"),
    ('way["out"="out;"](10);out/* out */;', 'way["out"="out;"](10);(._;>;);out/* out */;'),
    ("way[out](10);", None),
    ("way(10);(._;>;);\nout;", None),
    ("way[out=out](10);out;", "way[out=out](10);(._;>;);out;"),
    ("way['\\'out'](10);out;", "way['\\'out'](10);(._;>;);out;"),
    ("", None),
]

# The nodes of w1 run clockwise, and a ring of GeoJSON counterclockwise; n9 isn't there.
CONVERTED = """n1 v2 dV c7 t2021-02-11T10:20:31Z i1 umap%20%per Tname=Caf%e9%,note=a%3d%b%2c%%20ac% x13.4 y52.5
n2 v1 dV c0 t i0 u T x13.4 y52.6
n3 v1 dV c0 t i0 u T x13.5 y52.6
w1 Tbuilding=yes Nn1,n2,n3,n1
w2 Thighway=x Nn1,n9
w3 Thighway=x Nn3,n-1
r9007199254740993 T Mn1@,w1@a%20%b
"""
FEATURES = [
    ("node/1", {"@id": "node/1", "name": "Café", "note": "a=b,€", "@version": "2", "@changeset": "7",
                "@timestamp": "2021-02-11T10:20:31Z", "@uid": "1", "@user": "map per"}, {"type": "Point", "coordinates": [13.4, 52.5]}),
    ("node/2", {"@id": "node/2", "@version": "1", "@changeset": "0", "@uid": "0"}, {"type": "Point", "coordinates": [13.4, 52.6]}),
    ("node/3", {"@id": "node/3", "@version": "1", "@changeset": "0", "@uid": "0"}, {"type": "Point", "coordinates": [13.5, 52.6]}),
    ("way/1", {"@id": "way/1", "building": "yes"},
     {"type": "Polygon", "coordinates": [[[13.4, 52.5], [13.5, 52.6], [13.4, 52.6], [13.4, 52.5]]]}),
    ("way/2", {"@id": "way/2", "highway": "x"}, None),
    ("way/3", {"@id": "way/3", "highway": "x"}, None),
    ("relation/9007199254740993", {"@id": "relation/9007199254740993", "@members": [
        {"kind": "n", "id": "1", "role": ""}, {"kind": "w", "id": "1", "role": "a b"}]}, None),
]


def check_conversions(tally, page):
    """What the page makes of texts by itself: queries with the nodes of ways, GeoJSON."""
    for query, want in WITH_NODES:
        got = page.value(f"import('./editor.js').then(({{withNodes}}) => withNodes({words(query)}))")
        tally.check(f"with nodes: {query}", got == want, got)
    got = json.loads(page.value(f"""Promise.all([import('./geometry.js'), import('./opl.js')])
        .then(([{{geoJsonOf}}, {{readOpl, merged}}]) => geoJsonOf(merged(readOpl({words(CONVERTED)}))))"""))
    features = [(it["id"], it["properties"], it["geometry"]) for it in got["features"]]
    tally.check("GeoJSON", got["type"] == "FeatureCollection" and features == FEATURES, features)
    got = page.value("""import('./opl.js').then(({readOpl, merged}) => merged(readOpl('n1 Ta=b x1 y2\\nn1 x1 y2\\nn1\\n')))""")
    want = [{"kind": "n", "id": "1", "tags": [["a", "b"]], "longitude": "1", "latitude": "2"}]
    tally.check("an object that is printed three times", got == want, got)


def check_links(tally, page, site, mirror):
    """A link has the mirror and the query and no root; curl's words ask the same; what was asked is kept."""
    query = "node[\"name\"=\"it's\"](1);out;"
    ask(page, mirror, query)
    page.value("document.getElementById('share').click()")
    link = page.value("document.getElementById('copied-words').value")
    fragment = urlsplit(link).fragment
    told_of = parse_qs(fragment)
    tally.check("a link", told_of == {"mirror": [mirror], "query": [query]} and ROOT not in link, link)
    page.value("document.querySelector('#copied [data-close]').click(); document.getElementById('curl').click()")
    command = page.value("document.getElementById('copied-words').value")
    page.value("document.querySelector('#copied [data-close]').click()")
    if shutil.which("curl"):
        outcome = run(["sh", "-c", command.replace("curl ", "curl --silent ", 1)])
        tally.check("curl's words", (outcome.stdout, outcome.status) == (b"", 0), command, outcome)
    page.value("localStorage.removeItem('osm_mirror.root')")
    opened(page, site, fragment=f"#mirror={quote(mirror, safe='')}&query={quote(query, safe='')}")
    found = page.value("[mirror.value, query.value, root.value, verdict.dataset.state]")
    tally.check("a link is opened", found == [mirror, query, "", "none"], found)
    page.value("document.getElementById('show-history').click()")
    kept = page.value("document.querySelector('#asked li').textContent")
    tally.check("what was asked is kept", query in kept and mirror in kept, kept)
    page.value("document.querySelector('#asked button').click()")
    tally.check("it is used again", page.value("query.value") == query, page.value("query.value"))
    page.value(f"localStorage.setItem('osm_mirror.root', JSON.stringify({words(ROOT)}))")
    opened(page, site)


def check_files(tally, page, room, checked):
    """The three files of prove are checked without a mirror, by the file dialog and dropped, whatever they are called."""
    for names in (("query", "answer", "proof"), ("one", "two", "three")):
        files = [room / name for name in names]
        for file, text in zip(files, (QUERY.encode(), checked.answer, checked.proof)):
            file.write_bytes(text)
        write_query(page, "out;")
        node = page.call("Runtime.evaluate", expression="document.getElementById('files')")["result"]["objectId"]
        page.value("document.getElementById('verdict').dataset.state = 'none'")
        page.call("DOM.setFileInputFiles", files=[str(it) for it in reversed(files)], objectId=node)
        state, verdict, details = told(page)
        tally.check(f"files {names}", state == "yes" and "no mirror was asked" in details, state, verdict, details)
        tally.check(f"the query of files {names}", page.value("query.value") == QUERY, page.value("query.value"))
    files = [str(room / name) for name in ("query", "answer", "proof")]
    page.value("document.getElementById('verdict').dataset.state = 'none'")
    for kind in ("dragEnter", "dragOver", "drop"):
        page.call("Input.dispatchDragEvent", type=kind, x=300, y=300, data={"items": [], "files": files, "dragOperationsMask": 1})
    state, verdict, details = told(page)
    tally.check("dropped files", state == "yes" and "no mirror was asked" in details, state, verdict, details)
    (room / "answer").write_bytes(b"n2\n")
    page.value("document.getElementById('verdict').dataset.state = 'none'")
    node = page.call("Runtime.evaluate", expression="document.getElementById('files')")["result"]["objectId"]
    page.call("DOM.setFileInputFiles", files=files, objectId=node)
    state, verdict, _ = told(page)
    tally.check("a wrong file", state == "no" and "(C9 1)" in verdict, state, verdict)
    page.value("document.getElementById('verdict').dataset.state = 'none'")
    page.call("DOM.setFileInputFiles", files=files[:2], objectId=node)
    state, verdict, _ = told(page)
    tally.check("too few files", state == "fault" and verdict.startswith("Three files"), state, verdict)


def check_keys(tally, page, mirror):
    """All can be done by keys, and each control has a name."""
    page.value(f"mirror.value = {words(mirror)}; document.getElementById('verdict').dataset.state = 'none'")
    write_query(page, QUERY)
    page.value("query.focus()")
    page.press("Enter", 13, modifiers=2)
    state, verdict, _ = told(page)
    tally.check("Ctrl and Enter ask", state == "yes", state, verdict)
    page.value("document.getElementById('tab-map').focus()")
    page.press("ArrowRight", 39)
    tally.check("arrows change the view", is_shown(page, "view-list") and page.value("document.activeElement.id") == "tab-list")
    page.press("ArrowLeft", 37)
    page.value("canvas.focus()")
    time.sleep(0.5)
    page.value("window.before = canvas.toDataURL()")
    page.press("ArrowRight", 39)
    tally.check("an arrow moves the map", page.until("canvas.toDataURL() !== window.before", 10))
    page.press("0", 48, text="0")
    tally.check("0 shows everything", page.until("canvas.toDataURL() === window.before", 10))
    nameless = page.value("""[...document.querySelectorAll('button, input:not([hidden]), select, textarea, canvas, [role=tabpanel]')].filter(it =>
        !(it.getAttribute('aria-label') || it.labels?.length && it.labels[0].textContent || it.getAttribute('aria-labelledby') ||
          it.matches('button') && it.textContent.trim())).map(it => it.outerHTML)""")
    tally.check("each control has a name", nameless == [], nameless)
    untold = page.value("[...document.querySelectorAll('[data-text]')].filter(it => it.textContent === '' || it.textContent === 'undefined').map(it => it.outerHTML)")
    tally.check("each text is there", untold == [], untold)


# The four objects as documents for clients of Overpass have them.
ELEMENTS = [
    {"type": "node", "id": 1, "lat": 52.5, "lon": 13.4, "version": 1, "timestamp": "2020-01-02T03:04:05Z", "changeset": 5,
     "uid": 7, "user": "Ann", "tags": {"highway": "crossing"}},
    {"type": "node", "id": 2, "lat": 52.5, "lon": 13.4000001},
    {"type": "way", "id": 10, "nodes": [1, 2, 1], "tags": {"highway": "primary", "name": "A B"}},
    {"type": "relation", "id": 100, "members": [
        {"type": "way", "ref": 10, "role": "outer"}, {"type": "node", "ref": 99, "role": "stop"},
        {"type": "relation", "ref": 100, "role": ""}], "tags": {"type": "route"}},
]


def xml_element(element):
    """An element of XML as ELEMENTS has it."""
    numbers = {"id": int, "lat": float, "lon": float, "version": int, "changeset": int, "uid": int, "ref": int}
    read = lambda attributes: {name: numbers.get(name, str)(value) for name, value in attributes.items()}
    found = {"type": element.tag} | read(element.attrib)
    for name, tag, made in (("nodes", "nd", lambda it: int(it.get("ref"))), ("members", "member", lambda it: read(it.attrib))):
        if parts := [made(it) for it in element.iter(tag)]:
            found[name] = parts
    if tags := {it.get("k"): it.get("v") for it in element.iter("tag")}:
        found["tags"] = tags
    return found


def saved(page, folder, button):
    """The name and the bytes of the file that a button hands to the user."""
    folder.mkdir()
    page.call("Page.setDownloadBehavior", behavior="allow", downloadPath=str(folder))
    page.value(f"document.getElementById({words(button)}).click()")
    end = time.monotonic() + 60
    while time.monotonic() < end:
        files = list(folder.iterdir())
        if files and not any(it.suffix == ".crdownload" for it in files) and (content := files[0].read_bytes()):
            return files[0].name, content
        time.sleep(0.05)
    return "", b""


def check_documents(tally, page, mirror, running, room):
    """Downloads: documents that the checker makes of the proof, what the page converts, and the files to check again.
    (`mirror` is what the page asks, `running` the program behind it.)"""
    query = "nwr;out meta;"
    ask(page, mirror, query)
    checked = parts_of(asked(running, query)[1])
    got = {name: saved(page, room / f"saved-{name}", f"as-{name}") for name in ("opl", "json", "xml", "geojson", "query", "proof")}
    names = {name: file for name, (file, _) in got.items()}
    want = {name: name if name in ("query", "proof") else f"answer.{name}" for name in got}
    tally.check("names of downloads", names == want, names)
    texts = {name: content for name, (_, content) in got.items()}
    tally.check("OPL", texts["opl"] == checked.answer, texts["opl"])
    document = json.loads(texts["json"])
    head = {"version": 0.6, "generator": "osm_mirror"}
    tally.check("JSON", document == head | {"elements": ELEMENTS}, texts["json"])
    tree = ElementTree.fromstring(texts["xml"])
    tally.check("XML", tree.tag == "osm" and [xml_element(it) for it in tree] == ELEMENTS, texts["xml"])
    tally.check("GeoJSON is saved", len(json.loads(texts["geojson"])["features"]) == 4, texts["geojson"])
    tally.check("query and proof", (texts["query"].decode(), texts["proof"]) == (query, checked.proof), texts["query"])
    said = page.value("[...document.querySelectorAll('#downloads small')].map((it) => it.textContent)")
    tally.check("what checks and converts", said == ["Checked here:", "Converted by this page:", "To check it again:"], said)
    # A room that is too short costs a second call; no document comes of another root or another form.
    found = page.value(f"""(async () => {{
      const {{ Checker }} = await import('./checker.js'), {{ rootBytes }} = await import('./kept.js');
      const bytes = (text) => Uint8Array.from(atob(text), (it) => it.charCodeAt(0));
      const query = new TextEncoder().encode({words(query)}), proof = bytes({words(base64.b64encode(checked.proof).decode())});
      const checker = new Checker(), found = [];
      for (const [form, root, guess] of [['json', {words(ROOT)}, 0], ['json', {words(ROOT)}, 9999], ['xml', {words(ROOT[::-1])}, 0],
        ['csv', {words(ROOT)}, 0]]) {{
        const {{ status, reason, document }} = await checker.tell(form, query, rootBytes(root), proof, guess);
        found.push([status, reason, document && new TextDecoder().decode(document)]);
      }}
      checker.stop();
      return found;
    }})()""")
    text = texts["json"].decode()
    want = [["yes", 0, text], ["yes", 0, text], ["no", 4, None], ["bad form", 0, None]]
    tally.check("documents by the checker", found == want, found)


def check_sizes(tally, page):
    """From 360 to 2,000 pixels nothing is wider than the window, in both colours; texts are readable (WCAG 2.1, 4.5 to 1)."""
    for width in (360, 600, 1000, 2000):
        page.resize(width, 800)
        time.sleep(0.1)
        wide = page.value("document.documentElement.scrollWidth")
        tally.check(f"{width} pixels", wide <= width, wide)
        page.picture(PICTURES / f"{width}.png")
    page.resize(1200, 900)
    for theme in ("light", "dark"):
        page.value("document.getElementById('theme').click()")
        tally.check(f"the colours are {theme}", page.value("document.documentElement.dataset.theme") == theme)
        low = page.value(CONTRASTS)
        tally.check(f"contrast of texts ({theme})", low == [], low)
        time.sleep(0.3)
        page.picture(PICTURES / f"{theme}.png")
    page.value("document.getElementById('theme').click()")


CONTRASTS = """(() => {
  const style = getComputedStyle(document.documentElement);
  const light = (name) => {
    const value = parseInt(style.getPropertyValue(name).trim().slice(1), 16);
    const [r, g, b] = [value >> 16, value >> 8 & 255, value & 255].map((it) => it / 255)
      .map((it) => it <= 0.03928 ? it / 12.92 : ((it + 0.055) / 1.055) ** 2.4);
    return 0.2126 * r + 0.7152 * g + 0.0722 * b;
  };
  const pairs = [["--ink", "--ground"], ["--ink", "--raised"], ["--faint", "--ground"], ["--faint", "--map"], ["--no", "--ground"],
    ["--yes", "--yes-ground"], ["--no", "--no-ground"], ["--ink", "--wait-ground"], ["--on-accent", "--accent"], ["--ink", "--mark"]];
  return pairs.map(([one, two]) => [one, two, [light(one), light(two)].sort((a, b) => b - a)])
    .map(([one, two, [high, low]]) => [one, two, (high + 0.05) / (low + 0.05)]).filter((it) => it[2] < 4.5);
})()"""


def check_growth(tally, page, mirror):
    """200 checks in one page take no more memory than one."""
    ask(page, mirror, QUERY)
    script = f"""(async () => {{
      const {{ Checker }} = await import('./checker.js');
      const {{ ask }} = await import('./mirror.js');
      const checker = new Checker(), query = new TextEncoder().encode({words(QUERY)});
      const root = Uint8Array.from({words(ROOT)}.match(/../g), (it) => parseInt(it, 16));
      const {{ answer, proof }} = await ask({words(mirror)}, {words(QUERY)}, new AbortController().signal);
      const sizes = [], times = [];
      for (let round = 0; round < 200; round++) {{
        const verdict = await checker.check(query, root, answer, proof);
        if (verdict.status !== 'yes') return verdict;
        sizes.push(verdict.memory); times.push(verdict.milliseconds);
      }}
      checker.stop();
      return [Math.max(...sizes), Math.min(...sizes), times.sort((a, b) => a - b)[100]];
    }})()"""
    page.value(script)
    heap = lambda: (page.call("HeapProfiler.collectGarbage"), page.call("Runtime.getHeapUsage")["usedSize"])[1]
    before = heap()
    most, least, middle = page.value(script)
    grown = heap() - before
    tally.check("200 checks without growth", most == least and grown < 1_000_000, most, least, grown)
    print(f"200 checks: {most} bytes of memory each, median {middle:.2f} ms, the page's heap grew by {grown} bytes")


def check_memory(tally, page, site, mirror, query):
    """Out of memory in the module is told as that, and never as a verdict, wherever it comes."""
    root = page.value("root.value")
    # Whether the memory ran out for the page's bytes or in the check: only the check tells how much memory there was.
    kinds = page.value(f"""(async () => {{
      const {{ Checker }} = await import('./checker.js'), {{ ask }} = await import('./mirror.js'), {{ rootBytes }} = await import('./kept.js');
      const query = {words(query)}, got = await ask({words(mirror)}, query, new AbortController().signal);
      const bytes = got.answer.length + got.proof.length, kinds = [];
      for (let pages = Math.ceil(bytes / 65536); pages < 16384 && !kinds.includes('yes'); pages = Math.ceil(pages * 1.08)) {{
        const module = await WebAssembly.compile(await (await fetch(`/limit-${{pages}}/out/osm_check.wasm`)).arrayBuffer());
        const checker = new Checker(module);
        const given = [new TextEncoder().encode(query), rootBytes({words(root)})];
        const verdict = await checker.check(...given, got.answer, got.proof);
        kinds.push(verdict.status + (verdict.status === 'no memory' && verdict.memory ? ' in the check' : ''));
        // Where the check just fits, the document's text doesn't.
        if (verdict.status === 'yes') {{
          const {{ status, memory, document }} = await checker.tell('json', ...given, got.proof, 0);
          kinds.push(`${{status}} in the telling: ${{memory > 0}} ${{document}}`);
        }}
        checker.stop();
      }}
      return kinds;
    }})()""")
    wanted = ["no memory", "no memory in the check", "yes", "no memory in the telling: true null"]
    tally.check("out of memory by the module's limit", list(dict.fromkeys(kinds)) == wanted, kinds)
    opened(page, site, "/limit-64/")
    state, verdict, _ = ask(page, mirror, QUERY)
    tally.check("little memory is enough for little", state == "yes", state, verdict)
    state, verdict, _ = ask(page, mirror, query)
    tally.check("out of memory", state == "fault" and "isn't enough memory" in verdict, state, verdict)
    opened(page, site, "/limit-0/")
    state, verdict, _ = told(page)
    tally.check("no checker", state == "fault" and "web/build" in verdict, state, verdict)


def check_town(tally, page, site, mirror, root):
    """Nodes, ways and relations of a small town, as the picture in the documents shows them."""
    opened(page, site)
    keep_root(page, "Town, 2026-11-27", root)
    page.resize(1100, 1000)
    state, verdict, _ = ask(page, mirror, "// Everything, with versions and authors\nnwr;out meta;")
    tally.check("a town", state == "yes", state, verdict)
    # (w13 lists n99, which isn't there; w14 lists no node)
    notes = text_of(page, "notes")
    want = "1 way can't be drawn: its nodes aren't in the answer. 1 object without a place"
    tally.check("what isn't drawn of it", notes.startswith(want) and notes.endswith("6 relations are in the list only."), notes)
    drawn = page.value("canvas.getAttribute('aria-label')")
    tally.check("what is drawn of it", drawn == "Map of the answer: 24 nodes, 4 ways drawn", drawn)
    page.value("[...document.querySelectorAll('#rows button')].find((it) => it.textContent.startsWith('Way')).click(); scrollTo(0, 0)")
    tally.check("one of its ways", is_shown(page, "object"))
    time.sleep(0.5)
    page.picture(PICTURES / "page.png")


def grid_of(side):
    """A set of nodes on a grid, with tags, and ways along its rows: side * side nodes."""
    lines = []
    for at in range(side * side):
        row, column = divmod(at, side)
        lines.append(f"n{at + 1} v1 dV c1 t2020-01-01T00:00:00Z i1 uA Tnatural=tree,ref={at} x{10 + column / 1000:.3f} y{50 + row / 1000:.3f}")
    for row in range(side):
        nodes = ",".join(f"n{row * side + column + 1}" for column in range(side))
        lines.append(f"w{row + 1} v1 dV c1 t2020-01-01T00:00:00Z i1 uA Thighway=track N{nodes}")
    return "\n".join(lines) + "\n"


def check_large(tally, page, mirror, root):
    """Ten thousand objects with a proof of a megabyte are checked and drawn at once."""
    keep_root(page, "grid", root)
    page.resize(1200, 1000)
    state, verdict, details = ask(page, mirror, "node(50,10,50.0995,10.0995);out;")
    tally.check("10,000 objects", state == "yes" and details.startswith("10,000 objects"), state, verdict, details)
    drawn = page.value("""(async () => {
      const { AnswerMap } = await import('./map.js'), { shapesOf } = await import('./geometry.js'), { readOpl } = await import('./opl.js');
      const canvas = document.createElement('canvas');
      canvas.style = 'width: 1000px; height: 600px';
      document.body.append(canvas);
      const text = document.getElementById('opl').textContent, begun = performance.now();
      const map = new AnswerMap(canvas, { onChoose() {}, onPoint() {} });
      map.show(shapesOf(readOpl(text)));
      await new Promise((done) => requestAnimationFrame(() => requestAnimationFrame(done)));
      const milliseconds = performance.now() - begun;
      canvas.remove();
      return milliseconds;
    })()""")
    print(f"10,000 objects: {verdict}; {details}; read and drawn in {drawn:.0f} ms")
    tally.check("10,000 objects are drawn", drawn < 5000, drawn)
    time.sleep(0.3)
    page.picture(PICTURES / "large.png")
    state, verdict, details = ask(page, mirror, "nwr;out;", 120)
    tally.check("everything", state == "yes" and details.startswith("40,200 objects"), state, verdict, details)
    print(f"everything: {verdict}; {details}")


def check_extract(tally, page, site, mirror, plain, root):
    """Answers over a set of 118 MB: an object, a box, and a tag of some 15,000 objects. The page says of each what the
    program says."""
    opened(page, site)
    keep_root(page, "extract", root)
    for query in ("node(4998);out;", "node(51.99,12.99,52.01,13.01);out;", 'nwr["name"="Weg"];out;'):
        state, verdict, details = ask(page, mirror, query, 120)
        checked = parts_of(asked(plain, query)[1])
        native = native_verdict(root, query, checked)
        count = len(checked.answer.splitlines())
        fits = details.startswith(f"{count:,} object") and count > 0
        tally.check(f"118 MB: {query}", (state, native) == ("yes", "yes") and fits, state, verdict, details, native)
        print(f"118 MB, {query}: {verdict}; {details}")


def check_paint(tally, page, site):
    """The page is there at once."""
    opened(page, site)
    page.until("performance.getEntriesByName('first-contentful-paint').length")
    first = page.value("performance.getEntriesByName('first-contentful-paint')[0].startTime")
    print(f"first useful paint after {first:.0f} ms")
    tally.check("first useful paint", first < 5000, first)


def check_nginx(tally, page, port):
    """The page behind the example's nginx, beside a mirror."""
    missing = [it for it in ("nginx", "openssl") if shutil.which(it) is None]
    if missing:
        print(f"SKIPPED: {', '.join(missing)} isn't installed")
        return
    with tempfile.TemporaryDirectory() as folder:
        room = Path(folder)
        room.chmod(0o755)
        # (a copy, since nginx's user may not be let into the repository's folder)
        shutil.copytree(WEB, room / "web")
        with nginx_before((port, port), room, ("/usr/local/share/osm_mirror/web", str(room / "web"))) as secure:
            site = f"https://localhost:{secure}"
            opened(page, site)
            keep_root(page, "four objects", ROOT)
            tally.check("the page asks where it comes from", page.value("mirror.value") == site, page.value("mirror.value"))
            state, verdict, _ = ask(page, site, "nwr;out meta;")
            tally.check("behind nginx", state == "yes", state, verdict)
            state, verdict, _ = ask(page, f"http://mirror.example:{port}", QUERY)
            tally.check("http from https", state == "fault" and "https" in verdict, state, verdict)


def check_try(tally, page):
    """web/try serves the page and a mirror at one address."""
    words = [WEB / "try", OBJECTS, "0"]
    with subprocess.Popen(words, stdout=subprocess.PIPE, stderr=subprocess.PIPE, text=True) as running:
        try:
            site, root = (running.stdout.readline().split()[2].rstrip(",") for _ in range(2))
            tally.check("web/try tells the root", root == ROOT, root)
            opened(page, site)
            keep_root(page, "mine", root)
            for query, want in ((QUERY, "yes"), ("node(1);out count;", "fault")):
                state, verdict, _ = ask(page, page.value("mirror.value"), query)
                tally.check(f"web/try: {query}", state == want, state, verdict)
            tally.check("it asks where it comes from", page.value("mirror.value") == site, page.value("mirror.value"))
        finally:
            running.terminate()


def check_codes(tally):
    """What the page says of codes is what the program explains."""
    text = (WEB / "strings.js").read_text(encoding="utf-8")
    lines = json.loads(run(["node", "--input-type=module", "-e", text + "; console.log(JSON.stringify({...QUERY_CODES, ...VERDICT_CODES}))"]).stdout) \
        if shutil.which("node") else {}
    for code, (meaning, advice) in lines.items():
        said = run([PROGRAM, "explain", code]).stdout.decode().splitlines()
        tally.check(f"{code} in words", [said[0], said[2]] == [f"{code}: {meaning}", f"What to do: {advice}"], said)


def check_page(tally, path):
    """All that needs a browser."""
    with tempfile.TemporaryDirectory() as folder, browser.browser(path, "--ignore-certificate-errors") as page:
        room = Path(folder)
        with server(OBJECTS) as running, page_server() as site, lying_mirror(f"http://127.0.0.1:{running.port}", OTHER_QUERY) as liar:
            mirror = f"http://127.0.0.1:{running.port}"
            honest = f"{liar}/honest"
            checked = parts_of(asked(mirror, QUERY)[1])
            page.resize(1200, 900)
            check_paint(tally, page, site)
            check_roots(tally, page, honest)
            check_yes(tally, page, honest)
            check_queries(tally, page, honest)
            check_ways(tally, page, honest)
            check_conversions(tally, page)
            check_links(tally, page, site, honest)
            check_files(tally, page, room, checked)
            check_keys(tally, page, honest)
            check_documents(tally, page, honest, mirror, room)
            check_sizes(tally, page)
            check_lies(tally, page, mirror, liar)
            check_no_answer(tally, page, liar)
            check_growth(tally, page, honest)
            check_nginx(tally, page, running.port)
            check_try(tally, page)
            (room / "places.opl").write_text("n1 Tname=one x13.4 y52.5\nn2 Tname=two x13.8 y52.4\nn3 Tname=three x13.5 y52.7\n")
            (room / "grid.opl").write_text(grid_of(200))
            places = {"1": (13.4, 52.5), "2": (13.8, 52.4), "3": (13.5, 52.7)}
            with server(TOP / "tests/vectors/set-town.opl") as town, lying_mirror(f"http://127.0.0.1:{town.port}", QUERY) as first:
                check_town(tally, page, site, f"{first}/honest", town.line.split()[-1].decode())
            with server(room / "places.opl") as other, lying_mirror(f"http://127.0.0.1:{other.port}", QUERY) as second:
                opened(page, site)
                keep_root(page, "places", other.line.split()[-1].decode())
                check_map(tally, page, f"{second}/honest", places, "node;out;")
            with server(room / "grid.opl") as grid, lying_mirror(f"http://127.0.0.1:{grid.port}", QUERY) as third:
                check_large(tally, page, f"{third}/honest", grid.line.split()[-1].decode())
                check_memory(tally, page, site, f"{third}/honest", "nwr;out;")
            with (room / "extract.opl").open("wb") as extract:
                subprocess.run([sys.executable, TOP / "bench/make_extract.py"], stdout=extract, check=True)
            with server(room / "extract.opl") as large, lying_mirror(f"http://127.0.0.1:{large.port}", QUERY) as fourth:
                root = large.line.split()[-1].decode()
                check_extract(tally, page, site, f"{fourth}/honest", f"http://127.0.0.1:{large.port}", root)
        silent = ("Failed to load resource", "net::ERR", "blocked by CORS", "Access to fetch")
        loud = [it for it in page.complaints if not any(word in it for word in silent)]
        tally.check("the page complains of nothing else", loud == [], loud)


def main():
    tally = Tally()
    check_helpers(tally)
    check_build(tally)
    check_codes(tally)
    path = browser.program()
    if path is None:
        print("SKIPPED: chromium isn't installed")
    elif MODULE.exists():
        check_page(tally, path)
    tally.end()


if __name__ == "__main__":
    main()
