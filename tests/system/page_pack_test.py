"""The page of web/ over packs and heads, in a real browser, headless Chromium: it finds answers by itself, from servers that give
ranges of files, from those that don't, and from those that lie.

What it finds is compared with what `osm_mirror query` finds in the same file. Without Chromium all is skipped, and said so.
"""

import shutil
import socket
import subprocess
import sys
import tempfile
import threading
import time
from contextlib import contextmanager
from http.server import BaseHTTPRequestHandler, ThreadingHTTPServer
from pathlib import Path

import browser
from page_test import OBJECTS, ROOT, ask, built, is_shown, keep_root, opened, page_server, saved, text_of, told, words, write_query
from runs import PROGRAM, TOP, Tally, run

FRONT = 65_536  # bytes that the page asks for first
OTHER_ROOT = "75a22f59df64013528dcb5e169ed9fd2305ff00f4b700f271af080582a6e0671"


# ---- servers of packs ----


class Wire(BaseHTTPRequestHandler):
    """Gives the files of a folder, each from a folder of the address that says how: /ranges/, as any server of ranges does;
    /hidden/, where a page may not read Content-Range; /whole/, without ranges; and others that do something wrong."""

    protocol_version = "HTTP/1.1"

    def log_message(self, *words):
        pass

    def do_OPTIONS(self):
        self.send_response(204)
        self.send_header("Access-Control-Allow-Origin", "*")
        self.send_header("Access-Control-Allow-Headers", "Range")
        self.end_headers()

    def do_GET(self):
        _, how, name = self.path.split("?")[0].split("/", 2)
        file = self.server.folder / name
        if not file.is_file():
            return self.say(404, b"", how)
        if how == "moved":
            return self.say(302, b"", how, {"Location": f"/ranges/{name}"})
        size = file.stat().st_size
        asked = self.headers.get("Range", "")
        self.server.asked.append((how, asked))
        if how in ("whole", "large") or not asked.startswith("bytes="):
            return self.say(200, file.read_bytes(), how, length=2**40 if how == "large" else None)
        first, last = (int(it) for it in asked.removeprefix("bytes=").split("-"))
        if first >= size:
            return self.say(416, b"", how)
        with file.open("rb") as opened_file:
            opened_file.seek(first)
            part = opened_file.read(last + 1 - first)
        start = first
        if how == "later" and first > 0:
            start += 1
        if how == "grown" and first > 0:
            size += 1
        if how == "short" and first > 0:
            part = part[:-1]
        if how == "long" and first > 0:
            part += b"x"
        fields = {"Content-Range": f"bytes {start}-{start + len(part) - 1}/{size}"}
        self.say(206, part, how, fields, length=len(part) + 1 if how == "broken" and first > 0 else None)

    def say(self, status, body, how, fields=None, length=None):
        self.send_response(status)
        for name, value in (fields or {}).items():
            self.send_header(name, value)
        if how != "closed":
            self.send_header("Access-Control-Allow-Origin", "*")
        if how != "hidden":
            self.send_header("Access-Control-Expose-Headers", "Content-Range")
        self.send_header("Cache-Control", "no-cache")
        self.send_header("Content-Length", str(len(body) if length is None else length))
        self.end_headers()
        self.wfile.write(body)
        if length is not None:
            self.close_connection = True


class Serving(ThreadingHTTPServer):
    """A server that says nothing of a page which goes away."""

    def handle_error(self, request, client_address):
        pass


@contextmanager
def pack_server(folder):
    """A server of the packs in a folder. It keeps what it was asked in `asked`."""
    serving = Serving(("127.0.0.1", 0), Wire)
    serving.daemon_threads = True
    serving.folder, serving.asked = folder, []
    threading.Thread(target=serving.serve_forever, daemon=True).start()
    try:
        yield serving, f"http://127.0.0.1:{serving.server_port}"
    finally:
        serving.shutdown()
        serving.server_close()


def made_pack(objects, pack, *options):
    """Writes the pack of a set, and gives its root."""
    ended = run([PROGRAM, "pack", objects, pack, *options])
    assert ended.status == 0, ended
    return ended.stdout.decode().strip()


def native(root, pack, query, form="opl"):
    """What `osm_mirror query` finds in the file."""
    return run([PROGRAM, "query", root, pack, query, "--form", form])


# ---- the checks ----


QUERIES = [
    "node(1);out;", "node(99);out;", "nwr;out meta;", "way(10);(._;>;);out;", "node(52.4,13.3,52.6,13.5);out;", 'nwr["highway"];out;',
    "node(1);<<;out;", "rel(100);(._;>>;);out;", "nwr[!highway];out ids;", "way[highway]->.w;.w out ids;.w out meta 1;",
    "(node(1);way(10););out tags;", "nwr[name];out skel;",
]


def check_answers(tally, page, site, place, pack, room):
    """The page finds what the program finds, in each form, and shows it."""
    opened(page, site)
    keep_root(page, "four objects", ROOT)
    for query in QUERIES:
        state, verdict, details = ask(page, place, query)
        wanted = native(ROOT, pack, query)
        tally.check(f"found: {query}", state == "yes" and wanted.status == 0 and "found here" in verdict, state, verdict, details)
        tally.check(f"shown: {query}", text_of(page, "opl").encode() == wanted.stdout, text_of(page, "opl"), wanted)
    query = "nwr;out meta;"
    ask(page, place, query)
    for form in ("opl", "json", "xml"):
        name, document = saved(page, room / f"saved-{form}", f"as-{form}")
        wanted = native(ROOT, pack, query, form)
        tally.check(f"the document in {form}", (name, document) == (f"answer.{form}", wanted.stdout), name, document, wanted)
    tally.check("no proof to take away", not is_shown(page, "as-proof") and is_shown(page, "as-query"))
    page.value("document.getElementById('curl').click()")
    command = page.value("document.getElementById('copied-words').value")
    page.value("document.querySelector('#copied [data-close]').click()")
    outcome = run(["sh", "-c", command.replace("osm_mirror", str(PROGRAM), 1)])
    tally.check("the words for the program", outcome == native(ROOT, pack, query), command, outcome)


def check_servers(tally, page, base, pack, root):
    """Any server will do that gives ranges, or that gives a small file whole; what others do wrong is told in words."""
    keep_root(page, "four objects", ROOT)
    for how, name in [("ranges", pack.name), ("hidden", pack.name), ("whole", pack.name), ("ranges", f"{pack.name}?version=1")]:
        state, verdict, _ = ask(page, f"{base}/{how}/{name}", "nwr;out meta;")
        tally.check(f"a server: {how} {name}", state == "yes", state, verdict)
    keep_root(page, "extract", root)
    for how, want in [
        ("large", "doesn't give parts"), ("later", "something else than the part"), ("grown", "has changed"),
        ("short", "something else than the part"), ("long", "something else than the part"), ("broken", "broke off"),
        ("closed", "Access-Control-Allow-Origin"), ("moved", "isn't followed"),
    ]:
        state, verdict, _ = ask(page, f"{base}/{how}/town.pack", 'nwr["name"="Weg"];out;')
        tally.check(f"a server that goes wrong: {how}", state == "fault" and want in verdict, state, verdict)
    state, verdict, _ = ask(page, f"{base}/ranges/none.pack", "node(1);out;")
    tally.check("no pack there", state == "fault" and "404" in verdict, state, verdict)
    state, verdict, _ = ask(page, "http://127.0.0.1:9/town.pack", "node(1);out;")
    tally.check("no server", state == "fault" and "can't be read" in verdict, state, verdict)


def check_refused(tally, page, base, pack, folder):
    """A file that isn't the pack of the root gives no answer, for a reason in words; a query that doesn't read is marked."""
    whole = pack.read_bytes()
    for name, content, want in [
        ("empty", b"", "isn't a pack"), ("text", b"n1 v1\n", "isn't a pack"), ("front", whole[:40], "cut short"),
        ("cut", whole[:-1], "cut short"), ("longer", whole + b"\0", "bytes after the pack"),
        ("version", whole[:5] + b"\2" + whole[6:], "another version"),
        ("beyond", whole[:48] + (len(whole) - 10).to_bytes(8, "big") + whole[56:], "ends before what it says"),
        ("changed", whole[:70] + bytes([whole[70] ^ 1]) + whole[71:], "other bytes than the root stands for"),
    ]:
        (folder / f"{name}.pack").write_bytes(content)
        state, verdict, details = ask(page, f"{base}/ranges/{name}.pack", "nwr;out;")
        tally.check(f"no answer: {name}", state == "no" and want in verdict and details != "", state, verdict, details)
        tally.check(f"nothing is shown: {name}", not is_shown(page, "answer"), text_of(page, "opl"))
    keep_root(page, "another", OTHER_ROOT)
    state, verdict, _ = ask(page, f"{base}/ranges/{pack.name}", "node(1);out;")
    tally.check("another root", state == "no" and "of another root than yours" in verdict, state, verdict)
    keep_root(page, "four objects", ROOT)
    state, verdict, _ = ask(page, f"{base}/ranges/{pack.name}", "node(1);out count;")
    place = page.value("[fault.textContent.slice(0, 22), query.selectionStart, document.activeElement.id]")
    tally.check("a refused query", (state, place) == ("fault", ["Q7, line 1, column 13:", 12, "query"]), state, verdict, place)


def check_spoiled(tally, page, base, pack, folder):
    """Whatever byte of a pack is turned, there is the same answer or none."""
    whole, query = pack.read_bytes(), "way(10);(._;>;);out;"
    wanted = native(ROOT, pack, query).stdout.decode()
    states = set()
    for at in range(0, len(whole), max(1, len(whole) // 60)):
        (folder / "turned.pack").write_bytes(whole[:at] + bytes([whole[at] ^ 0x11]) + whole[at + 1 :])
        state, verdict, _ = ask(page, f"{base}/ranges/turned.pack", query)
        states.add(state)
        is_right = text_of(page, "opl") == wanted if state == "yes" else state == "no" and not is_shown(page, "answer")
        tally.check(f"byte {at} turned", is_right, state, verdict)
    tally.check("some are refused", "no" in states, states)


def check_town(tally, page, serving, base, folder, root):
    """Of a larger pack a query reads a small part, in few rounds; what was read isn't read again; a pack that was replaced is
    read anew."""
    pack = folder / "town.pack"
    size = pack.stat().st_size
    keep_root(page, "extract", root)
    for query, most, rounds in [
        ("node(4998);out;", 100_000, 8), ("node(51.99,12.99,52.01,13.01);out;", 500_000, 12), ('nwr["name"="Weg"];out;', 4_000_000, 12),
    ]:
        before = len(serving.asked)
        state, verdict, details = ask(page, f"{base}/ranges/town.pack", query, 120)
        wanted = native(root, pack, query)
        tally.check(f"found: {query}", state == "yes" and text_of(page, "opl").encode() == wanted.stdout, state, verdict, details)
        came = sum(int(asked.split("-")[1]) - int(asked.split("=")[1].split("-")[0]) + 1 for _, asked in serving.asked[before:])
        tally.check(f"few bytes of it: {query}", came < min(most, size), came, size)
        print(f"{size} bytes, {query}: {verdict}; {details}")
        before = len(serving.asked)
        state, _, details = ask(page, f"{base}/ranges/town.pack", query)
        is_kept = len(serving.asked) == before and "; 0 requests, 0 bytes of" in details
        tally.check(f"nothing is read twice: {query}", state == "yes" and is_kept, details, serving.asked[before:])
    older = pack.read_bytes()
    lines = (folder / "town.opl").read_bytes().splitlines(keepends=True)
    (folder / "newer.opl").write_bytes(b"".join(lines[:-3]))
    newer = made_pack(folder / "newer.opl", pack)
    keep_root(page, "newer", newer)
    state, verdict, details = ask(page, f"{base}/ranges/town.pack", "node(4998);out;")
    tally.check("a pack that was replaced", state == "yes" and "; 0 requests" not in details, state, verdict, details)
    pack.write_bytes(older)


def added(changes, pack, folder):
    """Adds changes to a pack, and gives the new root."""
    (folder / "changes.opl").write_bytes(changes)
    ended = run([PROGRAM, "pack", "--add", folder / "changes.opl", pack])
    assert ended.status == 0, ended
    return ended.stdout.decode().strip()


def check_heads(tally, page, base, folder, town):
    """In the files of a head the page finds what the program finds there, before and after further changes, and reads little of them;
    what is wrong with a head or a file is told in words, and makes no answer."""
    pack, head = folder / "grown.pack", folder / "grown.pack.head"
    made_pack(OBJECTS, pack)
    place = f"{base}/ranges/{head.name}"
    for changes in (b"n9 v1 dV Tname=C x1 y2\nn2 v2 dD\nw7 v2 dV Thighway=path Nn1,n9\n", b"n9 v2 dV Tname=D x1 y2\n"):
        root = added(changes, pack, folder)
        keep_root(page, f"grown {len(changes)}", root)
        for query in ("nwr;out meta;", "way(7);(._;>;);out;", "node(1,0,3,3);out;", "node(2);out;"):
            state, verdict, details = ask(page, place, query)
            wanted = native(root, head, query)
            shown = text_of(page, "opl").encode()
            tally.check(f"from a head: {query}", state == "yes" and wanted.status == 0 and shown == wanted.stdout, state, verdict, details, wanted)
    for how in ("hidden", "whole"):
        state, verdict, _ = ask(page, f"{base}/{how}/{head.name}?version=1", "nwr;out meta;")
        tally.check(f"a head on a server: {how}", state == "yes", state, verdict)
    whole, further = head.read_bytes(), pack.with_name("grown.pack.2")
    for name, content, want in [
        ("empty", b"", "line 1 is wrong"), ("pack", pack.read_bytes(), "line 1 is wrong"), ("root", whole.replace(b"root ", b"root x"), "line 2 is wrong"),
        ("zero", whole.replace(b"sequence ", b"sequence 0"), "line 3 is wrong"), ("far", whole.replace(b"manifest ", b"manifest 99999999999999999999"), "line 4 is wrong"),
        ("folder", whole.replace(b"grown.pack.1", b"../grown.pack.1"), "line 6 is wrong"), ("cut", whole[:-1], "line 8 is wrong"), ("more", whole + b"\n", "line 8 is wrong"),
        ("missing", whole.replace(b"grown.pack.2\n", b"grown.pack.9\n"), "404"), ("beyond", whole.replace(b"manifest 5", b"manifest 6"), "ends before what the head says"),
        ("shorter", whole.replace(b"file 855 ", b"file 854 "), "has changed"),
    ]:
        (folder / f"{name}.head").write_bytes(content)
        state, verdict, _ = ask(page, f"{base}/ranges/{name}.head", "nwr;out;")
        tally.check(f"a head that is wrong: {name}", state == "fault" and want in verdict and not is_shown(page, "answer"), state, verdict)
    keep_root(page, "four objects", ROOT)
    state, verdict, _ = ask(page, place, "nwr;out;")
    tally.check("a head of another root", state == "no" and "of another root than yours" in verdict, state, verdict)
    keep_root(page, "grown", root)
    kept, wanted = further.read_bytes(), native(root, head, "nwr;out;").stdout.decode()
    states = set()
    for at in range(0, len(kept), max(1, len(kept) // 30)):
        further.write_bytes(kept[:at] + bytes([kept[at] ^ 0x11]) + kept[at + 1 :])
        (folder / f"turned-{at}.head").write_bytes(whole)
        state, verdict, _ = ask(page, f"{base}/ranges/turned-{at}.head", "nwr;out;")
        states.add(state)
        is_right = text_of(page, "opl") == wanted if state == "yes" else state in ("no", "fault") and not is_shown(page, "answer")
        tally.check(f"byte {at} of a further file turned", is_right, state, verdict)
    further.write_bytes(kept)
    tally.check("some are refused", "no" in states, states)
    moved = added(b"n4998 v9 dV Tname=Weg x13 y52\n", folder / "town.pack", folder)
    keep_root(page, "moved", moved)
    for query in ("node(4998);out;", 'nwr["name"="Weg"];out;'):
        state, verdict, details = ask(page, f"{base}/ranges/town.pack.head", query, 120)
        wanted = native(moved, folder / "town.pack.head", query)
        tally.check(f"from a larger head: {query}", state == "yes" and text_of(page, "opl").encode() == wanted.stdout, state, verdict, details)
        print(f"{query}: {verdict}; {details}")
    keep_root(page, "extract", town)


def check_stop(tally, page, base):
    """A query is given up at once, and the next one is answered."""
    write_query(page, "nwr;out;")
    page.value(f"document.getElementById('mirror').value = {words(base + '/ranges/town.pack')}")
    page.value("document.getElementById('go').click(); document.getElementById('stop').click()")
    state, verdict, _ = told(page)
    tally.check("stopped", state == "fault" and verdict.startswith("Stopped"), state, verdict)
    state, verdict, _ = ask(page, f"{base}/ranges/town.pack", "node(4998);out;")
    tally.check("and asked again", state == "yes", state, verdict)


def check_memory(tally, page, site, base, root):
    """Where the module gets no more memory, that is told, and no answer is shown."""
    opened(page, site, "/limit-40/")
    keep_root(page, "extract", root)
    state, verdict, _ = ask(page, f"{base}/ranges/town.pack", 'nwr["name"="Weg"];out;', 120)
    is_told = state == "fault" and "isn't enough memory" in verdict
    tally.check("no memory", is_told and not is_shown(page, "answer"), state, verdict)


def check_link(tally, page, site, place):
    """A link leads to a pack as to a mirror, and what was asked is kept."""
    opened(page, site, fragment=f"#mirror={place}&query=node(1);out;")
    found = page.value("[mirror.value, query.value]")
    tally.check("a link to a pack", found == [place, "node(1);out;"], found)
    keep_root(page, "four objects", ROOT)
    ask(page, place, "node(1);out;")
    page.value("document.getElementById('show-history').click()")
    kept = page.value("document.querySelector('#asked li').textContent")
    tally.check("what was asked is kept", place in kept and "found here" in kept, kept)
    page.value("document.querySelector('#history [data-close]').click()")


def check_nginx(tally, page, site, room):
    """nginx as docs/DEPLOYING.md has it for packs, asked by a page from elsewhere."""
    if shutil.which("nginx") is None:
        print("SKIPPED: nginx isn't installed")
        return
    text = (TOP / "docs/DEPLOYING.md").read_text(encoding="utf-8")
    block = text.split("### Packs for pages")[1].split("```nginx\n")[1].split("```")[0]
    folder = room / "nginx"
    (folder / "packs").mkdir(parents=True)
    folder.chmod(0o755)
    room.chmod(0o755)
    made_pack(OBJECTS, folder / "packs/four.pack")
    root = added(b"n9 v1 dV Tname=C x1 y2\n", folder / "packs/four.pack", folder)
    with tempfile.TemporaryDirectory() as free:
        port = free_port()
        block = block.replace("listen 80;", f"listen 127.0.0.1:{port};").replace("/var/www/packs", str(folder / "packs"))
        conf = Path(free) / "nginx.conf"
        conf.write_text(f"daemon off; pid {free}/pid; error_log {free}/error; events {{}} http {{ access_log off; {block} }}", encoding="utf-8")
        running = subprocess.Popen(["nginx", "-p", free, "-c", conf], stdout=subprocess.DEVNULL, stderr=subprocess.DEVNULL)
        try:
            until_open(port)
            opened(page, site)
            keep_root(page, "four objects", ROOT)
            state, verdict, _ = ask(page, f"http://127.0.0.1:{port}/four.pack", "nwr;out meta;")
            tally.check("behind nginx", state == "yes", state, verdict)
            keep_root(page, "with a node more", root)
            state, verdict, _ = ask(page, f"http://127.0.0.1:{port}/four.pack.head", "node(9);out;")
            tally.check("a head behind nginx", state == "yes" and "n9" in text_of(page, "opl"), state, verdict)
        finally:
            running.terminate()
            running.wait()


def free_port():
    with socket.socket() as found:
        found.bind(("127.0.0.1", 0))
        return found.getsockname()[1]


def until_open(port):
    for _ in range(200):
        try:
            socket.create_connection(("127.0.0.1", port), timeout=1).close()
            return
        except OSError:
            time.sleep(0.05)


def check_all(tally, path):
    with tempfile.TemporaryDirectory() as name, browser.browser(path) as page:
        room = Path(name)
        folder = room / "packs"
        folder.mkdir()
        pack = folder / "four.pack"
        assert made_pack(OBJECTS, pack) == ROOT
        with (folder / "town.opl").open("wb") as into:
            subprocess.run([sys.executable, TOP / "bench/make_extract.py", "--share", "0.05"], stdout=into, check=True)
        root = made_pack(folder / "town.opl", folder / "town.pack")
        with page_server() as site, pack_server(folder) as (serving, base):
            page.resize(1200, 900)
            check_answers(tally, page, site, f"{base}/ranges/{pack.name}", pack, room)
            check_servers(tally, page, base, pack, root)
            keep_root(page, "four objects", ROOT)
            check_refused(tally, page, base, pack, folder)
            check_spoiled(tally, page, base, pack, folder)
            check_town(tally, page, serving, base, folder, root)
            check_heads(tally, page, base, folder, root)
            keep_root(page, "extract", root)
            check_stop(tally, page, base)
            check_link(tally, page, site, f"{base}/ranges/{pack.name}")
            check_memory(tally, page, site, base, root)
            check_nginx(tally, page, site, room)
            unknown = [it for it in page.complaints if not any(known in it for known in KNOWN_COMPLAINTS)]
            tally.check("the page throws nothing", unknown == [], unknown)


# What a browser says by itself of servers that go wrong.
KNOWN_COMPLAINTS = ("Failed to load resource", "CORS policy", "net::ERR", "favicon")


def main():
    tally = Tally()
    path = browser.program()
    if path is None:
        print("SKIPPED: Chromium isn't installed")
        tally.end()
        return
    status, _, complained, module = built()
    tally.check("web/build", status == 0 and module is not None, complained)
    if status == 0:
        check_all(tally, path)
    tally.end()


if __name__ == "__main__":
    main()
