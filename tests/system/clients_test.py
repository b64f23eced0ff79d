"""The programs that people use, over `relay`: overpy, python3-overpass, osmnx and JOSM's own reader. What each makes of an
answer is, object for object, what the OPL answer to the query says; and where the query is refused, or the mirror lies, none
of them takes anything for an answer.

A client that isn't installed is skipped, and it is said.
"""

import http.server
import json
import re
import shutil
import subprocess
import tempfile
import threading
from contextlib import contextmanager
from decimal import Decimal
from pathlib import Path

from fetch_test import ANSWER, checked_body, mirror, response
from relay_test import relay
from runs import PROGRAM, TOP, Tally, run
from serve_test import server

CLIENTS = Path(__file__).resolve().parent / "clients"
# (the system's own, for which the clients are packaged)
PYTHON = "/usr/bin/python3"
JOSM = Path("/usr/share/josm/josm.jar")
KINDS = {"n": "node", "w": "way", "r": "relation"}

# Two more objects for the town, with texts that are hard to tell.
AWKWARD = (
    'n71 v3 dV c6 t2021-01-02T03:04:05Z i8 uB%20%"o%26%<b> Tnote=a%22%b%26%c%3c%d%3e%e%27%f,back\\slash=x%0a%y%09%z,'
    "euro=%20ac%%1f600% x13.4000001 y52.5\n"
    "w71 v2147483647 dV c5 t2020-01-02T03:04:05Z i7 uAnn Tname=Hauptstra%df%e,%31%=%5c%%5c% Nn71,n1,n71,n99\n"
    "r71 v1 dV c5 t2020-01-02T03:04:05Z i7 uAnn Tname=D%fc%sseldorf Mw71@outer,n71@a%22%b%26%c,r71@\n"
)

QUERIES = [
    "node(1);out;",
    "[out:json];node(1);out meta;",
    "[out:xml];nwr;out meta;",
    "[out:json];nwr;out meta;",
    "[out:json];nwr;out ids;",
    "[out:xml];nwr;out tags;",
    "[out:json];nwr;out skel;",
    "[out:xml];nwr(71);out meta;",
    "[out:json];way[highway];(._;>;);out body;",
    "[out:json][timeout:25];way[highway=residential];node(w);out body;",
    "[out:json];(node(52.4,13.3,52.6,13.5);<;>;);out body;",
    "[out:json];node[amenity=cafe];out meta;",
    "[out:json];node(77777);out;",
    "rel[type=route];(._;>;);out meta;",
]
REFUSED = [("node(1)out;", "Q5 byte 7"), ('nwr["name"~"x"];out;', "Q7 byte 10"), ("nwr;out count;", "Q7 byte 8")]


# ---- objects ----


def unescaped(text):
    return re.sub("%([0-9a-f]+)%", lambda found: chr(int(found[1], 16)), text)


def objects_of(text):
    """The objects of an answer in OPL, with what it tells of each."""
    objects = {}
    for line in text.splitlines():
        name, *fields = line.split(" ")
        told = {field[0]: field[1:] for field in fields}
        one = objects[name] = {}
        if "T" in told:
            pairs = (pair.split("=") for pair in told["T"].split(",") if pair)
            one["tags"] = {unescaped(key): unescaped(value) for key, value in pairs}
        if "x" in told:
            one["at"] = [told["y"], told["x"]]
        if "N" in told:
            one["nodes"] = [int(node[1:]) for node in told["N"].split(",") if node]
        if "M" in told:
            members = (member.split("@") for member in told["M"].split(",") if member)
            one["members"] = [[KINDS[name[0]], int(name[1:]), unescaped(role)] for name, role in members]
        if "v" in told:
            one["meta"] = [int(told["v"]), int(told["c"]), told["t"], int(told["i"]), unescaped(told["u"])]
    return objects


def differing(client, want, got):
    """What a client has otherwise than the answer says. (JOSM makes a user of its own where the id of the user isn't known.)"""
    found = [("objects", sorted(want), sorted(got))] if want.keys() != got.keys() else []
    for name in want.keys() & got.keys():
        for field, value in want[name].items():
            told = got[name].get(field)
            if field == "at" and told is not None:
                value, told = [list(map(Decimal, place)) for place in (value, told)]
            if field == "meta" and value[3] == 0 and client == "JOSM":
                value, told = value[:3], told[:3]
            if told != value:
                found.append((name, field, value, told))
    return found[:3]


class Town:
    """A set, and what the answers to queries over it are."""

    def __init__(self, folder):
        self.path = Path(folder) / "town.opl"
        self.path.write_text((TOP / "tests/vectors/set-town.opl").read_text(encoding="utf-8") + AWKWARD, encoding="utf-8")
        self.root = run([PROGRAM, "publish", self.path]).stdout.decode().split()[0]

    def answer(self, query):
        outcome = run([PROGRAM, "ask", query], self.path.read_bytes())
        assert outcome.status == 0, outcome
        return objects_of(outcome.stdout.decode())


def check_answers(tally, client, town, queries, told):
    """What a client told of each query. Each answer but that of 77777 has objects, so that none is right by having none."""
    tally.check(f"{client}: all queries", len(told) == len(queries), len(told), len(queries))
    for query, one in zip(queries, told):
        want = town.answer(query)
        wrong = differing(client, want, one["objects"]) if "objects" in one else one
        tally.check(f"{client}: {query}", not wrong and (want or "77777" in query), wrong)


def lines_of(words):
    """What a driver writes, a JSON value a line; None where its client isn't installed."""
    ended = subprocess.run(list(map(str, words)), capture_output=True, timeout=300)
    if b"No module named" in ended.stderr:
        return None
    if ended.returncode != 0:
        print(ended.stderr.decode())
    return [json.loads(line) for line in ended.stdout.decode().splitlines()]


def driven(client, script, url, queries, *words):
    with tempfile.TemporaryDirectory() as folder:
        path = Path(folder) / "queries"
        path.write_text(json.dumps(queries), encoding="utf-8")
        told = lines_of([PYTHON, "-B", CLIENTS / script, url, path, *words])
    if told is None:
        print(f"SKIPPED: {client} isn't installed")
    return told


# ---- clients ----


def check_overpy(tally, town, url):
    for parser in ("sax", "dom"):
        told = driven("overpy", "ask_overpy.py", url, QUERIES + [query for query, _ in REFUSED], parser)
        if told is None:
            return
        check_answers(tally, f"overpy ({parser})", town, QUERIES, told[: len(QUERIES)])
        for (query, fault), one in zip(REFUSED, told[len(QUERIES) :]):
            tally.check(f"overpy: {query}", one == {"refused": f"OverpassBadRequest: Error: {fault} "}, one)


def check_overpass(tally, town, url):
    queries = [("node(1)", "body"), ("nwr", "meta"), ("nwr", "ids"), ("nwr", "skel"), ("nwr", "tags"), ("nwr(71)", "meta")]
    queries += [("way[highway];(._;>;)", "body"), ("node[amenity=cafe]", "meta"), ("(node(52.4,13.3,52.6,13.5);<;)", "body")]
    queries += [("rel[type=route];>", "meta"), ("node(77777)", "body"), ("node(1) x", "body"), ("nwr", "geom")]
    told = driven("python3-overpass", "ask_overpass.py", url, queries)
    if told is None:
        return
    check_answers(tally, "overpass", town, [one["sent"] for one in told[:11]], told[:11])
    for one in told[11:]:
        tally.check(f"overpass: {one['sent']}", one.get("refused") == "OverpassSyntaxError", one)


def check_osmnx(tally, town, url):
    queries = [query for query in QUERIES if query.startswith("[out:json]")]
    queries += ["[out:json][timeout:180];(way[highway];node(w););out;", "[out:json];nwr;out count;"]
    # (a graph needs all nodes of its ways)
    queries += ["[out:json][timeout:180];(way[highway=residential];>;);out;"]
    told = driven("osmnx", "ask_osmnx.py", url, queries)
    if told is None:
        return
    check_answers(tally, "osmnx", town, queries[:-2] + queries[-1:], told[:-3] + told[-2:-1])
    tally.check("osmnx: refused", "Q7 byte" in told[-3].get("refused", ""), told[-3])
    # A pause would be one of 60 seconds.
    tally.check("osmnx: no pause", all(one["seconds"] < 10 for one in told[:-1]), told)
    answer = town.answer(queries[-1])
    ways = sorted(int(name[1:]) for name in answer if name.startswith("w"))
    tally.check("osmnx: a graph", told[-1]["edges"] == ways and len(told[-1]["nodes"]) > 3, told[-1], ways)


@contextmanager
def osm_api():
    """A place where JOSM learns what an OSM API can do."""

    class Capabilities(http.server.BaseHTTPRequestHandler):
        def do_GET(self):
            text = (
                b'<osm version="0.6"><api><version minimum="0.6" maximum="0.6"/><area maximum="0.25"/>'
                b'<waynodes maximum="2000"/><changesets maximum_elements="10000"/><timeout seconds="300"/>'
                b'<status database="online" api="online" gpx="online"/></api><policy><imagery/></policy></osm>'
            )
            self.send_response(200)
            self.send_header("Content-Type", "text/xml")
            self.send_header("Content-Length", str(len(text)))
            self.end_headers()
            self.wfile.write(text)

        def log_message(self, *_):
            pass

    serving = http.server.ThreadingHTTPServer(("127.0.0.1", 0), Capabilities)
    threading.Thread(target=serving.serve_forever, daemon=True).start()
    try:
        yield f"http://127.0.0.1:{serving.server_address[1]}/api"
    finally:
        serving.shutdown()
        serving.server_close()


def josm(url, queries):
    """What JOSM makes of each query: its objects as OPL lines, or what it shows of a refusal. None where it isn't installed."""
    if not JOSM.exists() or shutil.which("javac") is None:
        return None
    with tempfile.TemporaryDirectory() as folder, osm_api() as api:
        subprocess.run(["javac", "-nowarn", "-cp", JOSM, "-d", folder, CLIENTS / "AskJosm.java"], check=True, capture_output=True)
        path = Path(folder) / "queries"
        path.write_text("".join(f"{query}\n" for query in queries), encoding="utf-8")
        java = ["java", "-Djava.awt.headless=true", f"-Duser.home={folder}", "-cp", f"{JOSM}:{folder}"]
        ended = subprocess.run([*java, "AskJosm", f"{url}/", path, api], capture_output=True, timeout=300)
    told, lines = [], []
    for line in ended.stdout.decode().splitlines():
        if line == "end":
            told.append({"objects": objects_of("\n".join(lines))})
            lines = []
        elif line.startswith("refused "):
            told.append({"refused": line[len("refused ") :]})
        else:
            lines.append(line)
    if len(told) < len(queries):
        print(ended.stderr.decode())
    return told


def check_josm(tally, town, url):
    # (JOSM reads XML of objects with a version alone, so that it asks `out meta`; and nodes with their places alone)
    queries = [query for query in QUERIES if (query.startswith("[out:json]") or "out meta" in query) and "out ids" not in query]
    # (as its own dialog begins: JOSM puts the box of its map in)
    queries.append("[out:xml][timeout:90];(node({{bbox}});<;);(._;>;);out meta;")
    refused = [*REFUSED, ("[out:xml];nwr;out body;", "Missing attribute 'version' on OSM primitive with ID 1.")]
    told = josm(url, queries + [query for query, _ in refused])
    if told is None:
        print("SKIPPED: JOSM or a compiler of Java isn't installed")
        return
    queries[-1] = queries[-1].replace("{{bbox}}", "52.4,13.3,52.6,13.5")
    check_answers(tally, "JOSM", town, queries, told[: len(queries)])
    for (query, fault), one in zip(refused, told[len(queries) :]):
        tally.check(f"JOSM: {query}", fault in one.get("refused", ""), one)


# ---- a mirror that lies ----


def check_liar(tally, town):
    """A mirror that gives another answer's proof: no client takes anything for an answer."""
    query = "[out:json];node(1);out meta;"
    for client, ask in [
        ("overpy", lambda url: driven("overpy", "ask_overpy.py", url, [query], "dom")),
        ("overpass", lambda url: driven("python3-overpass", "ask_overpass.py", url, [("node(1)", "meta")])),
        ("JOSM", lambda url: josm(url, [query])),
    ]:
        with mirror(response(checked_body(ANSWER, b"OSMP\x00\x00\x00\x00", town.root))) as liar, relay(liar, root=town.root) as running:
            told = ask(f"{running.site}/api")
        if told is not None:
            tally.check(f"{client} before a mirror that lies", len(told) == 1 and "refused" in told[0], told)


def main():
    tally = Tally()
    with tempfile.TemporaryDirectory() as folder:
        town = Town(folder)
        with server(town.path) as running_mirror, relay(f"127.0.0.1:{running_mirror.port}", root=town.root) as running:
            url = f"{running.site}/api"
            check_overpy(tally, town, url)
            check_overpass(tally, town, url)
            check_osmnx(tally, town, url)
            check_josm(tally, town, url)
        check_liar(tally, town)
    tally.end()


if __name__ == "__main__":
    main()
