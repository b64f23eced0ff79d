"""Content coding by the example's nginx: a client that asks for gzip gets the mirror's responses compressed, and unpacks the
mirror's bytes; every other client gets those bytes as they are, with their Content-Length.

Without nginx and openssl all is skipped, and said so. Without curl or Chromium their clients are.
"""

import base64
import gzip
import hashlib
import http.client
import shutil
import socket
import ssl
import tempfile
from pathlib import Path
from typing import NamedTuple

import browser
from fetch_test import mirror, response
from lying_mirror import parts_of
from relay_test import asked, relay
from runs import PROGRAM, SECONDS, TOP, Outcome, Tally, run
from serve_test import nginx_before, server

PATHS = ["/api/interpreter", "/api/checked"]

NODES = 500
SMALL = "node(1);out;"
LARGE = "nwr;out meta;"

# The work that a query may take: enough for each of those above, and not for a hundred of them.
BUDGET = 500_000

# What clients say that take gzip, and others.
GZIP = ["gzip", "gzip, deflate, br, zstd", "deflate, gzip", "identity;q=0.5, gzip;q=1.0"]
NO_GZIP = [None, "identity", "br", "deflate, br", "gzip;q=0", "identity, gzip;q=0"]

# Fields of a mirror that nginx passes on.
FIELDS = ["Content-Type", "Osm-Root", "Allow"]


def set_text():
    """Nodes on a grid, with a tag, a version and an author."""
    lines = []
    for number in range(1, NODES + 1):
        row, column = divmod(number, 50)
        lines.append(f"n{number} v2 dV c{number % 7} t2020-01-01T00:00:00Z i1 uA Tref={number * number} x{column / 1000} y{row / 1000}\n")
    return "".join(lines)


class Got(NamedTuple):
    """A response, with its body as it came, but for the chunks."""

    status: int
    fields: http.client.HTTPMessage
    body: bytes

    def passed_on(self):
        """What doesn't depend on the way."""
        return self.status, [self.fields.get_all(name) for name in FIELDS]

    def is_plain(self, own):
        """Whether this is the mirror's own response, without a coding and with its length."""
        length = self.fields.get_all("Content-Length") == own.fields.get_all("Content-Length")
        coded = [name for name in ("Content-Encoding", "Transfer-Encoding") if name in self.fields]
        return length and not coded and self.passed_on() == own.passed_on() and self.body == own.body

    def is_coded(self, own):
        """Whether this is the mirror's own response, compressed once, in chunks."""
        coded = [self.fields.get_all(name) for name in ("Content-Encoding", "Transfer-Encoding", "Content-Length")]
        holds = coded == [["gzip"], ["chunked"], None] and len(self.body) < len(own.body)
        return holds and self.passed_on() == own.passed_on() and gzip.decompress(self.body) == own.body


def request(path, query, coding=None, *more, method="POST", version="1.1"):
    """A request, byte for byte, with this Accept-Encoding if any, and more fields."""
    fields = ["Host: localhost", "Connection: close", *([] if coding is None else [f"Accept-Encoding: {coding}"]), *more]
    body = [f"Content-Length: {len(query)}", "", query] if method == "POST" else ["", ""]
    return "\r\n".join([f"{method} {path} HTTP/{version}", *fields, *body]).encode()


def got(port, asks, trust=None):
    """The response to a request at this port, with TLS where `trust` says whose certificates to take."""
    with socket.create_connection(("127.0.0.1", port), timeout=SECONDS) as plain:
        with trust.wrap_socket(plain, server_hostname="localhost") if trust else plain as connection:
            connection.sendall(asks)
            answer = http.client.HTTPResponse(connection, method=asks.split()[0].decode())
            answer.begin()
            return Got(answer.status, answer.headers, answer.read())


class Site(NamedTuple):
    """The example's nginx before a mirror: its port for TLS, its port without, whose certificates to take, the file of its
    certificate, and the mirror's port and root."""

    secure: int
    open: int
    trust: ssl.SSLContext
    certificate: Path
    mirror: int
    root: str

    def both(self, *words, **named):
        """The mirror's own response, and the one through nginx."""
        asks = request(*words, **named)
        return got(self.mirror, asks), got(self.secure, asks, self.trust)


def check_gzip(tally, site):
    """A client that asks for gzip gets the mirror's bytes, compressed, whatever else it takes."""
    for path in PATHS:
        for coding in GZIP:
            own, through = site.both(path, LARGE, coding)
            holds = own.status == 200 and own.is_plain(own) and through.is_coded(own)
            tally.check(f"{path} for {coding}", holds, own, through)
            tally.check(f"{path} for {coding}: caches know", through.fields.get_all("Vary") == ["Accept-Encoding"], through.fields)
        print(f"{path}: {len(own.body):,} bytes, compressed {len(through.body):,}")
        own, through = site.both(f"{path}?data={LARGE.replace(' ', '+')}", "", "gzip", method="GET")
        tally.check(f"{path} by GET", own.status == 200 and through.is_coded(own), own, through)
        own, through = site.both(path, LARGE, "gzip", "Via: 1.1 proxy")
        tally.check(f"{path} by a proxy", own.status == 200 and through.is_coded(own), own, through)
    client = http.client.HTTPSConnection("localhost", site.secure, context=site.trust, timeout=SECONDS)
    for number in range(3):
        client.request("POST", "/api/checked", LARGE, {"Accept-Encoding": "gzip"})
        answer = client.getresponse()
        holds = gzip.decompress(answer.read()) == own.body and not answer.will_close
        tally.check(f"request {number} of a connection that is kept", holds, answer.headers)
    client.close()


def check_no_gzip(tally, site):
    """Any other client gets the mirror's response as it is; so does one of HTTP/1.0, which can't read chunks."""
    for path in PATHS:
        for coding in NO_GZIP:
            own, through = site.both(path, LARGE, coding)
            tally.check(f"{path} for {coding}", own.status == 200 and through.is_plain(own), own, through)
            tally.check(f"{path} for {coding}: caches know", through.fields.get_all("Vary") == ["Accept-Encoding"], through.fields)
        own, through = site.both(path, LARGE, "gzip", version="1.0")
        tally.check(f"{path} for HTTP/1.0", own.status == 200 and through.is_plain(own), own, through)


def check_small(tally, site):
    """What is small is sent as it is, whatever the client takes. A proof isn't small."""
    own, through = site.both("/api/interpreter", SMALL, "gzip")
    tally.check("a small answer", own.status == 200 and through.is_plain(own), own, through)
    own, through = site.both("/api/checked", SMALL, "gzip")
    tally.check("its proof", own.status == 200 and through.is_coded(own), own, through)
    own, through = site.both("/api/root", "", "gzip", method="GET")
    tally.check("the root", own.status == 200 and through.is_plain(own), own, through)


def check_refusals(tally, site):
    """Refusals are sent as they are, whatever the client takes."""
    wrong = "node(1)" * 1000
    for path in PATHS:
        for name, status, words, named in [
            ("a query that doesn't read", 400, (path, wrong), {}),
            ("a query that is too much work", 503, (path, LARGE * 100), {}),
            ("HEAD", 405, (f"{path}?data=node(1);out;", ""), {"method": "HEAD"}),
            ("no path", 404, (f"{path}/", SMALL), {}),
        ]:
            for coding in (None, "gzip"):
                own, through = site.both(*words, coding, **named)
                tally.check(f"{path}: {name}, for {coding}", own.status == status and through.is_plain(own), own, through)


def check_proofs(tally, site, room):
    """The checker says yes of what was unpacked."""
    for name, query in [("small", SMALL), ("large", LARGE)]:
        _, through = site.both("/api/checked", query, "gzip")
        checked = parts_of(gzip.decompress(through.body))
        _, answer = site.both("/api/interpreter", query)
        tally.check(f"{name}: the answer beside its proof", checked.answer == answer.body, len(checked.answer), len(answer.body))
        (room / "query").write_text(query, encoding="ascii")
        (room / "answer").write_bytes(checked.answer)
        (room / "proof").write_bytes(checked.proof)
        outcome = run([PROGRAM, "check", site.root, room / "query", room / "answer", room / "proof"])
        tally.check(f"{name}: check", outcome == Outcome(b"yes\n", b"", 0), outcome)


def check_programs(tally, site):
    """`fetch` and `relay` ask for no coding, and get what they take, through nginx as without."""
    there, here = (f"127.0.0.1:{port}" for port in (site.open, site.mirror))
    for form in ("opl", "json", "xml"):
        words = ["fetch", "--form", form, site.root]
        through, own = (run([PROGRAM, *words, place, LARGE]) for place in (there, here))
        tally.check(f"fetch --form {form}", through == own and own.status == 0 and own.stderr == b"", own.stderr, through.stderr)
    with relay(there, root=site.root) as one, relay(here, root=site.root) as other:
        for form in ("json", "xml"):
            through, own = (asked(running.site, f"[out:{form}];{LARGE}") for running in (one, other))
            tally.check(f"relay, {form}", through == own and own[0] == 200, own[:2], through[:2])


def check_curl(tally, site):
    """curl asks for gzip if it is told to, and writes the mirror's bytes either way."""
    if shutil.which("curl") is None:
        print("SKIPPED: curl isn't installed")
        return
    for path in PATHS:
        own, _ = site.both(path, LARGE)
        for words in [[], ["--compressed"]]:
            outcome = run(["curl", "--silent", *words, "--cacert", site.certificate, "--data-urlencode", f"data={LARGE}",
                           f"https://localhost:{site.secure}{path}"])
            tally.check(f"curl {words} {path}", outcome == Outcome(own.body, b"", 0), outcome.stderr, len(outcome.stdout))


# What the page's own code gets of a mirror where the page comes from, in base64, and how many bytes came for it.
SCRIPT = """(async () => {
  const { ask } = await import('./mirror.js');
  const got = await ask(location.origin, '%s', new AbortController().signal);
  const body = [got.root, got.answer, got.proof].map((part) => btoa(Array.from(part, (it) => String.fromCharCode(it)).join('')));
  for (;;) {
    const came = performance.getEntriesByName(`${location.origin}/api/checked`)[0];
    if (came) return [...body, came.encodedBodySize, came.decodedBodySize];
    await new Promise((done) => setTimeout(done, 20));
  }
})()"""


def check_browser(tally, site):
    """A browser asks for gzip by itself, and the page gets the mirror's bytes."""
    path = browser.program()
    if path is None:
        print("SKIPPED: chromium isn't installed")
        return
    own, _ = site.both("/api/checked", LARGE)
    with browser.browser(path, "--ignore-certificate-errors") as page:
        page.go_to(f"https://localhost:{site.secure}/")
        *parts, came, unpacked = page.value(SCRIPT % LARGE)
        checked = parts_of(own.body)
        tally.check("the page", [base64.b64decode(part) for part in parts] == list(checked), [len(part) for part in parts])
        tally.check("the page's bytes", came < unpacked == len(own.body), came, unpacked, len(own.body))


def check_once(tally):
    """What a mirror has compressed itself is passed on as it is: it isn't compressed again."""
    text = b"".join(hashlib.sha256(b"%d" % number).hexdigest().encode() for number in range(200))
    packed = gzip.compress(text)
    said = response(packed, b"Content-Type: application/octet-stream", b"Content-Encoding: gzip")
    with tempfile.TemporaryDirectory() as folder, mirror(said) as place:
        room = Path(folder)
        room.chmod(0o755)
        port = int(place.rpartition(":")[2])
        with nginx_before((port, port), room) as secure:
            trust = ssl.create_default_context(cafile=room / "certificate.pem")
            through = got(secure, request("/api/checked", LARGE, "gzip"), trust)
            holds = through.fields.get_all("Content-Encoding") == ["gzip"] and through.body == packed
            tally.check("a mirror that compresses", holds and len(packed) > 1000, through)


def check_nginx(tally, room):
    """All that asks a real mirror."""
    (room / "set.opl").write_text(set_text(), encoding="ascii")
    # (a copy, since nginx's user may not be let into the repository's folder)
    shutil.copytree(TOP / "web", room / "web", ignore=shutil.ignore_patterns("out"))
    with socket.create_server(("127.0.0.1", 0)) as free:
        plain = free.getsockname()[1]
    changes = [
        # `fetch` and `relay` speak no TLS.
        (" ssl;", f" ssl;\n        listen 127.0.0.1:{plain};"),
        ("/usr/local/share/osm_mirror/web", str(room / "web")),
    ]
    with server(room / "set.opl", "--max-work", BUDGET) as running:
        with nginx_before((running.port, running.port), room, *changes) as secure:
            certificate = room / "certificate.pem"
            trust = ssl.create_default_context(cafile=certificate)
            site = Site(secure, plain, trust, certificate, running.port, running.line.split()[-1].decode())
            check_gzip(tally, site)
            check_no_gzip(tally, site)
            check_small(tally, site)
            check_refusals(tally, site)
            check_proofs(tally, site, room)
            check_programs(tally, site)
            check_curl(tally, site)
            check_browser(tally, site)


def main():
    tally = Tally()
    if missing := [name for name in ("nginx", "openssl") if shutil.which(name) is None]:
        print(f"SKIPPED: {', '.join(missing)} isn't installed")
        tally.end()
    with tempfile.TemporaryDirectory() as folder:
        room = Path(folder)
        room.chmod(0o755)
        check_nginx(tally, room)
    check_once(tally)
    tally.end()


if __name__ == "__main__":
    main()
