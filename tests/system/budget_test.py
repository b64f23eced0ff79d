"""Budgets for the work of a query: `serve --max-work` refuses at once what would take long, and serves on; on each side of a
query's work all mirrors of a set say the same; `check --max-work` has no verdict on what takes more, and `fetch` and `relay`
give no answer. And what needs no budget: a query that asks the same again and again."""

import shutil
import socket
import tempfile
import time
from pathlib import Path

from relay_test import asked, error_of, relay
from runs import PROGRAM, TOP, Outcome, Tally, run
from serve_test import all_of, nginx_before, server, told

FOUR = TOP / "examples/four-objects.opl"

PATHS = [b"/api/interpreter", b"/api/checked"]

TOO_MUCH = (
    b"HTTP/1.1 503 Service Unavailable\r\nContent-Type: text/plain; charset=utf-8\r\n"
    b"Content-Length: 14\r\n\r\ntoo much work\n"
)

YES = Outcome(b"yes\n", b"", 0)
NO_WORK = Outcome(b"", b"no work\n", 3)
TOO_LARGE = Outcome(b"", b"too large\n", 3)
DEVICE = Outcome(b"", b"device\n", 3)
TOO_MUCH_WORK = Outcome(b"", b"too much work\n", 3)
STRICT = Outcome(b"", b"the mirror answered with status 503\n", 3)

# Queries over the four objects, and their work, by hand: 1 for a byte, 100 for a step (docs/FORMATS.md).
WORKS = [
    (b"node(1);out;", 733),
    (b"node(99);out;", 400),
    (b"way(10);>;out ids;", 1206),
    (b"nwr[highway];out ids;", 1107),
    (b"node[highway][!name];out ids;", 1003),
    (b"(node(1);way(10););out ids;", 1607),
    (b"node(52.49999999999,13.40000004,52.6,13.5);out ids;", 803),
]

# Nodes whose tree of objects has several leaves, and the work of queries that read all of them: a step for each filter, one for
# each node as a candidate and one as it is written, for two of them one more as it is read; one for each statement, and one for
# the node that is printed, which has three bytes.
MANY = "".join(f"n{number} Ta=1 x0 y0\n" for number in range(1, 194))
READING = [
    (b"node;out ids 1;", 38903),
    (b"nwr[a];out ids 1;", 58303),
    (b"node[a=1];out ids 1;", 39003),
    (b"node(0,0,0.01,0.01);out ids 1;", 58303),
]

# A box that goes round the earth to the column that it begins in: cells on both sides of the 180th meridian, one of them twice.
DATELINE = "n5 x180 y0\nn6 x-180 y0\nn7 x0 y0\n"
ROUND_THE_EARTH = [(b"node(-1,0.05,1,0.04);out ids;", 1509)]

GREATEST = (1 << 64) - 1

# A set in which each hundred nodes are in a way, and the most work that a query over it may take.
NODES = 20_000
BUDGET = 20_000_000

SMALL = b"node(7);out ids;"

LONGEST_QUERY = 65_536

# What is refused at once is refused within so many seconds, also on a busy machine.
AT_ONCE = 10.0


def repeated(begun, statement, ended=b""):
    """A query of a beginning and as many times a statement as it may have bytes for."""
    times = (LONGEST_QUERY - len(begun) - len(ended)) // len(statement)
    return begun + statement * times + ended


# Queries of at most 65,536 bytes that would take long: the parents of one set again and again; a recursion from a set that
# is another one each time; whole answers, one after the other.
ATTACKS = {
    "parents": repeated(b'node["a"]->.a;', b".a<;"),
    "recursions": repeated(b'node["a"]->.a;', b"(.a;._;)->.a;.a<<;"),
    "answers": repeated(b"node;", b"out;"),
    "whole answers": repeated(b"", b"node;out;"),
    "ids": repeated(b"node(id:" + b",".join(b"%d" % number for number in range(1, NODES // 2)) + b");", b'node["a"];out;'),
}

# Statements that a query may ask again and again over the same sets, without a budget: each takes tens of milliseconds the
# first time, and a query has room for thousands of them.
AGAIN = [
    b".a<;", b".a>>;", b"node(-90,-180,90,180);", b'node["b"!="c"];', b'node.a["a"="1"]["b"!="c"];', b'way(bn.a)["c"!="d"];',
    b'(node["b"!="c"];way(bn.a););', b'(node["b"!="c"];-node.a["a"="2"];);',
]

# Queries that the budget has room for.
WITHIN = [b"", SMALL, b"node(1);way(bn);out;", b"way(3);>;out ids;", b'node["a"];out ids 5;', b"node(id:1,2,20000,20001);out meta;"]


def set_text():
    """Nodes with a tag, of which each hundred are in a way."""
    nodes = [f"n{number} Ta=1 x{number % 1000 / 10000} y{number // 1000 / 10000}\n" for number in range(1, NODES + 1)]
    ways = [f"w{way} N" + ",".join(f"n{way * 100 - back}" for back in range(100)) + "\n" for way in range(1, NODES // 100 + 1)]
    return "".join(nodes + ways)


def asks(query, path=PATHS[0]):
    """A request for a query."""
    return b"POST %s HTTP/1.1\r\nContent-Length: %d\r\n\r\n%s" % (path, len(query), query)


def check_sides(tally):
    """On each side of a query's work all mirrors of the set refuse it, at both paths, or none does. Where none does, the
    responses are those of a mirror without a budget."""
    with server(FOUR) as free:
        for query, work in WORKS:
            requests = b"".join(asks(query, path) for path in PATHS)
            answers = told(free, [requests])
            tally.check(f"{query} is answered", answers.count(b"HTTP/1.1 200 OK\r\n") == len(PATHS), answers)
            for budget, want in [(work - 1, TOO_MUCH * len(PATHS)), (work, answers), (GREATEST, answers)]:
                for words in [[], ["--connections", 9]]:
                    with server(FOUR, "--max-work", budget, *words) as running:
                        got = told(running, [requests])
                        tally.check(f"{query} within {budget} {words}", got == want, got)


def check_nothing(tally):
    """With no work at all a mirror answers what takes none: a query without a statement, and what is no query."""
    others = b"".join([asks(b""), asks(b"[out:json];"), asks(b"node(1)"), b"GET /api/root HTTP/1.1\r\n\r\n"])
    with server(FOUR) as free, server(FOUR, "--max-work", 0) as running:
        want = told(free, [others])
        got = told(running, [asks(b".a;") + others + asks(b"node(99);")])
        tally.check("no work", got == TOO_MUCH + want + TOO_MUCH, got)


def check_attacks(tally, file):
    """A query that would take long is refused at once, at both paths. Its connection goes on, and so do others."""
    with server(file) as free, server(file, "--max-work", BUDGET) as running:
        small = told(free, [asks(SMALL)])
        tally.check("the small query is answered", small.endswith(b"\r\n\r\nn7\n"), small)
        for name, query in ATTACKS.items():
            tally.check(f"{name}: as long as may be", LONGEST_QUERY - 100 < len(query) <= LONGEST_QUERY, len(query))
            for path in PATHS:
                with running.connect() as attacker, running.connect() as other:
                    begun = time.monotonic()
                    attacker.sendall(asks(query, path) + asks(SMALL))
                    other.sendall(asks(SMALL))
                    other.shutdown(socket.SHUT_WR)
                    got, took = all_of(other), time.monotonic() - begun
                    tally.check(f"beside {name}", got == small and took < AT_ONCE, took, got[:300])
                    attacker.shutdown(socket.SHUT_WR)
                    got, took = all_of(attacker), time.monotonic() - begun
                    tally.check(f"{name} at {path}", got == TOO_MUCH + small and took < AT_ONCE, took, got[:300])


def check_again(tally, file):
    """What is asked again over the same sets isn't evaluated again: thousands of statements take little longer than one."""
    begun, ended = b'node["a"]->.a;', b"out ids 3;"
    with server(file) as free:
        for statement in AGAIN:
            want = told(free, [asks(begun + statement + ended)])
            tally.check(f"{statement} is answered", want.startswith(b"HTTP/1.1 200 OK\r\n"), want[:300])
            query = repeated(begun, statement, ended)
            since = time.monotonic()
            got = told(free, [asks(query)])
            took = time.monotonic() - since
            tally.check(f"{statement} {len(query) // len(statement)} times", got == want and took < AT_ONCE, took, got[:300])


def check_within(tally, file):
    """What the budget has room for is answered as it is without a budget, between queries that it has none for."""
    attack = ATTACKS["parents"]
    with server(file) as free, server(file, "--max-work", BUDGET) as running:
        for query in WITHIN:
            for path in PATHS:
                want = told(free, [asks(query, path)])
                got = told(running, [asks(query, path), asks(attack, path), asks(query, path)])
                tally.check(f"{query} at {path}", got == want + TOO_MUCH + want, got[:300])


class Files:
    """A query over a set, its answer and its proof, in files."""

    def __init__(self, room, query, file=FOUR):
        self.room = Path(room)
        self.query, self.answer, self.proof = (self.room / name for name in ("query", "answer", "proof"))
        self.query.write_bytes(query)
        outcome = run([PROGRAM, "prove", file, self.query, self.answer, self.proof])
        assert outcome.status == 0, outcome
        self.root = outcome.stdout.strip()

    def checked(self, *options, query=None, answer=None, proof=None):
        """How `check` ends with these options, each file replaced where another one is named."""
        words = [self.root, query or self.query, answer or self.answer, proof or self.proof]
        return run([PROGRAM, "check", *map(str, options), *words])


def check_verdicts(tally):
    """`check` on each side of a query's work, by the same files; and what is told before the work is."""
    for query, work in WORKS:
        with tempfile.TemporaryDirectory() as room:
            files = Files(room, query)
            wrong, short, unread = (files.room / name for name in ("wrong", "short", "unread"))
            wrong.write_bytes(files.answer.read_bytes() + b"\n")
            short.write_bytes(files.proof.read_bytes()[:-1])
            unread.write_bytes(b"node(1)")
            differs = Outcome(b"no C9 %d\n" % files.answer.stat().st_size, b"", 1)
            malformed = Outcome(b"no C2\n", b"", 1)
            for name, outcome, want in [
                ("no budget", files.checked(), YES),
                ("its work", files.checked("--max-work", work), YES),
                ("one more", files.checked("--max-work", work + 1), YES),
                ("the greatest", files.checked("--max-work", GREATEST), YES),
                ("one less", files.checked("--max-work", work - 1), NO_WORK),
                ("nothing", files.checked("--max-work", 0), NO_WORK),
                # The work is that of the query, whatever the answer is.
                ("a wrong answer", files.checked("--max-work", work, answer=wrong), differs),
                ("a wrong answer, one less", files.checked("--max-work", work - 1, answer=wrong), NO_WORK),
                # The query's form and the proof's are looked at before.
                ("no proof", files.checked("--max-work", 0, proof=short), malformed),
                ("no query", files.checked("--max-work", 0, query=unread), Outcome(b"no C1 Q11 7\n", b"", 1)),
                # The files are read first, in their order.
                ("too large", files.checked("--max-work", 0, "--max-size", 1, answer="/dev/zero"), TOO_LARGE),
                ("a proof that is none", files.checked("--max-work", 0, proof=files.room / "none"), DEVICE),
            ]:
                tally.check(f"check {query}: {name}", outcome == want, outcome)


def check_every_budget(tally):
    """However far an evaluation comes before its budget ends it, what is told is the work, and never memory."""
    for text, works in [(FOUR.read_text(encoding="utf-8"), WORKS), (MANY, READING), (DATELINE, ROUND_THE_EARTH)]:
        with tempfile.TemporaryDirectory() as room:
            file = Path(room) / "set.opl"
            file.write_text(text, encoding="utf-8")
            for query, work in works:
                files = Files(room, query, file)
                for budget in [*range(0, work, work // 40), work - 1]:
                    outcome = files.checked("--max-work", budget)
                    tally.check(f"{query} within {budget}", outcome == NO_WORK, outcome)
                outcome = files.checked("--max-work", work)
                tally.check(f"{query} within its work", outcome == YES, outcome)


def check_fetch(tally):
    """`fetch` on each side of a query's work; and from a mirror that has no work to give."""
    with server(FOUR) as free, server(FOUR, "--max-work", 0) as strict:
        root = told(free, [b"GET /api/root HTTP/1.1\r\n\r\n"]).split()[-1]
        for query, work in WORKS:
            words = [root, f"127.0.0.1:{free.port}", query]
            whole = run([PROGRAM, "fetch", *words])
            tally.check(f"fetch {query}", whole.status == 0 and whole.stderr == b"", whole)
            for budget, want in [(work - 1, TOO_MUCH_WORK), (work, whole), (GREATEST, whole)]:
                outcome = run([PROGRAM, "fetch", "--max-work", str(budget), *words])
                tally.check(f"fetch {query} within {budget}", outcome == want, outcome)
            outcome = run([PROGRAM, "fetch", root, f"127.0.0.1:{strict.port}", query])
            tally.check(f"fetch {query} from a strict mirror", outcome == STRICT, outcome)


def check_relay(tally):
    """A relay answers within its budget what it answers without one, and else says that it is too much work."""
    query = "[out:json];node(1);out;"
    with server(FOUR) as free:
        root = told(free, [b"GET /api/root HTTP/1.1\r\n\r\n"]).split()[-1]
        place = f"127.0.0.1:{free.port}"
        with relay(place, root=root) as running:
            status, _, whole = asked(running.site, query)
        tally.check("the relay answers", status == 200, status, whole)
        # It takes seven steps, and the bytes of an object.
        for budget, want in [(700, 503), (GREATEST, 200)]:
            with relay(place, "--max-work", str(budget), root=root) as running:
                status, _, body = asked(running.site, query)
                said = body == whole if want == 200 else error_of(body) == "too much work"
                tally.check(f"the relay within {budget}", status == want and said, status, body)


def check_nginx(tally):
    """Behind nginx a query that is too much work for one mirror isn't asked of the next one as well."""
    if missing := [name for name in ("nginx", "openssl", "curl") if shutil.which(name) is None]:
        print(f"SKIPPED: {', '.join(missing)} isn't installed")
        return
    with tempfile.TemporaryDirectory() as folder, server(FOUR, "--max-work", 0) as strict, server(FOUR) as free:
        room = Path(folder)
        room.chmod(0o755)
        with nginx_before((strict.port, free.port), room) as port:
            words = ["curl", "--silent", "--cacert", room / "certificate.pem", "--write-out", "%{http_code}\n",
                     "--output", "/dev/null", "--data-urlencode", "data=node(1);out;",
                     f"https://localhost:{port}/api/interpreter?[1-20]"]
            statuses = run(words).stdout.split()
            holds = len(statuses) == 20 and set(statuses) == {b"200", b"503"}
            tally.check("nginx asks one mirror", holds, statuses)


def main():
    tally = Tally()
    check_sides(tally)
    check_nothing(tally)
    check_verdicts(tally)
    check_every_budget(tally)
    check_fetch(tally)
    check_relay(tally)
    with tempfile.TemporaryDirectory() as room:
        file = Path(room) / "set.opl"
        file.write_text(set_text(), encoding="ascii")
        check_attacks(tally, file)
        check_again(tally, file)
        check_within(tally, file)
    check_nginx(tally)
    tally.end()


if __name__ == "__main__":
    main()
