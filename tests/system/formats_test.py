"""docs/FORMATS.md says what is so: the worked values of its tables, blocks and paragraphs are read from the page, and
compared with what the program does, or with a calculation by hashlib alone (trees.py).

A table is known by what stands in its cells, so that sentences can be reworded. Where a kind of value is found nowhere
on the page, that is a failure: then the page, or how it is read here, has lost something.
"""

import re
import tempfile
from pathlib import Path

import packs
import trees
from runs import PROGRAM, TOP, Outcome, Tally, run
from serve_test import NO_MEMORY, server, told
from trees import Range, digest

PAGE = TOP / "docs/FORMATS.md"

QUOTED = re.compile(r"`([^`]*)`")
CODE = r"(?:[MOQNVIEPCGD]\d+)"

# The objects of the worked queries, as canonical lines.
FOUR = [
    "n1 v1 dV c5 t2020-01-02T03:04:05Z i7 uAnn Thighway=crossing x13.4 y52.5",
    "n2 v0 dV c0 t i0 u T x13.4000001 y52.5",
    "w10 v0 dV c0 t i0 u Thighway=primary,name=A%20%B Nn1,n2,n1",
    "r100 v0 dV c0 t i0 u Ttype=route Mw10@outer,n99@stop,r100@",
]
ONE = ["n1 v0 dV c0 t i0 u T x0 y0"]


class Page:
    """The page's tables, each a list of rows of cells with the first its heads; its code blocks; its paragraphs."""

    def __init__(self, text):
        self.tables, self.blocks, self.paragraphs = [], [], []
        fenced = None
        rows, block = [], []
        for line in [*text.split("\n"), ""]:
            if line.startswith("```"):
                if fenced is not None:
                    self.blocks.append(fenced)
                fenced = [] if fenced is None else None
                continue
            if fenced is not None:
                fenced.append(line)
                continue
            if line.startswith("|"):
                rows.append(cells_of(line))
            elif rows:
                self.tables.append([row for row in rows if set("".join(row)) - set("-: ")])
                rows = []
            if line.startswith("    "):
                block.append(line[4:])
            elif block:
                self.blocks.append(block)
                block = []
            if line and line[0] not in "|#" and not line.startswith("    "):
                self.paragraphs.append(line)

    def rows_where(self, is_one):
        """The rows of all tables of which this holds, each with the heads of its table."""
        return [(table[0], row) for table in self.tables for row in table[1:] if is_one(table[0], row)]

    def table_with(self, *heads):
        """The table whose heads begin so, each in any place."""
        for table in self.tables:
            if all(any(it.startswith(head) for it in table[0]) for head in heads):
                return table
        return []


def cells_of(line):
    """The cells of a row: what stands between bars that aren't within backquotes."""
    return [it.strip() for it in re.findall(r"((?:`[^`]*`|[^|`])+|(?<=\|)(?=\|))", line.strip().strip("|"))]


def column(heads, start):
    """The number of the column whose head begins so."""
    return next(number for number, head in enumerate(heads) if head.startswith(start))


def asked(query, text):
    return run([PROGRAM, "ask", "--", query], text.encode())


def check_found(tally, what, found, least):
    tally.check(f"the page has {what}", found >= least, found)


# ---- Lines, queries and the codes that are told of them


def texts_of(cell):
    """The texts of a cell, where `33 times` before one repeats it."""
    for times, text in re.findall(r"(?:(\d+) times )?`([^`]*)`", cell):
        yield text * int(times or 1)


def refusals(page):
    """Texts of the page with the code and the byte that it says of each, in tables and in paragraphs."""
    at = re.compile(rf"({CODE}) at (\d+)")
    for _, row in page.rows_where(lambda heads, row: len(row) == 2 and at.match(row[1])):
        for text in texts_of(row[0]):
            yield text, *at.match(row[1]).groups()
    for text in page.paragraphs:
        for found in re.finditer(rf"`([^`]*)` (?:is )?({CODE}) at (\d+)", text):
            yield found.groups()


def check_refusals(tally, page):
    met = {"O": 0, "Q": 0}
    for text, code, byte in refusals(page):
        met[code[0]] += 1
        if code[0] == "O":
            outcome = asked("nwr;out;", text)
            tally.check(f"line {text}", outcome == Outcome(b"", f"{code} line 1 byte {byte}\n".encode(), 2), outcome)
        elif text.startswith("data="):
            with server("/dev/null", "--connections", 1) as running:
                got = told(running, [POST + b"Content-Length: %d\r\n\r\n" % len(text) + text.encode()])
            tally.check(f"form {text}", got.endswith(f"\r\n\r\n{code} byte {byte}\n".encode()), got)
        else:
            outcome = asked(text, "")
            tally.check(f"query {text}", outcome == Outcome(b"", f"{code} byte {byte}\n".encode(), 2), outcome)
    check_found(tally, "refused lines", met["O"], 11)
    check_found(tally, "refused queries", met["Q"], 13)
    read = [found for text in page.paragraphs for found in re.findall(r"`([nwr]\d[^`]*)` is read", text)]
    for line in read:
        outcome = asked("nwr;out ids;", line)
        tally.check(f"{line} is read", outcome == Outcome(line.split()[0].encode() + b"\n", b"", 0), outcome)
    check_found(tally, "a line that is read", len(read), 1)


def check_codes(tally, page):
    """Each code of the index stands elsewhere on the page, and the other way round."""
    index = page.table_with("Code", "Means", "Program")
    listed = [row[0].strip("`") for row in index[1:]]
    tally.check("no code twice", len(set(listed)) == len(listed), listed)
    others = "\n".join(" | ".join(row) for table in page.tables if table is not index for row in table)
    others += "\n".join(page.paragraphs)
    spans = {f"{a[0]}{n}" for a, b in re.findall(r"\b([MOQNVIEPCGD]\d+) to ([MOQNVIEPCGD]\d+)\b", others)
             for n in range(int(a[1:]), int(b[1:]) + 1)}
    met = set(re.findall(rf"\b{CODE}\b", others)) | spans
    program = column(index[0], "Program")
    for row in index[1:]:
        code = row[0].strip("`")
        # (one that the program tells as another code may have nothing to be said of it)
        holds = code in met or f"`{code}`" in others or re.match(rf"no; {CODE}", row[program])
        tally.check(f"{code} stands elsewhere", holds)
    tally.check("each code is in the index", met <= set(listed), met - set(listed))
    check_found(tally, "codes", len(listed), 70)


def check_modes(tally, page):
    table = page.table_with("Mode", "Example")
    for mode, *_, example in table[1:]:
        outcome = asked(f"node(1);out {mode.strip('`').lower()};", "n1 Thighway=crossing x13.4 y52.5")
        tally.check(f"mode {mode}", outcome == Outcome(example.strip("`").encode() + b"\n", b"", 0), outcome)
    check_found(tally, "modes", len(table) - 1, 5)


def check_escapes(tally, page):
    """`Café` is `Caf%e9%`: what is written of a text; and of a tab, which the page can't show."""
    text = "\n".join(page.paragraphs)
    pairs = re.findall(r"`([^`%]+)` (?:is )?`([^`]*%[0-9a-f]+%[^`]*)`", text)
    pairs += [("%9%", found) for found in re.findall(r"\btab (?:is )?`([^`]*)`", text) if "%" in found]
    for text, written in pairs:
        outcome = asked("node(1);out tags;", f"n1 Ta={text} x0 y0")
        tally.check(f"escape {text}", outcome == Outcome(f"n1 Ta={written}\n".encode(), b"", 0), outcome)
    check_found(tally, "escapes", len(pairs), 3)


# ---- Boxes


BOX = re.compile(r"-?[\d.]+(?:,-?[\d.]+){3}")


def locations(cell):
    """The locations that a cell names, as longitude and latitude: `latitude A, longitude B`, `longitudes A and B at
    latitude C`; a latitude that isn't named is 0."""
    latitude = re.search(r"latitude (-?[\d.]*\d)", cell)
    longitudes = re.search(r"longitudes? (-?[\d.]*\d)(?: and (-?[\d.]*\d))?", cell)
    return [(it, latitude[1] if latitude else "0") for it in longitudes.groups() if it]


def check_boxes(tally, page):
    rows = page.rows_where(lambda heads, row: heads[0] == "Box" and BOX.fullmatch(row[0].strip("`")))
    for _, (box, inside, outside) in rows:
        for cell, answer in ((inside, b"n1\n"), (outside, b"")):
            for lon, lat in locations(cell):
                outcome = asked(f"node({box.strip('`')});out ids;", f"n1 x{lon} y{lat}")
                tally.check(f"box {box} and {lon} {lat}", outcome == Outcome(answer, b"", 0), outcome)
    check_found(tally, "boxes", len(rows), 2)
    for text in page.paragraphs:
        for edge in re.findall(r"by however little[^`]*`([^`]*)`", text):
            outcome = asked(f"node(0,0,0,{edge});out;", "")
            tally.check(f"edge {edge}", outcome == Outcome(b"", b"Q10 byte 5\n", 2), outcome)


def rounded(text, up):
    """An edge in whole units of 1e-7 degree, rounded up or down."""
    whole, _, fraction = text.removeprefix("-").partition(".")
    scaled, rest = int(whole + (fraction + "0000000")[:7]), fraction[7:].strip("0") != ""
    if text.startswith("-"):
        return -scaled - (rest and not up)
    return scaled + (rest and up)


def cell_ranges(box):
    """The ranges of keys of a box, as pairs of `lo` and `hi`."""
    south, west, north, east = box.split(",")
    low, high = rounded(south, True), rounded(north, False)
    left, right = rounded(west, True), rounded(east, False)
    columns = [(left, right)]
    if trees.units(west) > trees.units(east):
        columns = [(left, 1_800_000_000), (-1_800_000_000, right)]
    if low > high or left > right and len(columns) == 1:
        return []
    first, last = int.from_bytes(trees.cell(0, low)[:2], "big"), int.from_bytes(trees.cell(0, high)[:2], "big")
    return [(trees.number(row, 2) + trees.cell(a, 0)[2:], trees.number(row, 2) + trees.cell(b, 0)[2:])
            for row in range(first, last + 1) for a, b in columns]


def check_ranges_of_boxes(tally, page):
    """How many ranges the page says that a box has."""
    words = {"one": 1, "two": 2}
    told_of = [found for text in page.paragraphs for found in re.findall(r"box `([^`]*)` has (\w+)", text)]
    for box, number in told_of:
        expected = words.get(number) or int(number)
        tally.check(f"ranges of {box}", len(cell_ranges(box)) == expected, len(cell_ranges(box)))
    check_found(tally, "ranges of boxes", len(told_of), 3)
    return [end.hex() for box, _ in told_of for pair in cell_ranges(box)[:2] for end in pair]


# ---- Queries and answers


def answers_of(cell):
    """What a cell says of a query: pairs of what takes the place of a part of it (or None), and the answer."""
    for number, part in enumerate(re.findall(r"(?:`[^`]*`|[^;`])+", cell)):
        quoted = QUOTED.findall(part)
        if number == 0:
            yield None, quoted[0] if quoted and not part.strip().startswith("nothing") else ""
        elif part.strip().startswith("with "):
            yield quoted[0], quoted[1] if len(quoted) > 1 else ""


def with_part(query, part):
    """The query with its recursion, or its last out, replaced."""
    if part is None:
        return query
    if part.startswith("out"):
        return re.sub(r"out[^;]*;$", f"{part};", query)
    return re.sub(r"(?<![-<>])[<>]{1,2}(?=;)", part, query)


def check_queries(tally, page):
    """The worked queries, over the block of objects before them."""
    objects = next(block for block in page.blocks if block and re.match(r"n1 v1 ", block[0]))
    text = "\n".join(objects) + "\n"
    canonical = asked("nwr;out meta;", text)
    tally.check("the four objects", canonical == Outcome("".join(f"{it}\n" for it in FOUR).encode(), b"", 0), canonical)
    table, met = page.table_with("Query", "Answer"), 0
    for queries, cell in table[1:]:
        for query in QUOTED.findall(queries):
            for part, answer in answers_of(cell):
                met += 1
                outcome = asked(with_part(query, part), text)
                expected = "".join(f"{line}\n" for line in answer.split("/")) if answer else ""
                tally.check(f"{query} with {part}", outcome == Outcome(expected.encode(), b"", 0), outcome)
    check_found(tally, "worked queries", met, 18)


def check_works(tally, page):
    """The works of the worked queries: by them and no less the checker says yes."""
    table = page.table_with("Query", "Steps", "Work")
    for query, steps, size, work in table[1:]:
        query, work = query.strip("`"), int(work)
        tally.check(f"work of {query}", work == 100 * int(steps) + int(size), steps, size, work)
        with tempfile.TemporaryDirectory() as room:
            files = [Path(room) / name for name in ("set", "query", "answer", "proof")]
            files[0].write_text("".join(f"{it}\n" for it in FOUR), encoding="utf-8")
            files[1].write_text(query, encoding="utf-8")
            root = run([PROGRAM, "prove", *files]).stdout.strip()
            size_is = files[2].stat().st_size == int(size)
            for budget, want in [(work, Outcome(b"yes\n", b"", 0)), (work - 1, Outcome(b"", b"no work\n", 3))]:
                outcome = run([PROGRAM, "check", "--max-work", str(budget), root, *files[1:]])
                tally.check(f"{query} within {budget}", outcome == want and size_is, outcome)
    check_found(tally, "works", len(table) - 1, 7)


# ---- The command line and HTTP


def check_statuses(tally, page):
    """The lines on standard error, each with its status."""
    with tempfile.TemporaryDirectory() as room:
        file = Path(room) / "set.opl"
        file.write_bytes(b"n1 x13.4\n")
        runs = {
            "bad root": ["check", "0" * 63, file, file, file],
            "bad form": ["ask", "node(1);out;", "--form", "yaml"],
            "bad edition": ["publish", file, "--edition", "3"],
            "O9 line 1 byte 8": ["publish", file],
            "Q11 byte 7": ["prove", "/dev/null", file, Path(room) / "a", Path(room) / "p"],
            "device": ["publish", Path(room) / "none"],
            "no memory": ["publish", file],
        }
        rows = page.rows_where(lambda heads, row: heads[-1] == "Status" and row[-1].isdigit())
        met = {}
        for _, row in rows:
            for line in QUOTED.findall(row[0]):
                if line in runs and line not in met:
                    file.write_bytes(b"node(1)" if line.startswith("Q11") else b"n1 x13.4\n")
                    refusing = {"REFUSE_ALLOCATION": 1} if line == "no memory" else None
                    outcome = run([PROGRAM, *runs[line]], b"", refusing)
                    tally.check(f"status of {line}", outcome == Outcome(b"", f"{line}\n".encode(), int(row[-1])), outcome)
                    met[line] = row[-1]
        check_found(tally, "lines on standard error", len(met), len(runs))


POST = b"POST /api/interpreter HTTP/1.1\r\n"
REQUESTS = {
    "head too large": [b"a" * 8192, b"GET / HTTP/1.1\r\n" + b"A: b\r\n" * 65 + b"\r\n"],
    "bad head": [b"?\r\n\r\n"],
    "transfer coding": [POST + b"Transfer-Encoding: chunked\r\n\r\n"],
    "bad length": [POST + b"Content-Length: 1\r\nContent-Length: 1\r\n\r\n", POST + b"Content-Length: 1a\r\n\r\n"],
    "length required": [POST + b"\r\n"],
    "too large": [POST + b"Content-Length: 1048577\r\n\r\n"],
    "not found": [b"GET /x HTTP/1.1\r\n\r\n"],
    "method not allowed": [b"PUT /api/root HTTP/1.1\r\nContent-Length: 0\r\n\r\n"],
    "no data": [b"GET /api/interpreter HTTP/1.1\r\n\r\n"],
    "Q7 byte 5": [b"GET /api/interpreter?data=node%5B~ HTTP/1.1\r\n\r\n"],
}


def check_http(tally, page):
    """Refused requests: status, text, and whether the connection is closed; the paths; the response without memory."""
    rows = [(row, found) for _, row in page.rows_where(lambda heads, row: len(row) == 3)
            if (found := re.match(r"(\d{3}) (?:with[^`]*)?`([^`]*)`", row[1]))]
    met = set()
    with server("/dev/null") as running:
        for row, (status, text) in [(row, found.groups()) for row, found in rows]:
            for request in REQUESTS.get(text, []):
                met.add(text)
                got = told(running, [request])
                head, _, body = got.partition(b"\r\n\r\n")
                closes = b"\r\nConnection: close" in head
                holds = head.startswith(f"HTTP/1.1 {status} ".encode()) and body == f"{text}\n".encode()
                tally.check(f"HTTP {text}", holds and closes == ("closed" in row[2]), got)
        paths = [row for _, row in page.rows_where(lambda heads, row: row[0].startswith("`/api/"))]
        for path, methods, _ in paths:
            got = told(running, [f"DELETE {path.strip('`')} HTTP/1.1\r\n\r\n".encode()])
            tally.check(f"methods of {path}", f"\r\nAllow: {methods}\r\n".encode() in got, got)
    check_found(tally, "refused requests", len(met), len(REQUESTS))
    check_found(tally, "paths", len(paths), 3)
    block = next((block for block in page.blocks if block and block[0].startswith("HTTP/1.1 503")), [])
    tally.check("the response without memory", ("\r\n".join(block) + "\n").encode() == NO_MEMORY, block)


# ---- Nodes, trees, ranges and proofs


KEYS_65 = [(bytes([number]), b"") for number in range(65)]
KEYS_130 = [(b"a\0" + bytes([number]), b"") for number in range(130)]


def calculated(boxes):
    """Values of which each hexadecimal text of the page is a part."""
    one, four = trees.manifest_of(ONE, 1)[1], trees.entries_of(FOUR)
    of_65 = trees.tree_of(2, KEYS_65, 1)
    of_three = trees.tree_of(1, [(bytes([key]), b"") for key in (9, 10, 11)], 2)
    nodes = [levels[0][0] for levels in one.values()]
    nodes += [node for levels in (*of_65, *of_three) for node in levels]
    values = [node.hex() for node in nodes] + [digest(levels[-1][0]).hex() for levels in (of_65, of_three)]
    values += [text.hex() for text in four[3][0]]
    values += [trees.root_of(lines, *of) for lines in ([], FOUR) for of in ((1,), (2, 0), (2, 7))]
    values += [packs.pack_of(packs.example()).hex(), packs.further_example().hex()]
    return values + boxes + [key.hex() for key, _ in (KEYS_130[0], KEYS_130[-1])] + [b"a\0".hex(), "3f00", "01000000"]


def hexadecimals(page):
    """Runs of quoted hexadecimal texts with one space between two, from paragraphs and tables, apart from faulty nodes."""
    texts = page.paragraphs + [cell for table in page.tables if table[0][0] != "Bytes" for row in table for cell in row]
    for text in texts:
        for found in re.findall(r"`[0-9a-f]{2,}`(?: `[0-9a-f]{2,}`)*", text):
            run_of = found.replace("`", "").replace(" ", "")
            if len(run_of) >= 4 and re.search(r"\d", run_of):
                yield run_of


def check_hexadecimals(tally, page, boxes):
    values, met = calculated(boxes), 0
    for text in hexadecimals(page):
        met += 1
        holds = any(value[at : at + len(text)] == text for value in values for at in range(0, len(value), 2))
        tally.check(f"{text} is calculated", holds)
    check_found(tally, "hexadecimal texts", met, 30)
    text = "\n".join(page.paragraphs)
    for root in [it for it in values if len(it) == 64]:
        in_table = any(root in cell for table in page.tables for row in table for cell in row)
        tally.check(f"{root} stands on the page", in_table or f"`{root}`" in text)
    for lines, of in [(lines, of) for lines in ([], FOUR) for of in ((1,), (2, 0), (2, 7))]:
        words = ["--edition", str(of[0]), "--sequence", str(of[-1] if of[0] == 2 else 0)]
        with tempfile.NamedTemporaryFile() as file:
            file.write("".join(f"{line}\n" for line in lines).encode())
            file.flush()
            outcome = run([PROGRAM, "publish", file.name, *words])
        tally.check(f"root in {of}", outcome == Outcome(f"{trees.root_of(lines, *of)}\n".encode(), b"", 0), outcome)


def check_nodes(tally, page):
    """Bytes that are no node, and sizes of nodes."""
    rows = page.rows_where(lambda heads, row: heads[0] == "Bytes" and re.fullmatch(r"N\d", row[1]))
    met = 0
    for _, (texts, code) in rows:
        for text in [*QUOTED.findall(texts), *([""] if texts.startswith("none") else [])]:
            met += 1
            tally.check(f"node {text}", trees.fault_of(bytes.fromhex(text)) == code, trees.fault_of(bytes.fromhex(text)))
    check_found(tally, "faulty nodes", met, 8)
    of_65 = trees.tree_of(2, KEYS_65, 1)
    whole = "\n".join([*page.paragraphs, *[cell for table in page.tables for row in table for cell in row]])
    sizes = re.findall(r"leaves of (\d+) and (\d+) bytes and a top of (\d+)", whole)
    expected = [str(len(node)) for nodes in of_65 for node in nodes]
    tally.check("sizes of nodes", sizes != [] and all(list(it) == expected for it in sizes), sizes, expected)
    many = trees.tree_of(1, [(trees.number(key, 2), b"") for key in range(4097)], 1)
    expected = f"{len(many[0])} leaves, {len(many[1])} nodes of level 1, a top of level {len(many) - 1}"
    tally.check("4,097 entries", expected in whole and len(many[-1]) == 1, expected)
    for edition, size in (("1", 133), ("2", 141)):
        row = [row for _, row in page.rows_where(lambda heads, row: heads[0] == "Edition" and row[0] == edition)]
        held = len(trees.manifest_of([], int(edition))[0])
        tally.check(f"manifest {edition}", held == size and any(f"{size} bytes" in cell for it in row for cell in it), row)
    marked = [key for key in (9, 10, 11) if digest(bytes([key]))[0] < 8]
    tally.check("one key is marked", marked == [10] and digest(b"\x0a")[0] == 1 and "`01`" in whole, marked)


def range_of(cell):
    """The range that a cell names."""
    if cell.startswith("all keys"):
        return Range(b"", b"", True)
    pair = re.search(r"`lo` `([0-9a-f]+)`, `hi` `([0-9a-f]+)`", cell)
    both = re.search(r"`lo` and `hi` `([0-9a-f]+)`", cell)
    ends = pair.groups() if pair else (both[1], both[1]) if both else ("", "")
    return Range(*map(bytes.fromhex, ends), "`under`" in cell)


PLACES = {"none": [], "first": [0], "second": [1], "both": [0, 1], "all three": [0, 1, 2], "second and the third": [1, 2]}


def places_in(cell):
    """The leaves that a cell names, as places."""
    return next(PLACES[word] for word in sorted(PLACES, key=len, reverse=True) if word in cell)


def check_ranges(tally, page):
    """What ranges hold, which nodes meet them, and what walks and counts fetch."""
    met, levels = 0, None
    for table in page.tables:
        heads = table[0]
        if heads[:2] != ["Tree", "Range"]:
            continue
        for row in table[1:]:
            if "65 keys" in row[0]:
                levels = trees.tree_of(2, KEYS_65, 1)
            elif "130 keys" in row[0]:
                levels = trees.tree_of(2, KEYS_130, 1)
            elif not row[0].startswith("the same"):
                continue
            met += 1
            keys = range_of(row[1])
            found, fetched, covered = trees.walk(levels, keys)
            number, counted, _ = trees.walk(levels, keys, counts=True)
            told_of = 0 if row[2] == "none" else int(row[2])
            tally.check(f"entries of {row[:2]}", len(found) == number == told_of, len(found), number)
            if heads[3].startswith("Fetches"):
                fetches = [len(fetched), len(counted)]
                tally.check(f"fetches of {row[:2]}", fetches == [int(it) for it in row[3:5]], fetches)
            else:
                leaves = [levels[0].index(node) for node in fetched[1:]]
                left_out = [place for place in leaves if levels[0][place] not in counted]
                holds = [leaves, left_out] == [places_in(it) for it in row[3:5]] and len(left_out) == covered
                tally.check(f"nodes of {row[:2]}", holds, leaves, left_out, covered)
    check_found(tally, "ranges", met, 14)


def proved(room, lines, query, *words):
    """What `prove` writes: root, answer and proof, and the files of query, answer and proof."""
    files = [Path(room) / name for name in ("query", "answer", "proof")]
    (Path(room) / "set.opl").write_text("".join(f"{line}\n" for line in lines), encoding="utf-8")
    files[0].write_text(query, encoding="utf-8")
    outcome = run([PROGRAM, "prove", Path(room) / "set.opl", *files, *words])
    return outcome.stdout.decode().strip(), files


def check_proofs(tally, page):
    """Sizes of proofs, and what is printed of spoiled ones."""
    worked = next((it for it in page.paragraphs if it.startswith("Worked") and "no C8" in it), "")
    printed = {row[0].strip("`") for _, row in page.rows_where(lambda heads, row: heads[0] == "Printed")}
    met = set()
    with tempfile.TemporaryDirectory() as room:

        def verdict(name, root, files, expected, said):
            outcome = run([PROGRAM, "check", root, *files])
            met.add(expected)
            status = 0 if expected == "yes" else 1
            tally.check(f"proof {name}", outcome == Outcome(f"{expected}\n".encode(), b"", status) and said, outcome, said)

        for lines, query, words, size in [
            ([], "node(1);out;", ["--edition", "1"], r"proof of (\d+) bytes"),
            ([], "node(1);out;", [], r"sequence 0 it has (\d+)"),
            (FOUR, ".a out;", ["--edition", "1"], r"`\.a out;` has a proof of (\d+) bytes"),
        ]:
            root, files = proved(room, lines, query, *words)
            edition = 1 if words else 2
            manifest, levels = trees.manifest_of(lines, edition)
            nodes = [manifest, *(levels[1][-1] if lines == [] else [])]
            expected = trees.proof_of([manifest] if query == ".a out;" else nodes)
            found = re.search(size, worked)
            holds = found and int(found[1]) == len(expected) and files[2].read_bytes() == expected
            tally.check(f"proof of {query} {words}", holds and root == digest(manifest).hex(), found, len(expected))
            verdict(f"of {query} {words}", root, files, "yes", True)
        spoiled(room, verdict, worked)
    tally.check("what is printed is met", met >= {it for it in printed if it.split()[-1] not in ("C5", "C6", "C7")}, printed - met)
    check_found(tally, "verdicts", len(printed), 10)


def spoiled(room, verdict, worked):
    """The proof of `node(1);out;` over the four objects, spoiled as the page says."""
    root, files = proved(room, FOUR, "node(1);out;", "--edition", "1")
    manifest, levels = trees.manifest_of(FOUR, 1)
    leaf, tags = levels[1][0][0], levels[2][-1][0]
    answer, proof = files[1].read_bytes(), trees.proof_of([manifest, leaf])
    ordered = sorted([manifest, leaf], key=digest)
    swapped = proof[:9] + b"".join(trees.number(len(node), 4) + node for node in reversed(ordered))
    cases = [
        ("as it is", proof, "yes", True),
        ("a byte of the leaf changed", trees.proof_of([manifest, leaf[:-1] + b"?"]), "no C4", r"leaf changed[^;]*`no C4`"),
        ("swapped", swapped, "no C3", r"swapped `no C3`"),
        ("without its last byte", proof[:-1], "no C2", r"last byte `no C2`"),
        ("with the tag tree's top", trees.proof_of([manifest, leaf, tags]), "no C8", r"added[^;]*`no C8`"),
    ]
    for name, other, expected, said in cases:
        files[2].write_bytes(other)
        verdict(name, root, files, expected, said is True or re.search(said, worked) is not None)
    files[2].write_bytes(proof)
    wrong = re.search(r"answer `([^`]*)`[^`]*`(no C9 \d+)`", worked)
    files[1].write_bytes(wrong[1].encode() + b"\n" if wrong else b"")
    verdict("another answer", root, files, "no C9 4", wrong and wrong[2] == "no C9 4")
    files[1].write_bytes(answer)
    verdict("under a root of edition 2", trees.root_of(FOUR, 2), files, "no C4", "edition 2 is `no C4`" in worked)
    files[0].write_bytes(b"node(1)")
    verdict("a query that doesn't read", root, files, "no C1 Q11 7", True)


def main():
    tally = Tally()
    page = Page(PAGE.read_text(encoding="utf-8"))
    check_codes(tally, page)
    check_refusals(tally, page)
    check_modes(tally, page)
    check_escapes(tally, page)
    check_boxes(tally, page)
    check_queries(tally, page)
    check_works(tally, page)
    check_statuses(tally, page)
    check_http(tally, page)
    boxes = check_ranges_of_boxes(tally, page)
    check_hexadecimals(tally, page, boxes)
    check_nodes(tally, page)
    check_ranges(tally, page)
    check_proofs(tally, page)
    tally.end()


if __name__ == "__main__":
    main()
