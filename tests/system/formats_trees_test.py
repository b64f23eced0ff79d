"""docs/FORMATS.md says what is so, further: documents in JSON and XML, numbers and edges, the nodes that queries need, trees
that no publisher makes, changes and their root lines, and the tables of packs. Each is read from the page, and compared with
what the program does, or with a calculation by hashlib alone (trees.py, packs.py)."""

import re
import tempfile
from pathlib import Path

import packs
import trees
from formats_test import FOUR, ONE, PAGE, QUOTED, Page, asked, check_found, column, proved
from runs import PROGRAM, Outcome, Tally, run
from trees import Item, Range, digest, inner, leaf, number, reference

NUMBERS = {"one": 1, "two": 2, "three": 3, "four": 4, "five": 5, "six": 6}


def paragraph_with(page, *parts):
    """The paragraph that has all these parts, empty where there is none."""
    return next((it for it in page.paragraphs if all(part in it for part in parts)), "")


# ---- Numbers and edges


def check_decimals(tally, page):
    """Texts that aren't decimals, as degrees of a node; edges that are, and how they compare."""
    rows = page.rows_where(lambda heads, row: row[0] == "M2" and row[1].startswith("not a decimal: `"))
    texts = [text for _, row in rows for text in QUOTED.findall(row[1].rsplit(": ", 1)[1])]
    for text in texts:
        outcome = asked("node;out;", f"n1 x{text} y0")
        tally.check(f"{text} isn't decimal", outcome == Outcome(b"", b"O6 line 1 byte 3\n", 2), outcome)
    check_found(tally, "texts that aren't decimal", len(texts), 5)
    whole = "\n".join(page.paragraphs)
    taken = re.search(r"`([^`]*)` is in the range of a longitude, and `([^`]*)` is 0", whole)
    above = re.search(r"`([^`]*)` is above `([^`]*)`, while `([^`]*)` and `([^`]*)` are equal", whole)
    between = re.search(r"`([^`]*)` is above ([\d.]+) and below ([\d.]+\d)", whole)
    tally.check("edges that compare", None not in (taken, above, between), taken, above, between)
    if None in (taken, above, between):
        return
    boxes = [
        # The greatest longitude, and the least latitude that is 0.
        (f"0,0,0,{taken[1]}", "n1 x180 y0", b"n1\n"),
        (f"{taken[2]},0,0,0", "n1 x0 y0", b"n1\n"),
        (f"{above[3]},0,{above[4]},0", f"n1 x0 y{above[4]}", b"n1\n"),
        (f"{above[4]},0,{above[3]},0", f"n1 x0 y{above[4]}", b"n1\n"),
        # The edge is above the one location and below the other, whichever side it stands on.
        (f"0,{between[1]},0,180", f"n1 x{between[2]} y0", b""),
        (f"0,{between[1]},0,180", f"n1 x{between[3]} y0", b"n1\n"),
        (f"0,-180,0,{between[1]}", f"n1 x{between[2]} y0", b"n1\n"),
        (f"0,-180,0,{between[1]}", f"n1 x{between[3]} y0", b""),
    ]
    for box, line, answer in boxes:
        outcome = asked(f"node({box});out ids;", line)
        tally.check(f"box {box} and {line}", outcome == Outcome(answer, b"", 0), outcome)
    outcome = asked(f"node({above[1]},0,{above[2]},0);out;", "")
    tally.check(f"south {above[1]}, north {above[2]}", outcome == Outcome(b"", b"Q10 byte 5\n", 2), outcome)


# ---- Documents


def spelled(cell):
    """The text that a cell spells, of quoted parts and LF."""
    return "".join("\n" if end else part for end, part in re.findall(r"(LF)|`([^`]*)`", cell))


# An object of each kind, so that each fragment of the table stands in one of them.
SHOWN = [FOUR[0], "w10 v0 dV c0 t i0 u Thighway=primary Nn1,n2,n1", "r100 v0 dV c0 t i0 u T Mw10@outer"]
MODES = ["ids", "tags", "skel", "body", "meta"]


def document(form, query, lines):
    """The document of an answer."""
    text = "".join(f"{line}\n" for line in lines).encode()
    return run([PROGRAM, "ask", "--form", form, "--", query], text)


def check_documents(tally, page):
    table = page.table_with("Form", "Media type", "Beginning")
    examples = next((block for block in page.blocks if block and block[0].startswith('{"type":"node"')), ["", ""])
    for form, _, beginning, _, end in table[1:]:
        shown = examples[0] if form == "JSON" else examples[1]
        wanted = spelled(beginning) + (f"\n{shown}" if form == "JSON" else f"{shown}\n") + spelled(end)
        outcome = document(form.lower(), "node(1);out meta;", FOUR)
        tally.check(f"document in {form}", outcome == Outcome(wanted.encode(), b"", 0), outcome, wanted)
        outcome = document(form.lower(), "node(7);out;", FOUR)
        wanted = spelled(beginning) + spelled(end)
        tally.check(f"document in {form} without objects", outcome == Outcome(wanted.encode(), b"", 0), outcome, wanted)
        ids = document(form.lower(), "node;out ids;", FOUR).stdout.decode()
        wanted = [f'"id":{n}' if form == "JSON" else f'id="{n}"' for n in (1, 2)]
        between = spelled(table[[row[0] for row in table].index(form)][3])
        parts = ids.removeprefix(spelled(beginning)).removesuffix(spelled(end)).strip("\n").split("\n")
        joined = len(parts) == 2 and parts[0].endswith(between) and all(it in part for it, part in zip(wanted, parts))
        tally.check(f"objects in {form}", joined and (between == "" or not parts[1].endswith(between)), ids)
    check_found(tally, "forms", len(table) - 1, 2)
    check_fragments(tally, page)
    check_escapes(tally, page)


def check_fragments(tally, page):
    """Each fragment of the table of documents stands in the modes that it names, and in no other."""
    table = page.table_with("What", "JSON", "XML", "In the modes")
    begun = {row[0]: spelled(row[2]) for row in page.table_with("Form", "Media type", "Beginning")[1:]}
    got, met = {}, 0
    for form, mode in [(form, mode) for form in begun for mode in MODES]:
        got[form, mode] = document(form.lower(), f"nwr;out {mode};", SHOWN).stdout.decode().removeprefix(begun[form])
    for row in table[1:]:
        modes = MODES if row[3] == "all" else row[3].split(", ")
        for form in begun:
            cell = row[column(table[0], form)]
            quoted = QUOTED.findall(cell)
            for mode in MODES:
                text = got[form, mode]
                if cell.endswith("in this order"):
                    names = [it if form == "JSON" else f' {it}="' for it in quoted]
                    places = [text.find(name) for name in names]
                    holds = places == sorted(places) and (min(places) > 0 if mode in modes else max(places) < 0)
                else:
                    holds = (quoted[0] in text) == (mode in modes)
                met += 1
                tally.check(f"{row[0]} in {form}, {mode}", holds, quoted, text)
    check_found(tally, "fragments of documents", met, 60)


def check_escapes(tally, page):
    """How texts are written: what stands in place of which character, in the order of the page."""
    text = paragraph_with(page, "**Texts in JSON**")
    json = re.search(r"shortest of its escapes \(([^)]*)\)", text)
    entities = re.findall(r"`(&[^`]*;)`", text)
    replaced = re.search(r"U\+(FFFD) stands for each", text)
    tally.check("escapes are read", json is not None and len(entities) == 7 and replaced is not None, text)
    if json is None or replaced is None:
        return
    short = QUOTED.findall(json[1])
    value = "%8%%9%%a%%c%%d%%1%"
    wanted = "".join(short[:5]) + short[5] + "01"
    outcome = document("json", "node(1);out tags;", [f"n1 Ta={value} x0 y0"])
    tally.check("escapes in JSON", f'"tags":{{"a":"{wanted}"}}'.encode() in outcome.stdout, outcome, wanted)
    outcome = document("xml", "node(1);out tags;", ["n1 Ta=&<>\"%9%%a%%d% x0 y0"])
    tally.check("escapes in XML", f'v="{"".join(entities)}"'.encode() in outcome.stdout, outcome, entities)
    outcome = document("xml", "node(1);out tags;", ["n1 Ta=%1%%fffe%%ffff% x0 y0"])
    wanted = 3 * chr(int(replaced[1], 16))
    tally.check("what XML can't hold", f'v="{wanted}"'.encode() in outcome.stdout, outcome, wanted)
    outcome = document("json", "node(1);out tags;", ['n1 Ta="\\ x0 y0'])
    tally.check("quotes in JSON", b'"a":"\\"\\\\"' in outcome.stdout, outcome)


# ---- The nodes that queries need


def check_needed_nodes(tally, page):
    """The nodes that the page says three queries need over 65 nodes: a proof lists just them, and is right."""
    text = paragraph_with(page, "`n65 x0 y0`", "needs the manifest")
    said = [
        (r"`(node\(64\);out ids;)` needs the manifest, that node and the first leaf", b"n64\n", [0]),
        (r"`(node\(65\);out ids;)` the second leaf instead", b"n65\n", [1]),
        (r"`(node\(66\);out ids;)` the manifest and that node alone", b"", []),
    ]
    lines = [f"n{n} v0 dV c0 t i0 u T x0 y0" for n in range(1, 66)]
    manifest, levels = trees.manifest_of(lines, 1)
    objects = levels[1]
    tally.check("leaves of 64 and 1 under one node", [len(it) for it in objects] == [2, 1] and objects[0][1][2:4] == b"\0\1")
    for pattern, answer, leaves in said:
        found = re.search(pattern, text)
        tally.check(f"the page has {pattern}", found is not None, text)
        with tempfile.TemporaryDirectory() as room:
            query = found[1] if found else "node(66);out ids;"
            root, files = proved(room, lines, query, "--edition", "1")
            listed = trees.proof_of([manifest, objects[1][0], *(objects[0][it] for it in leaves)])
            tally.check(f"{query} needs these", files[2].read_bytes() == listed and files[1].read_bytes() == answer)
            outcome = run([PROGRAM, "check", root, *files])
            tally.check(f"{query} is right", outcome == Outcome(b"yes\n", b"", 0), outcome)


def check_numbers_of_nodes(tally, page):
    """How many nodes the page says that a query needs over the four objects, in one mode and in another."""
    text = paragraph_with(page, "needs two nodes")
    found = re.search(r"`([^`]*out ids;)` needs (\w+) nodes, and with `(out;)` (\w+)", text)
    tally.check("numbers of nodes", found is not None, text)
    if found is None:
        return
    for query, word in ((found[1], found[2]), (found[1].replace("out ids;", found[3]), found[4])):
        with tempfile.TemporaryDirectory() as room:
            _, files = proved(room, FOUR, query, "--edition", "1")
            listed = int.from_bytes(files[2].read_bytes()[5:9], "big")
        tally.check(f"{query} needs {word} nodes", listed == NUMBERS[word], listed)


# ---- Trees that no publisher makes


ALL = Range(b"", b"", True)


def met_fault(held, top, tree, keys):
    """The code of the first fault that a walk meets, or None, and how many nodes it fetches: level by level, from the left."""
    waiting, fetches = [(top, None, None, None)], 0
    while waiting:
        wanted, stated, left, level = waiting.pop(0)
        fetches += 1
        node = held.get(wanted)
        if node is None:
            return "V1", fetches
        if trees.fault_of(node) is not None:
            return "V2", fetches
        if node[0] != tree or (level is not None and node[1] != level):
            return "V3", fetches
        children = trees.children_of(node)
        entries = trees.entries_in(node) if children is None else None
        if stated is not None and not is_as_stated(entries, children, stated, left):
            return "V4", fetches
        for child in children or []:
            if keys.met_by(left, child.key):
                waiting.append((child.digest, child, left, node[1] - 1))
            left = child.key
    return None, fetches


def is_as_stated(entries, children, stated, left):
    """Whether a node's keys and number of entries are what its parent says, above the left bound."""
    keys = [key for key, _ in entries] if children is None else [child.key for child in children]
    number_of = len(entries) if children is None else sum(child.entries for child in children)
    return keys[:1] != [] and (left is None or keys[0] > left) and keys[-1] == stated.key and number_of == stated.entries


KEY = reference("n1")
LEAF = leaf(1, [(KEY, ONE[0].encode())])


def one_child_each():
    """63 levels of one child each over one leaf: the levels, leaves first."""
    levels = [[LEAF]]
    for level in range(1, 64):
        levels.append([inner(1, level, [Item(KEY, 1, digest(levels[-1][0]))])])
    return levels


def one_child_many_times():
    """Six levels over one leaf, each of one node that names the one below it 64 times, with rising keys."""
    levels, entries = [[LEAF]], 1
    for level in range(1, 7):
        below = digest(levels[-1][0])
        levels.append([inner(1, level, [Item(KEY + bytes([place]), entries, below) for place in range(64)])])
        entries *= 64
    return levels


def packed(objects):
    """The pack of a manifest of edition 1 over this tree of objects and three trees without entries, and its root."""
    levels = [objects, *([[leaf(tree, [])]] for tree in (2, 3, 4))]
    manifest = b"OSMM\1" + b"".join(digest(it[-1][0]) for it in levels)
    return packs.pack_of(packs.in_order(manifest, levels)), digest(manifest).hex()


def check_deep_trees(tally, page):
    """The rows of walks over trees that no publisher makes; `query` of a pack that has them."""
    rows = page.rows_where(lambda heads, row: len(row) == 5 and heads[:2] == ["Tree", "Range"] and "level" in row[0])
    made = {"63 levels": (one_child_each(), Outcome(b"n1\n", b"", 0)), "six levels": (one_child_many_times(), Outcome(b"", b"E1\n", 1))}
    for _, row in rows:
        levels, wanted = next((it for name, it in made.items() if row[0].startswith(name)), ([], None))
        tally.check(f"{row[0]} is made", levels != [], row)
        if not levels:
            continue
        held = {digest(node): node for nodes in levels for node in nodes}
        fault, fetches = met_fault(held, digest(levels[-1][0]), 1, ALL)
        told_of = fault or str(len(trees.walk(levels, ALL)[0]))
        tally.check(f"walk over {row[0]}", [told_of, str(fetches)] == row[2:4], told_of, fetches)
        pack, root = packed(levels)
        with tempfile.NamedTemporaryFile() as file:
            file.write(pack)
            file.flush()
            outcome = run([PROGRAM, "query", root, file.name, "node;out ids;"])
        tally.check(f"query over {row[0]}", outcome == wanted, outcome)
    check_found(tally, "trees that no publisher makes", len(rows), 2)


# ---- Changes and root lines


def changed(room, changes, sequence=0):
    """What `changes` says of a change file over the four objects, and the file afterwards."""
    objects, file = Path(room) / "set.opl", Path(room) / "changes.opl"
    objects.write_text("".join(f"{line}\n" for line in FOUR), encoding="utf-8")
    file.write_bytes(changes)
    return run([PROGRAM, "changes", objects, str(sequence), file]), file.read_bytes()


def check_changes(tally, page):
    """The worked change, the refusals that are given as examples, and the lines that announce a root, or don't."""
    text = paragraph_with(page, "Worked: over the", "removes n1")
    found = re.search(r"`([^`]*)` removes n1\. Its entries in trees 1, 2 and 3 are removed\. Tree 4 stays", text)
    tally.check("the worked change", found is not None, text)
    rest = [line for line in FOUR if not line.startswith("n1 ")]
    old, new = trees.entries_of(FOUR), trees.entries_of(rest)
    gone = {tree: [key for key, _ in old[tree] if key not in dict(new[tree])] for tree in old}
    is_n1 = all(key.endswith(reference("n1")[1:]) for keys in gone.values() for key in keys)
    tally.check("what n1 leaves", [len(gone[tree]) for tree in (1, 2, 3, 4)] == [1, 1, 1, 0] and is_n1 and old[4] == new[4], gone)
    root = trees.root_of(rest, 2, 1)
    block = next((block for block in page.blocks if block and block[0].startswith("# root ")), [""])
    with tempfile.TemporaryDirectory() as room:
        line = f"{found[1]}\n".encode() if found else b""
        outcome, file = changed(room, line)
        tally.check("its root", outcome == Outcome(f"{root}\n".encode(), b"", 0), outcome, root)
        announced = block[0].replace("HEX", root).encode() + b"\n"
        tally.check("its root line", file == line + announced and len(block) == 1, file, announced)
        # A line that begins so is replaced; the ones that the page says announce nothing stay, and so does one before the last.
        outcome, file = changed(room, line + block[0].replace("HEX", 64 * "0").encode() + b"\n\n")
        tally.check("a root line is replaced", file == line + announced, file)
        nothing = re.search(r"announces nothing \(([^)]*)\)", "\n".join(page.paragraphs))
        others = QUOTED.findall(nothing[1]) if nothing else []
        for other in [*others, f"{block[0].replace('HEX', 64 * '0')}\n# a comment"]:
            kept = line + other.encode() + b"\n"
            outcome, file = changed(room, kept)
            tally.check(f"{other!r} stays", file == kept + announced, outcome, file)
        check_found(tally, "lines that announce nothing", len(others), 2)
        check_refused_changes(tally, page, room)


def check_refused_changes(tally, page, room):
    """`D4 I2 w7`, `I3 n5`: the code and the object that are told of the earliest such change."""
    # (what is told of an object that is there, of another set, is had in formats_lines_test.py)
    there = {line.split(" ")[0] for line in FOUR}
    told = {text for row in page.rows_where(lambda heads, row: True) for cell in row[1] for text in QUOTED.findall(cell)
            if re.fullmatch(r"(?:D4 )?I[23] [nwr]\d+", text) and text.split()[-1] not in there}
    for text in sorted(told):
        code, name = text.removeprefix("D4 ").split(" ")
        changes = {"I2": f"{name} dD\nn98 dD\n", "I3": f"n6 x0 y0\n{name} x0 y0\n{name} dD\nn6 dD\n"}[code]
        outcome, file = changed(room, changes.encode())
        tally.check(f"{text} is told", outcome == Outcome(b"", f"{code} {name}\n".encode(), 2), outcome)
        tally.check(f"{text} changes nothing", file == changes.encode(), file)
    check_found(tally, "objects of refused changes", len(told), 3)


# ---- Packs


def check_packs(tally, page):
    """The tables of the pack that is worked: offsets, lengths, records and the places of children; the fields of a header."""
    nodes = packs.example()
    pack, at = packs.pack_of(nodes), packs.HEADER
    table = page.table_with("Offset", "Bytes", "Record", "Table")
    tally.check("each node has its row", len(table) - 1 == len(nodes), len(table))
    for node, (offset, size, record, places) in zip(nodes, table[1:]):
        length = 4 + len(node) + 12 * len(packs.children_of(node))
        tally.check(f"record at {offset}", [int(offset), int(size)] == [at, length], at, length)
        stated = re.search(r"of (\d+) bytes$", record)
        tally.check(f"{record}", stated is not None and int(stated[1]) == len(node), len(node))
        tree = re.search(r"tree (\d)", record)
        tally.check(f"{record}: its tree", (tree is None) == (node[:4] == b"OSMM") and (tree is None or int(tree[1]) == node[0]))
        key = re.search(r"the key `([0-9a-f]+)`", record)
        tally.check(f"{record}: its key", key is None or [bytes.fromhex(key[1])] == [it[0] for it in trees.entries_in(node)])
        end = at + 4 + len(node)
        wanted = [pack[place : place + 12].hex() for place in range(end, at + length, 12)]
        tally.check(f"places at {offset}", QUOTED.findall(places) == wanted and (wanted != [] or places == "none"), wanted)
        at += length
    whole = re.search(r"The pack has (\d+) bytes", "\n".join(page.paragraphs))
    tally.check("length of the pack", whole is not None and int(whole[1]) == at == len(pack), at)
    check_found(tally, "records", len(table) - 1, 7)
    fields, next_at = page.table_with("Offset", "Bytes", "Field"), 0
    for offset, size, name in fields[1:]:
        tally.check(f"field {name}", int(offset) == next_at)
        next_at += int(size)
    tally.check("length of the header", next_at == packs.HEADER and len(fields) == 8, next_at)
    fixed = b"OSMK" + number(1, 2) + number(0, 2)
    tally.check("first fields", pack.startswith(fixed) and [row[2] for row in fields[1:4]] == ["`OSMK`", "version: 1", "reserved: 0"])


def main():
    tally = Tally()
    page = Page(PAGE.read_text(encoding="utf-8"))
    check_decimals(tally, page)
    check_documents(tally, page)
    check_needed_nodes(tally, page)
    check_numbers_of_nodes(tally, page)
    check_deep_trees(tally, page)
    check_changes(tally, page)
    check_packs(tally, page)
    tally.end()


if __name__ == "__main__":
    main()
