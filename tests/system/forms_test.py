"""`ask --form json` and `--form xml` over awkward objects: what python's own parsers read of each document is what the OPL
answer says, object for object, in each mode.

Awkward are the texts (quotes, escapes, controls, what XML can't hold, marks of other scripts), the least and the greatest
numbers, and what isn't known of a last change. Where osmium is installed it reads the XML documents too.
"""

import json
import random
import re
import shutil
import subprocess
import tempfile
import xml.etree.ElementTree as ElementTree
from decimal import Decimal
from pathlib import Path

from runs import PROGRAM, Tally, run

KINDS = {"n": "node", "w": "way", "r": "relation"}
MODES = ("ids", "tags", "skel", "body", "meta")
AWKWARD = [
    '"', "\\", "&", "<", ">", "'", "\t", "\n", "\r", "\r\n", "\x01", "\x08", "\x0b", "\x0c", "\x1f", "\x7f", "\x80", "\x85",
    "\xa0", "\u2028", "\u2029", "\ud7ff", "\ue000", "\ufffd", "\ufffe", "\uffff", "\ufeff", "\U00010000", "\U0010ffff",
    "\U0001f600", "e\u0301", "\u200f\u05d0", "/", "</tag>", "]]>", "&amp;", "%", ",", "=", "@", " ", "  x  ", "\\u0041", "--",
    "{}", "[]", "\xe9", "\u4e2d",
]


# ---- the set ----


def escaped(text):
    return "".join(c if 0x21 <= ord(c) <= 0x7E and c not in "%,=@" else f"%{ord(c):02x}%" for c in text)


def degrees(units):
    """A number of ten-millionths as the decimals of a line."""
    fraction = f"{abs(units) % 10**7:07}".rstrip("0")
    return ("-" if units < 0 else "") + str(abs(units) // 10**7) + (f".{fraction}" if fraction else "")


def awkward_set(seed=7):
    """The lines of a set, of 126 nodes, 40 ways and 40 relations."""
    dice = random.Random(seed)

    def text():
        return "".join(dice.choice(AWKWARD + list("abcXYZ019 _:")) for _ in range(dice.randint(0, 6)))

    def tags():
        pairs = {text(): text() for _ in range(dice.randint(0, 5))}
        return ",".join(f"{escaped(key)}={escaped(value)}" for key, value in sorted(pairs.items(), key=lambda p: p[0].encode()))

    def change(place):
        if place % 5 == 0:
            return "v0 dV c0 t i0 u"
        version, changeset = dice.choice([0, 1, 4294967295]), dice.choice([0, -1, 9223372036854775807])
        moment = dice.choice(["", "2020-01-02T03:04:05Z", "0000-01-01T00:00:00Z", "9999-12-31T23:59:60Z"])
        return f"v{version} dV c{changeset} t{moment} i{dice.choice([0, 7, -2])} u{escaped(text())}"

    ids = [1, 2, 2**63 - 1, -(2**63), 0, -5, *dice.sample(range(10, 10**12), 120)]
    for place, number in enumerate(sorted(ids)):
        x = degrees(dice.choice([0, 1, -1, 1800000000, -1800000000, 134000000, 10, -10000001]))
        y = degrees(dice.choice([0, 900000000, -900000000, 525000000, 5]))
        yield f"n{number} {change(place)} T{tags()} x{x} y{y}\n"
    for place, number in enumerate(sorted(ids[:40])):
        nodes = ",".join(f"n{dice.choice(ids)}" for _ in range(dice.choice([0, 1, 2, 5])))
        yield f"w{number} {change(place)} T{tags()} N{nodes}\n"
    for place, number in enumerate(sorted(ids[:40])):
        members = (f"{dice.choice('nwr')}{dice.choice(ids)}@{escaped(text())}" for _ in range(dice.choice([0, 1, 3])))
        yield f"r{number} {change(place)} T{tags()} M{','.join(members)}\n"


# ---- the readers ----


def unescaped(text):
    return re.sub("%([0-9a-f]+)%", lambda found: chr(int(found[1], 16)), text)


def of_line(line):
    """The object that a line of OPL tells; what isn't known is left out."""
    first, *fields = line.split(" ")
    thing = {"type": KINDS[first[0]], "id": int(first[1:])}
    numbers = {"v": "version", "c": "changeset", "i": "uid"}
    for field in fields:
        letter, value = field[0], field[1:]
        if letter in numbers and value != "0":
            thing[numbers[letter]] = int(value)
        elif letter in "xy":
            thing["lon" if letter == "x" else "lat"] = Decimal(value)
        elif letter == "N":
            thing["nodes"] = [int(node[1:]) for node in value.split(",") if node]
        elif letter == "M":
            members = [member.split("@") for member in value.split(",") if member]
            thing["members"] = [{"type": KINDS[ref[0]], "ref": int(ref[1:]), "role": unescaped(role)} for ref, role in members]
        elif letter == "t" and value:
            thing["timestamp"] = value
        elif letter == "u" and value:
            thing["user"] = unescaped(value)
        elif letter == "T" and value:
            thing["tags"] = {unescaped(key): unescaped(worth) for key, worth in (pair.split("=") for pair in value.split(","))}
    return thing


def of_json(text):
    """The objects of a JSON document. A key that stands twice is an error."""

    def once(pairs):
        assert len({key for key, _ in pairs}) == len(pairs), pairs
        return dict(pairs)

    document = json.loads(text, parse_float=Decimal, object_pairs_hook=once)
    assert document["version"] == Decimal("0.6") and document["generator"] == "osm_mirror", document
    for thing in document["elements"]:
        for name in ("lat", "lon"):
            if name in thing:
                thing[name] = Decimal(thing[name])
    return document["elements"]


def of_xml(text):
    """The objects of an XML document."""
    document = ElementTree.fromstring(text)
    assert document.tag == "osm" and document.attrib == {"version": "0.6", "generator": "osm_mirror"}, document.attrib
    readers = {"id": int, "version": int, "changeset": int, "uid": int, "lat": Decimal, "lon": Decimal, "user": str, "timestamp": str}
    things = []
    for element in document:
        thing = {"type": element.tag} | {name: readers[name](value) for name, value in element.attrib.items()}
        if pairs := [(tag.attrib["k"], tag.attrib["v"]) for tag in element.iter("tag")]:
            thing["tags"] = pairs
        if nodes := [int(node.attrib["ref"]) for node in element.iter("nd")]:
            thing["nodes"] = nodes
        if members := [dict(member.attrib) | {"ref": int(member.attrib["ref"])} for member in element.iter("member")]:
            thing["members"] = members
        things.append(thing)
    return things


def held_by_xml(text):
    """The text as XML 1.0 can hold it."""
    return "".join(c if c in "\t\n\r" or (c >= " " and c not in "\ufffe\uffff") else "\ufffd" for c in text)


def as_in_xml(thing):
    """The object as an XML document tells it: empty lists are not told apart from none."""
    told = {name: value for name, value in thing.items() if value != []}
    if "user" in told:
        told["user"] = held_by_xml(told["user"])
    if "tags" in told:
        pairs = sorted(told["tags"].items(), key=lambda pair: pair[0].encode())
        told["tags"] = [(held_by_xml(key), held_by_xml(value)) for key, value in pairs]
    if "members" in told:
        told["members"] = [member | {"role": held_by_xml(member["role"])} for member in told["members"]]
    return told


def in_order(thing):
    """The object with its tags in the order of what XML holds of them."""
    return thing | ({"tags": sorted(thing["tags"])} if "tags" in thing else {})


# ---- the checks ----


def answer(objects, mode, form):
    outcome = run([PROGRAM, "ask", "--form", form, f"nwr;out {mode};"], objects)
    assert (outcome.stderr, outcome.status) == (b"", 0), outcome
    return outcome.stdout.decode("utf-8")


def check_modes(tally, objects):
    for mode in MODES:
        things = [of_line(line) for line in answer(objects, mode, "opl").split("\n")[:-1]]
        tally.check(f"{mode}: all objects", len(things) == 206, len(things))
        for form, read, want in [("json", of_json, things), ("xml", of_xml, [as_in_xml(thing) for thing in things])]:
            got = read(answer(objects, mode, form))
            tally.check(f"{mode}, {form}: as many objects", len(got) == len(want), len(got))
            for one, other in zip(want, got):
                tally.check(f"{mode}, {form}: {one['type']} {one['id']}", one == other, one, other)


def check_none(tally, objects):
    """An answer without objects is a document all the same."""
    for form, want in [
        ("opl", b""),
        ("json", b'{"version":0.6,"generator":"osm_mirror","elements":[\n]}\n'),
        ("xml", b'<?xml version="1.0" encoding="UTF-8"?>\n<osm version="0.6" generator="osm_mirror">\n</osm>\n'),
    ]:
        outcome = run([PROGRAM, "ask", "--form", form, "node(77);out;"], objects)
        tally.check(f"no objects, {form}", (outcome.stdout, outcome.stderr, outcome.status) == (want, b"", 0), outcome)


def check_osmium(tally, objects):
    """osmium reads the XML of what it takes itself, and writes the lines that were published."""
    if shutil.which("osmium") is None:
        print("SKIPPED: osmium isn't installed")
        return
    # It takes neither the least and the greatest ids and versions, nor numbers of users and changesets below 0, nor the years
    # 0000 and 9999.
    refused = (str(2**63 - 1), str(-(2**63)), "4294967295", "0000-01-01", "9999-12-31", "%10ffff%", " i-2 ", " c-1 ")
    lines = [line for line in objects.decode().splitlines(keepends=True) if not any(word in line for word in refused)]
    fitting = "".join(lines).encode()
    with tempfile.TemporaryDirectory() as room:
        path = Path(room) / "answer.osm"
        path.write_text(answer(fitting, "meta", "xml"), encoding="utf-8", newline="")
        words = ["osmium", "cat", "--output-format", "opl", path]
        ended = subprocess.run(words, capture_output=True, timeout=60, check=False)
    want = [in_order(as_in_xml(of_line(line.rstrip("\n")))) for line in lines]
    got = [in_order(as_in_xml(of_line(line))) for line in ended.stdout.decode().split("\n")[:-1]]
    tally.check("osmium reads the XML", ended.returncode == 0 and len(got) == len(want) > 30, ended.stderr[-300:], len(got), len(want))
    for one, other in zip(want, got):
        tally.check(f"osmium: {one['type']} {one['id']}", one == other, one, other)


def main():
    tally = Tally()
    objects = "".join(awkward_set()).encode()
    check_modes(tally, objects)
    check_none(tally, objects)
    check_osmium(tally, objects)
    tally.end()


if __name__ == "__main__":
    main()
