"""`pack` and `query`: what a pack holds, by what docs/FORMATS.md says of packs; what is answered from it; and packs that are
damaged, cut, of another root, or too large to be read."""

import tempfile
from concurrent.futures import ThreadPoolExecutor
from pathlib import Path

from lines_rows_test import rows, set_file
from packs import HEADER, Place, children_of, nodes_of, record_at
from runs import PROGRAM, Outcome, Tally, each_refused, run
from trees import digest

JSON = b'{"version":0.6,"generator":"osm_mirror","elements":[\n{"type":"node","id":1,"lat":52.5,"lon":13.4,"tags":{"highway":"crossing"}}\n]}\n'
QUERY = "node(1);out;"
ANSWER = b"n1 Thighway=crossing x13.4 y52.5\n"


def options_of(edition, sequence):
    return ["--edition", edition] if edition == b"1" else ["--edition", edition, "--sequence", sequence]


def levels_of(top, by_digest):
    """The levels of a tree from its top down: each a list of nodes in its order."""
    levels = [[by_digest[top]]]
    while children := [by_digest[it] for node in levels[-1] for it in children_of(node)]:
        levels.append(children)
    return levels


def written_order(root, by_digest):
    """The nodes in the order in which a pack has them."""
    manifest = by_digest[root]
    trees = [levels_of(top, by_digest) for top in children_of(manifest)]
    upper = [node for levels in trees for level in levels[:-2] for node in level]
    middle = [node for levels in trees for level in levels[-2:-1] for node in level]
    leaves = [node for levels in trees for node in levels[-1]]
    return [manifest, *upper, *middle, *leaves]


def records_of(pack):
    """The nodes of a pack in the order of its records, which fill it from the header on."""
    at, found = HEADER, []
    while at < len(pack):
        size = int.from_bytes(pack[at : at + 4], "big")
        node = pack[at + 4 : at + 4 + size]
        place = Place(at, 4 + size + 12 * len(children_of(node)))
        assert record_at(pack, place)[0] == node
        found.append(node)
        at += place.length
    return found


def check_packs(tally, folder):
    """The packs of the vectors' sets have their roots, their nodes, in their order, and nothing else. Returns them."""
    packs = {}
    for name, edition, sequence, root, _, _, _, count, size in rows("roots.tsv"):
        if edition == b"0":
            continue
        path = folder / f"{name.decode()}-{edition.decode()}-{sequence.decode()}.pack"
        ended = run([PROGRAM, "pack", set_file(name), path, *options_of(edition, sequence)])
        tally.check(f"root of {path.name}", ended == Outcome(root + b"\n", b"", 0), ended)
        pack = path.read_bytes()
        found, nodes = nodes_of(pack)
        tally.check(f"nodes of {path.name}", found.hex().encode() == root and len(set(nodes)) == int(count), found.hex(), len(nodes))
        tally.check(f"bytes of {path.name}", sum(map(len, set(nodes))) == int(size), sum(map(len, nodes)))
        by_digest = {digest(node): node for node in nodes}
        tally.check(f"order of {path.name}", records_of(pack) == written_order(found, by_digest), len(pack))
        tally.check(f"nothing beside {path.name}", list(folder.glob(f"{path.name}.*")) == [], list(folder.iterdir()))
        packs[name, edition, sequence] = root, path
    tally.check("all packs are there", len(packs) == 18, len(packs))
    return packs


def check_answers(tally, packs):
    """Each query of the vectors is answered from the pack of its set, in both editions."""
    asked = [
        (row, packs[row[0], edition, b"0"]) for row in rows("meanings.tsv") for edition in (b"1", b"2")
    ]

    def answered(it):
        (name, query, answer), (root, path) = it
        return name, query, answer, run([PROGRAM, "query", root, path, query])

    with ThreadPoolExecutor() as workers:
        for name, query, answer, ended in workers.map(answered, asked):
            tally.check(f"{name} {query}", ended == Outcome(answer, b"", 0), ended)


def check_refusals(tally, packs, folder):
    """What is told of a query, of a file that is no pack, of another root, and of limits."""
    root, path = packs[b"F", b"2", b"7"]
    other, _ = packs[b"F", b"2", b"0"]
    pack = path.read_bytes()
    files = {
        "cut": pack[:-1],
        "longer": pack + b"\n",
        "opl": set_file(b"F").read_bytes(),
        "later": pack[:5] + b"\2" + pack[6:],
        "empty": b"",
    }
    for name, text in files.items():
        (folder / name).write_bytes(text)
    rows_told = [
        ([root, path, "node(1)out;"], b"Q5 byte 7\n", 2),
        ([other, folder / "none", "node(1)out;"], b"Q5 byte 7\n", 2),
        ([root, folder / "cut", QUERY], b"a pack that is cut short\n", 2),
        ([root, folder / "longer", QUERY], b"bytes after the pack\n", 2),
        ([root, folder / "opl", QUERY], b"not a pack\n", 2),
        ([root, folder / "empty", QUERY], b"not a pack\n", 2),
        ([root, folder / "later", QUERY], b"a pack of another version\n", 2),
        ([other, path, QUERY], b"a pack of another root\n", 1),
        ([root, folder / "none", QUERY], b"the device failed\n", 3),
        ([root, folder, QUERY], b"the device failed\n", 3),
        ([root, path, QUERY, "--max-bytes", "429"], b"too many bytes\n", 3),
        ([root, path, QUERY, "--max-work", "732"], b"too much work\n", 3),
        (["00", path, QUERY], b"bad root\n", 2),
        ([root, path, QUERY, "--form", "yaml"], b"bad form\n", 2),
    ]
    for words, told, status in rows_told:
        ended = run([PROGRAM, "query", *words])
        tally.check(f"query {words[1:]}", ended == Outcome(b"", told, status), ended)
    ended = run([PROGRAM, "query", root, path, QUERY, "--max-bytes", "430", "--max-work", "733"])
    tally.check("just within the limits", ended == Outcome(ANSWER, b"", 0), ended)
    ended = run([PROGRAM, "query", root.upper(), path, QUERY, "--form", "json"])
    tally.check("JSON", ended == Outcome(JSON, b"", 0), ended)


def check_damage(tally, packs, folder):
    """A pack with a byte turned, each in turn, gives the right answer or none."""
    root, path = packs[b"F", b"2", b"7"]
    pack = path.read_bytes()

    def damaged(at):
        turned = folder / f"turned-{at}"
        turned.write_bytes(pack[:at] + bytes([pack[at] ^ 1 << at % 8]) + pack[at + 1 :])
        ended = run([PROGRAM, "query", root, turned, QUERY])
        turned.unlink()
        return at, ended

    answered = 0
    with ThreadPoolExecutor() as workers:
        for at, ended in workers.map(damaged, range(len(pack))):
            is_right = ended == Outcome(ANSWER, b"", 0)
            answered += is_right
            tally.check(f"byte {at} turned", is_right or (ended.stdout == b"" and ended.status in (1, 2, 3)), ended)
    # The manifest and the leaf of objects are needed, and neither the other leaves nor their places.
    tally.check("some are answered, and some not", 0 < answered < len(pack) - 430, answered)


def check_older_pack(tally, folder):
    """A refused `pack` leaves the file that was there, and nothing beside it."""
    place = folder / "older.pack"
    (folder / "bad.opl").write_bytes(b"n1 x\n")
    for words, told, status in [
        ([folder / "bad.opl", place], b"O9 line 1 byte 4\n", 2),
        ([folder / "none.opl", place], b"device\n", 3),
        ([set_file(b"F"), folder / "no-folder/a.pack"], b"device\n", 3),
    ]:
        place.write_bytes(b"older")
        ended = run([PROGRAM, "pack", *words])
        tally.check(f"pack {words}", ended == Outcome(b"", told, status), ended)
        tally.check("the older pack stays", place.read_bytes() == b"older" and not list(folder.glob("*.part")))
    copy = folder / "copy.opl"
    copy.write_bytes(set_file(b"F").read_bytes())
    ended = run([PROGRAM, "pack", copy, copy])
    tally.check("one file twice", ended == Outcome(b"", b"device\n", 3), ended)
    tally.check("the set stays", copy.read_bytes() == set_file(b"F").read_bytes())


def check_refused_calls(tally, packs, folder):
    """Each allocation, read and write is refused in turn: the whole outcome, or the older file and no answer."""
    root, path = packs[b"F", b"2", b"0"]
    place = folder / "each.pack"
    whole = path.read_bytes()
    # (a file whose name beside its place can't be made, since memory is refused, is a writer that fails)
    for kind, told in [
        ("REFUSE_ALLOCATION", [b"no memory\n", b"device\n"]),
        ("REFUSE_WRITE", [b"device\n"]),
        ("REFUSE_READ", [b"device\n"]),
    ]:
        place.write_bytes(b"older")
        count = 0
        for number, ended in each_refused_alone([PROGRAM, "pack", set_file(b"F"), place], kind):
            count = number
            left = place.read_bytes()
            is_whole = ended == Outcome(root + b"\n", b"", 0) and left == whole
            is_refused = ended.status == 3 and ended.stderr in [*told, b""] and left in (b"older", whole)
            tally.check(f"pack {kind} {number}", is_whole or is_refused, ended)
            tally.check(f"pack {kind} {number} leaves nothing", list(folder.glob("each.pack.*")) == [], list(folder.iterdir()))
            place.write_bytes(b"older")
        tally.check(f"pack has such calls: {kind}", count > 0, count)
    for kind in ["REFUSE_ALLOCATION", "REFUSE_WRITE"]:
        count = 0
        for number, ended in each_refused([PROGRAM, "query", root, path, QUERY], b"", kind):
            count = number
            is_whole = ended == Outcome(ANSWER, b"", 0)
            is_refused = ended.status == 3 and ANSWER.startswith(ended.stdout)
            tally.check(f"query {kind} {number}", is_whole or is_refused, ended)
        tally.check(f"query has such calls: {kind}", count > 0, count)


def each_refused_alone(words, kind):
    """As `each_refused`, one run after the other, since all of them write one file."""
    from runs import run_refused

    number = 1
    while (ended := run_refused(words, b"", kind, number, {})) is not None:
        yield number, ended
        number += 1


def main():
    tally = Tally()
    with tempfile.TemporaryDirectory() as room:
        folder = Path(room)
        packs = check_packs(tally, folder)
        check_answers(tally, packs)
        check_refusals(tally, packs, folder)
        check_damage(tally, packs, folder)
        check_older_pack(tally, folder)
        check_refused_calls(tally, packs, folder)
    tally.end()


if __name__ == "__main__":
    main()
