"""`osm_mirror publish`, `prove` and `check`: their rows, with standard output, standard error, status and files."""

import hashlib
import tempfile
from pathlib import Path

from ask_rows_test import TWO_NODES
from lines_rows_test import rows, set_file
from runs import PROGRAM, Outcome, Tally, run

# A set and a query, and of its proof in edition 1 and in edition 2 with sequence number 7 how many bytes it has and
# their SHA-256: what an independent program computed.
PROVED = [
    (
        b"empty",
        b"node(1);out;",
        154,
        "06ac30cb814daa269e32af8830b71b588d7b803de424721d28d5f81325f5ee48",
        162,
        "4d2d36daaa9b16f7cdcfc94d48ffc1b04c78c997751adf38e576fe3f5a626401",
    ),
    (
        b"F",
        b"",
        146,
        "272edf0931d20df4b687b7e8830a248e6fe126d722db9d5ce2f0346d0c30b53a",
        154,
        "4ff2d2c166529a3f2aa374f6ec52e171378bb8539fd576de7d53ed2ccd047481",
    ),
    (
        b"F",
        b"node(1);out;",
        439,
        "72fa6fa244d82b40df81b8117478cad772cd6b5a0ccf34cb1f26904f0b9aafbf",
        447,
        "b2e2e6b6e945b36b1919f5ece009f569dedc402f07c0850756f1535d62b07598",
    ),
    (
        b"F",
        b'node["highway"];out ids;',
        267,
        "b58314e4019ca683279c2e47691ea8a554c4eab3c4b6c04e303b4bceb3585af5",
        275,
        "cfc523aff9cf4c7e75ed448881c745cba162164aa3bea9584394cfe46f786964",
    ),
    (
        b"F",
        b'node["highway"];out;',
        560,
        "180850ea45b3b11da0a5e56a5f28cb6659be9df8f16d77d49f6faa5a565f0a02",
        568,
        "6a4dfd6aa985ce2d4622f2f58be552a20c1b40930c3636b9498fc0d42608f652",
    ),
    (
        b"F",
        b"rel(100)->.a;(way(r.a);node(w););out ids;",
        439,
        "72fa6fa244d82b40df81b8117478cad772cd6b5a0ccf34cb1f26904f0b9aafbf",
        447,
        "b2e2e6b6e945b36b1919f5ece009f569dedc402f07c0850756f1535d62b07598",
    ),
    (
        b"dateline",
        b"node(-1,179,1,-179);out ids;",
        232,
        "5055cc00dedefea136317d303ae7063407327de2c6b0f87c12cc117217b32bd0",
        240,
        "0a47fa207992ce2dd2df3caae02ff449466b7923257ed3afe881934d3abb54ee",
    ),
    (
        b"one",
        b"nwr;out skel;",
        195,
        "34e3ea31ed24d16317924db676deeb55ca6d0518771c2ff0563fa933f6a95d3b",
        203,
        "f363dbe7684764190b11648025d900296e81ce4a4b431924511198af5b3caf39",
    ),
    (
        b"town",
        b"(way[highway];-way[name];);out ids;",
        839,
        "a38cfafbcde19c965651da47cbca8c4565b9b255745aa90170c11c0c042ea689",
        847,
        "46ea5a6c3899433ad4be91041035d77ddc5175adde7bb7fae4017fc1387237f8",
    ),
    (
        b"town",
        b"rel(3);>>;out ids;",
        3083,
        "d85214be8817c9736db984a364052547cf3df011b8d4f6fe1eb5bbefbc96b3ca",
        3091,
        "def9247b87ca5fcbdece5da9b109ed632c41281434b8f847618d1ddad2e9c8de",
    ),
    (
        b"many",
        b"node[b=1][c=3];out ids 3;",
        8525,
        "af834c07ec8a50f96541fe8ca362fd518d7bfe2be6f8ce55b2718d09ef4b059b",
        9395,
        "aaaef26fea6abb0a70c9badd08ee5aabcda19d830083a60d482c3ab4ac6617b3",
    ),
    (
        b"many",
        b"node(65);out;",
        3644,
        "d0de397178a7a8084ce23f27114f4c374da889a3bfdc3c39204d951ec2e35103",
        2895,
        "a90b1da44fff9bd91a27dd8310f8d68ee3c98403a28a05f011d201d8f70379e5",
    ),
    (
        b"many",
        b"node(131);out;",
        307,
        "f5b4e21c5a60ce1f9f4d40fc855c0c4df1068fc0c0b5386f42cb547d9fafea21",
        468,
        "367bdb8fc093afd3e53ebe2883d7ca08879ba8cccfde629b3a965a18b00cb535",
    ),
]

EDITIONS = [(b"1", b"0"), (b"2", b"7")]

QUERY = b"node(1);out;"
ANSWER = b"n1 Thighway=crossing x13.4 y52.5\n"


def roots():
    """The roots of the vectors, by set, edition and sequence number."""
    return {tuple(row[:3]): row[3] for row in rows("roots.tsv")}


def written(room, name, content):
    """A file of this content; its path."""
    path = Path(room) / name
    path.write_bytes(content)
    return path


def check_publish(tally, room):
    """A file that holds no set. (The roots of sets are those of roots_test.py.)"""
    for content, stderr in [
        (TWO_NODES + b"c5\n", b"O1 line 3 byte 0\n"),
        (b"n1 x1 y1\nn1 x1 y1\n", b"O13 line 2 byte 0\n"),
    ]:
        outcome = run([PROGRAM, "publish", written(room, "set.opl", content)])
        tally.check(f"publish no set {stderr}", outcome == Outcome(b"", stderr, 2), outcome)


def spoiled_answers(answer):
    """The answer with one byte changed, cut off or added, each with the place of the first difference."""
    for place in sorted({0, len(answer) // 2, len(answer) - 1} & set(range(len(answer)))):
        yield place, answer[:place] + bytes([answer[place] ^ 1]) + answer[place + 1 :]
        yield place, answer[:place]
    yield len(answer), answer + b"\n"


def check_proof(tally, room, words, root, answer, size, digest):
    """One query in one edition: what `prove` writes, and what `check` says of it and of other answers."""
    files = [Path(room) / name for name in ("query", "answer", "proof")]
    outcome = run([PROGRAM, "prove", *words[:1], *files, *words[1:]])
    tally.check(f"prove {words}", outcome == Outcome(root + b"\n", b"", 0), outcome)
    tally.check(f"prove {words}: answer", files[1].read_bytes() == answer)
    proof = files[2].read_bytes()
    tally.check(f"prove {words}: proof", (len(proof), hashlib.sha256(proof).hexdigest()) == (size, digest), len(proof))
    outcome = run([PROGRAM, "check", root, *files])
    tally.check(f"check {words}", outcome == Outcome(b"yes\n", b"", 0), outcome)
    for place, other in spoiled_answers(answer):
        files[1].write_bytes(other)
        outcome = run([PROGRAM, "check", root, *files])
        tally.check(f"check {words}: at {place}", outcome == Outcome(b"no C9 %d\n" % place, b"", 1), outcome)


def check_proofs(tally, room):
    root = roots()
    answers = {(name, query): answer for name, query, answer in rows("meanings.tsv")}
    for name, query, *proofs in PROVED:
        written(room, "query", query)
        for (edition, sequence), size, digest in zip(EDITIONS, proofs[::2], proofs[1::2]):
            words = [set_file(name), "--edition", edition, "--sequence", sequence]
            check_proof(tally, room, words, root[name, edition, sequence], answers[name, query], size, digest)


def made(room, query, *options):
    """The proof of a query over the set F, and its root."""
    written(room, "query", query)
    files = [Path(room) / name for name in ("query", "answer", "proof")]
    outcome = run([PROGRAM, "prove", set_file(b"F"), *files, *options])
    return files[2].read_bytes(), outcome.stdout.strip()


def nodes_of(proof):
    """The nodes that a proof lists: after its front and their number each after its length, in four bytes."""
    nodes, at = [], 9
    while at < len(proof):
        end = at + 4 + int.from_bytes(proof[at : at + 4], "big")
        nodes.append(proof[at + 4 : end])
        at = end
    return nodes


def listing(nodes):
    """The bytes that list these nodes."""
    return b"OSMP\x01" + len(nodes).to_bytes(4, "big") + b"".join(len(n).to_bytes(4, "big") + n for n in nodes)


def digest_of(node):
    return hashlib.sha256(node).digest()


def spoiled_proofs(room, *options):
    """Rows of `check` over the set F with right and wrong bytes: root, query, answer, proof and what is printed."""
    proof, root = made(room, QUERY, *options)
    larger, _ = made(room, b'node["highway"];out;', *options)
    nodes = nodes_of(proof)
    leaf = next(node for node in nodes if digest_of(node) != bytes.fromhex(root.decode()))
    changed = sorted([node if node != leaf else node[:-2] + b"6" + node[-1:] for node in nodes], key=digest_of)
    yield root, QUERY, ANSWER, proof, b"yes"
    yield root.upper(), QUERY, ANSWER, proof, b"yes"
    yield root, b"node(7);out;", b"", proof, b"yes"
    yield root, QUERY, b"n1 T x13.4 y52.5\n", proof, b"no C9 4"
    yield root, b"node(1)", ANSWER, proof, b"no C1 Q11 7"
    yield root, QUERY, ANSWER, listing(changed), b"no C4"
    yield root, QUERY, ANSWER, listing(nodes[::-1]), b"no C3"
    yield root, QUERY, ANSWER, listing([nodes[0], *nodes]), b"no C3"
    yield root, QUERY, ANSWER, larger, b"no C8"
    for node in nodes:
        yield root, QUERY, ANSWER, listing([node]), b"no C4"
    for wrong in (proof[:-1], proof + b"\n", proof[:8] + b"\x03" + proof[9:], b"", b"abc"):
        yield root, QUERY, ANSWER, wrong, b"no C2"
    # The root of a leaf, which is no manifest.
    yield digest_of(leaf).hex().encode(), QUERY, ANSWER, proof, b"no C5"


def check_spoiled(tally, room):
    cases = [*spoiled_proofs(room, "--edition", "1"), *spoiled_proofs(room, "--sequence", "7")]
    # A proof of one edition under the root of the other.
    first, first_root = made(room, QUERY, "--edition", "1")
    second, second_root = made(room, QUERY)
    cases += [(second_root, QUERY, ANSWER, first, b"no C4"), (first_root, QUERY, ANSWER, second, b"no C4")]
    for number, (root, query, answer, proof, told) in enumerate(cases):
        files = [written(room, "query", query), written(room, "answer", answer), written(room, "proof", proof)]
        outcome = run([PROGRAM, "check", root, *files])
        status = 0 if told == b"yes" else 1
        tally.check(f"check {number}, {told}", outcome == Outcome(told + b"\n", b"", status), outcome)


def check_prove(tally, room):
    root = roots()[b"F", b"2", b"0"]
    names = ("set.opl", "query", "answer", "proof")
    files = [Path(room) / name for name in names]
    content = set_file(b"F").read_bytes()
    written(room, "set.opl", content)
    # An empty answer makes an empty file, an older one is replaced, and the edition is the second.
    written(room, "query", b"node(7);out;")
    written(room, "answer", b"older")
    outcome = run([PROGRAM, "prove", *files])
    tally.check("prove", outcome == Outcome(root + b"\n", b"", 0), outcome)
    tally.check("prove: an empty answer", files[2].read_bytes() == b"")
    outcome = run([PROGRAM, "prove", *files, "--edition", "3"])
    tally.check("prove in edition 3", outcome == Outcome(b"", b"bad edition\n", 2), outcome)
    # A refused command leaves the files that were there: the set is looked at first, then the query.
    written(room, "answer", b"older")
    written(room, "proof", b"older")
    for content, query, stderr in [
        (TWO_NODES, b"node(1)", b"Q11 byte 7\n"),
        (TWO_NODES, b"node", b"Q11 byte 4\n"),
        (TWO_NODES, b"node(1);out;\n]", b"Q2 byte 13\n"),
        (TWO_NODES, b"node(\xff);out;", b"Q1 byte 5\n"),
        (b"c5\n", b"node(1)", b"O1 line 1 byte 0\n"),
    ]:
        written(room, "set.opl", content)
        written(room, "query", query)
        outcome = run([PROGRAM, "prove", *files])
        tally.check(f"prove refused {stderr}", outcome == Outcome(b"", stderr, 2), outcome)
        tally.check(f"prove refused {stderr}: files", [f.read_bytes() for f in files[2:]] == [b"older", b"older"])


def check_bad_roots(tally):
    """The root is looked at before any file."""
    root = roots()[b"F", b"2", b"0"].decode()
    for bad in ["", "0", root[:-1], root + "0", root[:-1] + "g", "0x" + root[2:]]:
        outcome = run([PROGRAM, "check", bad, "no", "such", "file"])
        tally.check(f"check under {bad}", outcome == Outcome(b"", b"bad root\n", 2), outcome)


def check_files_not_there(tally, room):
    """A file that can't be opened is a device, when its turn comes."""
    root = roots()[b"F", b"2", b"0"]
    there = written(room, "there", TWO_NODES)
    query = written(room, "query", QUERY)
    device = Outcome(b"", b"device\n", 3)
    not_there = Path(room) / "not-there"
    for words in [
        ["publish", not_there],
        ["publish", room],
        ["prove", not_there, query, Path(room) / "a", Path(room) / "p"],
        ["prove", there, not_there, Path(room) / "a", Path(room) / "p"],
        ["prove", there, query, Path(room) / "no" / "folder", Path(room) / "p"],
        ["check", root, not_there, query, query],
        ["check", root, query, not_there, query],
        ["check", root, query, query, not_there],
    ]:
        outcome = run([PROGRAM, *words])
        tally.check(f"{words}", outcome == device, outcome)
        tally.check(f"{words}: nothing is made", not (Path(room) / "p").exists())
    # An empty answer into a folder that isn't there: its file is still to be made.
    nothing = written(room, "nothing", b"node(7);out;")
    outcome = run([PROGRAM, "prove", there, nothing, Path(room) / "no" / "folder", Path(room) / "p"])
    tally.check("an empty answer into no folder", outcome == device, outcome)
    tally.check("an empty answer into no folder: nothing is made", not (Path(room) / "p").exists())
    # A set that isn't read is told before a query's file that isn't there.
    outcome = run([PROGRAM, "prove", written(room, "set.opl", b"c5"), not_there, "a", "p"])
    tally.check("prove: the set first", outcome == Outcome(b"", b"O1 line 1 byte 0\n", 2), outcome)


def main():
    tally = Tally()
    with tempfile.TemporaryDirectory() as room:
        check_publish(tally, room)
        check_proofs(tally, room)
        check_spoiled(tally, room)
        check_prove(tally, room)
        check_bad_roots(tally)
        check_files_not_there(tally, room)
    tally.end()


if __name__ == "__main__":
    main()
