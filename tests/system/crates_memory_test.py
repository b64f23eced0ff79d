"""The crates' own tests whose names contain `memory`, with each allocation refused in turn.

Such a test calls a function that allocates, accepts the whole result or "out of memory", and then calls it again.
Here one allocation of it is refused, whichever it is: in the first call, in the second, or in what the test itself
makes. So each run must pass, or end with the `Err` of a refused allocation that the test's own `?` met. An
assertion that fails, another error, or a signal is a wrong answer.

The gate has built a test binary for each crate that has tests. A crate whose binary isn't there is a failure, and
so is one whose sources take memory and which has no such test, in its own binary or in that of the crate that holds
its tests.
"""

import re

from runs import TOP, Tally, each_refused, run

ENDED_BY_ERROR = "the test failed: its result gives status 1"
# `Device`: no such test has a device, but a vector that is written to fails as a writer when it is out of memory.
OUT_OF_MEMORY = re.compile(r"^[Ee]rror: .*(AllocError|AllocFailed|OutOfMemory|Memory|no memory|Device$)", re.MULTILINE)


# Where the tests of a crate stand that has none of its own: in the crate of its name and `_tests`, or in a module of
# another.
MODULES = {
    "osm_model": ("text_tests", "model"),
    "opl_codec": ("text_tests", "codec"),
    "ql_syntax": ("text_tests", "syntax"),
    "ql_plan": ("text_tests", "plans"),
    "ref_sets": ("text_tests", "sets"),
    "tree_node": ("tree_tests", "nodes"),
    "tree_build": ("tree_tests", "trees"),
    "tree_walk": ("tree_tests", "walks"),
    "tree_stream": ("tree_tests", "streams"),
    "level_files": ("tree_tests", "levels"),
    "outside_shelf": ("tree_tests", "outside"),
    "external_sort": ("pack_tests", "sorting"),
    "scratch_files": ("pack_tests", "scratch"),
    "entry_sort": ("pack_tests", "entries"),
    "node_pack": ("pack_tests", "packs"),
    "pack_files": ("pack_tests", "joined"),
    "pack_assembly": ("pack_tests", "assembly"),
    "pack_build": ("pack_tests", "building"),
    "pack_compact": ("pack_update_tests", "compacted"),
    "osm_keys": ("osm_index_tests", "snapshots::cells"),
    "light_keys": ("osm_index_tests", "light"),
    "ql_plain": ("answer_tests", "plain_answers"),
    "ql_eval": ("answer_tests", "evaluations"),
    "osm_prove": ("answer_tests", "proofs"),
    "osm_check": ("answer_tests", "verdicts"),
    "http_messages": ("answer_tests", "connections"),
    "osm_gate": ("answer_tests", "connections"),
    "osm_changes": ("osm_commands_tests", "announcing"),
    "osm_pack_changes": ("osm_packs_tests", "adding"),
    "mirror_answer": ("osm_fetch_tests", "replies"),
}

# Crates whose allocations are refused in the program: serve_test.py does it for the sockets, since a test is one thread,
# which can't wait for itself at the other end of a socket, and relay_test.py for those of the relay; changes_test.py does it
# for change files that are published, and pack_heads_test.py for heads.
TESTED_IN_THE_PROGRAM = {"osm_sockets", "osm_serving", "relay_sockets", "tcp_places"}


def crates():
    """The folders of the crates that crates.txt lists, lowest first."""
    lines = (TOP / "crates.txt").read_text(encoding="utf-8").splitlines()
    return [TOP / "crates" / line.partition(":")[0].split()[0] for line in lines if line.strip() and line[0] != "#"]


def sources(crate, of_tests):
    """The text of a crate's tests, or of its other sources."""
    paths = sorted(crate.glob("src/**/*.rt"))
    chosen = [path for path in paths if ("tests" in path.relative_to(crate).as_posix()) == of_tests]
    return "".join(path.read_text(encoding="utf-8") for path in chosen)


def binary_of(crate):
    return crate / "out" / f"{crate.name}_tests"


def tests_of(crate):
    """The crate that holds the tests of a crate, and how the names of these begin."""
    if "#[test]" in sources(crate, of_tests=True):
        return crate, ""
    if crate.name in MODULES:
        holder, module = MODULES[crate.name]
        return crate.parent / holder, f"tests::{module}::"
    return crate.parent / f"{crate.name}_tests", ""


def memory_tests(binary):
    """The full names of the tests of a built test binary whose names contain `memory`."""
    lines = run([binary, "--list"]).stdout.decode().splitlines()
    names = [line.removesuffix(": test") for line in lines if line.endswith(": test")]
    return [name for name in names if "memory" in name]


def is_well(outcome):
    told = (outcome.stdout + outcome.stderr).decode(errors="replace")
    ran_out = ENDED_BY_ERROR in told and OUT_OF_MEMORY.search(told) is not None
    return outcome.status == 0 or ran_out


def check_test(tally, binary, name):
    """Runs one test as it is, and then once for each of its allocations, which is refused."""
    test = f"{binary.name} {name}"
    outcome = run([binary, name])
    tally.check(f"{test} with ample memory", outcome.status == 0, outcome)
    met = 0
    for number, outcome in each_refused([binary, name], b"", "REFUSE_ALLOCATION"):
        met += 1
        tally.check(f"{test}, allocation {number}", is_well(outcome), outcome)
    tally.check(f"{test}: allocations were refused", met > 0)


def check_crate(tally, crate):
    """Runs the tests of a crate that are about memory. Each crate that takes an allocator has some."""
    binary = binary_of(crate)
    if "#[test]" in sources(crate, of_tests=True):
        tally.check(f"{crate.name}: its tests were built", binary.exists())
    is_tested_here = crate.name not in TESTED_IN_THE_PROGRAM and not crate.name.endswith("_devices")
    if is_tested_here and "alloc: Global" in sources(crate, of_tests=False):
        holder, front = tests_of(crate)
        names = memory_tests(binary_of(holder)) if binary_of(holder).exists() else []
        met = [name for name in names if name.startswith(front)]
        tally.check(f"{crate.name}: it has tests of refused memory", met != [])
    for name in memory_tests(binary) if binary.exists() else []:
        check_test(tally, binary, name)


def main():
    tally = Tally()
    for crate in crates():
        check_crate(tally, crate)
    tally.end()


if __name__ == "__main__":
    main()
