"""What bench/page.sh measures: page.py EXTRACT FOLDER RUNS."""

import json
import subprocess
import sys
from pathlib import Path

TOP = Path(__file__).resolve().parents[1]
sys.path.insert(0, str(TOP / "tests/system"))
# pylint: disable=wrong-import-position
import browser
import page_test

PROGRAM = TOP / "crates/osm_mirror/out/osm_mirror"
# Each with how many times as many runs it has: the browser makes faster code of what has run often, and its clock tells
# tenths of a millisecond alone.
QUERIES = [
    ("an id", "node(4998);out;", 100),
    ("a box", "node(51.9900,12.9900,52.0100,13.0100);out;", 5),
    ("a tag", 'nwr["name"="Weg"];out;', 1),
]

# How often the machine code and the page are measured in turn.
ROUNDS = 5

# In the page: the mean of a check over the later half of the runs, in a worker as the page's own, and the median of the
# whole call.
SCRIPT = """(async () => {
  const module = await WebAssembly.compile(await (await fetch('out/%s')).arrayBuffer());
  const { Checker } = await import('./checker.js');
  const checker = new Checker(module);
  const bytes = async (name) => new Uint8Array(await (await fetch('/data/' + name)).arrayBuffer());
  const [query, answer, proof] = await Promise.all(['query', 'answer', 'proof'].map(bytes));
  const root = Uint8Array.from('%s'.match(/../g), (it) => parseInt(it, 16));
  const checks = [], calls = [];
  let first = 0, verdict = null;
  for (let run = 0; run < %d; run++) {
    const begun = performance.now();
    verdict = await checker.check(query, root, answer, proof);
    calls.push(performance.now() - begun);
    checks.push(verdict.milliseconds);
    if (run === 0) first = verdict.milliseconds;
  }
  checker.stop();
  const later = checks.slice(checks.length >> 1);
  const mean = later.reduce((sum, it) => sum + it, 0) / later.length;
  const median = calls.sort((a, b) => a - b)[calls.length >> 1];
  return [verdict.status, first, mean, median, verdict.memory];
})()"""


def native_time(folder, root, files, runs):
    """The median of a check by the machine code, in milliseconds."""
    said = subprocess.run([folder / "page_check", root, *files, str(runs)], capture_output=True, text=True, check=True).stdout
    status, native = said.split()
    assert status == "0", said
    return float(native)


def tell(page, module, folder, root, files, runs):
    """Prints what the machine code and a module take, in turn several times: the least of each, since a machine that others
    use as well is now fast and now slow."""
    natives, checks, calls, firsts = [], [], [], []
    for _ in range(ROUNDS):
        natives.append(native_time(folder, root, files, runs))
        status, first, check, call, memory = page.value(SCRIPT % (module, root, runs))
        assert status == "yes", status
        firsts.append(first)
        checks.append(check)
        calls.append(call)
    native, check = min(natives), min(checks)
    print(f"    {module}: first {min(firsts):.1f}, then {check:.2f} ms, native {native:.2f}: {check / native:.2f} times; "
          f"whole call {min(calls):.1f} ms; memory {memory / 2**20:.0f} MiB")


def main():
    extract, folder, runs = sys.argv[1], Path(sys.argv[2]), int(sys.argv[3])
    room = folder / "page"
    room.mkdir(exist_ok=True)
    modules = sorted(it.name for it in (TOP / "web/out").glob("*.wasm"))
    words = browser.program()
    with page_test.page_server(room) as site, browser.browser(words) as page:
        page_test.opened(page, site)
        for name, query, times in QUERIES:
            (room / "query").write_text(query, encoding="utf-8")
            files = [room / it for it in ("query", "answer", "proof")]
            root = subprocess.run([PROGRAM, "prove", extract, *files], capture_output=True, text=True, check=True).stdout.strip()
            print(f"{name}, {query}: answer {files[1].stat().st_size}, proof {files[2].stat().st_size}")
            for module in modules:
                tell(page, module, folder, root, files, runs * times)
    print(json.dumps({it: (TOP / "web/out" / it).stat().st_size for it in modules}))


if __name__ == "__main__":
    main()
