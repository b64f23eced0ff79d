"""What `./install` and `packaging/build-deb` put in place, and what can be done with it: the README's main job, by the
program, the example data and the script that were installed.

What needs a tool that isn't there (dpkg-deb, lintian, systemd-analyze, man, readelf, curl) is skipped, and said so.
"""

import os
import re
import shutil
import subprocess
import tempfile
from pathlib import Path

from runs import SECONDS, TOP, Outcome, Tally

INSTALLED = {
    "bin/osm_mirror": 0o755,
    "lib/osm_mirror/watch": 0o755,
    "lib/systemd/system/osm_mirror-watch@.service": 0o644,
    "lib/systemd/system/osm_mirror-watch@.timer": 0o644,
    "lib/systemd/system/osm_mirror@.service": 0o644,
    "share/doc/osm-mirror/CHANGELOG.md": 0o644,
    "share/doc/osm-mirror/DEPLOYING.md": 0o644,
    "share/doc/osm-mirror/FORMATS.md": 0o644,
    "share/doc/osm-mirror/LICENSE": 0o644,
    "share/doc/osm-mirror/PROOFS.md": 0o644,
    "share/doc/osm-mirror/README.md": 0o644,
    "share/doc/osm-mirror/THIRD-PARTY": 0o644,
    "share/doc/osm-mirror/examples/8081.conf": 0o644,
    "share/doc/osm-mirror/examples/four-objects.opl": 0o644,
    "share/doc/osm-mirror/examples/nginx.conf": 0o644,
    "share/man/man1/osm_mirror.1": 0o644,
}

WEB = TOP / "web"


def page_files():
    """The files of the page with its modules, as they are installed. (A second one of each is made where wasm-opt is installed.)"""
    files = [file for form in ("*.html", "*.css", "*.svg", "*.js", "out/*_32.wasm") for file in WEB.glob(form)]
    modules = [WEB / "out/osm_check.wasm", WEB / "out/osm_query.wasm"]
    return {f"share/osm_mirror/web/{file.relative_to(WEB)}": 0o644 for file in [*files, *modules]}


# A package has these otherwise: pages are compressed, and the licence has a place of its own.
PACKAGED = {
    "share/doc/osm-mirror/CHANGELOG.md": ["share/doc/osm-mirror/changelog.gz", "share/doc/osm-mirror/changelog.Debian.gz"],
    "share/doc/osm-mirror/FORMATS.md": ["share/doc/osm-mirror/FORMATS.md.gz"],
    "share/doc/osm-mirror/LICENSE": ["share/doc/osm-mirror/copyright", "share/lintian/overrides/osm-mirror"],
    "share/doc/osm-mirror/PROOFS.md": ["share/doc/osm-mirror/PROOFS.md.gz"],
    "share/man/man1/osm_mirror.1": ["share/man/man1/osm_mirror.1.gz"],
}

# The root of examples/four-objects.opl, as the README has it.
ROOT = "e66900236b879ef283a337e2d57ae34c0a3a919610d5dc475f092354538f6732"
ANSWER = b"n1 Thighway=crossing x13.4 y52.5\n"

# The parts of glibc.
GLIBC = {"libc.so.6", "libm.so.6", "libdl.so.2", "libpthread.so.0", "ld-linux-x86-64.so.2"}


def is_there(*tools):
    """Whether the tools are installed; says so where one isn't."""
    missing = [tool for tool in tools if shutil.which(tool) is None]
    if missing:
        print(f"SKIPPED: {', '.join(missing)} isn't installed")
    return not missing


def outcome_of(words, folder, **variables):
    """Runs the words in a folder."""
    environment = dict(os.environ) | {name: str(value) for name, value in variables.items()}
    ended = subprocess.run(
        [str(word) for word in words], cwd=folder, env=environment, capture_output=True, stdin=subprocess.DEVNULL,
        timeout=10 * SECONDS)
    return Outcome(ended.stdout, ended.stderr, ended.returncode)


def modes_of(top):
    """The files below a folder, with their modes."""
    return {str(file.relative_to(top)): file.stat().st_mode & 0o777 for file in top.rglob("*") if file.is_file()}


def check_job(tally, name, prefix, room):
    """The README's five minutes, with what was installed below this prefix: publisher, mirror, client, and two lies."""
    room.mkdir()
    program = prefix / "bin/osm_mirror"
    examples = prefix / "share/doc/osm-mirror/examples"
    objects = examples / "four-objects.opl"
    (room / "query").write_text("node(1);out;", encoding="utf-8")
    (room / "other.opl").write_bytes(objects.read_bytes().replace(b"crossing", b"bus_stop"))
    root = Outcome(ROOT.encode() + b"\n", b"", 0)
    check = [program, "check", ROOT, "query", "answer", "proof"]

    def step(words, want):
        outcome = outcome_of(words, room)
        tally.check(f"{name}: {' '.join(map(str, words[1:3]))}", outcome == want, outcome)

    step([program, "publish", objects], root)
    step([program, "prove", objects, "query", "answer", "proof"], root)
    tally.check(f"{name}: the answer", (room / "answer").read_bytes() == ANSWER)
    step(check, Outcome(b"yes\n", b"", 0))
    (room / "answer").write_bytes(ANSWER.replace(b"crossing", b"crossinG"))
    step(check, Outcome(b"no C9 19\n", b"", 1))
    outcome = outcome_of([program, "prove", "other.opl", "query", "answer", "proof"], room)
    tally.check(f"{name}: another set", outcome.status == 0 and outcome.stdout != root.stdout, outcome)
    step(check, Outcome(b"no C4\n", b"", 1))

    words = [program, "serve", objects, "0", "--connections", "1"]
    with subprocess.Popen(words, stderr=subprocess.PIPE) as serving:
        line = serving.stderr.readline()
        port = line.split(b",")[0].split(b":")[-1].decode()
        outcome = outcome_of([program, "fetch", ROOT, f"127.0.0.1:{port}", "node(1);out;"], room)
        tally.check(f"{name}: fetch", outcome == Outcome(ANSWER, b"", 0), line, outcome)
        serving.terminate()


def check_installation(tally, room):
    """An installation below a prefix of its own."""
    prefix = room / "prefix"
    outcome = outcome_of([TOP / "install", prefix], room)
    tally.check("./install", outcome.status == 0 and outcome.stderr == b"", outcome)
    told = {line.removeprefix(f"{prefix}/") for line in outcome.stdout.decode().splitlines()}
    want = INSTALLED | page_files()
    tally.check("./install tells what it has put in place", told == set(want), told ^ set(want))
    tally.check("what is installed", modes_of(prefix) == want, modes_of(prefix))
    configuration = (prefix / "share/doc/osm-mirror/examples/nginx.conf").read_text(encoding="utf-8")
    tally.check("nginx finds the page", f"root {prefix}/share/osm_mirror/web;" in configuration, configuration)
    check_job(tally, "installed", prefix, room / "job")
    check_unit(tally, prefix)
    check_page(tally, prefix)
    check_needs(tally, prefix / "bin/osm_mirror")
    outcome = outcome_of([TOP / "install", "--prefix", "/usr"], room)
    tally.check("./install of other words", outcome.status == 2 and outcome.stderr.startswith(b"usage: "), outcome)


def check_destination(tally, room):
    """DESTDIR stands before the prefix, and what is installed doesn't name it."""
    outcome = outcome_of([TOP / "install", "/opt/osm"], room, DESTDIR=room / "destination")
    tally.check("DESTDIR", outcome.status == 0 and modes_of(room / "destination/opt/osm") == INSTALLED | page_files(), outcome)
    unit = (room / "destination/opt/osm/lib/systemd/system/osm_mirror@.service").read_text(encoding="utf-8")
    tally.check("the unit names the program", "ExecStart=/opt/osm/bin/osm_mirror serve" in unit and str(room) not in unit, unit)


def check_unit(tally, prefix):
    """systemd takes the unit without a warning, and finds it well enclosed."""
    if not is_there("systemd-analyze"):
        return
    for name in ["osm_mirror@.service", "osm_mirror-watch@.service", "osm_mirror-watch@.timer"]:
        outcome = outcome_of(["systemd-analyze", "verify", "--man=no", prefix / "lib/systemd/system" / name], prefix)
        tally.check(f"the unit {name}", outcome == Outcome(b"", b"", 0), outcome)
    unit = prefix / "lib/systemd/system/osm_mirror@.service"
    outcome = outcome_of(["systemd-analyze", "security", "--offline=true", "--no-pager", unit], prefix)
    level = re.search(rb"exposure level for \S+: ([0-9.]+)", outcome.stdout)
    tally.check("the unit is enclosed", level is not None and float(level[1]) < 2, outcome)


def check_page(tally, prefix):
    """man shows the page without a warning."""
    if not is_there("man", "groff"):
        return
    words = ["man", "--warnings", "-E", "UTF-8", "-l", "-Tutf8", "-Z", prefix / "share/man/man1/osm_mirror.1"]
    outcome = outcome_of(words, prefix, MANROFFSEQ="")
    tally.check("the man page", outcome.status == 0 and outcome.stderr == b"", outcome.stderr)


def check_needs(tally, program):
    """The program needs glibc, and no other library."""
    if not is_there("readelf"):
        return
    outcome = outcome_of(["readelf", "--dynamic", "--wide", program], program.parent, LC_ALL="C")
    needed = {name.decode() for name in re.findall(rb"\(NEEDED\).*\[(.*)\]", outcome.stdout)}
    tally.check("the program needs glibc alone", outcome.status == 0 and "libc.so.6" in needed and needed <= GLIBC, needed)


def check_package(tally, room):
    """A Debian package has the same files, and the version of the changelog, and lintian finds no fault that it doesn't name."""
    if not is_there("dpkg-deb"):
        return
    newest = re.search(r"(?m)^## \[([0-9]\S*)\]", (TOP / "CHANGELOG.md").read_text(encoding="utf-8"))[1]
    outcome = outcome_of([TOP / "packaging/build-deb"], room)
    package = room / f"osm-mirror_{newest}_amd64.deb"
    tally.check("build-deb", outcome.status == 0 and outcome.stderr == b"" and package.exists(), outcome)
    outcome = outcome_of(["dpkg-deb", "--field", package, "Version"], room)
    tally.check("the package's version", outcome == Outcome(newest.encode() + b"\n", b"", 0), outcome)
    subprocess.run(["dpkg-deb", "--extract", package, room / "package"], check=True)
    want = {f"usr/{name}" for file in INSTALLED | page_files() for name in PACKAGED.get(file, [file])}
    got = set(modes_of(room / "package"))
    tally.check("what is packaged", got == want, got ^ want)
    check_job(tally, "packaged", room / "package/usr", room / "package-job")
    if is_there("lintian"):
        root = ["--allow-root"] if os.geteuid() == 0 else []
        outcome = outcome_of(["lintian", *root, "--fail-on", "error,warning", package], room)
        tally.check("lintian", outcome.status == 0, outcome)


def main():
    tally = Tally()
    with tempfile.TemporaryDirectory() as folder:
        room = Path(folder)
        check_installation(tally, room)
        check_destination(tally, room)
        check_package(tally, room)
    tally.end()


if __name__ == "__main__":
    main()
