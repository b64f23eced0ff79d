"""`pack` in bounded memory: whatever it may hold, it writes the same pack; how much it holds; where its temporary files go, and
that none is left, also where it is killed or a disk is full."""

import os
import resource
import signal
import subprocess
import sys
import tempfile
import time
from pathlib import Path

from lines_rows_test import rows, set_file
from runs import PROGRAM, TOP, Outcome, Tally, run

MIB = 1 << 20


def options_of(edition, sequence):
    return ["--edition", edition] if edition == b"1" else ["--edition", edition, "--sequence", sequence]


def check_same_packs(tally, folder):
    """Each set of the vectors has one pack, however little is held in memory."""
    for name, edition, sequence, root, *_ in rows("roots.tsv"):
        if edition == b"0":
            continue
        packs = set()
        for number, words in enumerate([[], ["--memory", "0"], ["--memory", "3000"], ["--memory", "18446744073709551615"]]):
            path = folder / f"{number}.pack"
            ended = run([PROGRAM, "pack", set_file(name), path, *options_of(edition, sequence), *words])
            tally.check(f"root of {name} {edition} {words}", ended == Outcome(root + b"\n", b"", 0), ended)
            packs.add(path.read_bytes())
        tally.check(f"one pack of {name} {edition} {sequence}", len(packs) == 1, [len(it) for it in packs])


def made_extract(folder, share):
    path = folder / f"extract-{share}.opl"
    with path.open("wb") as into:
        subprocess.run([sys.executable, TOP / "bench/make_extract.py", "--share", str(share)], stdout=into, check=True)
    return path


def check_memory(tally, folder):
    """A set of some 23 MB is packed within 2 MB and 64 MiB, and in any order of its lines. The whole set in memory takes more."""
    extract = made_extract(folder, 0.2)
    published = run([PROGRAM, "publish", extract])
    packs = {}
    for name, words in [
        ("all in memory", []),
        ("2 MB", ["--memory", "2000000"]),
    ]:
        place = folder / "extract.pack"
        limited = [sys.executable, __file__, "--peak", PROGRAM, "pack", extract, place, *words]
        told = run([str(it) for it in limited])
        peak = int(told.stderr)
        tally.check(f"{name}: root", told.stdout == published.stdout and told.status == 0, told)
        packs[name] = place.read_bytes(), peak
    (whole, most), (bounded, least) = packs.values()
    tally.check("one pack", whole == bounded, len(whole), len(bounded))
    tally.check("bounded memory", least <= 2_000_000 + 64 * MIB < most, least, most)
    lines = extract.read_bytes().splitlines(keepends=True)
    turned = folder / "turned.opl"
    turned.write_bytes(b"".join(reversed(lines)))
    place = folder / "turned.pack"
    ended = run([PROGRAM, "pack", turned, place, "--memory", "2000000"])
    tally.check("lines in another order", ended == Outcome(published.stdout, b"", 0) and place.read_bytes() == whole, ended)
    turned.write_bytes(b"".join(lines) + lines[7])
    ended = run([PROGRAM, "pack", turned, folder / "none.pack", "--memory", "2000000"])
    told = f"O13 line {len(lines) + 1} byte 0\n".encode()
    tally.check("an object twice, far apart", ended == Outcome(b"", told, 2), ended)
    tally.check("no pack of it", not (folder / "none.pack").exists())


def tell_peak(words):
    """Runs the words, and tells on standard error the most bytes that they held."""
    ended = subprocess.run(words, stdout=subprocess.PIPE)
    sys.stdout.buffer.write(ended.stdout)
    print(resource.getrusage(resource.RUSAGE_CHILDREN).ru_maxrss * 1024, file=sys.stderr)
    sys.exit(ended.returncode)


def files_of(process):
    """Where the files are that a process has open."""
    found = []
    for entry in Path(f"/proc/{process}/fd").iterdir():
        try:
            found.append(os.readlink(entry))
        except FileNotFoundError:
            pass
    return found


def check_temporary_files(tally, folder, extract):
    """They lie in the folder that is named, or beside the pack, and have no names."""
    beside, temp = folder / "beside", folder / "temp"
    beside.mkdir()
    temp.mkdir()
    for words, place in [([], beside), (["--temp", temp], temp)]:
        pack = beside / "a.pack"
        child = subprocess.Popen([PROGRAM, "pack", extract, pack, "--memory", "100000", *words], stdout=subprocess.PIPE)
        seen = set()
        while child.poll() is None:
            try:
                seen |= {it for it in files_of(child.pid) if "osm_mirror-scratch" in it}
            except (FileNotFoundError, PermissionError):
                break
            time.sleep(0.01)
        child.communicate()
        tally.check(f"packed {words}", child.returncode == 0)
        tally.check(f"temporary files {words}", seen and all(it.startswith(f"{place}/") for it in seen), seen)
        tally.check(f"without names {words}", all(it.endswith(" (deleted)") for it in seen), seen)
        tally.check(f"none left {words}", os.listdir(beside) == ["a.pack"] and os.listdir(temp) == [], os.listdir(beside))
    return beside, temp


def check_folders(tally, folder):
    """A folder that isn't there, or isn't one, is a device that fails, and no pack is written."""
    place = folder / "folders.pack"
    place.write_bytes(b"older")
    for temp in [folder / "none", set_file(b"F")]:
        ended = run([PROGRAM, "pack", set_file(b"F"), place, "--temp", temp])
        tally.check(f"--temp {temp}", ended == Outcome(b"", b"device\n", 3), ended)
        tally.check("the older pack stays", place.read_bytes() == b"older")
    whole = run([PROGRAM, "pack", set_file(b"F"), place, "--temp", ""])
    tally.check("the folder where the program runs", whole.status == 0 and whole.stderr == b"", whole)
    ended = run([PROGRAM, "pack", set_file(b"F"), "/dev/stdout"])
    tally.check("a pack on a pipe", ended == Outcome(place.read_bytes() + whole.stdout, b"", 0), ended.stderr)


def check_full_disk(tally, beside, temp, extract):
    """Where no file may grow beyond some size, as on a full disk, nothing is written."""
    for most in [0, 4096, 100_000, 500_000, 5_000_000]:
        place = beside / "full.pack"
        place.write_bytes(b"older")

        def limit():
            signal.signal(signal.SIGXFSZ, signal.SIG_IGN)
            resource.setrlimit(resource.RLIMIT_FSIZE, (most, most))

        ended = subprocess.run(
            [PROGRAM, "pack", extract, place, "--memory", "100000", "--temp", temp],
            capture_output=True,
            preexec_fn=limit,
        )
        told = Outcome(ended.stdout, ended.stderr, ended.returncode)
        tally.check(f"files of {most} bytes", told == Outcome(b"", b"device\n", 3), told)
        tally.check(f"the older pack stays: {most}", place.read_bytes() == b"older")
        tally.check(f"nothing is left: {most}", sorted(os.listdir(beside)) == ["a.pack", "full.pack"] and os.listdir(temp) == [])


def check_kill(tally, beside, temp, extract):
    """Killed at any moment, it leaves the pack that was there, or the new one, and no temporary file, but for an empty one where the
    kill comes between making the file and removing its name."""
    place = beside / "killed.pack"
    whole = (beside / "a.pack").read_bytes()
    begun = time.monotonic()
    subprocess.run([PROGRAM, "pack", extract, place, "--memory", "100000", "--temp", temp], stdout=subprocess.PIPE, check=True)
    seconds = time.monotonic() - begun
    for step in range(8):
        place.write_bytes(b"older")
        child = subprocess.Popen([PROGRAM, "pack", extract, place, "--memory", "100000", "--temp", temp], stdout=subprocess.PIPE)
        time.sleep(seconds * step / 7)
        child.kill()
        child.communicate()
        tally.check(f"killed at {step} of 7", place.read_bytes() in (b"older", whole))
        left = [it for it in temp.iterdir() if it.name != "osm_mirror-scratch.0" or it.stat().st_size > 0]
        tally.check(f"no temporary file with anything in it at {step}", left == [], left)
        (temp / "osm_mirror-scratch.0").unlink(missing_ok=True)
        for part in beside.glob("killed.pack.*"):
            part.unlink()


def main():
    tally = Tally()
    with tempfile.TemporaryDirectory() as room:
        folder = Path(room)
        check_same_packs(tally, folder)
        check_memory(tally, folder)
        extract = made_extract(folder, 0.03)
        beside, temp = check_temporary_files(tally, folder, extract)
        check_folders(tally, folder)
        check_full_disk(tally, beside, temp, extract)
        check_kill(tally, beside, temp, extract)
    tally.end()


if __name__ == "__main__":
    if sys.argv[1:2] == ["--peak"]:
        tell_peak(sys.argv[2:])
    main()
