"""Sentences of the documents that go stale with the code: which public types use words of `specs/internal`, which crates of
the toolchain are trusted, which tests and which crates there are. They are compared with the sources; no program is run."""

import re

from runs import TOP, Tally

DOCS = TOP / "docs"
NAME = re.compile(r"`(\w+)`")


def text_of(page):
    return (DOCS / page).read_text(encoding="utf-8")


# ---- Words of specs/internal in what contracts see of a type


def block_at(text, start):
    """The text from a brace to the one that closes it."""
    depth = 0
    for at in range(start, len(text)):
        depth += {"{": 1, "}": -1}.get(text[at], 0)
        if depth == 0:
            return text[start : at + 1]
    return text[start:]


def exported_by(crate):
    """The names that a crate exports: the program exports none."""
    if not (crate / "src/lib.rt").is_file():
        return set()
    uses = re.findall(r"^pub use ([^;]*);", (crate / "src/lib.rt").read_text(encoding="utf-8"), re.MULTILINE)
    return set(re.findall(r"\b[A-Z]\w*\b", " ".join(uses)))


def internal_words(text):
    """The words of specs/internal that a file uses, by their names there."""
    words = set()
    for names in re.findall(r"ghost use Rattle\.\S*specs\.internal\S*?\.\{([^}]*)\};", text):
        words |= {name.split(" as ")[-1].strip() for name in names.split(",") if name.strip()}
    return words


def uses_of_internal(part):
    """The exported types whose `view`, or `invariant`, uses a word of specs/internal."""
    found = set()
    for file in TOP.glob("crates/*/src/**/*.rt"):
        text = file.read_text(encoding="utf-8")
        words = internal_words(text)
        if not words:
            continue
        exported = exported_by(TOP / "crates" / file.relative_to(TOP / "crates").parts[0])
        for model in re.finditer(r"^impl(?:<[^>]*>)? Model for (\w+)[^{;]*\{", text, re.MULTILINE):
            body = block_at(text, model.end() - 1)
            stated = re.search(rf"^    ghost {part}[^=;\n]*=\s*(\{{)", body, re.MULTILINE)
            used = set(re.findall(r"[\w-]+", block_at(body, stated.start(1)))) & words if stated else set()
            if used and model[1] in exported:
                found.add(model[1])
    return found


def check_internal(tally):
    page = text_of("PROOFS.md")
    for part in ("invariant", "view"):
        told = re.search(rf"\(the {part}s of ([^)]*)\)", page)
        named = set(NAME.findall(told[1])) if told else set()
        used = uses_of_internal(part)
        tally.check(f"{part}s with words of specs/internal", named == used, "named:", named, "used:", used)


# ---- Crates


def crates():
    """The crates of crates.txt, each with what it stands on."""
    lines = (TOP / "crates.txt").read_text(encoding="utf-8").splitlines()
    rows = [line.split() for line in lines if line and not line.startswith("#")]
    return {row[0].rstrip(":"): row[1:] for row in rows}


def below(listed, crate, found):
    """Adds the crate and all that it stands on."""
    if crate not in found:
        found.add(crate)
        for name in listed.get(crate, []):
            below(listed, name, found)
    return found


def check_crates(tally):
    listed = crates()
    trusted = re.search(r"The program uses these crates \([^)]*\): ([^;]*);", text_of("PROOFS.md"))
    named = set(NAME.findall(trusted[1])) if trusted else set()
    used = {name for name in below(listed, "osm_mirror", set()) if name not in listed}
    tally.check("trusted crates", named == used, "missing:", used - named, "not used:", named - used)
    proofs, map_of_crates = text_of("PROOFS.md"), text_of("ARCHITECTURE.md")
    # (a crate of tests is named by the crate that it tests, or by itself)
    for crate in [name for name in listed if not name.endswith(("_tests", "_devices"))]:
        tally.check(f"PROOFS.md names {crate}", re.search(rf"\b{crate}\b", proofs) is not None)
        tally.check(f"ARCHITECTURE.md names {crate}", f"`{crate}`" in map_of_crates)
    for crate in [name for name in listed if name.endswith("_devices")]:
        tally.check(f"ARCHITECTURE.md names {crate}", f"`{crate}`" in map_of_crates)
    for crate in [name for name in listed if name.endswith("_tests")]:
        known = crate.removesuffix("_tests") in listed or f"`{crate}`" in map_of_crates
        tally.check(f"{crate} is known by its name", known)


# ---- Tests


def check_tests(tally):
    scripts = {path.name for path in (TOP / "tests/system").glob("*_test.py")}
    named = set(re.findall(r"\w+_test\.py", text_of("PROOFS.md")))
    tally.check("PROOFS.md names all tests of the program", scripts <= named, scripts - named)
    for page in sorted(DOCS.glob("*.md")):
        met = set(re.findall(r"\w+_test\.py", page.read_text(encoding="utf-8")))
        tally.check(f"tests that {page.name} names are there", met <= scripts, met - scripts)


def main():
    tally = Tally()
    check_internal(tally)
    check_crates(tally)
    check_tests(tally)
    tally.end()


if __name__ == "__main__":
    main()
