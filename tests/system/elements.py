"""Objects of a set by what docs/FORMATS.md says of lines: their canonical spelling, and what a query sees of them. Lines are
taken to be valid."""

from typing import NamedTuple

from trees import items, reference, unescaped, units

MODES = {"ids": "", "tags": "T", "skel": "xyNM", "body": "TxyNM", "meta": "vdctiuTxyNM"}
KNOWN = {"v": "0", "d": "V", "c": "0", "t": "", "i": "0"}


def escaped(content):
    """A text in its one spelling."""
    return "".join(it if "!" <= it <= "~" and it not in "%,=@" else f"%{ord(it):02x}%" for it in content.decode())


def degrees(value):
    """Units of 1e-7 degree in their shortest spelling."""
    whole, fraction = divmod(abs(value), 10**7)
    return f"{'-' if value < 0 else ''}{whole}.{fraction:07}".rstrip("0").rstrip(".")


def respelled_tags(text):
    pairs = sorted(tuple(map(unescaped, tag.split("="))) for tag in items(text))
    return ",".join(f"{escaped(key)}={escaped(value)}" for key, value in pairs)


def respelled_members(text):
    parts = (member.partition("@") for member in items(text))
    return ",".join(f"{name[0]}{int(name[1:])}@{escaped(unescaped(role))}" for name, _, role in parts)


def canonical(text):
    """The canonical line of an object that a line puts."""
    name, *rest = text.split()
    field = {it[0]: it[1:] for it in rest}
    words = [f"{name[0]}{int(name[1:])}", *(f"{letter}{field.get(letter) or value}" for letter, value in KNOWN.items())]
    words += [f"u{escaped(unescaped(field.get('u', '')))}", f"T{respelled_tags(field.get('T', ''))}"]
    if name[0] == "n":
        words += [f"{axis}{degrees(units(field[axis]))}" for axis in "xy"]
    elif name[0] == "w":
        words.append("N" + ",".join(f"n{int(node[1:])}" for node in items(field.get("N", ""))))
    else:
        words.append("M" + respelled_members(field.get("M", "")))
    return " ".join(words)


class Element(NamedTuple):
    """What a query sees of an object: its canonical line, its tags, a node's longitude and latitude, and the references that
    a way or a relation lists, each as the key of the tree of objects."""

    line: str
    tags: dict
    place: tuple
    lists: tuple

    def printed(self, mode):
        """The line of an answer."""
        name, *rest = self.line.split(" ")
        return " ".join([name, *(it for it in rest if it[0] in MODES[mode])]) + "\n"


def element_of(line):
    """The reference of an object, and the object, by its canonical line."""
    name, *rest = line.split(" ")
    field = {it[0]: it[1:] for it in rest}
    tags = dict(tuple(map(unescaped, tag.split("="))) for tag in items(field["T"]))
    place = (units(field["x"]), units(field["y"])) if "x" in field else None
    listed = items(field.get("N", "")) + [member.partition("@")[0] for member in items(field.get("M", ""))]
    return reference(name), Element(line, tags, place, tuple(map(reference, listed)))
