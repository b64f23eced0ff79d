"""Reads a valid query into its statements, by the rules of docs/FORMATS.md. What isn't valid isn't told: it raises."""

import re
from fractions import Fraction
from math import ceil, floor
from typing import NamedTuple

BLANKS = r"(?:\s|//[^\n]*|/\*.*?\*/)*"
TEXT = r"\"(?:[^\"\\]|\\.)*\"|'(?:[^'\\]|\\.)*'|\w+"
NUMBER = r"-?\d+(?:\.\d+)?"
ESCAPES = {"n": "\n", "t": "\t"}


class Box(NamedTuple):
    """The edges of a box, exact, in degrees."""

    south: Fraction
    west: Fraction
    north: Fraction
    east: Fraction

    def crosses(self):
        """Whether it crosses the 180th meridian."""
        return self.west > self.east

    def whole(self):
        """Its edges in units of 1e-7 degree, rounded inwards: south, west, north, east."""
        south, west, north, east = (edge * 10**7 for edge in self)
        return ceil(south), ceil(west), floor(north), floor(east)


class Filter(NamedTuple):
    """A filter: `ids`, `set`, `tag`, `key`, `no tag`, `no key`, `box`, or the word of a path; and what it names."""

    sort: str
    given: object


class Select(NamedTuple):
    kind: str
    filters: tuple
    to: str


class Recursion(NamedTuple):
    how: str
    of: str
    to: str


class Copy(NamedTuple):
    """A set alone."""

    of: str
    to: str


class Union(NamedTuple):
    parts: tuple
    to: str


class Difference(NamedTuple):
    first: object
    second: object
    to: str


class Out(NamedTuple):
    of: str
    mode: str
    most: object


def text_of(token):
    """The bytes of a text, quoted or bare."""
    if token[0] not in "\"'":
        return token.encode()
    return re.sub(r"\\(?:u([0-9a-fA-F]{4})|(.))", unescaped, token[1:-1]).encode()


def unescaped(found):
    """What an escape of a text stands for."""
    return chr(int(found[1], 16)) if found[1] else ESCAPES.get(found[2], found[2])


class Reader:
    """A query, and how far it has been read."""

    def __init__(self, text):
        self.text, self.at = text, 0

    def take(self, pattern):
        """The match of the pattern here, after blanks; reading goes on behind it. None where there is none."""
        found = re.compile(f"{BLANKS}(?:{pattern})", re.DOTALL).match(self.text, self.at)
        self.at = found.end() if found else self.at
        return found

    def must(self, pattern):
        found = self.take(pattern)
        if found is None:
            raise ValueError(f"{pattern} doesn't come at {self.at} of {self.text}")
        return found

    def statements(self):
        self.take(r"(?:\[(?:out|timeout|maxsize):\w+\]\s*)+;")
        found = []
        while not self.take(r"\Z"):
            found.append(self.statement())
        return found

    def target(self):
        """The set that a statement writes to, and its end."""
        found = self.take(rf"->{BLANKS}\.(\w+)")
        self.must(";")
        return found[1] if found else "_"

    def statement(self):
        if self.take(r"\("):
            return self.block()
        kind = self.take(r"(node|way|relation|rel|nwr)\b")
        if kind:
            filters = tuple(iter(self.filter, None))
            return Select(kind[1], filters, self.target())
        name = self.take(r"\.(\w+)")
        of = name[1] if name else "_"
        if self.take(r"out\b"):
            return self.out(of)
        how = self.take(">>|<<|>|<") if name else self.must(">>|<<|>|<")
        return Recursion(how[0].strip(), of, self.target()) if how else Copy(of, self.target())

    def block(self):
        """A union or a difference, after its parenthesis."""
        first = self.statement()
        if self.take("-"):
            second = self.statement()
            self.must(r"\)")
            return Difference(first, second, self.target())
        parts = [first]
        while not self.take(r"\)"):
            parts.append(self.statement())
        return Union(tuple(parts), self.target())

    def out(self, of):
        mode, most = "body", None
        while not self.take(";"):
            found = self.must(r"(ids|tags|skel|body|meta)\b|(asc|qt)\b|(\d+)")
            mode = found[1] or mode
            most = int(found[3]) if found[3] else most
        return Out(of, mode, most)

    def filter(self):
        """The next filter of a statement, or None."""
        if self.take(r"\["):
            return self.tag_filter()
        if self.take(r"\("):
            return self.filter_in_parentheses()
        name = self.take(r"\.(\w+)")
        return Filter("set", name[1]) if name else None

    def tag_filter(self):
        absent = self.take("!")
        key = text_of(self.must(f"({TEXT})")[1])
        relation = self.take("(!=|=)")
        value = text_of(self.must(f"({TEXT})")[1]) if relation else None
        self.must(r"\]")
        if relation is None:
            return Filter("no key" if absent else "key", key)
        return Filter("tag" if relation[1] == "=" else "no tag", (key, value))

    def filter_in_parentheses(self):
        path = self.take(r"(bn|bw|br|w|r)\b(?:\.(\w+))?")
        if path:
            self.must(r"\)")
            return Filter(path[1], path[2] or "_")
        listed = self.take(f"id{BLANKS}:")
        numbers = [self.must(f"({NUMBER})")[1]]
        while self.take(","):
            numbers.append(self.must(f"({NUMBER})")[1])
        self.must(r"\)")
        if len(numbers) == 4 and not listed:
            return Filter("box", Box(*map(Fraction, numbers)))
        return Filter("ids", tuple(map(int, numbers)))


def statements_of(query):
    """The statements of a query."""
    return Reader(query).statements()
