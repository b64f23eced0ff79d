#!/usr/bin/env python3
"""Writes an extract with towns as OPL to standard output: make_towns.py [--nodes N] [--ways N] [--relations N] [--towns N]
[--run N] [--seed SEED].

Unlike those of make_extract.py its nodes lie in towns, its ids have gaps, and ids of one place are scattered as in real
extracts: a run of 20 ids lies in one town, the next run in another. Some 6 nodes in 100 have tags. A way has 2 to 40 nodes of
consecutive ids, and relations have 2 to 60 members, some of them relations, some not there. Texts are escaped as osmium does.
The same arguments give the same bytes.
"""

import argparse
import random
import sys

AMENITIES = (
    "bench parking restaurant cafe post_box school bank pharmacy fuel waste_basket bicycle_parking place_of_worship toilets atm"
).split()
HIGHWAYS = (
    ["residential"] * 9 + ["service"] * 8 + ["footway"] * 7 + ["track"] * 4 + ["path"] * 4
    + "tertiary secondary primary unclassified cycleway living_street motorway".split()
)
CROSSINGS = "crossing bus_stop traffic_signals street_lamp turning_circle".split()
SURFACES = "asphalt paving_stones gravel ground grass concrete".split()
NAMES = (
    "Haupt,Bahnhof,Garten,Schul,Berg,Kirch,Wald,Linden,M\u00fchlen,Wiesen,Stra\u00dfburger,Rue de la Paix,"
    "\u041b\u0435\u043d\u0438\u043d\u0430,\u6771\u4eac,O'Neill & Sons,100% Bio,a=b"
).split(",") + ["x,y", "info@home", "caf\u00e9 \U0001F600"]
SUFFIXES = ["stra\u00dfe", "weg", "gasse", "platz", "allee", " Road", ""]
USERS = ["Ann", "bob_42", "M\u00fcller", "map per", "JOSM@home", "\u0418\u0432\u0430\u043d", "x=y", "user,comma", "100%"]
DAYS = [31, 28, 31, 30, 31, 30, 31, 31, 30, 31, 30, 31]
LINES_A_WRITE = 10_000


def escaped(text):
    return "".join(map(escaped_character, text))


def escaped_character(character):
    code = ord(character)
    if character not in "%,=@" and (0x21 <= code <= 0x7E or 0xA1 <= code <= 0x5FF and code != 0xAD):
        return character
    return f"%{code:02x}%" if code <= 0xFF else f"%{code:04x}%"


def degrees(value):
    whole, fraction = divmod(value, 10**7)
    return f"{whole}.{fraction:07}".rstrip("0").rstrip(".")


class Towns:
    """The objects, made in turn from one seed."""

    def __init__(self, given):
        self.chance = random.Random(given.seed).random
        names = (user + (str(at) if at >= len(USERS) else "") for at, user in enumerate(USERS * 40))
        self.users = [(1000 + 37 * at, escaped(name)) for at, name in enumerate(names)]
        self.given = given
        self.nodes, self.ways, self.relations = [], [], []

    def below(self, end):
        return int(self.chance() * end)

    def pick(self, some):
        return some[self.below(len(some))]

    def meta(self):
        user, name = self.users[self.below(len(self.users)) if self.chance() < 0.5 else self.below(5)]
        month = 1 + self.below(12)
        version, changeset = 1 + int(self.chance() * self.chance() * 20), 1000000 + self.below(140000000)
        year, day = 2008 + self.below(17), 1 + self.below(DAYS[month - 1])
        hour, minute, second = self.below(24), self.below(60), self.below(60)
        moment = f"{year:04}-{month:02}-{day:02}T{hour:02}:{minute:02}:{second:02}Z"
        return f"v{version} dV c{changeset} t{moment} i{user} u{name}"

    def name(self):
        return self.pick(NAMES) + self.pick(SUFFIXES)

    def node_tags(self):
        part = self.chance()
        if part < 0.02:
            return self.amenity_tags()
        if part < 0.035:
            return [("highway", self.pick(CROSSINGS))]
        if part < 0.05:
            house, code = str(1 + self.below(200)), f"{self.below(99999):05}"
            return [("addr:housenumber", house), ("addr:postcode", code), ("addr:street", self.name())]
        return [("natural", "tree")] if part < 0.06 else []

    def amenity_tags(self):
        tags = [("amenity", self.pick(AMENITIES))]
        if self.chance() < 0.5:
            tags.append(("name", self.name()))
        if self.chance() < 0.2:
            tags += [("addr:street", self.name()), ("addr:housenumber", str(1 + self.below(120)))]
        return tags

    def town(self):
        """A longitude, a latitude, and how far its nodes lie from there."""
        return 50000000 + self.below(150000000), 470000000 + self.below(80000000), 20000 + self.below(300000)

    def node_lines(self):
        towns = [self.town() for _ in range(self.given.towns)]
        number = 100000
        for at in range(self.given.nodes):
            number += 1 + (0 if self.chance() < 0.7 else self.below(40))
            self.nodes.append(number)
            lon, lat, reach = towns[at // self.given.run % len(towns)]
            x = lon + int((self.chance() + self.chance() - 1) * reach)
            y = lat + int((self.chance() + self.chance() - 1) * reach)
            tags = self.node_tags()
            yield f"n{number} {self.meta()} T{spelled(tags)} x{degrees(x)} y{degrees(y)}\n"

    def way_nodes(self):
        many = 2 + int(self.chance() * self.chance() * 39)
        first = self.below(max(1, len(self.nodes) - many))
        nodes = self.nodes[first : first + many]
        if self.chance() < 0.12 and many > 3:
            nodes = nodes + nodes[:1]
        if self.chance() < 0.003:
            nodes = nodes + [self.nodes[-1] + 1000 + self.below(1000)]  # (isn't there)
        return nodes

    def way_tags(self):
        if self.chance() < 0.45:
            tags = [("building", self.pick(["yes", "yes", "yes", "house", "garage"]))]
            if self.chance() < 0.3:
                tags += [("addr:housenumber", str(1 + self.below(120))), ("addr:street", self.name())]
            return tags
        tags = [("highway", self.pick(HIGHWAYS))]
        if self.chance() < 0.5:
            tags.append(("name", self.name()))
        if self.chance() < 0.4:
            tags.append(("surface", self.pick(SURFACES)))
        if self.chance() < 0.15:
            tags.append(("maxspeed", self.pick(["30", "50", "70", "100"])))
        if self.chance() < 0.1:
            tags.append(("oneway", "yes"))
        return tags

    def way_lines(self):
        number = 5000
        for _ in range(self.given.ways):
            number += 1 + self.below(30)
            self.ways.append(number)
            nodes, tags = self.way_nodes(), self.way_tags()
            yield f"w{number} {self.meta()} T{spelled(tags)} N{','.join(f'n{it}' for it in nodes)}\n"

    def member(self):
        part = self.chance()
        if part < 0.8:
            return f"w{self.pick(self.ways)}@{self.pick(['', 'outer', 'inner', 'forward', 'outer'])}"
        if part < 0.95 or not self.relations:
            return f"n{self.pick(self.nodes)}@{self.pick(['stop', 'platform', 'admin_centre', escaped('via point')])}"
        return f"r{self.pick(self.relations)}@subarea"

    def relation_tags(self):
        sort = self.pick(["multipolygon", "route", "restriction", "boundary"])
        tags = [("type", sort)]
        if sort == "route":
            tags += [("route", self.pick(["bus", "hiking", "bicycle"])), ("name", self.name()), ("ref", str(self.below(999)))]
        if sort == "boundary":
            tags += [("admin_level", str(2 + self.below(9))), ("boundary", "administrative"), ("name", self.name())]
        return tags

    def relation_lines(self):
        number = 300
        for _ in range(self.given.relations):
            number += 1 + self.below(9)
            members = ",".join(self.member() for _ in range(2 + int(self.chance() * self.chance() * 59)))
            self.relations.append(number)
            tags = self.relation_tags()
            yield f"r{number} {self.meta()} T{spelled(tags)} M{members}\n"

    def lines(self):
        yield from self.node_lines()
        yield from self.way_lines()
        yield from self.relation_lines()


def spelled(tags):
    return ",".join(f"{escaped(key)}={escaped(value)}" for key, value in tags)


def main():
    parser = argparse.ArgumentParser()
    numbers = {"nodes": 220_000, "ways": 40_000, "relations": 1_000, "towns": 88, "run": 20, "seed": 1}
    for name, value in numbers.items():
        parser.add_argument(f"--{name}", type=int, default=value)
    sys.stdout.reconfigure(encoding="utf-8")
    held = []
    for line in Towns(parser.parse_args()).lines():
        held.append(line)
        if len(held) == LINES_A_WRITE:
            sys.stdout.write("".join(held))
            held.clear()
    sys.stdout.write("".join(held))


if __name__ == "__main__":
    main()
