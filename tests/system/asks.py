"""What a query answers over a set, and what it asks of the trees, as docs/FORMATS.md says under "What a query means" and "What
is asked of the trees". Nothing here knows a tree: a reference is the key of the tree of objects."""

from bisect import bisect_left, bisect_right
from collections import defaultdict

from elements import element_of
from query_reader import Copy, Difference, Out, Recursion, Select, Union, statements_of
from trees import Range, id_bytes

KINDS = {"node": (1,), "way": (2,), "rel": (3,), "relation": (3,), "nwr": (1, 2, 3)}
# The sorts of filters that may be a base, the first one first; and the kind of what a path goes through.
PATHS = {"w": 2, "r": 3, "bn": 1, "bw": 2, "br": 3}
BASES = [("ids",), ("set",), tuple(PATHS), ("tag",), ("key",), ("box",)]
RIVALS = ("tag", "key")
# What can be decided from a reference alone.
BY_REFERENCE = ("ids", "set", "w", "r")


class World:
    """The objects of a set, from canonical lines, by what queries look them up by."""

    def __init__(self, lines):
        self.objects = dict(map(element_of, lines))
        self.tagged, self.keyed, self.parents = defaultdict(list), defaultdict(list), defaultdict(list)
        for name, element in self.objects.items():
            for key, value in element.tags.items():
                self.tagged[key, value].append(name)
                self.keyed[key].append(name)
            for listed in set(element.lists):
                self.parents[listed].append(name)
        nodes = ((name, element.place) for name, element in self.objects.items() if element.place)
        self.places = sorted((lat, lon, name) for name, (lon, lat) in nodes)

    def in_box(self, box):
        """The nodes in a box."""
        south, west, north, east = box.whole()
        rows = self.places[bisect_left(self.places, (south,)) : bisect_right(self.places, (north + 1,))]
        if box.crosses():
            return {name for _, lon, name in rows if lon >= west or lon <= east}
        return {name for _, lon, name in rows if west <= lon <= east}

    def listed_by(self, names):
        """What these objects list, whether it is there or not."""
        return {listed for name in names for listed in self.objects[name].lists}

    def there(self, names):
        return {name for name in names if name in self.objects}


class Asks:
    """What a query asks: whether references are there, lines of objects that are, those of candidates that only filters by
    reference are applied to, ranges that are walked and that are counted, each with its tree, and boxes."""

    def __init__(self):
        self.there, self.lines, self.spared = set(), set(), set()
        self.walks, self.counts, self.boxes = set(), set(), set()


def under(key):
    return Range(key, key, True)


def tag_range(kinds, found):
    """The range of the entries that a filter by a tag or a key looks for."""
    if found.sort == "key":
        return under(found.given + b"\0")
    return under(found.given[0] + b"\0" + found.given[1] + b"\0" + kind_byte(kinds))


def kind_byte(kinds):
    return bytes(kinds) if len(kinds) == 1 else b""


def of_kinds(names, kinds):
    return {name for name in names if name[0] in kinds}


class Evaluation:
    """A query that is carried out: its named sets, its answer so far, and what it has asked."""

    def __init__(self, world):
        self.world, self.sets, self.answer, self.asks = world, defaultdict(set), [], Asks()

    def carry_out(self, statement):
        """The set that a statement gives, which it writes; of an out, what it prints."""
        if isinstance(statement, Out):
            return self.out(statement)
        found = self.given_by(statement)
        self.sets[statement.to] = found
        return found

    def given_by(self, statement):
        if isinstance(statement, Select):
            return self.select(KINDS[statement.kind], list(statement.filters))
        if isinstance(statement, Recursion):
            return getattr(self, RECURSIONS[statement.how])(self.sets[statement.of])
        if isinstance(statement, Copy):
            return self.sets[statement.of]
        if isinstance(statement, Union):
            return set().union(*map(self.carry_out, statement.parts))
        assert isinstance(statement, Difference)
        return self.carry_out(statement.first) - self.carry_out(statement.second)

    def out(self, statement):
        printed = sorted(self.sets[statement.of])[: statement.most]
        self.answer += [self.world.objects[name].printed(statement.mode) for name in printed]
        if statement.mode != "ids":
            self.asks.lines.update(printed)

    # ---- Query statements

    def select(self, kinds, filters):
        base = self.base_of(kinds, filters)
        if base is None:
            self.asks.walks.update((1, under(bytes([kind]))) for kind in kinds)
            found = of_kinds(self.world.objects, kinds)
        else:
            filters.remove(base)
            found = self.candidates(kinds, base)
        if filters:
            spared = all(it.sort in BY_REFERENCE for it in filters)
            (self.asks.spared if spared else self.asks.lines).update(found)
        for it in filters:
            if it.sort in ("w", "r"):
                self.asks.lines.update(of_kinds(self.sets[it.given], (PATHS[it.sort],)))
            found = self.kept(found, it)
        return found

    def base_of(self, kinds, filters):
        """The filter that gives the candidates, or None; rivals are counted."""
        sorts = next((it for it in BASES if any(found.sort in it for found in filters)), ())
        fitting = [it for it in filters if it.sort in sorts]
        rivals = [it for it in filters if it.sort in RIVALS]
        if not fitting or fitting[0].sort not in RIVALS or len(rivals) < 2:
            return fitting[0] if fitting else None
        self.asks.counts.update((2, tag_range(kinds, it)) for it in rivals)
        return min(rivals, key=lambda it: len(self.entries_of(kinds, it)))

    def entries_of(self, kinds, rival):
        """The objects whose entries the range of a rival holds."""
        if rival.sort == "key":
            return self.world.keyed.get(rival.given, [])
        return of_kinds(self.world.tagged.get(rival.given, []), kinds)

    def candidates(self, kinds, base):
        world, asks = self.world, self.asks
        if base.sort == "set":
            return of_kinds(self.sets[base.given], kinds)
        if base.sort == "ids":
            names = {bytes([kind]) + id_bytes(name) for kind in kinds for name in base.given}
            asks.there.update(names)
            return world.there(names)
        if base.sort == "box":
            asks.boxes.add(base.given)
            return world.in_box(base.given)
        if base.sort in RIVALS:
            asks.walks.add((2, tag_range(kinds, base)))
            return of_kinds(self.entries_of(kinds, base), kinds)
        through = of_kinds(self.sets[base.given], (PATHS[base.sort],))
        if base.sort in ("w", "r"):
            listed = of_kinds(world.listed_by(through), kinds)
            asks.lines.update(through)
            asks.there.update(listed)
            return world.there(listed)
        asks.walks.update((4, under(name + kind_byte(kinds))) for name in through)
        return {parent for name in through for parent in world.parents.get(name, []) if parent[0] in kinds}

    def kept(self, names, found):
        """Those of the names that a filter keeps."""
        objects, given = self.world.objects, found.given
        if found.sort in PATHS:
            through = of_kinds(self.sets[given], (PATHS[found.sort],))
            if found.sort in ("w", "r"):
                return names & self.world.listed_by(through)
            return {name for name in names if not through.isdisjoint(objects[name].lists)}
        inside = self.world.in_box(given) if found.sort == "box" else ()
        ids = set(map(id_bytes, given)) if found.sort == "ids" else ()
        tests = {
            "set": lambda name: name in self.sets[given],
            "ids": lambda name: name[1:] in ids,
            "box": lambda name: name in inside,
            "key": lambda name: given in objects[name].tags,
            "no key": lambda name: given not in objects[name].tags,
            "tag": lambda name: objects[name].tags.get(given[0]) == given[1],
            "no tag": lambda name: objects[name].tags.get(given[0]) != given[1],
        }
        return set(filter(tests[found.sort], names))

    # ---- Recursions

    def down(self, names):
        """`>`."""
        upper = of_kinds(names, (2, 3))
        listed = of_kinds(self.world.listed_by(upper), (1, 2))
        ways = self.world.there(of_kinds(self.world.listed_by(of_kinds(names, (3,))), (2,)))
        below = self.world.listed_by(ways)
        self.asks.lines |= upper | ways
        self.asks.there |= listed | below
        return self.world.there(listed | below)

    def down_all(self, names):
        """`>>`."""
        found = reached(names, lambda some: self.world.there(self.world.listed_by(some)))
        self.asks.lines |= of_kinds(names | found, (2, 3))
        self.asks.there |= self.world.listed_by(names | found)
        return found

    def above(self, names):
        """The objects that list one of these."""
        return {parent for name in names for parent in self.world.parents.get(name, [])}

    def up(self, names):
        """`<`."""
        first = self.above(of_kinds(names, (1, 2)))
        found = first | self.above(of_kinds(first, (2,)))
        self.asks.walks.update((4, under(name)) for name in of_kinds(names, (1, 2)) | of_kinds(found, (2,)))
        return found

    def up_all(self, names):
        """`<<`."""
        found = reached(names, self.above)
        self.asks.walks.update((4, under(name)) for name in names | found)
        return found


RECURSIONS = {">": "down", ">>": "down_all", "<": "up", "<<": "up_all"}


def reached(names, step):
    """What one or more steps reach."""
    found, latest = set(), step(names)
    while latest:
        found |= latest
        latest = step(latest) - found
    return found


def asked_by(world, query):
    """The answer to a query over a set, and what it asks."""
    evaluation = Evaluation(world)
    for statement in statements_of(query):
        evaluation.carry_out(statement)
    return "".join(evaluation.answer), evaluation.asks
