"""Types, documents and edits at random, for the writers of cases. Most edits fit their type; some do not."""

import random

from editlens.types import LEAST_INT, MOST_INT, Ty

from ..documents import BOOL, CONTAINERS, INT, TEXT, UNIT, alternatives, container, enum, record
from ..plans import MOST_DEPTH, hold, in_byte_order

NAMES = ["", "a", "ab", "b", "é", "\uffff", "\U00010000"]
FIELDS = ["a", "b", "c", "é é", "list", "z"]
SIMPLE = {"unit": UNIT, "bool": BOOL, "int": INT, "text": TEXT}
SHAPE_EDITS = {"list": ["ins", "del", "move", "reorder"], "keyed": ["put", "drop", "rename"], "tree": ["graft", "prune", "shift", "hang"]}


def depth_lists(count):
    """All depth lists of this number of nodes."""
    lists = [[0]]
    for _ in range(count - 1):
        lists = [depths + [depth] for depths in lists for depth in range(1, depths[-1] + 2)]
    return lists


class Chance(random.Random):
    """A source of random types, documents and edits."""

    def some_type(self, depth):
        """A type of at most this height."""
        kinds = ["unit", "bool", "int", "int", "text", "text", "enum"]
        kind = self.choice(kinds + ["record", "alternatives", *CONTAINERS] * (2 if depth else 0))
        if kind == "enum":
            return enum(self.sample(FIELDS, self.randint(1, 3)))
        if kind == "record":
            return record([(name, self.some_type(depth - 1)) for name in in_byte_order(self.sample(FIELDS, self.randint(0, 3)))])
        if kind == "alternatives":
            return alternatives([(name, self.some_type(depth - 1)) for name in self.sample(FIELDS, self.randint(1, 3))])
        return container(kind, self.some_type(depth - 1)) if kind in CONTAINERS else SIMPLE[kind]

    def near_type(self, ty):
        """The type, or one that differs at one place."""
        if ty.kind in SIMPLE or self.random() < 0.2:
            return ty if self.random() < 0.7 else self.some_type(1)
        if ty.kind == "enum":
            members = list(ty.members)
            return enum(self.choice([members, members[::-1], members + ["more"]]))
        if ty.fields:
            place = self.randrange(len(ty.fields))
            name, inner = ty.fields[place]
            changed = (*ty.fields[:place], (name, self.near_type(inner)), *ty.fields[place + 1 :])
            return Ty(ty.kind, fields=self.choice([changed, changed[:-1] if ty.kind == "record" else changed[::-1]]))
        return container(ty.kind, self.near_type(ty.inner)) if ty.kind in CONTAINERS else ty

    def shuffled(self, ty):
        """The same type, with the fields of its records in another order."""
        if ty.kind in ("record", "alternatives"):
            fields = [(name, self.shuffled(inner)) for name, inner in ty.fields]
            return Ty(ty.kind, fields=tuple(self.sample(fields, len(fields)) if ty.kind == "record" else fields))
        return container(ty.kind, self.shuffled(ty.inner)) if ty.kind in CONTAINERS else ty

    def letters(self):
        """A text of at most three characters."""
        return "".join(self.choice('ab é€\n"\\\U0001f600') for _ in range(self.randint(0, 3)))

    def number(self):
        """A whole number, often one at a bound."""
        return self.choice([0, 1, -1, 7, LEAST_INT, MOST_INT, MOST_INT])

    def document(self, ty):
        """A document of a type."""
        if ty.kind in SIMPLE:
            return {"unit": lambda: None, "bool": lambda: self.random() < 0.5, "int": self.number, "text": self.letters}[ty.kind]()
        if ty.kind == "enum":
            return self.choice(ty.members)
        if ty.kind == "record":
            return {name: self.document(inner) for name, inner in ty.fields}
        if ty.kind == "alternatives":
            name, inner = self.choice(ty.fields)
            return {name: self.document(inner)}
        count = self.randint(ty.kind == "tree", 3)
        items = [self.document(ty.inner) for _ in range(count)]
        if ty.kind == "tree" and self.random() < 0.2:
            return {"depths": list(range(MOST_DEPTH + 1)), "items": [self.document(ty.inner) for _ in range(MOST_DEPTH + 1)]}
        keys = in_byte_order(self.sample(NAMES, count))
        depths = count and self.choice(depth_lists(count))
        return hold(ty.kind, {"list": count, "keyed": keys, "tree": depths}[ty.kind], items)

    def path(self):
        """A path in a tree, now and then one that is near the most depth."""
        if self.random() < 0.15:
            return [0] * self.randint(12, 15)
        return [self.choice([0, 0, 0, 1, 2]) for _ in range(self.choice([0, 0, 1, 1, 2]))]

    def word(self, ty, most=3):
        """An edit of at most this number of primitives."""
        return [self.primitive(ty) for _ in range(self.randint(0, most))]

    def primitive(self, ty):
        """A primitive that mostly fits the type."""
        if self.random() < 0.1:
            ty = self.some_type(1)
        if ty.kind in SIMPLE:
            return self.simple_primitive(ty.kind)
        if ty.kind == "enum":
            return {"set": self.choice([*ty.members, *FIELDS])}
        if ty.kind == "record":
            name, inner = self.choice([*ty.fields, (self.choice(FIELDS), INT)])
            return {"at": [name, self.word(inner, 2)]}
        if ty.kind == "alternatives":
            (old, inner), (new, other) = self.choice(ty.fields), self.choice([*ty.fields, ("q", INT)])
            return {"stay": [old, self.word(inner, 2)]} if self.random() < 0.5 else {"switch": [old, new, self.word(other, 2)]}
        return self.choice([self.at_place, self.shape_edit, self.shape_edit])(ty.kind, ty.inner)

    def simple_primitive(self, kind):
        """A primitive for a null, a bool, a number or a text."""
        value = {"unit": lambda: False, "bool": lambda: True, "int": self.number, "text": self.letters}[kind]()
        if kind == "int" and self.random() < 0.6:
            return {"add": self.number()}
        if kind == "text" and self.random() < 0.6:
            return {"splice": [self.randint(0, 3), self.choice([0, 1, 2, 2**64 - 1]), self.letters()]}
        return {"set": value}

    def place(self, kind):
        """A place of a list, a keyed map or a tree."""
        return {"list": self.randint(0, 3), "keyed": self.choice(NAMES), "tree": self.path()}[kind]

    def at_place(self, kind, inner):
        """A change at a place, which is now and then of another kind."""
        kind = kind if self.random() < 0.9 else self.choice(CONTAINERS)
        return {"mod": [self.place(kind), self.word(inner, 2)]}

    def shape_edit(self, kind, _inner):
        """An edit of a shape. All contents are made, so that every kind takes the same numbers."""
        name = self.choice(SHAPE_EDITS[kind])
        small, count = self.randint(0, 2), self.randint(1, 3)
        order = list(range(self.randint(0, 3)))
        self.shuffle(order)
        content = {
            "ins": count,
            "del": count,
            "move": [small, self.randint(0, 2)],
            "reorder": order,
            "put": self.choice(NAMES),
            "drop": self.choice(NAMES),
            "rename": [self.choice(NAMES), self.choice(NAMES)],
            "graft": self.path(),
            "prune": self.path(),
            "shift": [self.path(), small, self.randint(0, 2)],
            "hang": [self.path(), self.path()],
        }
        return {name: content[name]}

    def changed(self, tree):
        """A tree of JSON that differs at one place."""
        if isinstance(tree, list) and tree and self.random() < 0.8:
            place = self.randrange(len(tree))
            some = self.choice([[], [self.changed(tree[place])], [tree[place], tree[place]]])
            return tree[:place] + some + tree[place + 1 :]
        if isinstance(tree, dict) and tree and self.random() < 0.8:
            name = self.choice(list(tree))
            rest = {other: inner for other, inner in tree.items() if other != name}
            return self.choice([rest, {**rest, name: self.changed(tree[name])}, {**rest, name + "s": tree[name]}, {**tree, "q": 0}])
        others = [None, True, 0, 1.5, -1, MOST_INT + 1, LEAST_INT - 1, 2**64, "", "a", [], {}, [[]], 65536, 65537]
        if type(tree) is int:
            others += [tree + 1, float(tree), str(tree)]
        return self.choice(others)
