"""Random types with form files, and random files that fit them. The files are drawn by the forms' own words, and not by the code under test."""

import copy
import random

from editlens.json_text import pointer
from editlens.natural import Number
from editlens.types import Ty

STEMS = ["a", "left", "x y", "a/b", "m~n", "é", "*"]
TEXTS = ["", "x", "aé€z", "open", '"quoted"', "\n", "null"]
WHOLES = [0, 1, -1, 7, 2**63 - 1, -(2**63)]
NUMBERS = ["0", "-0", "1.50", "1.5", "1e400", "-2E-3", "123456789012345678901234567890", "0.0"]
OPAQUE = [None, True, [], {}, [1, {"a": Number("1.0")}], {"b": [None, "é"], "a": Number("2e5")}, "text", 12]
SORTS = ("null", "bool", "number", "string", "array", "object")


class Drawn:
    """A random type: its forms by paths, a function that draws a file, and what is said of the file's JSON."""

    def __init__(self, ty, forms, draw, sort, is_open=False):
        self.ty, self.forms, self.draw, self.sort, self.is_open = ty, forms, draw, sort, is_open


class Source:
    """Draws types, each member name once, so that members which come to be side by side are not the same."""

    def __init__(self):
        self.count = 0

    def name(self):
        self.count += 1
        return f"{random.choice(STEMS)}{self.count}"

    def names(self, least, most):
        return [self.name() for _ in range(random.randint(least, most))]

    def drawn(self, depth, sort=None, is_field=False):
        """A type whose file has a sort of JSON, or any."""
        choices = [it for it in _MAKERS if it[1] == sort or sort is None]
        if depth <= 0:
            choices = [it for it in choices if it[2]]
        if sort is None and not is_field:
            choices = [it for it in choices if it[0] is not Source.missing]
        return random.choice(choices)[0](self, depth)

    def unit(self, depth):
        return Drawn(Ty("unit"), {}, lambda: None, "null")

    def bool(self, depth):
        return Drawn(Ty("bool", start=False), {}, lambda: random.random() < 0.5, "bool")

    def int(self, depth):
        return Drawn(Ty("int", start=0), {}, lambda: random.choice(WHOLES), "number")

    def text(self, depth):
        return Drawn(Ty("text", start=""), {}, lambda: random.choice(TEXTS), "string")

    def number(self, depth):
        def draw():
            text = random.choice(NUMBERS)
            return int(text) if text.lstrip("-").isdigit() and text != "-0" else Number(text)

        return Drawn(Ty("text", start="0"), {(): "number"}, draw, "number")

    def decimal(self, depth):
        return Drawn(Ty("text", start="0"), {(): "decimal"}, lambda: random.choice(NUMBERS), "string")

    def json(self, depth):
        return Drawn(Ty("text", start="null"), {(): "json"}, lambda: copy.deepcopy(random.choice(OPAQUE)), "any")

    def enum(self, depth):
        members = self.names(1, 3)
        return Drawn(Ty("enum", members=tuple(members), start=members[0]), {}, lambda: random.choice(members), "string")

    def words(self, depth):
        """An enum written as true and false."""
        members = self.names(2, 2)
        form = {"members": {members[0]: False, members[1]: True}}
        return Drawn(Ty("enum", members=tuple(members), start=members[0]), {(): form}, lambda: random.random() < 0.5, "bool")

    def record(self, depth):
        fields = [(name, self.drawn(depth - 1, is_field=True)) for name in self.names(0, 3)]
        flat = []
        if random.random() < 0.3:
            flat.append(random.choice([self.record, self.record, self.kind])(max(depth - 1, 0)))
        if random.random() < 0.2:
            flat.append(self.keyed(1))
        if sum(it.is_open for it in flat) > 1:
            flat.pop()
        for inner in flat:
            form = inner.forms.get((), {})
            inner.forms[()] = {**form, "flat": True} if form else "flat"
            fields.append((self.name(), inner))
        ty = Ty("record", fields=tuple(sorted(((name, it.ty) for name, it in fields), key=lambda it: it[0].encode())))
        return Drawn(ty, _under(fields), lambda: _record(fields, flat), "object", any(it.is_open for it in flat))

    def list(self, depth):
        inner = self.drawn(depth - 1)
        return Drawn(Ty("list", inner=inner.ty), _inside(inner), lambda: _many(inner.draw), "array")

    def keyed(self, depth):
        inner = self.drawn(depth - 1)
        return Drawn(Ty("keyed", inner=inner.ty), _inside(inner), lambda: {key: inner.draw() for key in _keys()}, "object", True)

    def alternatives(self, depth):
        tags = [(name, self.drawn(depth - 1)) for name in self.names(1, 3)]

        def draw():
            name, inner = random.choice(tags)
            return {name: inner.draw()}

        return Drawn(_either(tags), _under(tags), draw, "object")

    def kind(self, depth):
        is_apart = random.random() < 0.4
        tags = [(name, self.drawn(depth - 1, None if is_apart else random.choice(["object", "object", "null"]))) for name in self.names(1, 3)]
        form = {"kind": self.name(), **({"content": self.name()} if is_apart else {})}
        forms = {**_under(tags), (): form}

        def draw():
            name, inner = random.choice(tags)
            return _with(form, {form["kind"]: name}, inner.draw())

        return Drawn(_either(tags), forms, draw, "object", not is_apart and any(it.is_open for _, it in tags))

    def null(self, depth):
        some = self.drawn(depth - 1, random.choice(["string", "object", "array", "number"]))
        tags = [("none", self.unit(0)), ("some", some)]
        return Drawn(_either(tags), {**_under(tags), (): {"null": "none"}}, lambda: random.choice([None, some.draw()]), "mixed")

    def untagged(self, depth):
        tags = [(self.name(), self.drawn(depth - 1, sort)) for sort in random.sample(["string", "object", "array", "number", "bool"], 2)]
        return Drawn(_either(tags), {**_under(tags), (): "untagged"}, lambda: random.choice(tags)[1].draw(), "mixed")

    def missing(self, depth):
        tags = [("none", self.unit(0)), ("some", self.drawn(depth - 1))]
        form = {"missing": "none"}
        some = tags[1][1]
        if some.sort in ("string", "object", "array", "number", "bool") and random.random() < 0.4:
            tags.insert(1, ("empty", self.unit(0)))
            form["null"] = "empty"
        drawn = Drawn(_either(tags), {**_under(tags), (): form}, None, "missing")
        drawn.draw = lambda: random.choice([MISSING, *([None] if "null" in form else []), some.draw()])
        return drawn

    def tree(self, depth):
        inner = self.drawn(depth - 1)

        def draw():
            depths = [0]
            while random.random() < 0.7:
                depths.append(random.randint(1, depths[-1] + 1))
            return {"depths": depths, "items": [inner.draw() for _ in depths]}

        return Drawn(Ty("tree", inner=inner.ty), _inside(inner), draw, "object")

    def nested(self, depth):
        is_apart = random.random() < 0.4
        inner = self.drawn(depth - 1, None if is_apart else "object")
        form = {"children": self.name(), **({"content": self.name()} if is_apart else {}), **({"leaf": "missing"} if random.random() < 0.5 else {})}

        def draw(level=0):
            below = [draw(level + 1) for _ in range(random.choice([0, 0, 1, 2, 3]))] if level < 3 else []
            own = {form["children"]: below} if below or "leaf" not in form else {}
            return _with(form, own, inner.draw())

        return Drawn(Ty("tree", inner=inner.ty), {**_inside(inner), (): form}, draw, "object", not is_apart and inner.is_open)

    def one(self, depth):
        """A list of exactly one, around anything else."""
        inner = self.drawn(depth - 1)
        form = inner.forms.get((), {})
        if "one" in form:
            return inner
        form = {form: True, "one": True} if isinstance(form, str) else {**form, "one": True} if form else "one"
        return Drawn(inner.ty, {**inner.forms, (): form}, lambda: [inner.draw()], "array")

    def key_inside(self, depth):
        """A list by key whose items have their key further inside, or several times."""
        only = self.record(max(depth - 1, 0))
        fields = [(self.name(), self.record(max(depth - 1, 0))), (self.name(), self.keyed(1))]
        fields.append((self.name(), Drawn(only.ty, {**only.forms, (): "one"}, lambda: [only.draw()], "array")))
        record, keyed, one = (name for name, _ in fields)
        made = self.name()
        paths = [(made,), (self.name(), made), (record, made), (record, self.name(), made), (keyed, made), (one, "0", made), (one, "0", self.name(), made)]
        first, *others = random.sample(paths, random.randint(1, 4))
        form = {"key": first[-1], **({"in": pointer(first[:-1])} if len(first) > 1 else {}), **({"repeat": list(map(pointer, others))} if others else {})}
        ty = Ty("record", fields=tuple(sorted(((name, it.ty) for name, it in fields), key=lambda it: it[0].encode())))

        def draw(key):
            item = _record(fields, [])
            for path in (first, *others):
                _put_key(item, path, key)
            return item

        return self.keyed_list(form, Drawn(ty, _under(fields), None, "object"), draw)

    def by_key(self, depth):
        is_apart = random.random() < 0.4
        inner = self.drawn(depth - 1, None if is_apart else "object")
        form = {"key": self.name(), **({"content": self.name()} if is_apart else {})}
        return self.keyed_list(form, inner, lambda key: _with(form, {form["key"]: key}, inner.draw()))

    def keyed_list(self, form, inner, draw_item):
        """A list by key with a form, of items that a call draws by their keys."""
        has_order = random.random() < 0.5
        form = {**form, **({"number": True} if random.random() < 0.3 else {})}
        ty, forms = Ty("keyed", inner=inner.ty), _inside(inner)
        if has_order:
            places, order = self.names(2, 2)
            form["order"] = order
            ty = Ty("record", fields=tuple(sorted([(places, ty), (order, Ty("list", inner=Ty("text", start="")))], key=lambda it: it[0].encode())))
            forms = {(places, *path): it for path, it in forms.items()}

        def draw():
            keys = random.sample([0, 5, -2, 12, Number("1.50")], 3) if "number" in form else _keys()
            return [draw_item(key) for key in keys]

        return Drawn(ty, {**forms, (): form}, draw, "array")


MISSING = object()
"""What a field draws that is not in the file."""

# Each with the sort of JSON that it writes, and whether it may be drawn at the depth 0.
_MAKERS = (
    [(getattr(Source, it), sort, True) for it, sort in (("unit", "null"), ("bool", "bool"), ("words", "bool"), ("int", "number"))]
    + [(getattr(Source, it), sort, True) for it, sort in (("number", "number"), ("text", "string"), ("decimal", "string"), ("enum", "string"), ("json", "any"))]
    + [(getattr(Source, it), "object", it == "record") for it in ("record", "keyed", "alternatives", "kind", "tree", "nested")]
    + [(getattr(Source, it), "array", it == "list") for it in ("list", "by_key", "one", "key_inside")]
    + [(getattr(Source, it), "mixed", False) for it in ("null", "untagged")]
    + [(Source.missing, "missing", False)]
)


def _under(fields):
    return {(name, *path): form for name, inner in fields for path, form in inner.forms.items()}


def _inside(inner):
    return {("*", *path): form for path, form in inner.forms.items()}


def _either(tags):
    return Ty("alternatives", fields=tuple((name, it.ty) for name, it in tags))


def _keys():
    return random.sample(["", "k", "K", "two words", "é", "a/b", "0"], random.randint(0, 3))


def _put_key(item, path, key):
    for step in path[:-1]:
        item = item[0] if isinstance(item, list) else item.setdefault(step, {})
    item[path[-1]] = key


def _many(draw):
    return [draw() for _ in range(random.randint(0, 3))]


def _record(fields, flat):
    made = {}
    for name, inner in fields:
        value = inner.draw()
        if inner in flat:
            made.update(value)
        elif value is not MISSING:
            made[name] = value
    return made


def _with(form, own, content):
    return {**own, form["content"]: content} if "content" in form else {**own, **(content or {})}


def some_natural(depth=3):
    """A random type, a form file for it, and a function that draws a file that fits."""
    while True:
        drawn = Source().drawn(depth)
        if drawn.forms and drawn.sort != "any":
            return drawn.ty, {pointer(path): form for path, form in drawn.forms.items()}, drawn.draw


def spoiled(tree):
    """A tree that differs from this one in one place."""
    tree = copy.deepcopy(tree)
    inside = [it for it in _every(tree) if isinstance(it, (dict, list)) and it]
    if not inside or random.random() < 0.1:
        return random.choice([None, 5, "x", [], {}, True, Number("1.5")])
    at = random.choice(inside)
    place = random.choice(list(at) if isinstance(at, dict) else range(len(at)))
    if random.random() < 0.3:
        del at[place]
    elif random.random() < 0.3 and isinstance(at, dict):
        at[random.choice(["new", "none", place + "x"])] = at[place]
    else:
        at[place] = random.choice([None, 5, "x", [], {}, True, Number("1.5"), Number("-0"), 2**70])
    return tree


def _every(tree):
    yield tree
    for it in tree.values() if isinstance(tree, dict) else tree if isinstance(tree, list) else ():
        yield from _every(it)
