"""Random types, lenses, documents, edits and patches."""

import random

from editlens.edits import paths_of
from editlens.json_text import pointer
from editlens.types import Ty, initial, write_name, write_type

NAMES = ["a", "b", "left", "x y", "a/b", "m~n", "é"]
LETTERS = ["", "x", "aé€z", "open", "two words", '"quoted"', "\n"]
NUMBERS = [0, 1, -1, 7, 2**63 - 1, -(2**63), 1000]


def some_type(depth=3):
    kinds = ["bool", "int", "text", "enum", "unit"]
    if depth:
        kinds += ["record", "alternatives", "list", "keyed", "tree"] * 2
    kind = random.choice(kinds)
    if kind == "unit":
        return Ty("unit")
    if kind == "bool":
        return Ty("bool", start=False)
    if kind == "int":
        return Ty("int", start=random.choice([0, 0, 5, -3]))
    if kind == "text":
        return Ty("text", start=random.choice(["", "", "new"]))
    if kind == "enum":
        members = tuple(random.sample(["up", "down", "half", "é"], random.randint(1, 4)))
        return Ty("enum", members=members, start=random.choice(members))
    if kind == "record":
        names = sorted(random.sample(NAMES, random.randint(0, 3)), key=str.encode)
        return Ty("record", fields=tuple((name, some_type(depth - 1)) for name in names))
    if kind == "alternatives":
        names = random.sample(NAMES, random.randint(1, 3))
        return Ty("alternatives", fields=tuple((name, some_type(depth - 1)) for name in names))
    return Ty(kind, inner=some_type(depth - 1))


def some_depths():
    depths = [0]
    while random.random() < 0.7 and len(depths) < 8:
        depths.append(random.randint(1, depths[-1] + 1))
    return depths


def some_document(ty):
    if ty.kind == "unit":
        return None
    if ty.kind == "bool":
        return random.random() < 0.5
    if ty.kind == "int":
        return random.choice(NUMBERS)
    if ty.kind == "text":
        return random.choice(LETTERS)
    if ty.kind == "enum":
        return random.choice(ty.members)
    if ty.kind == "record":
        return {name: some_document(inner) for name, inner in ty.fields}
    if ty.kind == "alternatives":
        name, inner = random.choice(ty.fields)
        return {name: some_document(inner)}
    if ty.kind == "list":
        return [some_document(ty.inner) for _ in range(random.randint(0, 4))]
    if ty.kind == "keyed":
        return {name: some_document(ty.inner) for name in random.sample(NAMES, random.randint(0, 4))}
    depths = some_depths()
    return {"depths": depths, "items": [some_document(ty.inner) for _ in depths]}


def some_place(count):
    return random.randrange(count + (random.random() < 0.1)) if count else 0


def some_primitive(ty, value):
    """A primitive that mostly acts on the value."""
    if random.random() < 0.05:
        return random.choice([{"set": 5}, {"set": "q"}, {"ins": 1}, {"put": "a"}, {"at": ["zz", []]}, {"stay": ["zz", []]}, {"mod": [0, []]}])
    if ty.kind == "record" and ty.fields:
        name, inner = random.choice(ty.fields)
        return {"at": [name, some_edit(inner, value[name])]}
    if ty.kind == "alternatives":
        tag = next(iter(value))
        if random.random() < 0.6:
            return {"stay": [tag, some_edit(ty.field(tag), value[tag])]}
        other, inner = random.choice(ty.fields)
        return {"switch": [tag, other, some_edit(inner, initial(inner))]}
    if ty.kind == "list":
        count = len(value)
        moved = [some_place(count), some_place(count)]
        order = random.sample(range(count), count)
        choices = [{"ins": random.randint(1, 3)}, {"del": random.randint(1, 2)}, {"move": moved}, {"reorder": order}]
        if count:
            place = random.randrange(count)
            choices += [{"mod": [place, some_edit(ty.inner, value[place])]}] * 3
        return random.choice(choices)
    if ty.kind == "keyed":
        keys, name = sorted(value), random.choice(NAMES)
        if not keys or random.random() < 0.3:
            return {"put": name}
        key = random.choice(keys)
        return random.choice([{"drop": key}, {"rename": [key, name]}] + [{"mod": [key, some_edit(ty.inner, value[key])]}] * 3)
    if ty.kind == "tree":
        paths = paths_of(value["depths"])
        node = random.randrange(len(paths))
        path, other = paths[node], random.choice(paths)
        choices = [{"graft": path}, {"prune": path}, {"shift": [path, random.randint(0, 2), random.randint(0, 2)]}, {"hang": [path, other]}]
        return random.choice(choices + [{"mod": [path, some_edit(ty.inner, value["items"][node])]}] * 2)
    return _scalar_primitive(ty, value)


def _scalar_primitive(ty, value):
    if ty.kind == "int" and random.random() < 0.5:
        return {"add": random.choice(NUMBERS)}
    if ty.kind == "text" and random.random() < 0.5:
        place = random.randint(0, len(value))
        return {"splice": [place, random.randint(0, len(value) - place), random.choice(LETTERS)]}
    if ty.kind in ("unit", "record"):
        return {"set": 0}
    return {"set": some_document(ty)}


def some_edit(ty, value):
    """One primitive mostly, of which each is made for the value before the edit."""
    return [] if random.random() < 0.1 else [some_primitive(ty, value)]


def places(ty, value, path=()):
    """Every place of a document: its path, its type and its value."""
    yield path, ty, value
    if ty.kind == "record":
        for name, inner in ty.fields:
            yield from places(inner, value[name], (*path, name))
    elif ty.kind == "alternatives":
        tag = next(iter(value))
        yield from places(ty.field(tag), value[tag], (*path, tag))
    elif ty.kind == "list":
        for number, item in enumerate(value):
            yield from places(ty.inner, item, (*path, number))
    elif ty.kind == "keyed":
        for key, item in value.items():
            yield from places(ty.inner, item, (*path, key))
    elif ty.kind == "tree":
        for number, item in enumerate(value["items"]):
            yield from places(ty.inner, item, (*path, "items", number))


def some_lens(depth=3):
    """The text of a random lens."""
    kinds = ["id", "bij", "disc"]
    if depth:
        kinds += ["record", "alternatives", "each", "keyed", "tree", "part", "inv"] * 2
    kind = random.choice(kinds)
    if kind == "bij":
        return 'bij["up"="1", "down"="2"]'
    if kind in ("id", "disc"):
        return " ".join([kind, *(write_type(some_type(min(depth, 1))) for _ in range(1 + (kind == "disc")))])
    if kind == "record":
        rows = ", ".join(_some_rows(depth))
        return f"{{{rows}}}"
    names = random.sample(NAMES, random.randint(1, 3))
    if kind == "alternatives":
        arms = (f"{write_name(it)} ~ {write_name(it + 'z')}: {some_lens(depth - 1)}" for it in names)
        return f"<{', '.join(arms)}>"
    if kind == "part":
        tags = (f"{write_name(it)}: {write_type(some_type(1))}" for it in names)
        return f"part <{', '.join(tags)}>"
    return f"{kind} {some_lens(depth - 1)}"


def _some_rows(depth):
    for name in random.sample(NAMES, random.randint(0, 4)):
        kind = random.choice(["both", "both", "left", "right"])
        if kind == "both":
            yield f"{write_name(name)} ~ {write_name(name + 'z')}: {some_lens(depth - 1)}"
        else:
            yield f"{kind} {write_name(name)}: {write_type(some_type(1))}"


def some_operation(ty, document):
    """An operation of a JSON Patch at random places of a document."""
    every = list(places(ty, document))
    path, here, value = random.choice(every)
    name = random.choice(["add", "remove", "replace", "move", "copy", "test"])
    if name in ("add", "move", "copy") and here.kind in ("list", "keyed"):
        last = random.choice(["-", len(value), 0]) if here.kind == "list" else random.choice(NAMES)
        path, here = (*path, last), here.inner
    elif name in ("remove", "move") and len(path) > 1 and random.random() < 0.5:
        path = path[:-1]
    op = {"op": name, "path": pointer(path)}
    if name in ("add", "replace"):
        op["value"] = some_document(here if random.random() < 0.9 else some_type(1))
    if name == "test":
        op["value"] = value if random.random() < 0.7 else some_document(here)
    if name in ("move", "copy"):
        near = [it for it, other, _ in every if other == here] or [it for it, _, _ in every]
        op["from"] = pointer(random.choice(near))
    return op
