"""What a bridge says of two documents, small edits of each container, and random words, for the tests of edits that are carried."""

import itertools
import random

from editlens.documents import fits
from editlens.edits import NoApply, act, children_of, paths_of
from editlens.rebase.bridges import Arm, Away, Cells, Lost, Other, Parts, Places, Same
from editlens.rebase.runs import ADDED, GONE, KEPT
from editlens.rebase.shapes import name_of, shape_of, size, without_block
from editlens.types import Ty, read_type

from .chance import some_edit


def spans(ty, near, bridge, far):
    """Whether a bridge leads from one document to the other."""
    if isinstance(bridge, Same):
        return near == far
    if isinstance(bridge, (Other, Lost)):
        return (ty.kind == "text") == isinstance(bridge, Lost) and fits(ty, near) and fits(ty, far)
    if isinstance(bridge, Cells):
        return _spans_texts(bridge.runs, near, far)
    if isinstance(bridge, Parts):
        return all(spans(inner, near[name], bridge.fields.get(name, Same()), far[name]) for name, inner in ty.fields)
    if isinstance(bridge, Arm):
        return list(near) == list(far) == [bridge.tag] and spans(ty.field(bridge.tag), near[bridge.tag], bridge.inner, far[bridge.tag])
    if isinstance(bridge, Away):
        return list(near) == [bridge.near] and list(far) == [bridge.far]
    assert isinstance(bridge, Places), "two bridges need the document between them"
    return _spans_places(ty, near, bridge, far)


def _spans_texts(runs, near, far):
    begin = at = 0
    for sort, count in runs:
        if sort == KEPT and near[begin : begin + count] != far[at : at + count]:
            return False
        begin += 0 if sort == ADDED else count
        at += 0 if sort == GONE else count
    return begin <= len(near) and at <= len(far) and near[begin:] == far[at:]


def contents_of(kind, document):
    """The contents of a container, in the order of its places."""
    if kind == "tree":
        return document["items"]
    return document if kind == "list" else [document[key] for key in sorted(document)]


def _spans_places(ty, near, bridge, far):
    there = [it for it in bridge.links if it is not None]
    is_shaped = bridge.near == shape_of(ty.kind, near) and bridge.far == shape_of(ty.kind, far)
    is_linked = len(bridge.links) == size(ty.kind, bridge.near) and len(set(there)) == len(there)
    if not is_shaped or not is_linked or not set(bridge.moved) | set(bridge.inner) <= set(range(len(bridge.links))):
        return False
    olds, news = contents_of(ty.kind, near), contents_of(ty.kind, far)
    linked = [(place, link) for place, link in enumerate(bridge.links) if link is not None]
    return all(spans(ty.inner, olds[place], bridge.inner.get(place, Same()), news[link]) for place, link in linked)


def lists(count):
    """Every edit of the shape of a list with so many items, but for long ones."""
    yield from ({"ins": it} for it in (1, 2))
    yield from ({"del": it} for it in range(1, min(count, 3) + 1))
    yield from ({"move": [old, new]} for old in range(count) for new in range(count))
    yield from ({"reorder": list(it)} for it in itertools.permutations(range(count)))


def maps(keys):
    """Every edit of a map with these keys, with four names."""
    yield from ({"put": key} for key in "abcd" if key not in keys)
    yield from ({"drop": key} for key in keys)
    yield from ({"rename": [key, new]} for key in keys for new in "abcd" if new == key or new not in keys)


def trees(depths):
    """Every edit of the shape of a tree."""
    paths = paths_of(depths)
    for node, path in enumerate(paths):
        below = len(children_of(depths, node))
        yield {"graft": path}
        yield from [{"prune": path}] if below else []
        yield from ({"shift": [path, old, new]} for old in range(below) for new in range(below))
        if node:
            yield from ({"hang": [path, to]} for to in paths_of(without_block(depths, node)[0]))


def all_depths(count):
    """Every tree with so many nodes."""
    found = [[0]]
    for _ in range(count - 1):
        found = [[*it, more] for it in found for more in range(1, it[-1] + 2)]
    return found


SHAPES = {"list": lists, "keyed": maps, "tree": trees}


def numbered(kind, shape):
    """A container of this shape with the contents 10, 11, 12 .."""
    items = [10 + it for it in range(size(kind, shape))]
    if kind == "tree":
        return {"depths": shape, "items": items}
    return items if kind == "list" else dict(zip(shape, items))


def small_cases(most):
    """Small documents, each with its type and many primitives that act on it. Lists and trees have at most so many places."""
    shapes = [("list", it) for it in range(most + 1)] + [("keyed", list(it)) for it in ("", "a", "ab", "abc", "bd")]
    for kind, shape in shapes + [("tree", it) for count in range(1, most + 1) for it in all_depths(count)]:
        inside = [{"mod": [name_of(kind, shape, place), [{"add": 1}]]} for place in range(size(kind, shape))]
        yield read_type(f"{kind} int"), numbered(kind, shape), [*SHAPES[kind](shape), *inside]
    splices = [{"splice": [place, count, text]} for place in range(5) for count in range(5 - place) for text in ("", "x", "é€")]
    yield read_type("text"), "abéd", [*splices, {"set": "n"}]
    switches = [{"switch": ["a", tag, [{"add": 2}]]} for tag in "abc"]
    yield read_type("<a: int, b: int, c: int>"), {"a": 7}, [{"stay": ["a", [{"add": 1}]]}, *switches]
    yield read_type("{a: int, b: text}"), {"a": 1, "b": "x"}, [{"at": ["a", [{"set": 3}]]}, {"at": ["b", [{"splice": [1, 0, "y"]}]]}, {"at": ["b", []]}]
    yield read_type("int"), 3, [{"set": 5}, {"set": 3}, {"add": 2}]
    yield read_type("bool"), True, [{"set": True}, {"set": False}]
    yield read_type('enum["x", "y"]'), "x", [{"set": "x"}, {"set": "y"}]
    yield Ty("list", inner=read_type("<p: text, f: int>")), [{"p": "ab"}, {"f": 1}], list(_mixed())


def _mixed():
    """Edits of a list that mixes a text and a number."""
    yield from ({"mod": [0, [{"stay": ["p", [{"splice": [place, 1, "z"]}]]}]]} for place in (0, 1))
    yield from ({"mod": [place, [{"switch": [old, new, []]}]]} for place, old in enumerate("pf") for new in "pf")
    yield from ({"mod": [1, [{"stay": ["f", [{"add": 1}]]}]]}, {"del": 1}, {"move": [0, 1]}, {"ins": 1})


def some_word(ty, document, count):
    """A word of so many random edits at most, which acts on a document, and the document after it."""
    word = []
    for _ in range(count):
        more = some_edit(ty, document)
        try:
            document = act(ty, document, more)
        except (NoApply, ValueError):
            continue
        word += more
    return word, document


def some_count():
    return random.choice([0, 1, 1, 2, 3, 5])

