"""Inverses of edits, by the table of docs/EDITS.md. Constructions are those of the tools."""

from editlens.construct import construct
from editlens.edits import act

from .documents import CONTAINERS
from .edits import place_in
from .lenses import with_word
from .plans import children_of, contents, form_of, node_at, paths_of


def grown(paths, words):
    """Nodes that are grafted at their paths, each with its word."""
    return [edit for path, word in zip(paths, words) for edit in [{"graft": path[:-1]}] + with_word("mod", path, word)]


def inverse(ty, word, doc):
    """The word that takes back what a word makes of a document."""
    parts = []
    for primitive in word:
        parts.append(inverse_primitive(ty, primitive, doc))
        doc = act(ty, doc, [primitive])
    return [edit for part in parts[::-1] for edit in part]


def inverse_primitive(ty, primitive, doc):
    """The same for one primitive."""
    ((name, what),) = primitive.items()
    if name in ("set", "add"):
        return [{"set": doc}]
    if name == "splice":
        i, k, letters = what
        return [{"splice": [i, len(letters), doc[i:i + k]]}]
    if name in ("at", "stay"):
        return [{name: [what[0], inverse(ty.field(what[0]), what[1], doc[what[0]])]}]
    if name == "switch":
        return [{"switch": [what[1], what[0], construct(ty.field(what[0]), doc[what[0]])]}]
    if name == "mod":
        return [{"mod": [what[0], inverse(ty.inner, what[1], contents(ty.kind, doc)[place_in(ty.kind, form_of(ty.kind, doc), what[0])])]}]
    made = [construct(ty.inner, item) for item in contents(ty.kind, doc)]
    return dict(zip(CONTAINERS, (items_back, keys_back, nodes_back)))[ty.kind](name, what, form_of(ty.kind, doc), made)


def items_back(name, what, count, made):
    """The inverse of an edit of a list. `made` are the constructions of its items."""
    if name == "ins":
        return [{"del": what}]
    if name == "del":
        return [{"ins": what}] + [edit for i in range(count - what, count) for edit in with_word("mod", i, made[i])]
    return [{"move": what[::-1]}] if name == "move" else [{"reorder": [what.index(place) for place in range(count)]}]


def keys_back(name, what, keys, made):
    """The inverse of an edit of a keyed map."""
    if name == "put":
        return [{"drop": what}]
    return [{"put": what}] + with_word("mod", what, made[keys.index(what)]) if name == "drop" else [{"rename": what[::-1]}]


def nodes_back(name, what, depths, made):
    """The inverse of an edit of a tree."""
    if name == "graft":
        return [{"prune": what}]
    if name == "shift":
        return [{"shift": [what[0], what[2], what[1]]}]
    paths = paths_of(depths)
    if name == "prune":
        last = what + [len(children_of(depths, node_at(depths, what))) - 1]
        lost = [place for place, path in enumerate(paths) if path[: len(last)] == last]
        return grown([paths[place] for place in lost], [made[place] for place in lost])
    start, end = what
    left = [depth for depth, path in zip(depths, paths) if path[: len(start)] != start]
    number = len(children_of(left, node_at(left, end)))
    last = len(children_of(left, node_at(left, start[:-1])))
    return [{"hang": [end + [number], start[:-1]]}, {"shift": [start[:-1], last, start[-1]]}]
