"""Rows of plans and places for case_layers: every edit of small shapes, and those at the bounds."""

import itertools


from ..documents import is_shape_of_names
from ..edits import place_in, plan_answer
from ..plans import MOST_DEPTH
from .chance import NAMES, depth_lists


def plan_row(shape, edit):
    """The row of an edit of a shape."""
    return {"call": "plan", "shape": shape, "edit": edit, "answer": plan_answer(shape, edit)}


def list_edits(count):
    """Edits of a list of so many items, in and out of their bounds."""
    for some in {0, 1, count, count + 1, 65537, 2**32 - 1}:
        yield {"ins": some}
        yield {"del": some}
    for old, new in itertools.product(list(range(count + 1)) + [2**64 - 1], repeat=2):
        yield {"move": [old, new]}
    for length in {max(count - 1, 0), count, count + 1} if count < 3 else {count}:
        for order in itertools.product(range(count + 1), repeat=length):
            yield {"reorder": list(order)}


def keyed_edits():
    """Edits of a keyed map with some of the names."""
    for name in NAMES:
        yield {"put": name}
        yield {"drop": name}
    for pair in itertools.product(NAMES, repeat=2):
        yield {"rename": list(pair)}


def tree_edits():
    """Edits of a tree at paths of up to two numbers."""
    paths = [list(path) for length in range(3) for path in itertools.product(range(2), repeat=length)] + [[2], [0, 2]]
    for path in paths:
        yield {"graft": path}
        yield {"prune": path}
        for old, new in itertools.product(range(4), repeat=2):
            yield {"shift": [path, old, new]}
    for start, end in itertools.product(paths, repeat=2):
        yield {"hang": [start, end]}


def fewer_refused(rows, chance):
    """The rows with one in eight of those that are refused for a place or a number, which are many."""
    return (row for row in rows if "shape" in row["answer"] or chance.random() < 0.12)


def plan_rows(chance):
    """The rows of plans."""
    for count in range(4):
        yield from (plan_row({"list": count}, edit) for edit in list_edits(count))
    yield plan_row({"list": 65536}, {"del": 65536})
    yield plan_row({"list": 65537}, {"del": 65537})
    for keys in [[], ["b"], ["a", "b"], ["ab", "é", "\U00010000"], ["", "b", "\uffff", "\U00010000"]]:
        yield from (plan_row({"keyed": keys}, edit) for edit in keyed_edits())
    for depths in [depths for count in range(1, 5) for depths in depth_lists(count)] + chance.sample(depth_lists(6), 20):
        yield from fewer_refused((plan_row({"tree": depths}, edit) for edit in tree_edits()), chance)
    for length, steps in itertools.product(range(13, 17), range(12, 16)):
        chain, path = list(range(length)), [0] * steps
        yield plan_row({"tree": chain}, {"graft": path})
        for beside in ([1], [1, 2], [1, 2, 3, 2]):
            yield plan_row({"tree": chain + beside}, {"hang": [[1], path]})
    yield from other_kind_rows()


def other_kind_rows():
    """An edit of each name, on a shape of each kind."""
    some = [{"ins": 1}, {"del": 1}, {"move": [0, 0]}, {"reorder": [0]}, {"put": "k"}, {"drop": "a"}, {"rename": ["a", "k"]}]
    some += [{"graft": []}, {"prune": []}, {"shift": [[], 0, 0]}, {"hang": [[0], []]}]
    for shape in [{"list": 1}, {"keyed": ["a"]}, {"tree": [0, 1]}]:
        yield from (plan_row(shape, edit) for edit in some)


def place_rows():
    """The rows of places, of what is a shape, and of `splice`."""
    places = [0, 1, 2, 2**64 - 1, "", "a", "b", [], [0], [1], [0, 0], [0, 1], [2]]
    for shape in [{"list": 0}, {"list": 2}, {"keyed": ["", "b"]}, {"tree": [0]}, {"tree": [0, 1, 2, 2, 1]}]:
        ((kind, form),) = shape.items()
        for at in places:
            yield {"call": "place", "shape": shape, "at": at, "answer": place_in(kind, form, at)}
    for names in itertools.chain(itertools.permutations(NAMES[2:], 2), itertools.permutations(NAMES[3:], 3), [("a", "a")]):
        yield {"call": "from_names", "names": list(names), "answer": is_shape_of_names(names)}
    lists = (itertools.product(range(3), repeat=length) for length in range(4))
    for depths in itertools.chain(*lists, [range(16), range(17)]):
        steps = all(1 <= later <= min(depth + 1, MOST_DEPTH) for depth, later in zip(depths, list(depths)[1:]))
        yield {"call": "from_depths", "depths": list(depths), "answer": list(depths[:1]) == [0] and steps}
    for at, count, letters in itertools.product([0, 1, 3, 4, 5, 2**64 - 1], [0, 1, 4, 2**64 - 1], ["", "é"]):
        text = "a€\U0001f600z"
        new = text[:at] + letters + text[at + count :] if at + count <= len(text) else None
        yield {"call": "splice", "text": text, "at": at, "count": count, "with": letters, "answer": new}
