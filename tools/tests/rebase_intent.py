"""What two people meant: pairs of what they do with lists and trees, at all places. The first one's edit is accepted, the second is carried.

who is there    what either has deleted is gone, and all else of both is there; but a node stays that one hung out of what the other deletes
order           two things that the first has not moved stand as the second had them, and the other way round
parents         a node that the second has put somewhere is there; one that only the first has put is at the first one's place
contents        each change is at the thing for which it was made
"""

import collections
import itertools
from dataclasses import dataclass, field

from editlens.edits import act, children_of, paths_of
from editlens.rebase import Cause, NotCarried, bridge_of, carry
from editlens.rebase.shapes import block_of, parent_of, without_block
from editlens.types import read_type

NEEDS_PROGRAM = False
FIRST, SECOND = 100, 200
"""What either puts in; ten times as much is what either adds to a content. The contents before are 10, 11, 12 .."""


@dataclass
class Action:
    """What a person does: the word, and the contents that it moves, deletes and changes."""

    word: list
    moved: set = field(default_factory=set)
    gone: set = field(default_factory=set)
    changed: set = field(default_factory=set)
    is_shift: bool = False


def moves(name, *content):
    """A move or a shift, unless it goes nowhere."""
    return [] if content[-2] == content[-1] else [{name: [*content]}]


def list_actions(count, who):
    for place in range(count + 1):
        yield Action([{"ins": 1}, *moves("move", count, place), {"mod": [place, [{"set": who}]]}], moved={who})
    for place in range(count):
        yield Action([*moves("move", place, count - 1), {"del": 1}], gone={10 + place})
        yield Action([{"mod": [place, [{"add": 10 * who}]]}], changed={10 + place})
        yield from (Action([{"move": [place, to]}], moved={10 + place}) for to in range(count) if to != place)
    yield Action([{"reorder": [*range(count)][::-1]}], moved={10 + it for it in range(count)})


def tree_actions(depths, who):
    for node, path in enumerate(paths_of(depths)):
        below = children_of(depths, node)
        yield Action([{"mod": [path, [{"add": 10 * who}]]}], changed={10 + node})
        for place in range(len(below) + 1):
            put = [{"graft": path}, *([{"shift": [path, len(below), place]}] if place < len(below) else [])]
            yield Action([*put, {"mod": [[*path, place], [{"set": who}]]}], moved={who})
        for place, child in enumerate(below):
            last = [{"shift": [path, place, len(below) - 1]}] if place < len(below) - 1 else []
            yield Action([*last, {"prune": path}], gone={10 + it for it in block_of(depths, child)})
            yield from (Action([{"shift": [path, place, to]}], moved={10 + child}, is_shift=True) for to in range(len(below)) if to != place)
        if node:
            left, numbers = without_block(depths, node)
            others = [to for to, old in zip(paths_of(left), numbers) if old != parent_of(depths, node)]
            yield from (Action([{"hang": [path, to]}], moved={10 + node}) for to in others)


def name_of(content):
    return content % 1000 or content


def names(document):
    return [name_of(it) for it in (document["items"] if isinstance(document, dict) else document)]


def parents(document):
    depths, found = document["depths"], names(document)
    return {found[it]: found[parent_of(depths, it)] for it in range(1, len(depths))}


def rows(document):
    """The things that stand beside each other: those of a list, or the children of each node."""
    if not isinstance(document, dict):
        return {None: names(document)}
    depths, found = document["depths"], names(document)
    return {found[it]: [found[child] for child in children_of(depths, it)] for it in range(len(depths))}


def assert_order(row, here, there, first, second):
    """`here` is the row of the document that the first has made, and `there` that of the second."""
    for one, other in itertools.combinations(row, 2):
        both = {one, other}
        if both <= set(there) and (not both & first.moved or both <= second.moved):
            assert there.index(one) < there.index(other), (row, there, first, second)
        if both <= set(here) and not both & second.moved:
            assert here.index(one) < here.index(other), (row, here, first, second)


def assert_who(last, made, meant, first, second):
    wanted = (set(names(made)) | set(names(meant))) - first.gone - second.gone
    saved = set()
    if isinstance(last, dict):
        up = parents(made)
        for it in second.gone - first.gone:
            above = [it]
            while above[-1] in up:
                above.append(up[above[-1]])
            saved |= {it} if first.moved & set(above) else set()
        wanted -= {FIRST} if second.gone and FIRST not in names(last) else set()
    assert wanted <= set(names(last)) <= wanted | saved, (last, first, second)


def assert_parents(last, made, meant, first, second):
    now, here, there = parents(last), parents(made), parents(meant)
    for it in names(last)[1:]:
        is_second = it in there and (it in second.moved and not second.is_shift or it not in first.moved)
        assert now[it] == (there if is_second else here)[it], (it, last, first, second)


def assert_meant(last, made, meant, first, second):
    assert_who(last, made, meant, first, second)
    for content in last["items"] if isinstance(last, dict) else last:
        name = name_of(content)
        if name not in (FIRST, SECOND):
            changes = 10 * FIRST * (name in first.changed) + 10 * SECOND * (name in second.changed)
            assert content == name + changes, (last, first, second)
    if isinstance(last, dict):
        assert_parents(last, made, meant, first, second)
    before, after = rows(made), rows(meant)
    for above, row in rows(last).items():
        assert_order(row, before.get(above, []), after.get(above, []), first, second)


def pairs_of(ty, document, actions, counts):
    for first in actions(FIRST):
        made, bridge = act(ty, document, first.word), bridge_of(ty, first.word, document)
        for second in actions(SECOND):
            try:
                word = carry(bridge, second.word).word
            except NotCarried as why:
                counts[why.cause] += 1
                assert first.gone or why.cause is not Cause.GONE
                continue
            counts["carried"] += 1
            assert_meant(act(ty, made, word), made, act(ty, document, second.word), first, second)


def test_what_was_meant_with_lists():
    counts, ty = collections.Counter(), read_type("list int")
    for count in (1, 3, 5):
        pairs_of(ty, [10 + it for it in range(count)], lambda who, count=count: list_actions(count, who), counts)
    assert counts["carried"] > 1_200 and counts[Cause.GONE] > 30, counts


def test_what_was_meant_with_trees():
    counts, ty = collections.Counter(), read_type("tree int")
    for depths in ([0, 1, 1, 1], [0, 1, 2, 1], [0, 1, 2, 2, 1], [0, 1, 2, 3], [0, 1, 2, 1, 2]):
        document = {"depths": depths, "items": [10 + it for it in range(len(depths))]}
        pairs_of(ty, document, lambda who, depths=depths: tree_actions(depths, who), counts)
    assert counts["carried"] > 2_000 and min(counts[it] for it in (Cause.GONE, Cause.CYCLE, Cause.KEPT)) > 10, counts


def test_what_was_put_first_stands_first():
    for place in range(4):
        put = [[{"ins": 1}, *moves("move", 3, place), {"mod": [place, [{"set": who}]]}] for who in (FIRST, SECOND)]
        ty, document = read_type("list int"), [10, 11, 12]
        both = act(ty, act(ty, document, put[0]), carry(bridge_of(ty, put[0], document), put[1]).word)
        assert both == [*document[:place], FIRST, SECOND, *document[place:]]


def test_what_the_second_has_moved_stands_at_its_place():
    """Both move an item. What the second puts before it then stands before it, at the second one's place."""
    ty, document, first = read_type("list int"), [10, 11, 12, 13], [{"move": [0, 2]}]
    second = [{"move": [0, 1]}, {"ins": 1}, {"move": [4, 1]}, {"mod": [1, [{"set": SECOND}]]}]
    assert act(ty, act(ty, document, first), carry(bridge_of(ty, first, document), second).word) == [11, SECOND, 10, 12, 13]
