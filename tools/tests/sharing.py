"""What documents share, by the type of a lens, against what the program translates; and what edits change, in places and in words."""

import glob
import os

from editlens import Session
from editlens.changes import changed_places
from editlens.construct import construct, word_of
from editlens.edits import NoApply, act, paths_of
from editlens.json_text import pointer
from editlens.lenses import read_lens
from editlens.program import TOP
from editlens.sentences import sentences
from editlens.session import program_of
from editlens.sharing import is_shared, shared_places
from editlens.types import read_type

from .chance import places, some_document, some_edit, some_lens, some_type

COMPOSED = """lens contact = <person ~ person: {name ~ name: id text, left birthday: text}, firm ~ firm: id text>;
main then(each contact, then(part <person: {name: text}, firm: text>,
  {person ~ people: each {name ~ name: id text, right note: text}, left firm: list text}))"""
INVERSE = "main then(inv part <p: {a: int}, o: text>, each <p ~ q: {a ~ b: disc int text}, o ~ r: id text>)"


def trials(ty, value, path=(), place=()):
    """A primitive for each place of a document but its records, the inner ones first: it changes nothing, or adds something at the end."""
    if ty.kind == "record":
        for name, inner in ty.fields:
            yield from trials(inner, value[name], (*path, ("at", name)), (*place, ("at", name)))
        return
    if ty.kind == "alternatives":
        tag = next(iter(value))
        yield from trials(ty.field(tag), value[tag], (*path, ("stay", tag)), (*place, ("stay", tag)))
        yield path, place, {"switch": [tag, tag, []]}
    elif ty.kind in ("list", "keyed", "tree"):
        names = range(len(value)) if ty.kind == "list" else value if ty.kind == "keyed" else paths_of(value["depths"])
        contents = value["items"] if ty.kind == "tree" else [value[it] for it in names]
        for name, inner in zip(names, contents):
            yield from trials(ty.inner, inner, (*path, ("mod", name)), (*place, ("mod",)))
        new_key = max(value, default="") + "+" if ty.kind == "keyed" else ""
        yield path, place, {"list": {"ins": 1}, "keyed": {"put": new_key}, "tree": {"graft": []}}[ty.kind]
    elif ty.kind != "unit":
        yield path, place, {"set": value}


def assert_sharing(program):
    """Holds a program's shared places against what is translated. A tag may be shared, and the contents of one of its kinds not."""
    lens = read_lens(program)
    shared, count = shared_places(lens), 0
    with Session(program) as session:
        session.left(construct(session.types["left"], some_document(session.types["left"])))
        for side, ty in session.types.items():
            for path, place, primitive in list(trials(ty, session.documents[side])):
                answer = session.entry(side, word_of([(path, primitive)]))
                inner = ty
                for step in place:
                    inner = inner.inner if step == ("mod",) else inner.field(step[1])
                said = is_shared(inner, place, shared[side])
                assert answer.word == [] if not said else answer.word != [] or inner.kind == "alternatives", (program, side, place, answer.word)
                count += 1
    return count


def test_shared_places_are_those_that_are_translated():
    programs = [COMPOSED, INVERSE, *(f"main {some_lens()}" for _ in range(8))]
    for path in glob.glob(os.path.join(TOP, "examples", "**", "*.lens"), recursive=True):
        with open(path, encoding="utf-8") as file:
            programs.append(program_of(file.read()))
    assert sum(map(assert_sharing, programs)) > 60


def test_a_composition_shares_what_both_lenses_tie():
    shared = shared_places(read_lens(COMPOSED))
    inside = ("mod",)
    person = (inside, ("stay", "person"))
    assert {(), (inside,), (*person, ("at", "name"))} <= shared["left"]
    assert not {(*person, ("at", "birthday")), (inside, ("stay", "firm"))} & shared["left"]
    assert shared["right"] == {(("at", "people"),), (("at", "people"), inside), (("at", "people"), inside, ("at", "name")), ()}


LIST = read_type("{a: list {n: int, t: text}, b: <none: unit, some: text>}")
START = {"a": [{"n": 1, "t": "x"}, {"n": 2, "t": "y"}, {"n": 3, "t": "z"}], "b": {"none": None}}
CHANGES = [
    ([], []),
    ([{"at": ["a", [{"mod": [1, [{"at": ["n", [{"set": 5}]]}]]}]]}], [("/a/1/n", "set")]),
    ([{"at": ["a", [{"mod": [2, [{"at": ["n", [{"set": 5}]]}]]}, {"move": [2, 0]}]]}], [("/a/0", "moved"), ("/a/0/n", "set")]),
    ([{"at": ["a", [{"ins": 2}, {"mod": [4, [{"at": ["t", [{"set": "w"}]]}]]}]]}], [("/a/3", "new"), ("/a/4", "new"), ("/a/4/t", "set")]),
    ([{"at": ["a", [{"mod": [2, [{"at": ["n", [{"set": 5}]]}]]}, {"del": 1}]]}], [("/a", "set")]),
    ([{"at": ["a", [{"reorder": [1, 0, 2]}]]}], [("/a/0", "moved"), ("/a/1", "moved")]),
    ([{"at": ["b", [{"switch": ["none", "some", [{"set": "q"}]]}]]}], [("/b", "set"), ("/b/some", "new")]),
]
MAP, KEYS = read_type("keyed int"), {"b": 1, "d": 2}
MAP_CHANGES = [
    ([{"put": "c"}, {"mod": ["c", [{"add": 1}]]}], [("/c", "new")]),
    ([{"mod": ["b", [{"add": 1}]]}, {"rename": ["b", "z"]}], [("/z", "set")]),
    ([{"rename": ["b", "z"]}], [("/z", "moved")]),
    ([{"drop": "b"}], [("", "set")]),
]
TREE, NODES = read_type("tree int"), {"depths": [0, 1, 2, 1], "items": [1, 2, 3, 4]}
TREE_CHANGES = [
    ([{"graft": [0]}], [("/items/3", "new")]),
    ([{"mod": [[0, 0], [{"set": 9}]]}, {"graft": []}], [("/items/2", "set"), ("/items/4", "new")]),
    ([{"shift": [[], 1, 0]}], [("/items/1", "moved")]),
    ([{"hang": [[1], [0]]}], [("/items/3", "moved")]),
    ([{"mod": [[1], [{"set": 9}]]}, {"hang": [[0], [0]]}], [("/items/1", "set"), ("/items/2", "moved")]),
    ([{"prune": []}], [("", "set")]),
]


def test_the_places_that_an_edit_changed():
    for ty, document, cases in ((LIST, START, CHANGES), (MAP, KEYS, MAP_CHANGES), (TREE, NODES, TREE_CHANGES)):
        for edit, wanted in cases:
            found = [(pointer(path), sort) for path, sort in changed_places(ty, document, edit)]
            assert found == wanted, (edit, found)


def test_changed_places_are_in_the_document():
    for _ in range(150):
        ty = some_type(3)
        document = some_document(ty)
        edit = []
        after = document
        for _ in range(4):
            more = some_edit(ty, after)
            try:
                after = act(ty, after, more)
            except (NoApply, ValueError):
                continue
            edit += more
        there = {path for path, _, _ in places(ty, after)}
        found = [path for path, _ in changed_places(ty, document, edit)]
        assert set(found) <= there, (edit, found)
        if not found:
            assert after == document, (document, edit, after)


def test_edits_in_words():
    edit = [
        {"at": ["plan", [{"ins": 1}, {"mod": [2, [{"stay": ["todo", [{"set": "Roof"}]]}]]}, {"move": [2, 0]}]]},
        {"at": ["x y", [{"mod": ["k", [{"switch": ["a", "b", [{"add": 2}]]}]]}, {"rename": ["k", "l"]}]]},
        {"at": ["t", [{"hang": [[0, 1], []]}, {"mod": [[], [{"splice": [0, 1, ""]}]]}]]},
    ]
    assert list(sentences(edit)) == [
        "plan: 1 item added at the end",
        'plan, item 2, todo: set to "Roof"',
        "plan: item 2 moved to place 0",
        '"x y", key "k": a becomes b',
        '"x y", key "k", b: 2 added to the number',
        '"x y": key "k" is now "l"',
        "t: node 0.1 moved below the root",
        't, the root: 1 character from place 0 replaced by ""',
    ]
    assert list(sentences([])) == []
