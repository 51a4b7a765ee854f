"""Patches of nested cards that change their kind, alone and together, with places by name; groups and undo of two files."""

import tempfile

from editlens import Session, Store
from editlens.natural import NoCounterpart, NotWritable, read_form, to_edit
from editlens.private import PrivateLoss
from editlens.trial import TrialEnded
from editlens.types import read_type

from . import raised
from .patches import patched

LENS = """lens status = <todo ~ todo: {}, doing ~ doing: {since ~ since: id text}>;
main {cards ~ bars: each tree {id_ ~ id_: id text, title ~ name: id text, status ~ status: status, right progress: int}}"""
FORMS = {"left": {"/cards/*": {"children": "cards"}, "/cards/*/*/status": {"kind": "status", "flat": True}}}


def card(name, *below, **status):
    """A card with cards below it."""
    return {"id_": name, "title": name, "cards": list(below), **(status or {"status": "todo"})}


def board():
    """A session with a card `a`, below it `b` with `c`, and `d`. Each has a progress that the right side alone has."""
    session = Session(LENS, forms=FORMS)
    top = card("a", card("b", card("c")), card("d"), status="doing", since="May")
    session.files.patch("left", [{"op": "add", "path": "/cards/-", "value": top}])
    for number, path in enumerate(([], [0], [0, 0], [1]), 1):
        session.right([{"at": ["bars", [{"mod": [0, [{"mod": [path, [{"at": ["progress", [{"set": number}]]}]]}]]}]]}])
    return session


def progress(session):
    """The progress of each card, by its name."""
    return {it["id_"]: it["progress"] for it in session.documents["right"]["bars"][0]["items"]}


def started(name, day):
    """A patch that starts a card, which it names in each operation."""
    path = ["cards", {"where": {"id_": name}}]
    return [{"op": "replace", "path": [*path, "status"], "value": "doing"}, {"op": "add", "path": [*path, "since"], "value": day}]


def test_a_card_that_changes_its_kind_keeps_the_cards_below():
    with board() as session:
        patch = [{"op": "replace", "path": "/cards/0/status", "value": "todo"}, {"op": "remove", "path": "/cards/0/since"}]
        switch = [{"switch": ["doing", "todo", []]}]
        assert session.files.patch("left", patch).answer.word == [
            {"at": ["bars", [{"mod": [0, [{"mod": [[], [{"at": ["status", switch]}]]}]]}]]}
        ]
        session.files.patch("left", started("b", "June"))
        assert session.files["left"]["cards"][0]["cards"][0]["since"] == "June"
        assert progress(session) == {"a": 1, "b": 2, "c": 3, "d": 4}
        whole = {**session.files["left"]["cards"][0], "title": "A"}
        session.files.patch("left", [{"op": "replace", "path": "/cards/0", "value": whole}])
        assert progress(session)["c"] == 3, "nothing below was changed"
        whole["cards"] = whole["cards"][:1]
        raised(PrivateLoss, lambda: session.files.patch("left", [{"op": "replace", "path": "/cards/0", "value": whole}]))


def test_names_in_each_operation_of_a_joint_change():
    with board() as session:
        patch = [*started("c", "June"), {"op": "replace", "path": ["cards", {"where": {"id_": "c"}}, "title"], "value": "C"}]
        done = session.files.patch("left", patch)
        at = "/cards/0/cards/0/cards/0/"
        assert [it["path"] for it in done.sent] == [at + "status", at + "since", at + "title"], done.sent
        assert progress(session) == {"a": 1, "b": 2, "c": 3, "d": 4}
        wrong = [started("d", "June")[0], started("e", "June")[1]]
        why = raised(NoCounterpart, lambda: session.files.patch("left", wrong))
        assert str(why) == 'operation 1: no place in /cards has {"id_":"e"}', why
        why = raised(NoCounterpart, lambda: session.files.patch("left", [started("d", "June")[0]]))
        assert "operation 0: /cards/0/cards/1/since: wanted a string, found nothing" == str(why), why


def test_names_are_read_between_the_operations_of_a_joint_change():
    """Where an earlier operation moves the items, a later one finds its item where it is by then."""
    shape = read_form(read_type("list {i: text, k: <a: {}, b: {x: int}>}"), {"/*/k": {"kind": "kind", "flat": True}})
    document = [{"i": name, "k": {"a": {}}} for name in ("one", "two")]
    at = [{"where": {"i": "two"}}]
    patch = [{"op": "replace", "path": [*at, "kind"], "value": "b"}, {"op": "remove", "path": "/0"}, {"op": "add", "path": [*at, "x"], "value": 5}]
    made = to_edit(shape, document, patch)
    assert made.document == [{"i": "two", "k": {"b": {"x": 5}}}] and made.patch[-1]["path"] == "/0/x"


def test_what_the_other_file_cannot_show_is_not_sent():
    forms = {"right": {"/days": "number"}}
    with Session('main {points ~ days: id text = "0", left hours: int}', forms=forms) as session:
        why = raised(NotWritable, lambda: session.files.patch("left", [{"op": "replace", "path": "/points", "value": "many"}]))
        assert str(why) == 'the right file could not show what comes of it: /days: "many" is not the text of a number', why
        assert session.documents == {"left": {"hours": 0, "points": "0"}, "right": {"days": "0"}}
        assert session.files.patch("left", [{"op": "replace", "path": "/points", "value": "5"}]).patch == [{"op": "replace", "path": "/days", "value": 5}]
        with Session(session.program, forms={**forms, "left": {"/points": "decimal"}}) as other:
            why = raised(NoCounterpart, lambda: other.files.patch("left", [{"op": "replace", "path": "/points", "value": "many"}]))
            assert str(why) == 'operation 0: /points: wanted a string with the text of a number, found "many"', why
        # an edit that is no patch is not asked about, and the next patch may repair what it did
        session.left([{"at": ["points", [{"set": "many"}]]}])
        raised(NotWritable, lambda: session.files["right"])
        raised(NotWritable, lambda: session.files.patch("left", [{"op": "replace", "path": "/hours", "value": 5}]))
        done = session.files.patch("left", [{"op": "replace", "path": "/points", "value": "7"}])
        assert done.patch == [{"op": "replace", "path": "", "value": {"days": 7}}]


def test_a_file_that_is_changed_by_its_reader():
    """What a client does with a file or a patch that it got changes nothing in the next one."""
    with board() as session:
        file = session.files["left"]
        done = session.files.patch("left", [{"op": "add", "path": "/cards/0/cards/-", "value": card("e")}])
        file["cards"][0]["cards"][1]["title"] = done.patch[0]["value"]["name"] = "changed"
        done.sent[0]["value"]["title"] = "changed"
        session.files["left"]["cards"].clear()
        session.files.patch("left", [{"op": "test", "path": "/cards/0/cards/2", "value": card("e")}])
        assert "changed" not in str(session.files["left"]) + str(session.files["right"])
        assert [it["title"] for it in session.files["left"]["cards"][0]["cards"]] == ["b", "d", "e"]


def test_groups_of_patches():
    with board() as session:
        before = session.documents
        entries = [("left", started("d", "June")), ("right", [{"op": "replace", "path": "/bars/0/items/3/name", "value": "D"}])]
        done = session.files.group(*entries)
        assert [side for side, _ in done.patches] == ["right", "left"]
        assert done.patches[1][1] == [{"op": "replace", "path": "/cards/0/cards/1/title", "value": "D"}]
        assert session.files["left"]["cards"][0]["cards"][1] == card("d", status="doing", since="June") | {"title": "D"}
        after = session.documents
        wrong = [*entries[1:], ("left", [{"op": "replace", "path": "/cards", "value": []}])]
        raised(PrivateLoss, lambda: session.files.group(*wrong))
        raised(NoCounterpart, lambda: session.files.group(*entries[1:], ("left", [{"op": "remove", "path": "/cards/7"}])))
        assert session.documents == after != before
        session.files.group(*wrong, drop_private=True)
        assert session.documents["right"] == {"bars": []}


def test_a_patch_after_edits_of_other_kinds():
    """The second run stays in step: raw edits, refused patches and undo come between."""
    lens = "main {l ~ l: each {n ~ n: id text, right p: int}, left o: list text}"
    with tempfile.TemporaryDirectory() as folder:
        Store.init(folder, lens)
        with Store.open(folder) as store:
            for number in range(3):
                store.files.patch("left", [{"op": "add", "path": "/l/-", "value": {"n": str(number)}}])
                raised(PrivateLoss, lambda: store.files.patch("left", [{"op": "replace", "path": "/l", "value": []}])) if number else None
                store.right([{"at": ["l", [{"mod": [number, [{"at": ["p", [{"set": 5}]]}]]}]]}])
            why = raised(PrivateLoss, lambda: store.files.patch("left", [{"op": "replace", "path": "/l", "value": []}]))
            assert why.places == [("l", "*", "p")] and len(store.documents["right"]["l"]) == 3
            files = store.files["left"], store.files["right"]
            patches = store.files.undo(2)
            assert [patched(*it)[0] for it in zip(files, patches)] == [store.files["left"], store.files["right"]]
            assert len(store.documents["left"]["l"]) == 2
            # a second run that is lost costs a refusal, and is made anew
            store.files.trial.run()._run.stop()
            raised(TrialEnded, lambda: store.files.patch("left", [{"op": "replace", "path": "/l", "value": []}]))
            store.files.trial.run()._run.stop()
            store.left([{"at": ["o", [{"ins": 1}]]}])
            raised(PrivateLoss, lambda: store.files.patch("left", [{"op": "replace", "path": "/l", "value": []}]))
