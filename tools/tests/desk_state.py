"""What a window of the desk gets: fields in the order of the program, what is new alone, and a session that goes back and forth."""

import contextlib
import json

from editlens.browser import Browser
from editlens.desk.desk import Desk
from editlens.desk.drawing import drawn_types
from editlens.desk.keepers import RunKeeper
from editlens.desk.news import at_path, replaced
from editlens.edits import NoApply, act
from editlens.lenses import read_lens
from editlens.session import Session

from .chance import some_document, some_edit, some_type
from .desks import EIGHT, PAINT, TASKS, asked, sent, served

def test_undo_and_redo_of_a_session():
    """A session in no store takes back one change after another, complement and all, down to where it began, and makes them again."""
    keeper = RunKeeper(TASKS)
    keeper.begin({"hours": 1, "plan": [{"todo": "Lock"}]})
    desk, states = Desk(keeper, "tasks"), []
    state = lambda: (dict(keeper.documents), keeper.reader()())
    with served(desk) as server:
        for base, (side, edit) in enumerate([("left", PAINT), ("right", [{"at": ["color", [{"set": "red"}]]}])]):
            states.append(state())
            assert sent(server, "edit", base=base, side=side, edit=edit)["ok"]
        states.append(state())
        assert sent(server, "undo", base=1)["cause"] == "stale" and not sent(server, "redo", base=2)["ok"]
        for version, wanted in ((3, states[1]), (4, states[0])):
            assert sent(server, "undo", base=version - 1) == {"ok": True, "version": version} and state() == wanted, state()
        said = sent(server, "undo", base=4)
        assert not said["ok"] and "nothing to take back" in said["sentence"] and state() == states[0], said
        assert desk.history[-1]["sentences"][0] == "left: plan: 1 item added at the end" and desk.history[-1]["undo"]
        # What was begun before a change was taken back may mean another place now, wherever it is.
        assert [desk.state()["sides"][side]["changes"] for side in ("left", "right")] == [[["", "set"]]] * 2
        assert sent(server, "redo", base=4)["ok"] and state() == states[1] and sent(server, "redo", base=5)["ok"] and state() == states[2]
        assert sent(server, "undo", base=6)["ok"] and sent(server, "edit", base=7, side="left", edit=EIGHT)["ok"]
        said = sent(server, "redo", base=8)
        assert not said["ok"] and "nothing to make again" in said["sentence"], said
        keeper.session.close()


ORDERED = """type card = {title: text, body: <memo: text, link: {url: text, at: int}>};
main {title ~ subject: id text, cards ~ board: part <todo: card, done: card>, left note: text, right colour: text, left age: int}"""


def names_of(drawn):
    """The names of the fields of a drawn type in the order in which the page shows them, each with those inside it."""
    inside = [(name, names_of(inner)) for name, inner in drawn.get("fields", ())]
    if drawn["kind"] == "record":
        inside = [inside[it] for it in drawn["order"]]
    return inside if inside else names_of(drawn["inner"]) if "inner" in drawn else []


def test_fields_are_in_the_order_of_the_program():
    card = [("title", []), ("body", [("memo", []), ("link", [("url", []), ("at", [])])])]
    left = [("title", []), ("cards", [("todo", card), ("done", card)]), ("note", []), ("age", [])]
    right = [("subject", []), ("board", [("todo", card), ("done", card)]), ("colour", [])]
    for program, wanted in ((ORDERED, (left, right)), (ORDERED.replace("main", "main inv"), (right, left))):
        with Session(program) as session:
            drawn = drawn_types(session.types, read_lens(program))
            assert (names_of(drawn["left"]), names_of(drawn["right"])) == wanted, drawn
            # Documents are sent as before: the order is of what is shown alone.
            assert [name for name, _ in drawn["left"]["fields"]] == session.types["left"].names()
    with Session("main then(id {b: int, a: int}, disc {a: int, b: int} {z: text, y: text})") as session:
        drawn = drawn_types(session.types, read_lens(session.program))
        assert (names_of(drawn["left"]), names_of(drawn["right"])) == ([("b", []), ("a", [])], [("z", []), ("y", [])]), drawn


def with_value(document, path, value):
    """A document of JSON with another value at a path."""
    if not path:
        return value
    inner = with_value(document[path[0]], path[1:], value)
    return [*document[: path[0]], inner, *document[path[0] + 1 :]] if isinstance(document, list) else {**document, path[0]: inner}


def test_what_an_edit_replaced():
    """The values at the places that an edit replaced make the document after it of the one before it."""
    made, parts = 0, 0
    for _ in range(3_000):
        ty = some_type()
        before = some_document(ty)
        edit = some_edit(ty, before)
        with contextlib.suppress(NoApply):
            after, paths = act(ty, before, edit), replaced(ty, edit)
            found = before
            for path in paths:
                found = with_value(found, path, at_path(ty, after, path)[1])
            assert found == after, (ty, before, edit, paths)
            made += bool(edit)
            parts += () not in paths and bool(paths)
    assert made > 1_000 and parts > 300, (made, parts)


def test_a_window_gets_what_is_new_alone():
    """After an edit of one of many records a window gets that record's value, and no document, type or complement that it has."""
    keeper = RunKeeper("main {rows ~ rows: each {name ~ title: id text, left note: text}}")
    keeper.begin({"rows": [{"name": f"row {it}", "note": ""} for it in range(500)]})
    desk = Desk(keeper, "many")
    with served(desk) as server:
        state = lambda query: asked(server, "GET", f"/{server.token}/state{query}")[2]
        Browser.until(lambda: desk.complement, "the complement does not come")
        whole = state("")
        assert "row 499" in whole and "row 499" in state("?session=0&version=7") and "row 499" in state("?session=9&version=0")
        assert len(state("?session=0&version=0&complement=0")) < 1_000
        edit = [{"at": ["rows", [{"mod": [3, [{"at": ["name", [{"set": "Ida"}]]}]]}]]}]
        assert sent(server, "edit", base=0, side="left", edit=edit)["ok"]
        Browser.until(lambda: desk.complement["version"] == 1, "the complement does not come")
        said = state("?session=0&version=0&complement=1")
        assert len(said) < 2_000 < len(whole), said
        sides = json.loads(said)["sides"]
        assert sides["left"]["replaced"] == [[["rows", 3, "name"], "Ida"]] and sides["right"]["replaced"] == [[["rows", 3, "title"], "Ida"]], sides
        assert json.loads(state("?session=0&version=0&complement=0"))["complement"]["version"] == 1
