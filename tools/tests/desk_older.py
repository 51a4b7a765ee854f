"""Edits of the desk that were begun before others: each is carried to the newest version, or refused with its cause. No browser is needed."""

import collections
import json
import random
import tempfile

from editlens.answers import Refused
from editlens.desk.desk import Desk
from editlens.desk.hub_desk import HubDesk
from editlens.desk.hub_keepers import HubRunKeeper
from editlens.desk.keepers import RunKeeper, StoreKeeper
from editlens.desk.shared import LATE_BASE
from editlens.edits import NoApply
from editlens.older import MOST_CHANGES, OlderStates
from editlens.session import Session
from editlens.store import Store

from .bridged import some_word
from .desk_files import begun, patched, shown, undrawn
from .desks import PAINT, SMALL, TASKS, asked, sent, served
from .hub_stores import VIEWS
from .older_edits import Offered
from .rooms import Room

ALL = """type task = {title: text, hours: int};
main {plan ~ board: part <todo: task, done: task>, labels ~ tags: keyed id int, outline ~ outline: tree id text, note ~ memo: id text,
  left age: int, right colour: text}"""
TWO = {"hours": 1, "plan": [{"todo": "Paint"}, {"todo": "Roof"}]}


def on_board(word):
    return [{"at": ["board", [{"at": ["todo", word]}]]}]


def begun_tasks():
    """A desk of two tasks."""
    keeper = RunKeeper(TASKS)
    keeper.begin(TWO)
    return Desk(keeper, "tasks")


def test_an_edit_lands_at_its_item():
    """Another window has moved the item meanwhile, by an edit of the other document."""
    with served(begun_tasks()) as server:
        assert sent(server, "edit", base=0, side="left", edit=[{"at": ["plan", [{"move": [1, 0]}]]}])["ok"]
        said = sent(server, "edit", base=0, side="right", edit=on_board([{"mod": [1, [{"set": "Tiles"}]]}]))
        assert said == {"ok": True, "version": 2, "carried": '[{"at":["board",[{"at":["todo",[{"mod":[0,[{"set":"Tiles"}]]}]]}]]}]'}, said
        assert server.desk.keeper.documents["right"]["board"]["todo"] == ["Tiles", "Paint"]
        last = json.loads(asked(server, "GET", f"/{server.token}/state")[2])["history"][-1]
        assert last["begun"] == '[{"at":["board",[{"at":["todo",[{"mod":[1,[{"set":"Tiles"}]]}]]}]]}]', last
        assert last["sentences"] == ['right: board, todo, item 0: set to "Tiles"'] and last["edit"] == said["carried"], last
        # What is as it was made is no news, and the change after it forgets how the one before was begun.
        assert sent(server, "edit", base=0, side="left", edit=[{"at": ["hours", [{"add": 1}]]}]) == {"ok": True, "version": 3}
        assert "begun" not in server.desk.history[-2] and "begun" not in server.desk.history[-1]


def test_an_edit_of_what_is_gone_is_refused():
    """The refusal says why, which edit it is, and what changed since. Nothing has changed, and nothing is dropped in silence."""
    with served(begun_tasks()) as server:
        assert sent(server, "edit", base=0, side="left", edit=[{"at": ["plan", [{"del": 1}]]}])["ok"]
        before = server.desk.keeper.documents
        edit = [{"at": ["color", [{"set": "red"}]]}, *on_board([{"mod": [1, [{"set": "Tiles"}]]}])]
        said = sent(server, "edit", base=0, side="right", edit=edit)
        assert (said["ok"], said["cause"], said["at"], said["side"], said["version"]) == (False, "gone", 1, "right", 1), said
        assert said["sentence"] == "what this edit changes is not there any more: another edit has deleted or replaced it", said
        assert said["lost"] == ['right: color: set to "red"', 'right: board, todo, item 1: set to "Tiles"'], said
        assert said["since"] == ["left: plan: 1 item deleted from the end"] and json.loads(said["edit"]) == edit, said
        assert server.desk.keeper.documents == before and server.desk.version == 1 and len(server.desk.history) == 1
        # A deletion of what is gone is done already. It is no change, so the next undo takes something back.
        said = sent(server, "edit", base=0, side="right", edit=on_board([{"del": 1}]))
        assert said["ok"] and said["version"] == 1 and server.desk.keeper.documents == before, said


def test_two_new_keys():
    with served(Desk(RunKeeper(ALL), "all")) as server:
        put = [{"at": ["labels", [{"put": "a"}]]}]
        assert sent(server, "edit", base=0, side="left", edit=put)["ok"]
        said = sent(server, "edit", base=0, side="right", edit=[{"at": ["tags", [{"put": "a"}]]}])
        assert said["cause"] == "taken" and said["lost"] == ['right: tags: key "a" added'], said


def test_an_edit_that_was_begun_too_long_ago():
    desk = Desk(RunKeeper(SMALL), "small")
    desk.older = OlderStates(desk.keeper.types, 0, dict(desk.keeper.documents), most=3)
    with served(desk) as server:
        add = [{"at": ["a", [{"add": 1}]]}]
        for base in range(4):
            assert sent(server, "edit", base=base, side="left", edit=add)["ok"]
        said = sent(server, "edit", base=0, side="left", edit=add)
        assert (said["ok"], said["cause"], said["sentence"]) == (False, "base", LATE_BASE) and len(said["since"]) == 4, said
        assert said["lost"] == ["left: a: 1 added to the number"] and f"{MOST_CHANGES:,}" in LATE_BASE, said
        assert sent(server, "edit", base=1, side="left", edit=add)["ok"] and sent(server, "edit", base=9, side="left", edit=add)["cause"] == "base"
        assert desk.keeper.documents["right"] == {"b": 5}


def test_edits_that_are_no_edits():
    """What has no form, or nests too deep, is refused for an older version too, and the desk goes on."""
    with served(begun_tasks()) as server:
        assert sent(server, "edit", base=0, side="left", edit=[{"at": ["hours", [{"add": 1}]]}])["ok"]
        assert sent(server, "edit", base=0, side="left", edit=[{"ins": 0}])["cause"] == "not-an-edit"
        for depth in (60, 200, 450, 900):
            edit = '{"at":["a",[' * depth + "]]}" * depth
            status, _, text = asked(server, "POST", f"/{server.token}/edit", f'{{"base":0,"side":"left","edit":[{edit}]}}')
            assert status == 400 or not json.loads(text)["ok"], (depth, text[:200])
        assert sent(server, "undo", base=0)["cause"] == "stale" and sent(server, "undo", base=1)["ok"]


def test_places_by_name():
    """An item that is named by what it has is found in the document for which the edit was made."""
    keeper = RunKeeper("main {people ~ names: each {name ~ name: id text, left age: int}}")
    keeper.begin({"people": [{"name": "Ann", "age": 1}, {"name": "Bob", "age": 2}]})
    with served(Desk(keeper, "people")) as server:
        named = lambda name: [{"at": ["people", [{"mod": [{"where": {"name": name}}, [{"at": ["age", [{"add": 5}]]}]]}]]}]
        assert sent(server, "edit", base=0, side="left", edit=[{"at": ["people", [{"mod": [0, [{"at": ["name", [{"set": "Bob"}]]}]]}]]}])["ok"]
        assert sent(server, "edit", base=0, side="left", edit=named("Bob"))["ok"] and keeper.documents["left"]["people"][1]["age"] == 7
        said = sent(server, "edit", base=2, side="left", edit=named("Bob"))
        assert (said["ok"], said["cause"]) == (False, "not-found") and "2 places" in said["sentence"], said
        assert sent(server, "edit", base=0, side="left", edit=named("Ann"))["ok"]
        assert keeper.documents["left"]["people"][0] == {"name": "Bob", "age": 6}


def test_undo_and_redo_are_carried_over():
    """An edit that was begun before a change that was taken back, or while it was there, is carried over that as well."""
    with served(begun_tasks()) as server:
        front = [{"at": ["plan", [{"ins": 1}, {"move": [2, 0]}]]}]
        assert sent(server, "edit", base=0, side="left", edit=front)["ok"] and sent(server, "undo", base=1)["ok"]
        edit = lambda base, place, text: sent(server, "edit", base=base, side="right", edit=on_board([{"mod": [place, [{"set": text}]]}]))
        assert edit(1, 2, "Tiles")["carried"] == '[{"at":["board",[{"at":["todo",[{"mod":[1,[{"set":"Tiles"}]]}]]}]]}]'
        assert edit(1, 0, "Door")["cause"] == "gone"
        assert sent(server, "undo", base=3)["ok"] and sent(server, "edit", base=0, side="left", edit=[{"at": ["hours", [{"add": 1}]]}])["ok"]
        assert edit(0, 0, "Walls") == {"ok": True, "version": 6} and server.desk.keeper.documents["right"]["board"]["todo"] == ["Walls", "Roof"]


def test_a_store_and_its_undo():
    """The words by which a store takes a change back are a change as any other."""
    with tempfile.TemporaryDirectory() as folder:
        Store.init(folder, TASKS)
        with served(Desk(StoreKeeper(folder), "tasks")) as server:
            assert sent(server, "edit", base=0, side="left", edit=PAINT)["ok"]
            assert sent(server, "edit", base=1, side="left", edit=[{"at": ["plan", [{"ins": 1}, {"move": [1, 0]}]]}])["ok"]
            said = sent(server, "edit", base=1, side="right", edit=on_board([{"mod": [0, [{"set": "Tiles"}]]}]))
            assert said["carried"] == '[{"at":["board",[{"at":["todo",[{"mod":[1,[{"set":"Tiles"}]]}]]}]]}]', said
            assert sent(server, "undo", base=3)["ok"] and sent(server, "undo", base=4)["ok"] is False
            assert sent(server, "edit", base=2, side="left", edit=[{"at": ["plan", [{"del": 1}]]}])["ok"]
        assert Store(folder).show()[:2] == ({"hours": 0, "plan": [{"todo": ""}]}, {"board": {"done": [], "todo": [""]}, "color": ""})


def test_a_hub_and_its_views():
    """An edit of a view is carried over the word that an edit of another one brought to it."""
    keeper = HubRunKeeper(VIEWS)
    with served(HubDesk(keeper, "hub")) as server:
        assert sent(server, "edit", base=0, side="right", view=0, edit=[{"at": ["x", [{"set": 3}]]}])["ok"]
        assert sent(server, "edit", base=0, side="right", view=1, edit=[{"at": ["p", [{"add": 4}]]}]) == {"ok": True, "version": 2}
        assert keeper.documents == {"hub": {"a": 7, "b": 0}, 0: {"x": 7}, 1: {"p": 7, "q": 0}}
    keeper = HubRunKeeper(["main {rows ~ rows: each id text}", "main {rows ~ lines: each id text}"])
    with served(HubDesk(keeper, "lists")) as server:
        ask = lambda base, view, word: sent(server, "edit", base=base, side="right", view=view, edit=[{"at": [("rows", "lines")[view], word]}])
        assert ask(0, 0, [{"ins": 2}, {"mod": [0, [{"set": "a"}]]}, {"mod": [1, [{"set": "b"}]]}])["ok"] and ask(1, 0, [{"move": [1, 0]}])["ok"]
        assert ask(1, 1, [{"mod": [0, [{"splice": [1, 0, "!"]}]]}])["carried"] == '[{"at":["lines",[{"mod":[1,[{"splice":[1,0,"!"]}]]}]]}]'
        assert keeper.documents["hub"] == {"rows": ["b", "a!"]} and ask(2, 0, [{"del": 2}])["ok"]
        said = ask(3, 1, [{"mod": [1, [{"set": "c"}]]}])
        assert said["cause"] == "gone" and said["side"] == "view 1" and said["lost"] == ['view 1: lines, item 1: set to "c"'], said


def test_patches_of_older_files():
    """A patch names places of the file for which it was made. It is carried, or refused; the file after it is that of the newest document."""
    with served(begun()) as server:
        old = undrawn(shown(server, "left")["tree"])
        assert patched(server, 0, "right", '[{"op":"remove","path":"/c-1001"}]')["ok"]
        place, gone = (next(number for number, it in enumerate(old) if it["id"] == name) for name in ("c-1002", "c-1001"))
        said = patched(server, 0, "left", f'[{{"op":"add","path":"/{place}/fax","value":"8"}}]')
        assert said == {"ok": True, "version": 2} and [it.get("fax") for it in undrawn(shown(server, "left")["tree"])][0] == "8", said
        before = server.desk.keeper.documents
        text = f'[{{"op":"add","path":"/{place}/fax","value":"9"}},{{"op":"replace","path":"/{gone}/discount","value":"7"}}]'
        said = patched(server, 0, "left", text)
        assert (said["ok"], said["cause"], said["patch"]) == (False, "gone", text) and said["at"] == 1 and said["since"], said
        assert said["lost"][-1] == 'left: customers, key "c-1001", discount: set to "7"', said
        assert server.desk.keeper.documents == before and server.desk.version == 2
        said = patched(server, 0, "left", '[{"op":"test","path":"/0/id","value":"nobody"}]')
        assert said["cause"] == "no-edit", said
        assert patched(server, 9, "left", "[]")["cause"] == "base"


def test_a_patch_that_takes_private_data_away():
    """What a patch would take away is looked for where it comes to, not where it was made."""
    program = "main {mails ~ emails: each {mail ~ address: id text, left verified: bool}, left n: int}"
    keeper = RunKeeper(program, forms={"right": {}})
    keeper.begin({"n": 0, "mails": [{"mail": "a@b", "verified": False}]})
    new = '[{"op":"replace","path":"/emails","value":[{"address":"c@d"}]}]'
    with served(Desk(keeper, "mails")) as server:
        assert sent(server, "edit", base=0, side="left", edit=[{"at": ["mails", [{"mod": [0, [{"at": ["verified", [{"set": True}]]}]]}]]}])["ok"]
        assert patched(server, 0, "right", new)["cause"] == "private-loss" and server.desk.version == 1
        assert patched(server, 0, "right", new, drop=True)["ok"]
        assert keeper.documents["left"]["mails"] == [{"mail": "c@d", "verified": False}]


class Program:
    """A session of the program, for a room."""

    def __init__(self, session):
        self.session, self.types = session, session.types

    @property
    def documents(self):
        return self.session.documents

    def send(self, side, word):
        try:
            answer = self.session.entry(side, word)
        except Refused as why:
            raise NoApply(why.cause, (), None, "") from None
        return {side: word, answer.side: answer.word}


def test_many_windows():
    """Random edits of both documents, begun at random versions: the desk answers as a session that carries over this side's words."""
    counts = collections.Counter()
    for _ in range(3):
        desk = Desk(RunKeeper(ALL), "all")
        with Session(ALL) as session:
            room = Room(Program(session), carries=True)
            numbers = [0]
            for turn in range(60):
                side, base = random.choice(["left", "right"]), max(0, desk.version - random.choice([0, 1, 1, 2, 5]))
                word, _ = some_word(session.types[side], desk.older.document(side, base), random.choice([1, 2, 3]))
                said, cause = desk.edit(base, side, word), room.take(side, Offered(turn, numbers[base], word))
                assert (None if said["ok"] else said["cause"]) == cause, (word, said, cause)
                assert desk.keeper.documents == session.documents
                counts[cause] += 1
                if said["ok"]:
                    # What has nothing to do is no change here, and one of the room.
                    numbers[desk.version :] = [len(room.changes)]
        desk.close()
    assert counts[None] > 100 and counts["gone"] > 2, counts
