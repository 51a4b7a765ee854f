"""Patches and edits that were made for an older state of a store: `tools/patch --base`, and `older` of a store that is kept open."""

import collections
import fcntl
import json
import os
import random
import subprocess
import tempfile
from contextlib import contextmanager

from editlens.json_text import read_json
from editlens.load import load_store
from editlens.older import NotTaken
from editlens.program import TOP
from editlens.store import Store

from . import raised
from .bridged import some_word
from .desk_older import Program
from .desks import SMALL, TASKS
from .older_edits import Offered
from .rooms import Room

PATCH = os.path.join(TOP, "tools", "patch")
SHOP = """main keyed {name ~ title: id text, price ~ cost: id text = "0", right stock: int}"""
FORM = {"": {"key": "id"}, "/*/price": "number"}
GOODS = {"b-1": {"name": "Bolt", "price": "0.50"}, "n-2": {"name": "Nut", "price": "2"}, "w-3": {"name": "Washer", "price": "1"}}
ROOM = {name: {"title": it["name"], "cost": it["price"], "stock": 7} for name, it in GOODS.items()}
GONE = "what this edit changes is not there any more: another edit has deleted or replaced it"


@contextmanager
def shop():
    """A folder with a store of goods, which has two changes, and the form file of its left side."""
    with tempfile.TemporaryDirectory() as folder:
        load_store(folder, SHOP, GOODS, ROOM)
        with open(os.path.join(folder, "shop.form"), "w", encoding="utf-8") as file:
            json.dump(FORM, file)
        assert Store(folder).verify() == 2
        yield folder


def patched(folder, *patches, side="left", base=None, more=()):
    """The status of `tools/patch` and the lines that it writes."""
    words = [PATCH, folder, side, "--left-form", os.path.join(folder, "shop.form"), *(["--base", str(base)] if base is not None else []), *more]
    lines = "".join((it if isinstance(it, str) else json.dumps(it)) + "\n" for it in patches)
    ran = subprocess.run(words, input=lines, capture_output=True, text=True, check=False)
    return ran.returncode, ran.stdout.splitlines() or ran.stderr.splitlines()


def replaced(path, value):
    return {"op": "replace", "path": path, "value": value}


def test_a_patch_lands_in_its_row():
    """Rows of a file have places that the changes of others move. What is done to either file is answered."""
    with shop() as folder:
        assert patched(folder, [{"op": "remove", "path": "/b-1"}], side="right")[0] == 0
        status, said = patched(folder, [replaced("/1/price", 2.25), {"op": "test", "path": "/0/id", "value": "b-1"}], base=2)
        wanted = {"left": [replaced("/0/price", 2.25)], "right": [replaced("/n-2/cost", "2.25")]}
        assert status == 0 and read_json(said[0].removeprefix("ok 1 ")) == read_json(json.dumps(wanted)), said
        left, right, _ = Store(folder).show()
        assert (left["n-2"]["price"], right["n-2"]["cost"], right["w-3"]["cost"]) == ("2.25", "2.25", "1") and Store(folder).verify() == 4
        # Without a base the same places are those of the newest file.
        assert patched(folder, [replaced("/1/price", 4)])[0] == 0 and Store(folder).show()[0]["w-3"]["price"] == "4"


def test_what_has_no_place_is_refused():
    """A patch is refused as a whole, with its operation; so is each that was made with it. Those that rest on nothing are done."""
    with shop() as folder:
        add = lambda name: [{"op": "add", "path": f"/{name}", "value": {"title": name, "cost": "9", "stock": 1}}]
        assert patched(folder, add("x-9"), [{"op": "remove", "path": "/b-1"}], side="right")[0] == 0
        before = Store(folder).show()
        status, said = patched(folder, [replaced("/1/name", "Nut M6"), replaced("/0/name", "Bolt M6")], base=2)
        assert (status, said) == (1, [f"refused 1 gone: operation 1: {GONE}"]) and Store(folder).show() == before, said
        late = [add("x-9"), [replaced("/x-9/stock", 5)], "[", [replaced("/n-2/stock", 8)], [replaced("/y/stock", 1)], [replaced("/x-9/stock", 6)]]
        status, said = patched(folder, *late, side="right", base=2)
        assert status == 1 and said[0] == "refused 1 taken: operation 0: another edit has given this key to something else", said
        assert said[1] == "refused 2 gone: operation 0: this patch rests on that of line 1, which was refused", said
        assert said[2].startswith("refused 3 not JSON") and said[3] == 'ok 4 {"left":[],"right":[{"op":"replace","path":"/n-2/stock","value":8}]}', said
        assert said[4].startswith("refused 5 operation 0: ") and said[5] == said[1].replace("refused 2", "refused 6"), said
        assert Store(folder).show()[1]["x-9"]["stock"] == 1 and Store(folder).verify() == 5
        # What others have done already is done: it is a change with nothing in it.
        assert patched(folder, [{"op": "remove", "path": "/0"}], base=2) == (0, ['ok 1 {"left":[],"right":[]}']) and Store(folder).verify() == 6


def test_a_base_that_is_not_known():
    with shop() as folder:
        for base, told in ((3, "is not there yet: the store has 2"), (-1, "more than 1,000 changes came after change -1")):
            status, said = patched(folder, [replaced("/0/name", "B")], base=base)
            assert status == 1 and said[0].startswith("refused 1 base: ") and told in said[0], said
        assert patched(folder, base=2) == (0, []) and patched(folder, [], side="both", base=2)[0] == 2
        assert patched(folder, more=["--base", "x"])[0] == 2
        with open(os.path.join(folder, "wrong.form"), "w", encoding="utf-8") as file:
            file.write('{"/*/name": "number"}')
        assert patched(folder, base=2, more=["--right-form", os.path.join(folder, "wrong.form")])[0] == 2
        with tempfile.TemporaryDirectory() as empty:
            assert subprocess.run([PATCH, empty, "left", "--base", "0"], input="", capture_output=True, text=True, check=False).returncode == 4
        held = os.open(folder, os.O_RDONLY)
        try:
            fcntl.flock(held, fcntl.LOCK_EX)
            assert patched(folder, [replaced("/0/name", "B")], base=2)[0] == 7
        finally:
            os.close(held)
        assert Store(folder).verify() == 2


def test_the_last_thousand_changes():
    """The words of this side are found in the file, also those that came by edits of the other side."""
    with tempfile.TemporaryDirectory() as folder:
        Store.init(folder, SMALL)
        add = lambda side, name: json.dumps({"side": side, "edit": [{"at": [name, [{"add": 1}]]}]})
        Store(folder).apply([add("left", "a"), add("right", "b")] * 501)
        with Store.open(folder) as store:
            for number, is_known in ((0, False), (1, False), (2, True), (1_002, True)):
                if is_known:
                    edits = store.older("right", number)
                    assert edits.near == {"b": number} and edits.carried([{"at": ["b", [{"add": 2}]]}]) == [[{"at": ["b", [{"add": 2}]]}]]
                else:
                    assert raised(NotTaken, lambda: store.older("right", number)).cause == "base"


def test_changes_that_were_taken_back():
    """What was taken back is no change. Where two states have a number, an edit for it is refused, and not put into either."""
    with tempfile.TemporaryDirectory() as folder:
        Store.init(folder, TASKS)
        ins = lambda place: [{"at": ["plan", [{"ins": 1}, {"move": [place, 0]}]]}]
        Store(folder).left([{"at": ["plan", [{"ins": 2}]]}])
        with Store.open(folder) as store:
            board = lambda place: [{"at": ["board", [{"at": ["todo", [{"mod": [place, [{"set": "x"}]]}]]}]]}]
            store.left(ins(2))
            kept = store.older("right", 1)
            assert kept.carried(board(1)) == [board(2)]
            store.left(ins(3))
            assert kept.carried(board(1)) == [board(3)]
            store.pack()
            store.left([{"at": ["hours", [{"set": 3}]]}])
            assert store.older("right", 1).carried(board(1)) == [board(3)] and store.older("right", 3).carried(board(1)) == [board(1)]
            assert raised(NotTaken, lambda: kept.carried(board(1))).cause == "base"
            store.left(ins(4))
            store.undo(2)
            assert store.stored == 5 and store.older("right", 1).carried(board(1)) == [board(3)]
            assert store.older("right", 4).carried(board(1)) == [board(1)]
            why = raised(NotTaken, lambda: store.older("right", 5))
            assert why.cause == "base" and "two states have this number" in why.sentence, why
            store.left(ins(4))
            assert store.older("right", 6).carried(board(1)) == [board(1)] and store.older("right", 3).carried(board(1)) == [board(2)]


def test_a_state_that_was_left_for_good():
    """Where a store went back behind the state for which an edit was made, that one is not found."""
    with tempfile.TemporaryDirectory() as folder:
        Store.init(folder, SMALL)
        add = [{"at": ["a", [{"add": 1}]]}]
        with Store.open(folder) as store:
            for _ in range(4):
                store.left(add)
            store.undo(3)
            assert store.older("left", 1).near["a"] == 1 and store.older("left", 0).carried(add) == [add]
            assert "taken back" in raised(NotTaken, lambda: store.older("left", 4)).sentence
        with Store.open(folder) as store:
            why = raised(NotTaken, lambda: store.older("left", 2))
            assert why.cause == "base" and "before state 2" in why.sentence, why


def test_groups_in_the_log():
    with tempfile.TemporaryDirectory() as folder:
        Store.init(folder, TASKS)
        with Store.open(folder) as store:
            store.left([{"at": ["plan", [{"ins": 1}]]}])
            board = lambda place: [{"at": ["board", [{"at": ["todo", [{"mod": [place, [{"set": "x"}]]}]]}]]}]
            store.group(("left", [{"at": ["plan", [{"ins": 1}, {"move": [1, 0]}]]}]), ("right", [{"at": ["color", [{"set": "red"}]]}]))
            assert store.older("right", 1).carried(board(0)) == [board(1)] and store.older("left", 0).near == {"hours": 0, "plan": []}


def test_random_stores():
    """Random edits of both sides for random states, in a store that is now and then opened again: the answers are those of a session that carries."""
    counts = collections.Counter()
    for _ in range(2):
        with tempfile.TemporaryDirectory() as folder:
            Store.init(folder, TASKS)
            store = Store.open(folder)
            room = Room(Program(store), carries=True)
            for turn in range(30):
                side, number = random.choice(["left", "right"]), max(0, store.stored - random.choice([0, 1, 1, 2, 4]))
                edits = store.older(side, number)
                word, _ = some_word(store.types[side], edits.near, random.choice([1, 2]))
                try:
                    (carried,), cause = edits.carried(word), None
                except NotTaken as why:
                    cause = why.cause
                room.session.session = store
                assert room.take(side, Offered(turn, number, word)) == cause, (side, number, word, cause)
                counts[cause] += 1
                assert cause or room.changes[-1][0][side] == carried
                if random.random() < 0.2:
                    store.close()
                    store.reopen()
            store.close()
    assert counts[None] > 30, counts


def test_a_file_that_lost_its_beginning():
    """A store that was made shorter begins with its snapshot: edits for the states before are refused."""
    with tempfile.TemporaryDirectory() as folder:
        Store.init(folder, SMALL)
        store = Store(folder)
        store.left([{"at": ["a", [{"set": 4}]]}])
        ran = subprocess.run([os.path.join(TOP, "tools", "store"), "compact", folder], capture_output=True, text=True, check=False)
        add = [{"at": ["a", [{"add": 1}]]}]
        with Store.open(folder) as held:
            assert ran.returncode in (0, 1) and held.stored == (0 if ran.returncode == 0 else 1)
            held.left(add)
            first = held.stored - 1
            assert held.older("left", first).near["a"] == 4 and held.older("right", first).carried([{"at": ["b", [{"add": 1}]]}])
