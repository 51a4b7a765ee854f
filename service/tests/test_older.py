"""Edits and patches that were made for an older state: carried to the newest one, or refused by name, by whichever worker they come to."""

from __future__ import annotations

import json
import os
import random
import subprocess
import threading
from typing import Any

from editlens.edits import NoApply, act
from editlens.rebase import NotCarried, bridge_of, carry
from editlens.types import read_type
from editlens_client import Refusal
from editlens_client.wire import Call, change, write

from .load import PROGRAM
from .room import Room, raises
from .test_clients import HERE, _node
from .test_pairs import _trim

TWO = {"hours": 1, "plan": [{"todo": "Paint"}, {"todo": "Roof"}]}
SHOP = 'main keyed {name ~ title: id text, price ~ cost: id text = "0", right stock: int}\n'
GOODS = {"b-1": {"name": "Bolt", "price": "1"}, "n-2": {"name": "Nut", "price": "2"}}
FORM = {"": {"key": "id"}, "/*/price": "number"}
GONE = "what this edit changes is not there any more: another edit has deleted or replaced it"


def _plan(word: Any) -> Any:
    return [{"at": ["plan", word]}]


def _todo(word: Any) -> Any:
    return [{"at": ["board", [{"at": ["todo", word]}]]}]


def _set(place: int, text: str) -> Any:
    return _todo([{"mod": [place, [{"set": text}]]}])


def _made(room: Room) -> str:
    name = room.name()
    room.client().make(name, PROGRAM, left=TWO)
    return name


def _refused(call: Any, *given: Any, **more: Any) -> "tuple[int, Any, Any]":
    """The status, the cause and the problem of a refusal."""
    why = raises(Refusal, call, *given, **more)
    return why.status, why.problem.get("cause"), why.problem


def test_an_edit_lands_at_its_item(room: Room) -> None:
    """The other side has moved the item meanwhile. The answer has the word that was stored, and says that it is another one."""
    name = _made(room)
    left, right = room.client(0).pair(name, "left"), room.client(1).pair(name, "right")
    assert left.edit(_plan([{"move": [1, 0]}])).number == 1
    answer = right.edit(_set(1, "Tiles"), expected=0)
    assert answer.number == 2 and answer.edits["right"] == _set(0, "Tiles") and answer.reply["answers"][0]["carried"] is True, answer.reply
    assert answer.edits["left"] == _plan([{"mod": [0, [{"stay": ["todo", [{"set": "Tiles"}]]}]]}])
    assert right.read() == ({"board": {"done": [], "todo": ["Tiles", "Paint"]}, "color": ""}, 2)
    # What is as it was made is not called carried; and without a base an edit is for the newest state.
    assert "carried" not in right.edit([{"at": ["color", [{"set": "red"}]]}], expected=0).reply["answers"][0]
    assert right.edit(_set(1, "Walls")).number == 4 and right.read()[0]["board"]["todo"] == ["Tiles", "Walls"]
    assert [it["edit"] for it in right.history(1)] == [_set(0, "Tiles"), [{"at": ["color", [{"set": "red"}]]}], _set(1, "Walls")]


def test_what_has_no_place_is_refused(room: Room) -> None:
    """A refusal has the cause, the primitive, a sentence, and which edit it is. Nothing has changed then, and a strict edit is not carried."""
    name = _made(room)
    left, right = room.client(0).pair(name, "left"), room.client(1).pair(name, "right")
    left.edit(_plan([{"del": 1}]))
    status, cause, problem = _refused(right.edit, [{"at": ["color", [{"set": "red"}]]}, *_set(1, "Tiles")], expected=0)
    assert (status, cause, problem["type"], problem["at"], problem["newest"]) == (412, "gone", "urn:editlens:not-carried", 1, 1), problem
    assert problem["why"] == GONE and problem["lost"] == ['color: set to "red"', 'board, todo, item 1: set to "Tiles"'], problem
    assert right.read()[1] == 1
    assert _refused(right.edit, _set(5, "x"), expected=0)[:2] == (422, "place"), "it does not act on the state for which it was made"
    assert _refused(right.edit, [{"ins": 0}], expected=0)[:2] == (422, "not-an-edit")
    assert _refused(right.edit, _set(0, "x"), expected=0, strict=True)[:2] == (412, None) and right.read()[1] == 1
    # A deletion of what is gone is a change with nothing in it.
    answer = right.edit(_todo([{"del": 1}]), expected=0)
    assert answer.number == 2 and answer.edits == {"left": [], "right": _todo([])} and right.read()[0]["board"]["todo"] == ["Paint"], answer


def test_a_base_that_is_not_known(room: Room) -> None:
    """A state that is not there yet, that was trimmed, or that had another lens program, is refused as `base`."""
    name, client = _made(room), room.client()
    left = client.pair(name, "left")
    add = [{"at": ["hours", [{"add": 1}]]}]
    assert _refused(left.edit, add, expected=7)[:2] == (412, "base")
    for _ in range(45):
        left.edit(add)
    _trim(room, keep=3)
    status, cause, problem = _refused(left.edit, add, expected=2)
    assert (status, cause) == (412, "base") and "no longer in the log" in problem["why"] and left.edit(add, expected=44).number == 46, problem
    wider = PROGRAM.replace("}\n", ", owner ~ who: id text}\n")
    client.ask(change("POST", f"/pairs/{name}/program", "application/json", write({"program": wider}), None, None))
    status, cause, problem = _refused(left.edit, add, expected=46)
    assert (status, cause) == (412, "base") and "another lens program" in problem["why"], problem
    assert left.edit(add, expected=47).number == 48 and left.edit(add, expected=47).number == 49
    both = change("POST", f"/pairs/{name}/edits", "application/x-ndjson", write({"side": "left", "edit": add}), 48, None)
    assert _refused(client.ask, both)[0] == 412, "entries of both sides are for the newest state"


def test_more_changes_than_are_looked_at(room: Room) -> None:
    """An edit is carried over 1,000 changes, and no more."""
    name, client = _made(room), room.client()
    left, add = client.pair(name, "left"), [{"at": ["hours", [{"add": 1}]]}]
    for _ in range(21):
        body = b"\n".join([write(add)] * (50 if _ < 20 else 1))
        client.ask(change("POST", f"/pairs/{name}/left/edits", "application/x-ndjson", body, None, None))
    assert left.read()[1] == 1001
    assert _refused(left.edit, add, expected=0)[:2] == (412, "base") and left.edit(add, expected=1).number == 1002


def test_lines_that_rest_on_each_other(room: Room) -> None:
    """The lines of a request were made one after another. Those that rest on a refused one are refused, and name its place."""
    name, client = _made(room), room.client()
    right = client.pair(name, "right")
    client.pair(name, "left").edit(_plan([{"ins": 1}, {"move": [2, 0]}, {"del": 1}]))
    lines = [_set(1, "Tiles"), _todo([{"ins": 1}]), _set(2, "Door"), [{"ins": 0}], _set(9, "x"), _todo([{"mod": [1, [{"splice": [0, 0, "!"]}]]}])]
    call = change("POST", f"/pairs/{name}/right/edits", "application/x-ndjson", b"\n".join(map(write, lines)), 0, None)
    answers = client.ask(call)["answers"]
    assert [it["ok"] for it in answers] == [False, True, True, False, False, False], answers
    assert answers[0]["cause"] == "gone" and "rests-on" not in answers[0] and answers[2]["edits"]["right"] == _set(2, "Door"), answers
    assert (answers[3]["cause"], answers[4]["cause"]) == ("not-an-edit", "place") and answers[5]["rests-on"] == 0, answers
    assert right.read() == ({"board": {"done": [], "todo": ["", "Paint", "Door"]}, "color": ""}, 3)


def test_patches_of_older_files(room: Room) -> None:
    """A patch names rows of the file for which it was made. The answer has the patch as it was done, and that of the other file."""
    name, client = room.name(), room.client()
    client.make(name, SHOP, left=GOODS, forms={"left": FORM})
    left, right = room.client(1).pair(name, "left"), client.pair(name, "right")
    assert right.edit([{"drop": "b-1"}]).number == 1
    answer = left.patch([{"op": "replace", "path": "/1/price", "value": 3}, {"op": "test", "path": "/0/id", "value": "b-1"}], expected=0)
    assert answer.number == 2 and answer.reply["sent"] == [{"op": "replace", "path": "/0/price", "value": 3}], answer.reply
    assert answer.reply["patches"]["right"] == [{"op": "replace", "path": "/n-2/cost", "value": "3"}] and right.read()[0]["n-2"]["cost"] == "3"
    two = [{"op": "replace", "path": "/1/name", "value": "N"}, {"op": "replace", "path": "/0/name", "value": "B"}]
    status, cause, problem = _refused(left.patch, two, expected=0)
    assert (status, cause, problem["operation"], problem["why"]) == (412, "gone", 1, GONE), problem
    assert problem["lost"] == ['key "n-2", name: set to "N"', 'key "b-1", name: set to "B"'], problem
    assert _refused(left.patch, two, expected=0, strict=True)[:2] == (412, None) and _refused(left.patch, two, expected=9)[:2] == (412, "base")
    assert _refused(left.patch, [{"op": "replace", "path": "/5/name", "value": "N"}], expected=0)[:2] == (422, "no-counterpart")
    new = [{"op": "replace", "path": "", "value": [{"id": "n-2", "name": "Nut", "price": 7}]}]
    right.edit([{"mod": ["n-2", [{"at": ["stock", [{"set": 4}]]}]]}])
    assert _refused(left.patch, new, expected=2)[:2] == (422, "private-loss"), "what it would take away came after it was made"
    assert left.patch([{"op": "remove", "path": "/0"}], expected=0).reply["sent"] == [] and left.read()[1] == 4


def test_a_key_makes_a_carried_edit_once(room: Room) -> None:
    """A request that is sent again is answered alike, also when by now it would be refused, or carried to another place."""
    name = _made(room)
    left, right = room.client(0).pair(name, "left"), room.client(1).pair(name, "right")
    left.edit(_plan([{"move": [1, 0]}]))
    first = right.edit(_set(1, "Tiles"), expected=0, key="k1")
    refused = _refused(right.edit, _todo([{"mod": [0, [{"set": "x"}]]}, {"mod": [7, []]}]), expected=0, key="k2")
    left.edit(_plan([{"del": 2}]))
    gone = _refused(right.edit, _set(1, "Walls"), expected=0, key="k3")
    left.edit(_plan([{"ins": 2}]))
    for worker in (0, 1):
        again = room.client(worker).pair(name, "right")
        assert again.edit(_set(1, "Tiles"), expected=0, key="k1").reply == first.reply
        assert _refused(again.edit, _todo([{"mod": [0, [{"set": "x"}]]}, {"mod": [7, []]}]), expected=0, key="k2")[:2] == refused[:2] == (422, "place")
        assert _refused(again.edit, _set(1, "Walls"), expected=0, key="k3")[:2] == gone[:2] == (412, "gone")
    assert left.read()[1] == 4 and right.read()[0]["board"]["todo"] == ["", ""]


def test_undo_is_a_change_as_any_other(room: Room) -> None:
    name, client = _made(room), room.client()
    right = client.pair(name, "right")
    client.pair(name, "left").edit(_plan([{"ins": 1}, {"move": [2, 0]}]))
    client.undo(name)
    assert right.edit(_set(2, "Tiles"), expected=1).edits["right"] == _set(1, "Tiles")
    assert _refused(right.edit, _set(0, "x"), expected=1)[:2] == (412, "gone") and right.edit(_set(0, "Walls"), expected=0).number == 4
    call = change("POST", f"/pairs/{name}/undo", "application/json", write({"count": 1}), 1, None)
    assert _refused(client.ask, call)[:2] == (412, None), "what is no edit is not carried"


def test_a_hub_and_its_views(room: Room) -> None:
    """An edit of a view is carried over the words that edits of others brought to it."""
    name, client, other = room.name("hub"), room.client(0), room.client(1)
    client.make_hub(name, ["main {rows ~ rows: each id text}\n", "main {rows ~ lines: each id text}\n"])
    first, second = client.hub(name, 0), other.hub(name, 1)
    assert first.edit([{"at": ["rows", [{"ins": 2}, {"mod": [0, [{"set": "a"}]]}, {"mod": [1, [{"set": "b"}]]}]]}]).number == 1
    assert first.edit([{"at": ["rows", [{"move": [1, 0]}]]}]).number == 2
    answer = second.edit([{"at": ["lines", [{"mod": [0, [{"splice": [1, 0, "!"]}]]}]]}], expected=1)
    assert answer.edits["hub"] == [{"at": ["rows", [{"mod": [1, [{"splice": [1, 0, "!"]}]]}]]}] and client.hub(name).read()[0] == {"rows": ["b", "a!"]}
    assert second.patch([{"op": "replace", "path": "/lines/0", "value": "A"}], expected=1).reply["sent"] == [{"op": "replace", "path": "/lines/1", "value": "A"}]
    first.edit([{"at": ["rows", [{"del": 2}]]}])
    assert _refused(client.hub(name).patch, [{"op": "replace", "path": "/rows/0", "value": "x"}], expected=2)[:2] == (412, "gone")
    assert _refused(client.hub(name, 2).edit, [], expected=0)[0] == 404


def _late(room: Room, name: str, side: str, *lines: Any) -> "list[Any]":
    """What the client in Node answers to lines."""
    words = [_node(), os.path.join(HERE, "late.mjs"), room.serve()[0].address, "all", name, side]
    ran = subprocess.run(words, input="".join(json.dumps(it) + "\n" for it in lines), capture_output=True, text=True, timeout=300, check=False)
    assert ran.returncode == 0, ran.stderr
    return [json.loads(it) for it in ran.stdout.splitlines()]


def test_the_client_in_javascript(room: Room) -> None:
    name = _made(room)
    room.client().pair(name, "left").edit(_plan([{"move": [1, 0]}]))
    patch = [{"op": "replace", "path": "/board/todo/0", "value": "Walls"}]
    lines = [{"edit": _set(1, "Tiles"), "expected": 0}, {"edit": _set(1, "x"), "expected": 0, "strict": True}, {"patch": patch, "expected": 0}]
    first, strict, patched = _late(room, name, "right", *lines)
    assert first["answers"][0]["carried"] and first["answers"][0]["edits"]["right"] == _set(0, "Tiles"), first
    assert (strict["status"], strict["refused"]) == (412, None) and patched["sent"] == [{**patch[0], "path": "/board/todo/1"}], (strict, patched)
    room.client().pair(name, "left").edit(_plan([{"del": 2}]))
    (gone,) = _late(room, name, "right", {"edit": _set(1, "Tiles"), "expected": 0})
    assert gone == {"refused": "gone", "status": 412, "why": GONE}, gone


def test_edits_on_their_way(room: Room) -> None:
    """A client that shows its edits at once was away while others edited. Its edits come to their items; what rests on a lost one is lost."""
    name = _made(room)
    right = room.client().pair(name, "right")
    shown = right.read()[0]
    for edit in (_plan([{"move": [1, 0]}]), _plan([{"ins": 1}, {"move": [2, 0]}]), _plan([{"move": [2, 0]}, {"move": [2, 1]}])):
        room.client(1).pair(name, "left").edit(edit)
    words = [_set(1, "Tiles"), _todo([{"ins": 1}]), _set(2, "Door"), [{"at": ["color", [{"set": "red"}]]}]]
    (said,) = _late(room, name, "right", {"pending": words, "number": 0, "document": shown})
    assert said["lost"] == [] and said["shown"] == right.read()[0] and right.read()[1] == 7, said
    assert sorted(said["shown"]["board"]["todo"]) == sorted(["", "Tiles", "Paint", "Door"]), said
    shown, number = right.read()
    room.client(1).pair(name, "left").edit(_plan([{"del": 4}]))
    late = [_set(0, "x"), [{"at": ["color", [{"splice": [0, 0, "dark "]}]]}]]
    (said,) = _late(room, name, "right", {"pending": late, "number": number, "document": shown})
    assert said["lost"] == [[1, "gone", None]] and right.read() == ({"board": {"done": [], "todo": []}, "color": "dark red"}, 9), said


def test_rights_and_words(room: Room) -> None:
    """Who may edit one side alone has edits carried over those of the other side, and sees no word of it; nor of its own where it may not read."""
    name = _made(room)
    room.client().pair(name, "right").edit(_todo([{"move": [1, 0]}]))
    answer = room.client(1, "left").pair(name, "left").edit(_plan([{"mod": [1, [{"stay": ["todo", [{"set": "x"}]]}]]}]), expected=0)
    assert answer.edits == {"left": _plan([{"mod": [0, [{"stay": ["todo", [{"set": "x"}]]}]]}])}, answer
    assert _refused(room.client(0, "reader").pair(name, "left").edit, [], expected=0)[0] == 403
    writer, patch = room.client(0, "writer").pair(name, "left"), [{"op": "replace", "path": "/plan/1/todo", "value": "y"}]
    call = change("PATCH", writer.path(), "application/json-patch+json", write(patch), 0, None)
    assert writer.client.ask(call) == {"number": 3, "answers": [{"ok": True, "number": 3, "edits": {}, "carried": True}], "sent": None, "patches": {}}
    call = change("PATCH", writer.path(), "application/json-patch+json", write([{**patch[0], "path": "/plan/7/todo"}]), 0, None)
    assert "found" not in _refused(writer.edit, _plan([{"del": 9}]), expected=0)[2] and _refused(writer.client.ask, call)[0] == 422


def test_many_clients_at_once(room: Room) -> None:
    """Clients that all know the same state send at once, by both workers: each item that they add is there, and each text at its item."""
    name = _made(room)
    said: "list[Any]" = []

    def one(number: int) -> None:
        right = room.client(number % 2).pair(name, "right")
        word = [{"ins": 1}, {"mod": [2, [{"set": f"t{number}"}]]}, {"move": [2, 0]}, {"mod": [1, [{"splice": [0, 0, f"{number}"]}]]}]
        said.append(right.edit(_todo(word), expected=0).number)

    threads = [threading.Thread(target=one, args=(it,)) for it in range(8)]
    for it in threads:
        it.start()
    for it in threads:
        it.join()
    todo = room.client().pair(name, "right").read()[0]["board"]["todo"]
    assert sorted(said) == list(range(1, 9)) and sorted(todo[:8]) == [f"t{it}" for it in range(8)] and todo[9] == "Roof", (said, todo)
    assert todo[8].endswith("Paint") and sorted(todo[8][:-5]) == sorted("01234567"), todo


def _edit(ty: Any, document: Any, chance: random.Random, side: str) -> Any:
    """A random edit that acts on a document of PROGRAM."""
    items = document["plan"] if side == "left" else document["board"]["todo"]
    into = _plan if side == "left" else _todo
    value = [{"stay": [next(iter(items[-1])), [{"set": f"t{chance.randrange(99)}"}]]}] if side == "left" and items else [{"set": f"t{chance.randrange(99)}"}]
    words = [into([{"ins": 1}])] + ([into([{"move": [chance.randrange(len(items)), 0]}]), into([{"mod": [len(items) - 1, value]}])] if items else [])
    words += [into([{"del": 1}])] if len(items) > 2 else []
    word = chance.choice(words)
    act(ty, document, word)
    return word


def test_random_edits(room: Room) -> None:
    """Random edits of both sides for random states: each is answered as by carrying it over this side's words, one after another."""
    name, chance, counts = _made(room), random.Random(11), {"carried": 0, "refused": 0}
    types = {side: read_type(text) for side, text in room.client().ask(Call("GET", f"/pairs/{name}"))["types"].items()}
    sides = {side: room.client(number).pair(name, side) for number, side in enumerate(types)}
    states: "dict[str, list[Any]]" = {side: [it.read()[0]] for side, it in sides.items()}
    words: "dict[str, list[Any]]" = {side: [] for side in sides}
    for _ in range(90):
        side = chance.choice(list(sides))
        base = max(0, len(words[side]) - chance.choice([0, 1, 2, 4, 8]))
        word = wanted = _edit(types[side], states[side][base], chance, side)
        cause = None
        try:
            for document, change_of in zip(states[side][base:], words[side][base:]):
                wanted = carry(bridge_of(types[side], change_of, document), wanted).word
            act(types[side], states[side][-1], wanted)
        except NotCarried as why:
            cause = why.cause.value
        except NoApply as why:
            cause = why.cause
        if cause is not None:
            counts["refused"] += 1
            assert _refused(sides[side].edit, word, expected=base)[:2] == (412, cause), (side, base, word)
            continue
        answer = sides[side].edit(word, expected=base)
        counts["carried"] += wanted != word
        assert answer.edits[side] == wanted and answer.number == len(words[side]) + 1, (side, base, word, wanted, answer)
        for it, edit in answer.edits.items():
            words[it].append(edit)
            states[it].append(act(types[it], states[it][-1], edit))
    assert all(it.read()[0] == states[side][-1] for side, it in sides.items()) and counts["carried"] > 10 and counts["refused"] > 2, counts
