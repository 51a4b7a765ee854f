"""Pairs over HTTP: made, read, edited, patched, taken back, exported, imported, and removed."""

from __future__ import annotations

import os
import subprocess
import tempfile
import threading
import time
from typing import Any

from editlens.json_text import read_json_file
from editlens_client import Refusal
from editlens_client.wire import Call, change, write

from .fleet import PYTHON, SERVICE
from .load import PROGRAM
from .room import Room, raises, run_program

TOP = os.path.dirname(os.path.dirname(os.path.dirname(os.path.abspath(__file__))))
HOURS = [{"at": ["hours", [{"add": 1}]]}]
TASK = [{"at": ["board", [{"at": ["todo", [{"ins": 1}, {"mod": [0, [{"set": "Paint"}]]}]]}]]}]


def _made(room: Room, **documents: Any) -> str:
    name = room.name()
    room.client().make(name, PROGRAM, **documents)
    return name


def _example(name: str) -> "tuple[str, Any, Any]":
    folder = os.path.join(TOP, "examples", "queue")
    with open(os.path.join(folder, name), encoding="utf-8") as file:
        program = file.read()
    return program, read_json_file(os.path.join(folder, "shop.json")), read_json_file(os.path.join(folder, "warehouse.json"))


def test_edits_of_both_sides(room: Room) -> None:
    """An edit of one side is translated for the other, by whichever worker it comes to."""
    name = _made(room)
    left, right = room.client(0).pair(name, "left"), room.client(1).pair(name, "right")
    assert left.edit([{"at": ["hours", [{"set": 8}]]}]).number == 1
    answer = right.edit(TASK)
    assert answer.number == 2 and answer.edits["right"] == TASK
    assert answer.edits["left"] == [{"at": ["plan", [{"ins": 1}, {"mod": [0, [{"stay": ["todo", [{"set": "Paint"}]]}]]}]]}]
    assert left.read() == ({"hours": 8, "plan": [{"todo": "Paint"}]}, 2)
    assert room.client(1).pair(name, "left").read() == left.read()


def test_a_refused_edit(room: Room) -> None:
    """A refusal has its cause and its place, and changes nothing."""
    left = room.client().pair(_made(room), "left")
    why = raises(Refusal, left.edit, [{"at": ["hours", []]}, {"at": ["plan", [{"del": 3}]]}])
    assert why.status == 422 and why.problem["cause"] == "range" and why.problem["at"] == 1, why.problem
    assert why.problem["type"] == "urn:editlens:refused"
    assert raises(Refusal, left.edit, [{"ins": 0}]).problem["cause"] == "not-an-edit"
    assert left.read()[1] == 0


def test_if_match(room: Room) -> None:
    """A strict edit that was made for another state than the newest is refused with 412, at each worker, also at one that has not seen the newest."""
    name = _made(room)
    left, other = room.client(0).pair(name, "left"), room.client(1).pair(name, "left")
    assert other.read()[1] == 0
    assert left.edit(HOURS, expected=0, strict=True).number == 1
    for it in (left, other):
        why = raises(Refusal, it.edit, HOURS, expected=0, strict=True)
        assert why.status == 412 and why.problem["newest"] == 1 and why.problem["type"] == "urn:editlens:not-newest", why.problem
    assert other.edit(HOURS, expected=1).number == 2
    for strict in (False, True):
        assert raises(Refusal, other.edit, HOURS, expected=7, strict=strict).status == 412
    assert left.read() == ({"hours": 2, "plan": []}, 2)


def test_an_idempotency_key(room: Room) -> None:
    """A request that is sent again is stored once and answered alike, also when it was refused, and also with If-Match."""
    name = _made(room)
    left, other = room.client(0).pair(name, "left"), room.client(1).pair(name, "left")
    first = left.edit(HOURS, key="k1", expected=0)
    assert [it.edit(HOURS, key="k1", expected=0).reply for it in (left, other)] == [first.reply] * 2
    refused = raises(Refusal, other.edit, [{"at": ["plan", [{"del": 1}]]}], key="k2")
    left.edit([{"at": ["plan", [{"ins": 1}]]}])
    assert raises(Refusal, left.edit, [{"at": ["plan", [{"del": 1}]]}], key="k2").problem == refused.problem
    assert raises(Refusal, left.edit, HOURS + HOURS, key="k1").status == 422
    assert left.read() == ({"hours": 1, "plan": [{"todo": ""}]}, 2)


def test_a_key_belongs_to_its_author(room: Room) -> None:
    """Two authors may choose one key."""
    name = _made(room)
    assert room.client(0).pair(name, "left").edit(HOURS, key="k").number == 1
    assert room.client(0, "left").pair(name, "left").edit(HOURS, key="k").number == 2


def test_lines_of_a_journal(room: Room) -> None:
    """Each line is accepted or refused alone, and what is accepted is one transaction."""
    name, client = _made(room), room.client()
    lines = [write(HOURS), b"", write({"side": "left", "edit": HOURS}), b'[{"at":["plan",[{"del":1}]]}]', write(HOURS)]
    call = change("POST", f"/pairs/{name}/left/edits", "application/x-ndjson", b"\n".join(lines) + b"\n", None, None)
    answers = client.ask(call)["answers"]
    assert [it["ok"] for it in answers] == [True, True, False, True], answers
    assert [it.get("number") for it in answers] == [1, 2, None, 3]
    wrong = change("POST", f"/pairs/{name}/left/edits", "application/x-ndjson", write({"side": "right", "edit": []}), None, None)
    assert raises(Refusal, client.ask, wrong).status == 400


def test_a_group(room: Room) -> None:
    """The entries of a group are accepted together or not at all."""
    name, client = _made(room), room.client()
    answer = client.group(name, ("left", HOURS), ("right", TASK))
    assert answer.number == 1 and answer.edits["right"] == TASK
    why = raises(Refusal, client.group, name, ("left", HOURS), ("right", [{"at": ["board", [{"at": ["done", [{"del": 1}]]}]]}]))
    assert why.problem["part"] == 1 and why.problem["cause"] == "range", why.problem
    assert client.pair(name, "left").read() == ({"hours": 1, "plan": [{"todo": "Paint"}]}, 1)


def test_a_patch(room: Room) -> None:
    """A JSON Patch is translated, and the patch of the other side comes back. What the other side alone has is not lost silently."""
    program, shop, warehouse = _example("parcels.lens")
    name, client = room.name(), room.client()
    client.make(name, program, left=shop, right=warehouse)
    left = client.pair(name, "left")
    key = next(iter(shop["orders"]))
    answer = left.patch([{"op": "replace", "path": f"/orders/{key}/count", "value": 77}])
    [patch] = answer.reply["patches"]["right"]
    assert patch["op"] == "replace" and patch["value"] == 77 and key in patch["path"], patch
    why = raises(Refusal, left.patch, [{"op": "replace", "path": "/orders", "value": {"9": shop["orders"][key]}}])
    assert why.problem["cause"] == "private-loss", why.problem
    assert raises(Refusal, left.patch, [{"op": "remove", "path": "/orders/zz"}]).problem["cause"] == "no-counterpart"
    assert client.pair(name, "right").read()[0]["parcels"][key]["pieces"] == 77


def test_a_patch_at_a_worker_that_is_behind(room: Room) -> None:
    """A patch of what another worker has made is not refused by a worker that has not seen it; a refused patch with a key is answered alike."""
    program, shop, warehouse = _example("parcels.lens")
    name = room.name()
    room.client(0).make(name, program, left=shop, right=warehouse)
    one, other = room.client(0).pair(name, "left"), room.client(1).pair(name, "left")
    key = next(iter(shop["orders"]))
    other.edit([{"at": ["orders", [{"mod": [key, [{"at": ["count", [{"add": 1}]]}]]}]]}])
    change_new = [{"op": "replace", "path": "/orders/new/count", "value": 3}]
    refused = raises(Refusal, other.patch, change_new, key="early")
    assert refused.problem["cause"] == "no-counterpart", refused.problem
    one.edit([{"at": ["orders", [{"put": "new"}]]}])
    assert other.patch(change_new).number == 3
    assert raises(Refusal, one.patch, change_new, key="early").problem == refused.problem


def test_undo(room: Room) -> None:
    """Changes are taken back by one change, a second undo goes on behind the first, and streams and stores have it."""
    name, client = _made(room), room.client()
    left, right = client.pair(name, "left"), room.client(1).pair(name, "right")
    states = [left.read()[0]]
    for edit in (HOURS, [{"at": ["plan", [{"ins": 2}, {"mod": [1, [{"switch": ["todo", "done", [{"set": "Roof"}]]}]]}]]}], HOURS):
        left.edit(edit)
        states.append(left.read()[0])
    assert client.undo(name, 2).number == 4
    assert left.read()[0] == states[1]
    right.edit(TASK)
    assert client.undo(name).number == 6 and client.undo(name).number == 7
    assert left.read()[0] == states[0]
    assert raises(Refusal, client.undo, name).status == 409
    copies = list(_until(right, 7))
    assert copies[-1] == (right.read()[0], 7), copies
    assert _verified(client.store(name), left.read()[0], right.read()[0]) == "consistent 4\n"


def _until(document: Any, number: int) -> "list[tuple[Any, int]]":
    """The copies of a document that is followed from its beginning, up to a number."""
    from editlens_client.wire import Copy, type_of
    from editlens.types import initial

    ty = type_of(document.client.ask(Call("GET", f"/pairs/{document.name}")), document.document)
    copy, found = Copy(ty, initial(ty), 0), []
    for event in document.changes(0):
        assert not copy.take(event), event
        found.append((copy.document, copy.number))
        if copy.number == number:
            return found
    return found


def _verified(store: bytes, left: Any, right: Any) -> str:
    """What `verify` says of a store, which has to have these documents."""
    from editlens.json_text import read_json

    with tempfile.TemporaryDirectory() as folder:
        with open(os.path.join(folder, "editlens.store"), "wb") as file:
            file.write(store)
        rows = dict(line.split(" ", 1) for line in run_program(folder, "show").splitlines())
        assert (read_json(rows["left"]), read_json(rows["right"])) == (left, right), rows
        return run_program(folder, "verify")


def test_stores_out_and_in(room: Room) -> None:
    """What is exported is verified by the program, and what is imported has the same documents, changes and words."""
    program, shop, warehouse = _example("parcels.lens")
    name, again, client = room.name(), room.name(), room.client()
    client.make(name, program, left=shop, right=warehouse)
    with open(os.path.join(TOP, "examples", "queue", "parcels.journal"), "rb") as file:
        journal = file.read()
    answers = client.ask(change("POST", f"/pairs/{name}/edits", "application/x-ndjson", journal, None, None))["answers"]
    accepted = sum(it["ok"] for it in answers)
    assert 5 < accepted < len(answers)
    left, right = (client.pair(name, side) for side in ("left", "right"))
    store = client.store(name)
    assert _verified(store, left.read()[0], right.read()[0]) == f"consistent {accepted}\n"
    made = client.ask(Call("PUT", f"/pairs/{again}/store", {"Content-Type": "application/vnd.editlens.store"}, store))
    assert made["number"] == accepted
    assert client.store(again) == store
    for side in ("left", "right"):
        one, other = client.pair(name, side), client.pair(again, side)
        assert one.read() == other.read()
        assert [it["edit"] for it in one.history()] == [it["edit"] for it in other.history()]
    damaged = store[:-40] + b"\0" + store[-39:]
    call = Call("PUT", f"/pairs/{room.name()}/store", {"Content-Type": "application/vnd.editlens.store"}, damaged)
    assert raises(Refusal, client.ask, call).status == 422


def test_a_pair_is_made_once(room: Room) -> None:
    """A name is taken once; the request that took it may be sent again. Documents that do not fit are refused with their places."""
    name, client = room.name(), room.client()
    body = write({"program": PROGRAM, "left": {"hours": 3, "plan": [{"todo": "a"}]}, "right": {"board": {"done": [], "todo": ["a"]}, "color": "red"}})
    call = change("PUT", f"/pairs/{name}", "application/json", body, None, "k")
    first = client.ask(call)
    assert room.client(1).ask(call) == first == {"disagreements": [], "name": name, "number": 0}
    assert raises(Refusal, client.make, name, PROGRAM).status == 409
    assert client.pair(name, "right").read() == ({"board": {"done": [], "todo": ["a"]}, "color": "red"}, 0)
    why = raises(Refusal, client.make, room.name(), PROGRAM, left={"hours": "3", "plan": []}, right={"board": {"done": [], "todo": []}, "color": ""})
    assert why.problem["cause"] == "not-of-type" and "/hours" in why.problem["places"][0], why.problem
    why = raises(Refusal, client.make, room.name(), "main {plan ~ board: part <todo text>}")
    assert why.problem["cause"] == "not-a-program" and why.problem["explanation"], why.problem
    one = room.name()
    client.make(one, PROGRAM, right={"board": {"done": ["x"], "todo": []}, "color": ""})
    assert client.pair(one, "left").read()[0] == {"hours": 0, "plan": [{"done": "x"}]}


def test_a_removed_pair(room: Room) -> None:
    """Nothing is stored behind a pair that was removed, by no worker, and its name may be used again."""
    name, client, other = _made(room), room.client(0), room.client(1)
    for it in (client, other):
        it.pair(name, "left").edit(HOURS)
    client.ask(Call("DELETE", f"/pairs/{name}"))
    assert raises(Refusal, other.pair(name, "left").edit, HOURS).status in (404, 410)
    assert raises(Refusal, other.pair(name, "left").read).status == 404
    client.make(name, PROGRAM)
    assert other.pair(name, "left").edit(HOURS).number == 1
    assert client.pair(name, "left").read() == ({"hours": 1, "plan": []}, 1)


def test_a_stream_goes_on(room: Room) -> None:
    """A copy that is kept by a stream follows changes of another worker, and goes on after the stream was lost."""
    name = _made(room)
    found, document = [], room.client(0).pair(name, "right")

    def follow() -> None:
        for copy in document.follow():
            found.append((copy.number, copy.document))
            if copy.number == 6:
                return

    thread = threading.Thread(target=follow, daemon=True)
    thread.start()
    writer = room.client(1).pair(name, "left")
    for number in range(6):
        writer.edit([{"at": ["plan", [{"ins": 1}, {"mod": [0, [{"stay": ["todo", [{"set": str(number)}]]}]]}]]}])
        if number == 2:
            worker = room.workers[0]
            worker.kill()
            worker.start()
    thread.join(60)
    assert found and found[-1] == (6, {"board": {"done": [], "todo": ["5", "", "", "", "", ""]}, "color": ""}), found


def test_snapshots_and_trimming(room: Room) -> None:
    """A long log gets snapshots; what is behind one may be trimmed. A stream from before is told to read anew, and nothing else is lost."""
    name, client = _made(room), room.client()
    left = client.pair(name, "left")
    for _ in range(45):
        left.edit(HOURS)
    _trim(room, keep=3)
    assert next(iter(left.changes(1))).kind == "reset"
    assert room.client(1).pair(name, "left").edit(HOURS).number == 46
    assert left.read() == ({"hours": 46, "plan": []}, 46)
    assert _verified(client.store(name), left.read()[0], client.pair(name, "right").read()[0]).startswith("consistent ")
    assert raises(Refusal, client.undo, name, 45).status == 409
    assert client.undo(name).number == 47


def _trim(room: Room, keep: int) -> None:
    """Trims all logs, once there is a snapshot behind which something may go: it is stored beside the answers."""
    words = [PYTHON, os.path.join(SERVICE, "manage"), "--database", room.postgres.dsn, "trim", "--keep", str(keep), "--days", "0"]
    deadline = time.monotonic() + 60
    while subprocess.run(words, capture_output=True, text=True, check=True).stdout.startswith("took away 0 records"):
        assert time.monotonic() < deadline, "no snapshot comes"
        time.sleep(0.2)


def test_a_stale_worker_behind_a_trimmed_log(room: Room) -> None:
    """A worker that knows a state from before the log was trimmed stores nothing at its number, although that number is free."""
    name = _made(room)
    stale, writer = room.client(0).pair(name, "left"), room.client(1).pair(name, "left")
    stale.edit(HOURS)
    for _ in range(44):
        writer.edit(HOURS)
    _trim(room, keep=1)
    assert stale.edit(HOURS).number == 46
    assert writer.read() == ({"hours": 46, "plan": []}, 46)


def test_another_program(room: Room) -> None:
    """A pair goes over to another lens program while another worker has it; its streams are told to read anew."""
    name, client, other = _made(room), room.client(0), room.client(1)
    left = other.pair(name, "left")
    left.edit(HOURS)
    other.pair(name, "right").edit(TASK)
    wider = "main {plan ~ board: part <todo: text, done: text>, left hours: int, right color: text, owner ~ who: id text}\n"
    body = write({"program": wider})
    assert client.ask(change("POST", f"/pairs/{name}/program", "application/json", body, None, None))["number"] == 3
    assert left.edit([{"at": ["owner", [{"set": "ann"}]]}]).edits["right"] == [{"at": ["who", [{"set": "ann"}]]}]
    assert other.pair(name, "right").read() == ({"board": {"done": [], "todo": ["Paint"]}, "color": "", "who": "ann"}, 4)
    kinds = []
    for event in left.changes(1):
        kinds.append(event.kind)
        if len(kinds) == 3:
            break
    assert kinds == ["change", "reset", "change"], kinds
    narrower = write({"program": "main {plan ~ board: part <todo: text, done: text>, right color: text}\n"})
    call = change("POST", f"/pairs/{name}/program", "application/json", narrower, None, None)
    assert raises(Refusal, client.ask, call).status == 409
    assert _verified(client.store(name), left.read()[0], other.pair(name, "right").read()[0]) == "consistent 1\n"


def test_another_program_with_other_names(room: Room) -> None:
    """A field that has another name in the new program keeps its value where the request says so. A name that is not there is refused."""
    name, client = _made(room, left={"hours": 7, "plan": [{"todo": "Roof"}]}), room.client()
    program = PROGRAM.replace("left hours", "left time")

    def ask(**more: Any) -> Any:
        body = write({"program": program, **more})
        return client.ask(change("POST", f"/pairs/{name}/program", "application/json", body, None, None))

    assert raises(Refusal, ask).problem["cause"] == "loss"
    why = raises(Refusal, ask, rename={"minutes": "time"})
    assert why.status == 409 and why.problem["cause"] == "rename", why.problem
    assert raises(Refusal, ask, rename={"hours": 5}).status == 400
    assert ask(rename={"hours": "time"})["number"] == 1
    assert client.pair(name, "left").read() == ({"time": 7, "plan": [{"todo": "Roof"}]}, 1)


def test_another_program_under_load(room: Room) -> None:
    """While clients edit by both workers, the program changes: each accepted edit is in the log once, before it or after it."""
    name = _made(room)
    numbers: "list[int]" = []
    is_done = threading.Event()

    def edit(worker: int) -> None:
        left = room.client(worker).pair(name, "left")
        while not is_done.is_set():
            numbers.append(left.edit(HOURS).number)

    threads = [threading.Thread(target=edit, args=(it,), daemon=True) for it in (0, 1, 0)]
    for it in threads:
        it.start()
    program, changed = PROGRAM, []
    for field in ("owner", "place"):
        while len(numbers) < 5 * (len(changed) + 1):
            time.sleep(0.01)
        program = program.replace("}", f", {field} ~ {field}: id text}}")
        call = change("POST", f"/pairs/{name}/program", "application/json", write({"program": program}), None, None)
        changed.append(room.client(1).ask(call)["number"])
    is_done.set()
    for it in threads:
        it.join(60)
    document, number = room.client().pair(name, "left").read()
    assert document == {"hours": len(numbers), "owner": "", "place": "", "plan": []}
    assert sorted(numbers + changed) == list(range(1, number + 1))
