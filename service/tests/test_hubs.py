"""Hubs over HTTP: a document with its views, groups of edits, changes that are taken back, and stores of `edithub`."""

from __future__ import annotations

import os
import subprocess
import tempfile
from typing import Any

from editlens.json_text import read_json
from editlens.program import NoProgram, find_program
from editlens_client import Refusal
from editlens_client.wire import Call, change, write

from .room import Room, Skipped, raises

FILE = {"Content-Type": "application/vnd.editlens.store"}
PROGRAMS = ["main {a ~ x: id int, left b: int}\n", "main {a ~ p: id int, b ~ q: id int}\n"]
ADD = [{"at": ["a", [{"add": 1}]]}]


def _edithub(folder: str, *words: str, given: bytes = b"") -> "list[str]":
    """What `edithub` writes in a folder."""
    try:
        program = find_program("edithub")
    except NoProgram as why:
        raise Skipped(str(why)) from None
    return subprocess.run([program, *words], cwd=folder, input=given, capture_output=True, check=False).stdout.decode().splitlines()


def _kept(folder: str, store: bytes) -> "tuple[str, list[str]]":
    """What `edithub` says of a store: the line of `verify`, and its state."""
    with open(os.path.join(folder, "edithub.store"), "wb") as file:
        file.write(store)
    return _edithub(folder, "verify")[0], _edithub(folder, "show")


def _store(client: Any, name: str) -> bytes:
    return client._send(Call("GET", f"/hubs/{name}/store"))[1]


def test_hubs(room: Room) -> None:
    """A hub and its views follow one another, by whichever worker an edit comes to."""
    name, client, other = room.name("hub"), room.client(0), room.client(1)
    client.make_hub(name, PROGRAMS)
    view = other.hub(name, 1)
    answer = client.hub(name, 0).edit([{"at": ["x", [{"set": 3}]]}])
    assert answer.edits == {"hub": [{"at": ["a", [{"set": 3}]]}], "0": [{"at": ["x", [{"set": 3}]]}], "1": [{"at": ["p", [{"set": 3}]]}]}
    assert view.edit([{"at": ["q", [{"add": 2}]]}], expected=1).number == 2
    assert client.hub(name).read() == ({"a": 3, "b": 2}, 2)
    assert client.hub(name, 0).read() == ({"x": 3}, 2)
    patched = client.hub(name).patch([{"op": "replace", "path": "/b", "value": 9}])
    assert patched.reply["patches"]["1"] == [{"op": "replace", "path": "/q", "value": 9}]
    events = view.changes(0)
    wanted = [[{"at": ["p", [{"set": 3}]]}], [{"at": ["q", [{"add": 2}]]}], [{"at": ["q", [{"set": 9}]]}]]
    assert [next(events).data["edit"] for _ in range(3)] == wanted
    assert raises(Refusal, client.hub(name, 2).read).status == 404
    assert raises(Refusal, client.hub(name, 2).edit, []).problem["cause"] == "no-view"
    store, again = _store(client, name), room.name("hub")
    made = client.ask(Call("PUT", f"/hubs/{again}/store", FILE, store))
    assert made["number"] == 3 and client.hub(again, 1).read() == (view.read()[0], 3)
    body = write({"programs": ["main id int\n", "main id text\n"]})
    wrong = change("PUT", f"/hubs/{room.name('hub')}", "application/json", body, None, None)
    assert raises(Refusal, client.ask, wrong).problem["cause"] == "views-differ"


LINES = (
    b'{"group":[{"at":0,"edit":[{"at":["x",[{"set":3}]]}]},{"at":"hub","edit":[{"at":["b",[{"add":3}]]}]}]}',
    b'{"group":[{"at":0,"edit":[{"at":["x",[{"set":9}]]}]},{"at":9,"edit":[]}]}',
    b'{"group":[{"at":0,"edit":[{"at":["x",[{"set":9}]]}]},{"at":1,"edit":[{"set":1}]},{"at":9,"edit":[]}]}',
    b'{"group":[{"at":9,"edit":[]},{"at":0,"edit":5}]}',
    b'{"group":[{"at":0,"edit":5},{"at":0}]}',
    b'{"group":[{"at":"left","edit":[]}]}',
    b'{"group":[{"at":9,"edit":[]},5]}',
    b'{ "group" : [] }',
    b'{"group":5}',
    b'{"group":[',
    b'{"at":1,"edit":[{"at":["q",[{"add":1}]]}]}',
    b'{"group":[{"at":1,"edit":[{"at":["p",[{"add":9223372036854775807}]]}]}]}',
)
"""Lines of a journal, well and wrong in every way."""


def test_groups_of_a_hub(room: Room) -> None:
    """A group is accepted as a whole or not at all. Each line is answered as by `edithub apply`, and the records are the same."""
    name, client = room.name("hub"), room.client(0)
    client.make_hub(name, PROGRAMS)
    with tempfile.TemporaryDirectory() as folder:
        _edithub(folder, "init", given="+++\n".join(PROGRAMS).encode() + b"---\n")
        said = _edithub(folder, "apply", given=b"\n".join(LINES) + b"\n")
        with open(os.path.join(folder, "edithub.store"), "rb") as file:
            wanted = file.read()
    lines = [line.split(" ") for line in said[: len(LINES)]]
    answers = client.ask(change("POST", f"/hubs/{name}/edits", "application/x-ndjson", b"\n".join(LINES), None, None))["answers"]
    assert [it["ok"] for it in answers] == [line[0] == "ok" for line in lines]
    for it, line in zip(answers, lines):
        if not it["ok"]:
            part, rest = (int(line[3]), line[4:]) if line[2] == "group" else (None, line[2:])
            assert (it.get("part"), it["cause"]) == (part, rest[2] if rest[0] == "no-apply" else rest[0]), (it, line)
    assert answers[0]["edits"] == {
        "hub": [{"at": ["a", [{"set": 3}]]}, {"at": ["b", [{"add": 3}]]}],
        "0": [{"at": ["x", [{"set": 3}]]}],
        "1": [{"at": ["p", [{"set": 3}]]}, {"at": ["q", [{"add": 3}]]}],
    }
    assert client.hub(name).read() == ({"a": 3, "b": 4}, 3)
    assert room.client(1).hub(name, 1).read() == ({"p": 3, "q": 4}, 3)
    assert _payloads(_store(client, name))[-3:] == _payloads(wanted)[-3:]


def _payloads(store: bytes) -> "list[bytes]":
    from editlens.log import Log

    with tempfile.TemporaryDirectory() as folder:
        path = os.path.join(folder, "edithub.store")
        with open(path, "wb") as file:
            file.write(store)
        with Log(path) as log:
            return list(log.payloads())


def test_undo_of_a_hub(room: Room) -> None:
    """Changes of a hub are taken back by one change, a group as one. Streams come to the documents, and the store is well."""
    name, client, other = room.name("hub"), room.client(0), room.client(1)
    programs = [
        "main {rows ~ titles: each {name ~ title: id text, left done: bool}, left n: int}\n",
        "main {rows ~ names: each {name ~ n: id text, done ~ d: id bool}, left n: int, right z: int}\n",
    ]
    client.make_hub(name, programs)
    hub, view = client.hub(name), other.hub(name, 1)
    states = [hub.read()[0]]
    hub.edit([{"at": ["rows", [{"ins": 2}, {"mod": [0, [{"at": ["name", [{"set": "a"}]]}]]}]]}])
    states.append(hub.read()[0])
    view.edit([{"at": ["names", [{"mod": [1, [{"at": ["d", [{"set": True}]]}]]}, {"move": [1, 0]}]]}, {"at": ["z", [{"set": 4}]]}])
    client.group(name, ("hub", [{"at": ["n", [{"add": 1}]]}]), (0, [{"at": ["titles", [{"del": 1}]]}]), kind="hub")
    answer = other.undo(name, 2, kind="hub")
    assert answer.number == 4 and hub.read() == (states[1], 4)
    assert client.undo(name, kind="hub").number == 5 and hub.read() == (states[0], 5)
    assert raises(Refusal, client.undo, name, kind="hub").status == 409
    assert view.read() == ({"names": [], "z": 0}, 5)
    for document in (hub, view, client.hub(name, 0)):
        assert _followed(document, 5) == document.read()
    with tempfile.TemporaryDirectory() as folder:
        verified, shown = _kept(folder, _store(client, name))
    assert verified == "consistent 3" and read_json(shown[0].split(" ", 1)[1]) == states[0], (verified, shown)


def _followed(document: Any, number: int) -> "tuple[Any, int]":
    """The copy of a document that follows the stream from the beginning."""
    from editlens.types import initial
    from editlens_client.wire import Copy, type_of

    ty = type_of(document.client.ask(Call("GET", f"/hubs/{document.name}")), document.document)
    copy = Copy(ty, initial(ty), 0)
    for event in document.changes(0):
        assert not copy.take(event), event
        if copy.number == number:
            break
    return copy.document, copy.number
