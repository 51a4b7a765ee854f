"""The clients: both for Python, and the one for JavaScript in Node, against one service."""

from __future__ import annotations

import asyncio
import importlib.util
import json
import os
import random
import select
import shutil
import subprocess
import time
from typing import Any

from editlens.edits import NoApply, act
from editlens.json_text import read_json, write_json
from editlens.types import write_type
from editlens_client import AsyncClient, Refusal
from editlens_client.wire import Events

from .load import PROGRAM
from .room import Room, Skipped, raises

HERE = os.path.dirname(os.path.abspath(__file__))
CHANCE = os.path.join(os.path.dirname(os.path.dirname(HERE)), "tools", "tests", "chance.py")
ROUNDS = 4_000


def _node() -> str:
    found = shutil.which("node")
    if found is None:
        raise Skipped("there is no node: its Debian package is nodejs")
    return found


def _chance() -> Any:
    """The random types, documents and edits of the tests of the tools."""
    spec = importlib.util.spec_from_file_location("chance", CHANCE)
    assert spec and spec.loader
    found = importlib.util.module_from_spec(spec)
    spec.loader.exec_module(found)
    return found


def test_edits_in_javascript(room: Room) -> None:
    """What an edit does to a document is the same in JavaScript and in Python, for types and edits at random."""
    node, chance, rows = _node(), _chance(), []
    random.seed(room.seed)
    for _ in range(ROUNDS):
        ty = chance.some_type()
        document = chance.some_document(ty)
        edit = chance.some_edit(ty, document)
        try:
            rows.append(([write_type(ty), document, edit], act(ty, document, edit)))
        except (NoApply, ValueError):
            continue
    assert len(rows) > ROUNDS // 3, len(rows)
    lines = "".join(write_json(row) + "\n" for row, _ in rows)
    said = subprocess.run([node, os.path.join(HERE, "act.mjs")], input=lines, capture_output=True, text=True, check=False)
    assert said.returncode == 0, said.stderr[-2000:]
    for (row, wanted), line in zip(rows, said.stdout.splitlines(), strict=True):
        assert write_json(read_json(line)) == write_json(wanted), (row, line)


class Follower:
    """The client in Node."""

    def __init__(self, *words: str) -> None:
        self.process = subprocess.Popen([_node(), os.path.join(HERE, "follow.mjs"), *words], stdin=subprocess.PIPE, stdout=subprocess.PIPE)
        self.rows: "list[dict[str, Any]]" = []
        self.rest = b""

    def until(self, is_found: Any, seconds: float = 90.0) -> "dict[str, Any]":
        """The first line that is looked for."""
        deadline, at = time.monotonic() + seconds, 0
        while True:
            for row in self.rows[at:]:
                if is_found(row):
                    return row
            at = len(self.rows)
            ready, _, _ = select.select([self.process.stdout], [], [], max(0.0, deadline - time.monotonic()))
            piece = os.read(self.process.stdout.fileno(), 1 << 16) if ready else b""  # type: ignore[union-attr]
            assert piece, self.rows
            *lines, self.rest = (self.rest + piece).split(b"\n")
            self.rows += map(json.loads, lines)

    def send(self, edit: Any) -> None:
        """Tells it to send an edit."""
        assert self.process.stdin
        self.process.stdin.write(json.dumps(edit).encode() + b"\n")
        self.process.stdin.flush()

    def close(self) -> None:
        """Ends it."""
        self.process.kill()
        self.process.wait()


def test_the_client_in_node(room: Room) -> None:
    """It follows changes of others, edits, and goes on after its worker was killed; an edit that was on its way is stored once."""
    name, writer = room.name(), room.client(1).pair("x", "left")
    room.client(1).make(name, PROGRAM)
    writer = room.client(1).pair(name, "right")
    worker = room.serve()[0]
    follower = Follower(worker.address, "all", name, "left")
    try:
        follower.until(lambda it: it.get("number") == 0)
        writer.edit([{"at": ["board", [{"at": ["done", [{"ins": 1}, {"mod": [0, [{"set": "Roof"}]]}]]}]]}])
        assert follower.until(lambda it: it.get("number") == 1)["copy"] == {"hours": 0, "plan": [{"done": "Roof"}]}
        follower.send([{"at": ["hours", [{"set": 2**62}]]}])
        follower.until(lambda it: it.get("answer") == 2)
        worker.kill()
        follower.send([{"at": ["hours", [{"add": 1}]]}])
        time.sleep(0.5)
        worker.start()
        follower.until(lambda it: it.get("answer") == 3 and it["pending"] == 0)
        copy = follower.until(lambda it: it.get("number") == 3)["copy"]
        assert copy == {"hours": 2**62 + 1, "plan": [{"done": "Roof"}]} == room.client(1).pair(name, "left").read()[0]
        follower.send([{"at": ["plan", [{"del": 2}]]}])
        follower.until(lambda it: it.get("refused") == "range")
    finally:
        follower.close()


def test_pending_edits_in_node(room: Room) -> None:
    """Edits that were made while no worker answered are sent in their order when one does: each needs the one before it."""
    name, count = room.name(), 8
    room.client(1).make(name, PROGRAM)
    worker = room.serve()[0]
    follower = Follower(worker.address, "all", name, "left")
    try:
        follower.until(lambda it: it.get("number") == 0)
        worker.kill()
        for place in range(count):
            follower.send([{"at": ["plan", [{"ins": 1}, {"mod": [place, [{"stay": ["todo", [{"set": str(place)}]]}]]}]]}])
        follower.until(lambda it: it.get("waiting") == count)
        assert room.client(1).pair(name, "left").edit([{"at": ["hours", [{"add": 1}]]}]).number == 1
        worker.start()
        follower.until(lambda it: it.get("waiting") == 0)
        follower.until(lambda it: it.get("number") == count + 1)
        assert [it["answer"] for it in follower.rows if "answer" in it] == list(range(2, count + 2))
        assert not [it for it in follower.rows if "refused" in it]
        assert room.client(1).pair(name, "left").read()[0] == {"hours": 1, "plan": [{"todo": str(it)} for it in range(count)]}
    finally:
        follower.close()


def test_the_client_for_asyncio(room: Room) -> None:
    """It has the calls of the other one: it makes, edits, patches, groups, takes back, follows and exports."""
    asyncio.run(_async_client(room))


async def _async_client(room: Room) -> None:
    name = room.name()
    async with AsyncClient(room.serve()[0].address, "all") as client:
        await client.make(name, PROGRAM)
        left = client.pair(name, "left")
        assert (await left.edit([{"at": ["hours", [{"set": 5}]]}])).number == 1
        assert (await left.patch([{"op": "replace", "path": "/hours", "value": 6}], expected=1)).number == 2
        assert (await client.group(name, ("left", [{"at": ["hours", [{"add": 1}]]}]), ("right", [{"at": ["color", [{"set": "red"}]]}]))).number == 3
        assert (await client.undo(name, 2)).number == 4
        async for copy in client.pair(name, "left").follow():
            assert (copy.document, copy.number) == ({"hours": 5, "plan": []}, 4)
            break
        try:
            await left.edit([{"at": ["plan", [{"del": 1}]]}])
            raise AssertionError("it was accepted")
        except Refusal as why:
            assert why.problem["place"] == "/plan" and why.problem["cause"] == "range", why.problem
        assert (await client.store(name)).startswith(b"EDLENS1\n")
        assert [it["number"] for it in await left.history(1)] == [2, 3, 4]


def test_events_in_pieces(room: object) -> None:
    """A stream is read alike however it is cut."""
    text = b'retry: 1000\n\nid: 1\nevent: change\ndata: {"edit":[],"number":1}\n\n: still here\n\nid: 2\nevent: reset\ndata: {"number":2}\n\n'
    for size in range(1, len(text)):
        events, found = Events(), []
        for at in range(0, len(text), size):
            found += events.feed(text[at : at + size])
        assert [(it.kind, it.data["number"]) for it in found] == [("change", 1), ("reset", 2)], size


def test_a_copy_does_not_skip(room: object) -> None:
    """A copy refuses an event that is not the next one."""
    from editlens.types import read_type
    from editlens_client.wire import Copy, Event, Skipped as Left

    copy = Copy(read_type("int"), 1, 3)
    assert not copy.take(Event("change", {"number": 3, "edit": [{"add": 5}]})) and copy.document == 1
    assert isinstance(raises(Left, copy.take, Event("change", {"number": 5, "edit": []})), Left)
