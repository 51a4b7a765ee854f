"""Clients of a pair that edit it at random, and remember what they saw."""

from __future__ import annotations

import asyncio
import random
import time
import uuid
from typing import Any

from editlens_client.aio import FAULTS, AsyncClient, AsyncDocument
from editlens_client.wire import Copy, Lost, Refusal
from .history import History, Said, Seen

PROGRAM = "main {plan ~ board: part <todo: text, done: text>, left hours: int, right color: text}\n"
SIDES = ("left", "right")
LAST = 120.0
"""Seconds in which a stream has to come to the end of the log, when all is quiet."""


def random_edit(side: str, document: Any, chance: random.Random) -> "list[Any]":
    """An edit of a document of PROGRAM. One of ten does not apply."""
    text = f"t{chance.randrange(10**9)}"
    if side == "left":
        count = len(document["plan"])
        choices: "list[Any]" = [
            [{"at": ["hours", [{"add": chance.randrange(1, 9)}]]}],
            [{"at": ["plan", [{"ins": 1}, {"mod": [count, [{"stay": ["todo", [{"set": text}]]}]]}]]}],
        ]
        if count:
            place = chance.randrange(count)
            tag = next(iter(document["plan"][place]))
            choices += [
                [{"at": ["plan", [{"move": [place, chance.randrange(count)]}]]}],
                [{"at": ["plan", [{"mod": [place, [{"switch": [tag, "done", [{"set": text}]]}]]}]]}],
            ]
        if count > 12:
            choices = [[{"at": ["plan", [{"del": chance.randrange(1, 6)}]]}]]
    else:
        column = chance.choice(["todo", "done"])
        count = len(document["board"][column])
        choices = [
            [{"at": ["color", [{"set": text}]]}],
            [{"at": ["board", [{"at": [column, [{"ins": 1}, {"mod": [count, [{"set": text}]]}]]}]]}],
        ]
        if count:
            choices.append([{"at": ["board", [{"at": [column, [{"mod": [chance.randrange(count), [{"set": text}]]}]]}]]}])
        if count > 6:
            choices = [[{"at": ["board", [{"at": [column, [{"del": chance.randrange(1, 4)}]]}]]}]]
    if chance.random() < 0.1:
        choices = [[{"at": ["plan" if side == "left" else "board", [{"del": 60_000}] if side == "left" else [{"at": ["todo", [{"del": 60_000}]]}]]}]]
    return chance.choice(choices)


class Actor:
    """A client of one side: it edits, it follows a stream, and it remembers both."""

    def __init__(self, client: AsyncClient, history: History, side: str, seed: int) -> None:
        self.client, self.history, self.side = client, history, side
        self.document: AsyncDocument = client.pair(history.name, side)
        self.chance = random.Random(seed)
        self.copy: "Copy | None" = None
        self.seen: "Seen | None" = None
        self.faults: "list[str]" = []
        self.lost: "list[str]" = []
        self.has_ended = False

    async def begin(self) -> None:
        """Reads the document, and begins to follow it."""
        self.copy = await self.document.copy()
        self.seen = Seen(self.side, self.copy.number)
        self.history.seen.append(self.seen)

    async def edit_until(self, end: float, pause: float) -> None:
        """Edits until a time."""
        while time.monotonic() < end:
            await self.edit_once()
            await asyncio.sleep(self.chance.random() * 2 * pause)

    async def edit_once(self) -> None:
        """Sends one change with a key of its own: an edit, a group, or, at times, one that is made for a state."""
        assert self.copy
        key, sent = uuid.uuid4().hex, time.monotonic()
        edit, turn = random_edit(self.side, self.copy.document, self.chance), self.chance.random()
        try:
            if turn < 0.1:
                edits = (self.side, edit), (self.side, [])
                answer = await self.client.group(self.history.name, *edits, key=key)
            elif turn < 0.2:
                answer = await self.document.edit(edit, expected=self.copy.number, key=key)
            else:
                answer = await self.document.edit(edit, key=key)
            said = Said(f"{key}/0", sent, time.monotonic(), answer.number, answer.edits)
        except Refusal as why:
            if why.status not in (412, 422):
                self.faults.append(f"{self.history.name}: {why}")
            said = Said(f"{key}/0", sent, time.monotonic(), None)
        except Lost as why:
            self.lost.append(f"{key}: {why}")
            return
        self.history.said.append(said)

    async def follow(self) -> None:
        """Follows the stream, again and again, until it is cancelled."""
        try:
            await self._follow()
        finally:
            self.has_ended = True

    async def _follow(self) -> None:
        assert self.copy and self.seen
        while True:
            try:
                async for event in self.document.changes(self.copy.number):
                    number = event.data.get("number")
                    if event.kind == "change" and number > self.copy.number or event.kind not in ("change", "reset"):
                        self.seen.events.append((number, event.data["entry"], event.data["edit"]))
                    if self.copy.take(event):
                        self.faults.append(f"{self.history.name}: the stream of {self.side} was reset at {number}")
                        return
            except FAULTS:
                pass
            except Refusal as why:
                if why.status != 503:
                    self.faults.append(f"{self.history.name}: {why}")
            await asyncio.sleep(0.05 + self.chance.random() / 5)


async def finish(client: AsyncClient, history: History, actors: "list[Actor]") -> None:
    """Reads the log and the documents at the end, and waits until each stream has come there."""
    from .history import Row

    changes: "dict[int, dict[str, Any]]" = {}
    entries: "dict[int, str]" = {}
    for side in SIDES:
        after, document = 0, client.pair(history.name, side)
        while True:
            rows = await document.history(after)
            for it in rows:
                changes.setdefault(it["number"], {})[side] = it["edit"]
                entries[it["number"]] = it["entry"]
            if not rows:
                break
            after = rows[-1]["number"]
        history.documents[side], number = await document.read()
    history.rows = [Row(it, entries[it], changes[it]) for it in sorted(changes)]
    deadline = time.monotonic() + LAST
    while any(it.copy and it.copy.number < number and not it.has_ended for it in actors) and time.monotonic() < deadline:
        await asyncio.sleep(0.05)
    for it in actors:
        if it.seen and it.copy:
            it.seen.document = it.copy.document
