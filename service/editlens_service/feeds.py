"""What streams are told. A stream has no queue: it has a number, and reads the log from there on.

A worker wakes its own streams when a change is stored, and tells the other workers by NOTIFY, for many pairs at once where there are many
changes. Nothing rests on that: each worker also asks for the newest numbers from time to time.
"""

from __future__ import annotations

import asyncio
import json
from collections import deque
from dataclasses import dataclass
from typing import Any

import asyncpg

from . import tables
from .database import AWAY, SESSION, Away, Connection, Database
from editlens.json_text import read_json, write_json

CHANNEL = "editlens"
TELL_PAUSE, ASK_PAUSE, AGAIN_PAUSE = 0.02, 2.0, 1.0
RING = 512
MOST_TOLD = 400


@dataclass(frozen=True)
class Event:
    """A record as a stream tells it. `words` has the text of the word of each document; it is None where they are not known."""

    number: int
    words: "tuple[str, ...] | None"
    side: str
    author: str
    entry: str
    kind: str

    def text(self, place: int) -> bytes:
        """The event for the document at a place, as it is sent."""
        if self.words is None or place >= len(self.words):
            return f'id: {self.number}\nevent: reset\ndata: {{"number":{self.number}}}\n\n'.encode()
        more = write_json({"author": self.author, "entry": self.entry, "kind": self.kind, "number": self.number, "side": self.side})
        return f'id: {self.number}\nevent: change\ndata: {{"edit":{self.words[place]},{more[1:]}\n\n'.encode()


def entry_of(row: "asyncpg.Record") -> str:
    """How the author of a row named it: the Idempotency-Key, and the place of the line in the request."""
    return row["entry_id"].removeprefix(f"{row['author']}/")


def event_of(row: "asyncpg.Record") -> Event:
    """The event of a row of the log."""
    words = None if row["words"] is None else tuple(write_json(it) for it in read_json(row["words"]))
    return Event(row["number"], words, row["side"], row["author"], entry_of(row), row["kind"])


class Feed:
    """The newest events of a pair, for its streams in this worker."""

    def __init__(self, database: Database, pair: int, page: int) -> None:
        self.database, self.pair, self.page = database, pair, page
        self.ring: "deque[Event]" = deque(maxlen=RING)
        self.changed, self.lock = asyncio.Event(), asyncio.Lock()
        self.last: "int | None" = None
        self.is_behind, self.streams = True, 0

    def wake(self) -> None:
        """Says that there may be something new."""
        self.is_behind = True
        changed, self.changed = self.changed, asyncio.Event()
        changed.set()

    async def after(self, number: int) -> "list[Event]":
        """Some of the events behind a number. Those behind it that are in the database are not skipped."""
        async with self.lock:
            if self.last is None:
                self.last = number
            if number > self.last or number < self.last - len(self.ring):
                return [event_of(it) for it in await self.database.rows(tables.ROWS, self.pair, number, self.page)]
            if self.is_behind and number == self.last:
                self.is_behind = False
                try:
                    found = await self.database.rows(tables.ROWS, self.pair, self.last, self.page)
                except BaseException:
                    self.is_behind = True
                    raise
                self._take([event_of(it) for it in found])
            return [it for it in self.ring if it.number > number]

    def _take(self, events: "list[Event]") -> None:
        if len(events) == self.page:
            self.is_behind = True
        for event in events:
            if event.number != self.last + 1:  # type: ignore[operator]
                # The log was trimmed meanwhile. The ring holds no gap; the streams find it in the database.
                self.ring.clear()
            self.ring.append(event)
            self.last = event.number


class Feeds:
    """The feeds of a worker, and what wakes them."""

    def __init__(self, database: Database, page: int) -> None:
        self.database, self.page = database, page
        self.feeds: "dict[int, Feed]" = {}
        self.untold: "set[int]" = set()
        self.has_untold = asyncio.Event()
        self.is_closed = False
        self.tasks: "list[asyncio.Task[None]]" = []

    def start(self) -> None:
        """Begins to tell, to listen and to ask."""
        loop = asyncio.get_running_loop()
        self.tasks = [loop.create_task(it()) for it in (self._tell, self._listen, self._ask)]

    async def close(self) -> None:
        """Ends all streams."""
        self.is_closed = True
        for feed in self.feeds.values():
            feed.wake()
        for task in self.tasks:
            task.cancel()
        await asyncio.gather(*self.tasks, return_exceptions=True)

    def stored(self, pair: int, number: int) -> None:
        """A change of this worker was stored."""
        self._wake(pair)
        self.untold.add(pair)
        self.has_untold.set()

    def join(self, pair: int) -> Feed:
        """The feed of a pair, for a stream more."""
        feed = self.feeds.setdefault(pair, Feed(self.database, pair, self.page))
        feed.streams += 1
        return feed

    def leave(self, feed: Feed) -> None:
        """A stream has ended."""
        feed.streams -= 1
        if not feed.streams:
            self.feeds.pop(feed.pair, None)

    def _wake(self, pair: int) -> None:
        feed = self.feeds.get(pair)
        if feed:
            feed.wake()

    async def _tell(self) -> None:
        """Tells the other workers what was stored here."""
        while True:
            await self.has_untold.wait()
            told = [self.untold.pop() for _ in range(min(MOST_TOLD, len(self.untold)))]
            if not self.untold:
                self.has_untold.clear()
            try:
                await self.database.use(lambda it: it.execute(tables.TELL, json.dumps(told)))
            except AWAY:
                # The others ask by themselves.
                await asyncio.sleep(AGAIN_PAUSE)
            await asyncio.sleep(TELL_PAUSE)

    async def _listen(self) -> None:
        """Hears what other workers have stored."""
        while True:
            ended = asyncio.Event()
            try:
                connection = await asyncpg.connect(self.database.dsn, connection_class=Connection, timeout=self.database.seconds, server_settings=SESSION)
            except AWAY:
                await asyncio.sleep(AGAIN_PAUSE)
                continue
            try:
                connection.add_termination_listener(lambda *_: ended.set())
                await connection.add_listener(CHANNEL, self._heard)
                for feed in self.feeds.values():
                    feed.wake()
                await ended.wait()
            except AWAY:
                pass
            finally:
                connection.terminate()
            await asyncio.sleep(AGAIN_PAUSE / 4)

    def _heard(self, _connection: Any, _process: int, _channel: str, payload: str) -> None:
        for pair in json.loads(payload):
            self._wake(pair)

    async def _ask(self) -> None:
        """Asks for the newest numbers, where nobody told."""
        while True:
            await asyncio.sleep(ASK_PAUSE)
            pairs = [it for it, feed in self.feeds.items() if not feed.is_behind]
            if not pairs:
                continue
            try:
                rows = await self.database.rows(tables.NEWEST_OF_ALL, pairs)
            except Away:
                continue
            for row in rows:
                feed = self.feeds.get(row["pair"])
                if feed and row["number"] != feed.last:
                    feed.wake()
