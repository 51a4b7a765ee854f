"""The states of a worker, and how a change is stored exactly once.

A state that is kept is a cache: the log in the database is what counts. A change is made on the state that is kept, and stored behind the
record of that state. Where another worker was faster the primary key says so; then the state is brought up to date, and the change is
made again. Nothing is answered before its transaction has ended well.
"""

from __future__ import annotations

import asyncio
import json
from collections import OrderedDict
from typing import Any, Awaitable, Callable, TypeVar

import asyncpg

from . import tables
from .database import AWAY, Away, Database, Patience
from .drafts import Change, Draft, Kept, Made
from .engine import KINDS, Unreadable, base_of, line_of
from .metrics import Metrics
from .problems import Conflict, Gone, KeyReused, NotNewest, Overloaded, Problem, Refused, of_tree
from .settings import Settings

Seen = TypeVar("Seen")
NO_END = 2**62
LONG_TAIL = 2_000
UNSEEN = 40
"""How often a log may change under the eyes of a reader before it gives up."""


class Collision(Exception):
    """The record behind which something was to be stored is not the newest, or is gone."""


class Slot:
    """The place of a pair in a worker: its state, if there is one, and the lock under which it is used."""

    def __init__(self) -> None:
        self.lock = asyncio.Lock()
        self.kept: "Kept | None" = None
        self.waiting = 0

    def drop(self) -> None:
        """Forgets the state."""
        if self.kept:
            self.kept.state.close()
            self.kept = None


class Keeper:
    """The states of a worker. `change` stores what a request makes, `look` shows the newest state."""

    def __init__(self, database: Database, settings: Settings, metrics: Metrics, stored: "Callable[[int, int], None]") -> None:
        self.database, self.settings, self.metrics, self.stored = database, settings, metrics, stored
        self.slots: "OrderedDict[int, Slot]" = OrderedDict()
        self.tasks: "set[asyncio.Task[None]]" = set()

    async def change(self, kind: str, pair: int, change: Change) -> "tuple[dict[str, Any], bool]":
        """Makes and stores a change. Returns its reply, and whether it is that of an earlier request with this key."""
        slot = self._slot(pair)
        async with self._turn(slot):
            patience, attempts, is_fresh = Patience(self.settings.limits.database_seconds), {}, False
            while True:
                try:
                    if is_fresh:
                        reply = await self._earlier(pair, change, attempts)
                        if reply is not None:
                            return well(reply), True
                    made = await self._make(slot, kind, pair, change, is_fresh)
                    attempts[made.reply["first"]] = made.reply
                    await self._store(slot, change, made)
                    return well(made.reply), False
                except (Collision, asyncpg.UniqueViolationError, asyncpg.DeadlockDetectedError):
                    self.metrics.collisions += 1
                    slot.drop()
                    is_fresh = True
                    await asyncio.sleep(0)
                except AWAY as why:
                    slot.drop()
                    is_fresh = True
                    await patience.rest(why)
                except (NotNewest, KeyReused, StoredRefusal):
                    raise
                except BaseException:
                    slot.drop()
                    raise

    async def look(self, kind: str, pair: int, view: "Callable[[Kept], Awaitable[Seen] | Seen]") -> Seen:
        """What a view shows of the newest state."""
        slot = self._slot(pair)
        async with self._turn(slot):
            kept = await self._newest(slot, kind, pair)
            found = view(kept)
            return await found if asyncio.iscoroutine(found) else found  # type: ignore[return-value]

    async def at(self, kind: str, pair: int, number: int) -> Kept:
        """The state with a number, which the caller closes. Raises Gone where the log no longer reaches back to it."""
        for _ in range(UNSEEN):
            snapshot = await self.database.row(tables.SNAPSHOT, pair, number)
            if snapshot is None:
                raise Gone(f"state {number} is no longer in the log")
            rows = await self.database.rows(tables.TAIL, pair, snapshot["number"], number, NO_END)
            if [it["number"] for it in rows] == list(range(snapshot["number"], number + 1)):
                return opened(kind, pair, snapshot["number"], snapshot["payload"], rows[1:])
        raise Conflict("the log changes too often to be read")

    def forget(self, pair: int) -> None:
        """Forgets a pair that is gone."""
        slot = self.slots.get(pair)
        if slot and not slot.lock.locked():
            slot.drop()
            del self.slots[pair]

    async def close(self) -> None:
        """Ends all states."""
        for task in list(self.tasks):
            task.cancel()
        for slot in self.slots.values():
            slot.drop()
        self.slots.clear()

    def _slot(self, pair: int) -> Slot:
        slot = self.slots.get(pair)
        if slot is None:
            slot = self.slots[pair] = Slot()
        self.slots.move_to_end(pair)
        if len(self.slots) > self.settings.states:
            oldest = next((it for it, other in self.slots.items() if other is not slot and not other.waiting), None)
            if oldest is not None:
                self.slots.pop(oldest).drop()
        if slot.waiting >= self.settings.limits.waiting:
            raise Overloaded("too many requests wait for this pair")
        return slot

    def _turn(self, slot: Slot) -> "_Turn":
        return _Turn(slot)

    async def _newest(self, slot: Slot, kind: str, pair: int) -> Kept:
        """The state of a slot, brought up to the newest record."""
        for _ in range(UNSEEN):
            if slot.kept is None:
                snapshot = await self.database.row(tables.SNAPSHOT, pair, NO_END)
                if snapshot is None:
                    raise Gone("this was removed")
                slot.kept = opened(kind, pair, snapshot["number"], snapshot["payload"], [])
            kept = slot.kept
            rows = await self.database.rows(tables.TAIL, pair, kept.number, NO_END, LONG_TAIL)
            numbers = [it["number"] for it in rows]
            if numbers != list(range(kept.number, kept.number + len(rows))) or not rows:
                slot.drop()
                continue
            try:
                for row in rows[1:]:
                    follow(kept, row)
            except BaseException:
                slot.drop()
                raise
            if len(rows) < LONG_TAIL:
                return kept
        raise Conflict("the log grows faster than it is read")

    async def _make(self, slot: Slot, kind: str, pair: int, change: Change, is_fresh: bool) -> Made:
        """What a change makes of the state that is kept, or of the newest one where that is wanted or matters."""
        kept = slot.kept
        if kept is None or is_fresh or change.expected not in (None, kept.number):
            kept, is_fresh = await self._newest(slot, kind, pair), True
        if change.expected not in (None, kept.number) and change.late(kept.number) is None:
            await self._need_newest(pair, change, kept)
        before = kept.number
        made = await worked(change, kept)
        if not made.drafts and not is_fresh and (await self._newest(slot, kind, pair)).number != before:
            # A refusal counts only if it was decided on the newest state.
            assert slot.kept
            made = await worked(change, slot.kept)
        assert slot.kept
        made.reply.setdefault("first", slot.kept.number + 1)
        made.reply.setdefault("number", slot.kept.number + len(made.drafts))
        return made

    async def _need_newest(self, pair: int, change: Change, kept: Kept) -> None:
        """Raises NotNewest, unless the request was stored before: then Collision, and its reply is found."""
        if change.is_keyed and await self.database.row(tables.REPLY, pair, change.key):
            raise Collision
        raise NotNewest(kept.number, **({"cause": "base"} if change.carries else {}))

    async def _earlier(self, pair: int, change: Change, attempts: "dict[int, dict[str, Any]]") -> "dict[str, Any] | None":
        """The reply to a request that is stored already, or None."""
        if change.is_keyed:
            row = await self.database.row(tables.REPLY, pair, change.key)
            if row is None:
                return None
            if row["digest"] != change.digest:
                raise KeyReused
            return json.loads(row["reply"])
        row = await self.database.row(tables.NUMBER_OF_ENTRY, pair, f"{change.key}/0")
        return None if row is None else attempts[row["number"]]

    async def _store(self, slot: Slot, change: Change, made: Made) -> None:
        kept = slot.kept
        assert kept
        if made.drafts:
            reply = json.dumps(made.reply) if change.is_keyed else None
            rows = await self.database.use(lambda it: it.fetch(tables.STORE, *_parameters(kept, change, made.drafts, reply)))
            if len(rows) != len(made.drafts):
                raise Collision
        elif change.is_keyed:
            given = kept.pair, kept.number, change.key, change.digest, json.dumps(made.reply)
            if not await self.database.use(lambda it: it.fetch(tables.STORE_REPLY, *given)):
                raise Collision
        if not made.drafts:
            return
        if made.replaced:
            old, (kept.opening, kept.state) = kept.state, made.replaced
            if old is not kept.state:
                old.close()
        kept.number += len(made.drafts)
        self.metrics.accepted += len(made.drafts)
        self.stored(kept.pair, kept.number)
        if kept.number - kept.since >= self.settings.snapshot_every:
            self._take_snapshot(kept)

    def _take_snapshot(self, kept: Kept) -> None:
        """Stores a snapshot beside the log. Where that fails the next one is as good."""
        kept.since, payload = kept.number, base_of(kept.opening, kept.state)
        task = asyncio.get_running_loop().create_task(self._store_snapshot(kept.pair, kept.number, payload))
        self.tasks.add(task)
        task.add_done_callback(self.tasks.discard)

    async def _store_snapshot(self, pair: int, number: int, payload: str) -> None:
        try:
            await self.database.use(lambda it: it.execute(tables.SNAPSHOT_OF_RECORD, pair, number, payload))
        except (*AWAY, Away):
            self.metrics.lost_snapshots += 1


class _Turn:
    """The turn of a request at a slot."""

    def __init__(self, slot: Slot) -> None:
        self.slot = slot

    async def __aenter__(self) -> None:
        self.slot.waiting += 1
        try:
            await self.slot.lock.acquire()
        except BaseException:
            self.slot.waiting -= 1
            raise

    async def __aexit__(self, *_: object) -> None:
        self.slot.waiting -= 1
        self.slot.lock.release()


class StoredRefusal(Exception):
    """A refusal that is the reply to a request. `problem` says it."""

    def __init__(self, problem: Problem) -> None:
        super().__init__(problem.detail)
        self.problem = problem


async def worked(change: Change, kept: Kept) -> Made:
    """What a change makes of a state. A refusal is a reply, and the state is as before."""
    assert change.work
    try:
        return await change.work(kept)
    except (Refused, Conflict) as why:
        return Made({"problem": why.tree()})


def well(reply: "dict[str, Any]") -> "dict[str, Any]":
    """A reply that is not a refusal. Raises StoredRefusal."""
    if "problem" in reply:
        raise StoredRefusal(of_tree(reply["problem"]))
    return reply


def opened(kind: str, pair: int, number: int, base: str, rows: "list[asyncpg.Record]") -> Kept:
    """A state that is opened from a base and the records behind it."""
    kept = Kept(pair, number, base.split("\n")[0], KINDS[kind].reopen(base), number)
    for row in rows:
        follow(kept, row)
    return kept


def follow(kept: Kept, row: "asyncpg.Record") -> None:
    """Takes the next record of the log into a state. Raises Unreadable where it is not one that the state can have stored."""
    kind, payload = row["kind"], row["payload"]
    if kind == "end":
        raise Gone("this was removed")
    if kind == "change":
        said = kept.state.step(line_of(payload))
        if said is None or said.payload != payload:
            raise Unreadable(f"record {row['number']} of pair {kept.pair} is not a change of the state before it")
    else:
        opening, snapshot = payload.split("\n") if kind in ("begin", "lens") else (kept.opening, payload)
        state = type(kept.state).reopen(f"{opening}\n{snapshot}")
        kept.state.close()
        kept.opening, kept.state = opening, state
    kept.number = row["number"]


def _parameters(kept: Kept, change: Change, drafts: "list[Draft]", reply: "str | None") -> "tuple[Any, ...]":
    ids = [f"{change.key}/{place}" for place in range(len(drafts))]
    columns = zip(*((it.kind, it.payload, it.side, it.answer, it.words, it.back_to) for it in drafts))
    key = change.key if change.is_keyed else None
    return kept.pair, kept.number, ids, *map(list, columns), key, change.digest, reply, change.author
