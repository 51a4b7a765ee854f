"""A worker with a planted fault, for the tests of the history checker: `planted.py FAULT`, and then the words of service/serve."""

from __future__ import annotations

import os
import random
import runpy
import sys
import uuid

HERE = os.path.dirname(os.path.dirname(os.path.abspath(__file__)))
sys.path.insert(0, HERE)
sys.dont_write_bytecode = True

from editlens_service import feeds, keeper  # noqa: E402

chance = random.Random(3)
CHANCE = 0.2


def plant_early() -> None:
    """The answer comes before the transaction, which now and then never ends."""
    store = keeper.Keeper._store

    async def later(self, slot, change, made):
        if made.drafts and chance.random() < CHANCE:
            # The state goes on, and nothing is in the log: as if the worker were killed between the answer and the commit.
            slot.drop()
            return
        await store(self, slot, change, made)

    keeper.Keeper._store = later


def plant_twice() -> None:
    """An entry that was stored, and whose answer was lost, is stored again: each entry is as good as new."""
    parameters = keeper._parameters
    store = keeper.Keeper._store

    def renamed(kept, change, drafts, reply):
        given = list(parameters(kept, change, drafts, None))
        given[2] = [f"{it}#{uuid.uuid4().hex}" for it in given[2]]
        given[9] = None
        return tuple(given)

    async def twice(self, slot, change, made):
        await store(self, slot, change, made)
        if made.drafts and chance.random() < CHANCE:
            made_again = await change.work(slot.kept)
            if made_again.drafts:
                await store(self, slot, change, made_again)

    keeper._parameters = renamed
    keeper.Keeper._store = twice
    entry_of = feeds.entry_of
    feeds.entry_of = lambda row: entry_of(row).split("#")[0]
    from editlens_service.web import pairs

    pairs.entry_of = feeds.entry_of


def plant_skips() -> None:
    """A stream leaves an event out now and then."""
    from editlens_service.web import streams

    send = streams._send

    async def some(it, request, response, text):
        if text.startswith(b"id:") and chance.random() < CHANCE:
            return
        await send(it, request, response, text)

    streams._send = some


fault = sys.argv.pop(1)
{"early": plant_early, "twice": plant_twice, "skips": plant_skips}[fault]()
sys.argv[0] = os.path.join(HERE, "serve")
runpy.run_path(sys.argv[0], run_name="__main__")
