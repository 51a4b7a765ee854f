"""What `service/manage` does."""

from __future__ import annotations

import argparse
import asyncio
import json
import secrets

import asyncpg

from . import tables
from .engine import base_of
from .keeper import NO_END, opened
from .migrations import migrate
from .tokens import digest_of, read_rights

DEADLOCK_TURNS = 10


async def done(given: argparse.Namespace) -> "list[str]":
    """Does what the verb says, and returns what there is to say."""
    if given.verb == "migrate":
        return [f"ran {name}" for name in await migrate(given.database)] or ["the tables are up to date"]
    if given.verb == "openapi":
        return write_description()
    connection = await asyncpg.connect(given.database)
    try:
        return await {"token": make_token, "trim": trim, "snapshot": take_snapshots}[given.verb](connection, given)
    finally:
        await connection.close()


def write_description() -> "list[str]":
    """Writes the description of the service, as its routes have it."""
    from .web.describe import describe
    from .web.health import OPENAPI

    with open(OPENAPI, "w", encoding="utf-8") as file:
        json.dump(describe(), file, indent=1)
        file.write("\n")
    return [OPENAPI]


async def make_token(connection: asyncpg.Connection, given: argparse.Namespace) -> "list[str]":
    """Makes a token, and stores what is kept of it."""
    documents = "all" if given.documents == "all" else given.documents.split(",")
    rights = read_rights([{"on": given.on, "documents": documents, "may": given.may}])
    token = secrets.token_urlsafe(32)
    await connection.execute(tables.MAKE_TOKEN, digest_of(token), given.author, json.dumps(rights), given.days)
    return [token]


async def trim(connection: asyncpg.Connection, given: argparse.Namespace) -> "list[str]":
    """Takes away what is behind a snapshot, old, and not among the newest records of its log."""
    records = 0
    for row in await connection.fetch(tables.TRIMMABLE, given.keep, given.days):
        records += await _trim_pair(connection, row["pair"], row["number"], given.days)
    requests = int((await connection.execute(tables.TRIM_REQUESTS, given.days)).split()[1])
    ends = int((await connection.execute(tables.TRIM_ENDS, given.days)).split()[1])
    return [f"took away {records} records, {requests} replies and {ends} ends of removed pairs"]


async def _trim_pair(connection: asyncpg.Connection, pair: int, number: int, days: float) -> int:
    """Takes the records before a snapshot away. A worker that stores at this moment may stop it, and it is tried again."""
    for turn in range(DEADLOCK_TURNS):
        try:
            async with connection.transaction():
                said = await connection.execute(tables.TRIM_RECORDS, pair, number, days)
                await connection.execute(tables.TRIM_SNAPSHOTS, pair, number)
            return int(said.split()[1])
        except asyncpg.DeadlockDetectedError:
            await asyncio.sleep(0.1 * (turn + 1))
    return 0


async def take_snapshots(connection: asyncpg.Connection, given: argparse.Namespace) -> "list[str]":
    """Stores a snapshot of each pair that has many changes behind its last one."""
    count = 0
    for row in await connection.fetch(tables.LONG_LOGS, given.behind):
        snapshot = await connection.fetchrow(tables.SNAPSHOT, row["pair"], NO_END)
        rows = await connection.fetch(tables.TAIL, row["pair"], snapshot["number"], NO_END, NO_END)
        if not rows or rows[0]["number"] != snapshot["number"] or rows[-1]["kind"] == "end":
            continue
        kept = opened(row["kind"], row["pair"], snapshot["number"], snapshot["payload"], rows[1:])
        await connection.execute(tables.SNAPSHOT_OF_RECORD, row["pair"], kept.number, base_of(kept.opening, kept.state))
        kept.state.close()
        count += 1
    return [f"stored {count} snapshots"]
