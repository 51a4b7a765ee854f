"""The schema, brought up to date: the files of `schema/` in their order, each once. It may be run at any time, and by many at once."""

from __future__ import annotations

import os
import re

import asyncpg

FOLDER = os.path.join(os.path.dirname(os.path.dirname(os.path.abspath(__file__))), "schema")
LOCK = 0x6564_6C65_6E73
MADE = "CREATE TABLE IF NOT EXISTS migrations (number integer PRIMARY KEY, name text NOT NULL, at timestamptz NOT NULL DEFAULT now())"


def files() -> "list[tuple[int, str]]":
    """The files of the schema, each with its number."""
    found = [(re.match(r"(\d+)_\w+\.sql$", name), name) for name in os.listdir(FOLDER)]
    return sorted((int(match[1]), name) for match, name in found if match)


async def migrate(dsn: str) -> "list[str]":
    """Runs the files that the database does not have yet, in one transaction. Returns their names."""
    connection = await asyncpg.connect(dsn)
    try:
        async with connection.transaction():
            await connection.execute("SELECT pg_advisory_xact_lock($1)", LOCK)
            await connection.execute(MADE)
            have = {it["number"] for it in await connection.fetch("SELECT number FROM migrations")}
            new = [(number, name) for number, name in files() if number not in have]
            for number, name in new:
                with open(os.path.join(FOLDER, name), encoding="utf-8") as file:
                    await connection.execute(file.read())
                await connection.execute("INSERT INTO migrations (number, name) VALUES ($1, $2)", number, name)
            return [name for _, name in new]
    finally:
        await connection.close()


async def missing(connection: asyncpg.Connection) -> "list[str]":
    """The files that a database does not have yet."""
    if not await connection.fetchval("SELECT to_regclass('migrations') IS NOT NULL"):
        return [name for _, name in files()]
    have = {it["number"] for it in await connection.fetch("SELECT number FROM migrations")}
    return [name for number, name in files() if number not in have]
