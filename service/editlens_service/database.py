"""The connections of a worker to PostgreSQL, and what is done when it is away."""

from __future__ import annotations

import asyncio
import time
from typing import Any, Awaitable, Callable, TypeVar

import asyncpg

Found = TypeVar("Found")

AWAY = (
    OSError,
    asyncio.TimeoutError,
    asyncpg.PostgresConnectionError,
    asyncpg.InterfaceError,
    asyncpg.InternalClientError,
    asyncpg.exceptions.OperatorInterventionError,
    asyncpg.exceptions.InsufficientResourcesError,
    asyncpg.exceptions.TransactionRollbackError,
    asyncpg.exceptions.ReadOnlySQLTransactionError,
)
"""What is raised where the server went away, is starting, is full, or gave a transaction up. Nothing is known of what was sent then."""

SESSION = {"jit": "off", "application_name": "editlens"}
"""The settings of each connection. Statements of one pair are short, and compiling them takes far longer than running them."""

PAUSES = (0.02, 0.05, 0.1, 0.2, 0.5, 1.0)


class Away(Exception):
    """The database did not answer in time."""


class Connection(asyncpg.Connection):
    """A connection of the pool. Nothing is left in it by a use, so it needs no statement to clear it."""

    def get_reset_query(self) -> str:
        """No statement."""
        return ""


class Database:
    """The pool of connections. `open` makes it, and `close` ends it."""

    def __init__(self, dsn: str, connections: int, seconds: float) -> None:
        self.dsn, self.connections, self.seconds = dsn, connections, seconds
        self.pool: "asyncpg.Pool | None" = None

    async def open(self) -> None:
        """Makes the pool. It connects when it is used, so a worker starts also while the database is away."""
        self.pool = await asyncpg.create_pool(
            self.dsn,
            min_size=0,
            max_size=self.connections,
            connection_class=Connection,
            command_timeout=self.seconds,
            timeout=self.seconds,
            server_settings=SESSION,
        )

    async def close(self) -> None:
        """Ends the pool, and what is still in it after some seconds."""
        if self.pool:
            try:
                await asyncio.wait_for(self.pool.close(), 5)
            except asyncio.TimeoutError:
                self.pool.terminate()

    async def use(self, call: "Callable[[Any], Awaitable[Found]]") -> Found:
        """One try of a call with a connection."""
        assert self.pool
        async with asyncio.timeout(self.seconds):
            connection = await self.pool.acquire()
        try:
            return await call(connection)
        finally:
            await self.pool.release(connection, timeout=self.seconds)

    async def read(self, call: "Callable[[Any], Awaitable[Found]]") -> Found:
        """A call that changes nothing, made again while the database is away. Raises Away."""
        patience = Patience(self.seconds)
        while True:
            try:
                return await self.use(call)
            except AWAY as why:
                await patience.rest(why)

    async def rows(self, statement: str, *given: Any) -> "list[asyncpg.Record]":
        """The rows of a statement that changes nothing."""
        return await self.read(lambda connection: connection.fetch(statement, *given))

    async def row(self, statement: str, *given: Any) -> "asyncpg.Record | None":
        """The first row of a statement that changes nothing."""
        return await self.read(lambda connection: connection.fetchrow(statement, *given))


class Patience:
    """Rests between tries, for some seconds in all."""

    def __init__(self, seconds: float) -> None:
        self.end, self.turn = time.monotonic() + seconds, 0

    async def rest(self, why: BaseException) -> None:
        """Waits before the next try. Raises Away where the time is over."""
        if time.monotonic() >= self.end:
            raise Away(f"the database is away: {type(why).__name__}") from why
        await asyncio.sleep(PAUSES[min(self.turn, len(PAUSES) - 1)])
        self.turn += 1
