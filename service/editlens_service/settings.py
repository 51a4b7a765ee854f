"""What a worker is told when it starts, and its limits."""

from __future__ import annotations

from dataclasses import dataclass

KILO, MEGA = 1 << 10, 1 << 20


@dataclass(frozen=True)
class Limits:
    """The limits of a worker. What is over one is refused with a problem that names it."""

    body: int = 4 * MEGA
    """Bytes of a request's body."""
    store: int = 64 * MEGA
    """Bytes of a store's file that is imported."""
    edits: int = 1_000
    """Lines of one request."""
    streams: int = 2_000
    """Open streams of a worker."""
    waiting: int = 500
    """Requests that wait for one pair in a worker."""
    requests: int = 2_000
    """Requests that a worker has begun, without streams."""
    body_seconds: float = 20.0
    """How long a body may take to come."""
    slow_seconds: float = 10.0
    """How long a stream may take nothing before it is cut."""
    database_seconds: float = 20.0
    """How long a request waits for a database that is away."""
    undo: int = 1_000
    """Changes that one undo takes back."""
    page: int = 500
    """Rows of one page of the history, and of one read of the log for a stream."""


@dataclass(frozen=True)
class Settings:
    """What a worker is told when it starts."""

    database: str
    connections: int = 10
    states: int = 1_000
    snapshot_every: int = 500
    tokens_file: "str | None" = None
    is_open: bool = False
    """Whether requests need no token. For one machine alone."""
    limits: Limits = Limits()
