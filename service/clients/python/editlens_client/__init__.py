"""Clients of the service: `Client` waits for its answers, and `AsyncClient` is for asyncio (it wants aiohttp).

    from editlens_client import Client

    plan = Client("http://127.0.0.1:8080", token).pair("tasks", "left")
    document, number = plan.read()
    plan.edit([{"at": ["hours", [{"set": 8}]]}])
    for copy in plan.follow():
        print(copy.number, copy.document)

`follow` keeps a copy of a document by the changes alone, and goes on after a lost connection. It wants `tools/` on the path, which has the
rules of edits. Each change has an Idempotency-Key, so it is made once, however often it has to be sent.
"""

from .sync import Client
from .wire import Answer, Copy, Lost, Refusal

__all__ = ["Answer", "AsyncClient", "Client", "Copy", "Lost", "Refusal"]


def __getattr__(name: str) -> object:
    # aiohttp is wanted only where it is used.
    if name == "AsyncClient":
        from .aio import AsyncClient

        return AsyncClient
    raise AttributeError(name)
