"""What an operator asks: whether the worker is alive, whether it can work, and what it counts."""

from __future__ import annotations

import json
import os

from aiohttp import web

from ..database import Away
from ..migrations import missing
from ..problems import DatabaseAway
from .pairs import said
from .requests import SERVICE, Service

OPENAPI = os.path.join(os.path.dirname(os.path.dirname(os.path.dirname(os.path.abspath(__file__)))), "openapi.json")


async def healthz(request: web.Request) -> web.Response:
    """Says that the worker is alive."""
    return said({"ok": True})


async def readyz(request: web.Request) -> web.Response:
    """Says whether the database answers and has the schema."""
    service: Service = request.app[SERVICE]
    try:
        wanted = await service.database.read(missing)
    except Away as why:
        raise DatabaseAway(str(why)) from None
    if wanted:
        raise DatabaseAway(f"the schema lacks {', '.join(wanted)}: run service/manage migrate")
    return said({"ok": True})


async def metrics(request: web.Request) -> web.Response:
    """What the worker counts, for Prometheus."""
    service: Service = request.app[SERVICE]
    lines = service.metrics.lines(sum(1 for it in service.keeper.slots.values() if it.kept))
    return web.Response(text="\n".join(lines) + "\n", content_type="text/plain")


async def openapi(request: web.Request) -> web.Response:
    """The description of this service, as OpenAPI."""
    with open(OPENAPI, encoding="utf-8") as file:
        return said(json.load(file))
