"""All routes, and what stands around each: refusals as problems, counts, and limits."""

from __future__ import annotations

import asyncio
import logging
import time
from dataclasses import dataclass
from typing import Any, Awaitable, Callable

import asyncpg
from aiohttp import web

from ..database import AWAY, Away, Database
from ..feeds import Feeds
from ..keeper import Keeper, StoredRefusal
from ..metrics import Metrics
from ..problems import DatabaseAway, Gone, NotFound, Overloaded, Problem, TooLarge
from ..settings import Settings
from ..tokens import Tokens
from . import desk, edits, health, pairs, programs, stores, streams
from .requests import SERVICE, Service, names_of

log = logging.getLogger("editlens.service")
Handler = Callable[[web.Request], Awaitable[web.StreamResponse]]


@dataclass(frozen=True)
class Route:
    """A path with its handler."""

    method: str
    path: str
    handler: Handler


SIDE, VIEW = "{side:left|right}", "{view:0|[1-9]\\d?}"

ROUTES = (
    # A path is looked for in this order, so what is asked for most comes first.
    Route("POST", f"/pairs/{{name}}/{SIDE}/edits", edits.entries),
    Route("GET", "/healthz", health.healthz),
    Route("GET", "/readyz", health.readyz),
    Route("GET", "/metrics", health.metrics),
    Route("GET", "/openapi.json", health.openapi),
    Route("GET", "/pairs", pairs.listed),
    Route("PUT", "/pairs/{name}", pairs.make),
    Route("GET", "/pairs/{name}", pairs.show),
    Route("DELETE", "/pairs/{name}", pairs.remove),
    Route("GET", "/pairs/{name}/store", stores.export),
    Route("PUT", "/pairs/{name}/store", stores.bring),
    Route("POST", "/pairs/{name}/edits", edits.mixed),
    Route("POST", "/pairs/{name}/undo", edits.undo),
    Route("GET", "/pairs/{name}/complement", pairs.complement),
    Route("POST", "/pairs/{name}/program", programs.change),
    Route("POST", "/pairs/{name}/check", programs.check),
    Route("GET", f"/pairs/{{name}}/{SIDE}", pairs.document),
    Route("PATCH", f"/pairs/{{name}}/{SIDE}", edits.patch),
    Route("GET", f"/pairs/{{name}}/{SIDE}/changes", streams.changes),
    Route("GET", f"/pairs/{{name}}/{SIDE}/history", pairs.history),
    Route("GET", "/pairs/{name}/desk/state", desk.state),
    Route("GET", "/pairs/{name}/desk/{file:.*}", desk.page),
    Route("GET", "/hubs", pairs.listed),
    Route("PUT", "/hubs/{name}", pairs.make),
    Route("GET", "/hubs/{name}", pairs.show),
    Route("DELETE", "/hubs/{name}", pairs.remove),
    Route("GET", "/hubs/{name}/store", stores.export),
    Route("PUT", "/hubs/{name}/store", stores.bring),
    Route("POST", "/hubs/{name}/edits", edits.mixed),
    Route("POST", "/hubs/{name}/undo", edits.undo),
    *(
        Route(method, f"/hubs/{{name}}/{place}{rest}", handler)
        for place in ("{hub:hub}", f"views/{VIEW}")
        for method, rest, handler in (
            ("GET", "", pairs.document),
            ("PATCH", "", edits.patch),
            ("POST", "/edits", edits.entries),
            ("GET", "/changes", streams.changes),
            ("GET", "/history", pairs.history),
        )
    ),
)


@web.middleware
async def around(request: web.Request, handler: Handler) -> web.StreamResponse:
    """Counts a request, and makes a problem of what it raises."""
    service: Service = request.app[SERVICE]
    begin, status = time.monotonic(), 500
    if service.metrics.running >= service.settings.limits.requests:
        return Overloaded("too many requests have begun").response()
    is_stream = request.path.endswith("/changes")
    service.metrics.running += not is_stream
    try:
        response = await _answered(request, handler)
        status = response.status
        return response
    finally:
        service.metrics.running -= not is_stream
        service.metrics.timed(request.method, status, 0.0 if is_stream else time.monotonic() - begin)


async def _answered(request: web.Request, handler: Handler) -> web.StreamResponse:
    try:
        try:
            return await handler(request)
        except Gone:
            # The name may belong to another pair by now, which this worker does not know yet.
            request.app[SERVICE].forget(*names_of(request))
            return await handler(request)
    except StoredRefusal as why:
        return why.problem.response()
    except Problem as why:
        return _closing(request, why.response())
    except (Away, *AWAY) as why:
        return DatabaseAway(str(why) or type(why).__name__).response()
    except asyncpg.PostgresError as why:
        log.exception("the database refuses")
        return DatabaseAway(type(why).__name__).response()
    except web.HTTPRequestEntityTooLarge as why:
        return _closing(request, TooLarge(str(why.text)).response())
    except web.HTTPException as why:
        return _closing(request, _of_framework(why).response())
    except MemoryError:
        return Overloaded("memory ran out").response()
    except asyncio.CancelledError:
        raise
    except Exception:
        log.exception("a fault in %s %s", request.method, request.path)
        return Fault("a fault of the service, which is in its log").response()


class Fault(Problem):
    """A fault of the service."""

    status, slug, title = 500, "fault", "A fault of the service"


def _of_framework(why: web.HTTPException) -> Problem:
    """The problem of a refusal by the framework: there is no such path, or no such method on it."""
    if why.status == 404:
        return NotFound("there is nothing at this path; GET /openapi.json has all paths")
    found = Problem(why.text or why.reason, {name: it for name, it in why.headers.items() if name == "Allow"})
    found.status, found.slug, found.title = why.status, "http", why.reason
    return found


def _closing(request: web.Request, response: web.Response) -> web.Response:
    """A refusal before the body was read ends the connection, so that nobody waits for the rest."""
    if request.can_read_body and "body" not in request:
        response.force_close()
    return response


def make_app(settings: Settings) -> web.Application:
    """The application of a worker."""
    app = web.Application(middlewares=[around], client_max_size=settings.limits.store)
    metrics, database = Metrics(), Database(settings.database, settings.connections, settings.limits.database_seconds)
    feeds = Feeds(database, settings.limits.page)
    keeper = Keeper(database, settings, metrics, feeds.stored)
    tokens = Tokens(database, settings.tokens_file, settings.is_open)
    service = app[SERVICE] = Service(settings, database, keeper, feeds, tokens, metrics, {})
    for route in ROUTES:
        app.router.add_route(route.method, route.path, route.handler)

    async def begin(_: Any) -> None:
        await database.open()
        feeds.start()

    async def end(_: Any) -> None:
        await feeds.close()

    async def finish(_: Any) -> None:
        await keeper.close()
        await service.database.close()

    app.on_startup.append(begin)
    app.on_shutdown.append(end)
    app.on_cleanup.append(finish)
    return app
