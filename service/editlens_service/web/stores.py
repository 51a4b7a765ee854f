"""A store's file: out of a pair, and into one. `editlens verify` reads what goes out."""

from __future__ import annotations

import os
import tempfile
from typing import Any

from aiohttp import web

from editlens.json_text import read_json
from editlens.log import Log, kind_of, write_log

from .. import tables
from ..drafts import Draft, changed
from ..engine import KINDS, HubState, PairState, Unreadable, base_of, line_of
from ..problems import Conflict, Gone, Refused
from .pairs import begin, etag
from .requests import SERVICE, about, body_of, change_of, names_of, need_type, who_of

FILE = "application/vnd.editlens.store"
TURNS = 40


async def export(request: web.Request) -> web.Response:
    """The file of a store with the log of a pair: from its beginning, or from the change of its program, or from where it was trimmed."""
    it = await about(request, "manage")
    for _ in range(TURNS):
        newest = (await it.service.database.rows(tables.NEWEST, it.pair))[0][0]
        rows = await it.service.database.rows(tables.LOG, it.pair, -1, newest if newest is not None else 0)
        if rows and rows[-1]["kind"] == "end":
            raise Gone("this was removed")
        payloads = None if newest is None else await _payloads(it.service, it.pair, rows)
        if payloads:
            headers = {**etag(rows[-1]["number"]), "Content-Disposition": f'attachment; filename="{it.name}.store"'}
            return web.Response(body=_file(payloads), content_type=FILE, headers=headers)
    raise Conflict("the log changes too often to be exported")


async def _payloads(service: Any, pair: int, rows: "list[Any]") -> "list[str] | None":
    """The payloads of the records of a store. None where the log was trimmed while it was read."""
    begins = [place for place, row in enumerate(rows) if row["kind"] in ("begin", "lens")]
    if begins:
        rest = rows[begins[-1] :]
        return [*rest[0]["payload"].split("\n"), *(it["payload"] for it in rest[1:])]
    snapshot = await service.database.row(tables.SNAPSHOT_FROM, pair, rows[0]["number"])
    if snapshot is None:
        return None
    rest = [it for it in rows if it["number"] > snapshot["number"]]
    return [*snapshot["payload"].split("\n"), *(it["payload"] for it in rest)]


def _file(payloads: "list[str]") -> bytes:
    """The bytes of a store's file."""
    with tempfile.TemporaryDirectory(prefix="editlens-service-") as folder:
        path = os.path.join(folder, "store")
        write_log(path, [it.encode() for it in payloads])
        with open(path, "rb") as file:
            return file.read()


async def bring(request: web.Request) -> web.Response:
    """Makes a pair or a hub of a store's file, with the changes in it."""
    kind, name = names_of(request)
    who = await who_of(request)
    who.need("manage", kind, name)
    need_type(request, FILE, "application/octet-stream")
    service = request.app[SERVICE]
    body = await body_of(request, service.settings.limits.store)
    base, drafts = _read(kind, body)
    reply = {"name": name, "number": len(drafts), "disagreements": []}
    return await begin(service, kind, name, change_of(request, who, body), [base, *drafts], {}, reply)


def _read(kind: str, body: bytes) -> "tuple[str, list[Draft]]":
    """The base of a store's file, and the records behind it. Raises Refused."""
    with tempfile.TemporaryDirectory(prefix="editlens-service-") as folder:
        path = os.path.join(folder, "store")
        with open(path, "wb") as file:
            file.write(body)
        with Log(path) as log:
            if not log.has_mark or log.is_cut:
                raise Refused("the file is not a store, or is cut off", cause="not-a-log")
            payloads = list(log.payloads())
    first = {"pair": "program", "hub": "programs"}[kind]
    if not payloads or kind_of(payloads[0]) != first:
        raise Refused(f"the file is not the store of a {kind}", cause="bad-record", record=1)
    try:
        return _of_payloads(kind, [it.decode() for it in payloads])
    except (Unreadable, UnicodeDecodeError, ValueError, KeyError, TypeError) as why:
        raise Refused(f"the store is refused: {why}", cause="bad-record") from None


def _of_payloads(kind: str, payloads: "list[str]") -> "tuple[str, list[Draft]]":
    """The log of the service for that of a store. Each change is made again, so each is known to be one."""
    head = next((place for place, it in enumerate(payloads) if place and kind_of(it.encode()) not in ("snapshot", "version")), len(payloads))
    tree = read_json(payloads[0])
    if kind == "pair":
        opening = PairState.begin(tree["program"], {}).opening
        state: "PairState | HubState" = PairState(_kept(payloads[:head]))
    else:
        state = HubState.begin(tree["hub"])
        opening = state.opening
        for it in payloads[1:head]:
            state = KINDS[kind].reopen(f"{opening}\n{it}")
    base, drafts = base_of(opening, state), []
    for number, payload in enumerate(payloads[head:], head + 1):
        sort = kind_of(payload.encode())
        if sort in ("entry", "group", "edit"):
            stepped = state.step(line_of(payload))
            if stepped is None or not stepped.is_accepted:
                raise Unreadable(f"record {number} does not apply")
            drafts.append(changed(stepped))
        elif sort == "snapshot":
            state = KINDS[kind].reopen(f"{opening}\n{payload}")
            drafts.append(Draft("snapshot", state.snapshot(), "snapshot"))
        elif sort != "version":
            raise Unreadable(f"record {number} is not one that the service can take")
    state.close()
    return base, drafts


def _kept(payloads: "list[str]") -> Any:
    """The session of the first records of a store."""
    return PairState.reopen("\n".join(payloads)).kept
