"""Pairs and hubs: made, shown, listed, removed."""

from __future__ import annotations

import json
from typing import Any

import asyncpg
from aiohttp import web

from editlens.answers import ProgramRefused as ToolRefused
from editlens.checked import explain_program
from editlens.json_text import read_json, write_json
from editlens.load import DoesNotFit, load_words
from editlens.natural import FormFault, read_form, to_file, write_file
from editlens.natural.places import NotWritable
from editlens.types import write_type

from .. import tables
from ..drafts import Change, Kept
from ..engine import DocumentRefused, HubState, PairState, ProgramRefused, SIDES, Session, base_of
from ..feeds import entry_of
from ..problems import Conflict, Gone, KeyReused, NotFound, Problem, Refused
from .requests import About, Service, about, body_of, change_of, json_of, member, names_of, need_type, number_of, who_of, SERVICE


def etag(number: int) -> "dict[str, str]":
    """The headers of a state."""
    return {"ETag": f'"{number}"', "Cache-Control": "no-cache"}


def said(tree: Any, status: int = 200, headers: "dict[str, str] | None" = None) -> web.Response:
    """A response with a tree of JSON."""
    return web.Response(status=status, text=write_json(tree), content_type="application/json", headers=headers)


def program_problem(program: str, why: ProgramRefused) -> Refused:
    """The refusal of a lens program, with its place and what is wanted there."""
    return Refused(str(why), cause=why.reason.split(" ")[0], explanation=explain_program(program, why.reason)[1:])


def begun_pair(tree: Any) -> "tuple[str, str, dict[str, Any], list[str]]":
    """The base of a new pair, its program, its form files and where its documents disagree."""
    program, forms = member(tree, "program", str), member(tree, "forms", dict, {})
    documents = {side: tree[side] for side in SIDES if side in tree}
    try:
        state, disagreements = _begun(program, documents)
    except ProgramRefused as why:
        raise program_problem(program, why) from None
    except ToolRefused as why:
        raise program_problem(program, ProgramRefused(why.reason)) from None
    except (DocumentRefused, DoesNotFit) as why:
        places = [str(it) for it in getattr(why, "places", [])]
        raise Refused(str(why), cause="not-of-type", places=places) from None
    opening = state.opening
    _need_forms(state, forms)
    base = base_of(opening, state)
    state.close()
    return base, program, forms, disagreements


def _begun(program: str, documents: "dict[str, Any]") -> "tuple[PairState, list[str]]":
    texts = {side: write_json(it) for side, it in documents.items()}
    if len(documents) < 2:
        return PairState.begin(program, texts), []
    loaded = load_words(program, documents["left"], documents["right"], start=lambda: Session(program))
    state = PairState.begin(program, {"left": texts["left"]})
    for word in loaded.right:
        stepped = state.step(write_json({"side": "right", "edit": word}).encode())
        if stepped is None or not stepped.is_accepted:
            raise Refused("the right document cannot be built beside the left one", cause="no-apply")
    return state, [str(it) for it in loaded.disagreements]


def _need_forms(state: "PairState | HubState", forms: "dict[str, Any]") -> None:
    for side, form in forms.items():
        if side not in state.names:
            raise Problem(f'"forms" has {side}, which is not a document', member="forms")
        try:
            read_form(state.types()[side], form)
        except FormFault as why:
            raise Refused(f"the form file of {side} does not fit its type: {why}", cause="form") from None


def begun_hub(tree: Any) -> "tuple[str, dict[str, Any]]":
    """The base of a new hub, and its form files."""
    programs, forms = member(tree, "programs", list), member(tree, "forms", dict, {})
    if not programs or not all(isinstance(it, str) for it in programs):
        raise Problem('the member "programs" is to be a list of lens programs', member="programs")
    try:
        state = HubState.begin(programs)
    except ProgramRefused as why:
        raise Refused(str(why), cause=why.reason.split(" ")[0]) from None
    for edit in member(tree, "edits", list, []):
        stepped = state.step(write_json(edit).encode())
        if stepped is None or not stepped.is_accepted:
            raise Refused("an edit with which the hub is to begin is refused", cause="no-apply", edit=edit)
    _need_forms(state, forms)
    base = base_of(state.opening, state)
    state.close()
    return base, forms


async def make(request: web.Request) -> web.Response:
    """Makes a pair of a program and one document, both or none; or a hub of the programs of its views."""
    kind, name = names_of(request)
    who = await who_of(request)
    who.need("manage", kind, name)
    need_type(request, "application/json")
    body = await body_of(request)
    tree, disagreements = json_of(body), []
    if kind == "pair":
        base, _, forms, disagreements = begun_pair(tree)
    else:
        base, forms = begun_hub(tree)
    reply = {"name": name, "number": 0, "disagreements": disagreements}
    return await begin(request.app[SERVICE], kind, name, change_of(request, who, body), [base], forms, reply)


async def begin(service: Service, kind: str, name: str, change: Change, rows: "list[Any]", forms: Any, reply: Any) -> web.Response:
    """Stores a new pair with record 0, or says that there is one. A request that is repeated is answered as the first time.

    `rows` are the base, and then records behind it: each a Draft.
    """

    async def store(connection: asyncpg.Connection) -> "int | None":
        async with connection.transaction():
            pair = await connection.fetchval(tables.MAKE_PAIR, kind, name, write_json(forms))
            if pair is None:
                return None
            base, drafts = rows[0], rows[1:]
            records = [(pair, 0, f"{change.key}/begin", "begin", base, "", "", None, None, change.author)]
            for number, it in enumerate(drafts, 1):
                identity = f"{change.key}/{number}"
                records.append((pair, number, identity, it.kind, it.payload, it.side, it.answer, it.words, it.back_to, change.author))
            await connection.executemany(tables.MAKE_RECORD, records)
            await connection.execute(tables.MAKE_SNAPSHOT, pair, 0, base)
            if change.is_keyed:
                await connection.execute(tables.MAKE_REQUEST, pair, change.key, change.digest, json.dumps(reply))
            return pair

    pair = await service.database.read(store)
    headers = {**etag(reply["number"]), "Location": f"/{kind}s/{name}"}
    if pair is None:
        earlier = await service.database.row(tables.PAIR, kind, name)
        row = earlier and await service.database.row(tables.REPLY, earlier["id"], change.key)
        is_begun = earlier and await service.database.row(tables.NUMBER_OF_ENTRY, earlier["id"], f"{change.key}/begin")
        if row and row["digest"] != change.digest:
            raise KeyReused
        if not row and not is_begun:
            raise Conflict(f"there is a {kind} {name} already")
        reply = json.loads(row["reply"]) if row else reply
    return said(reply, 201, headers)


async def listed(request: web.Request) -> web.Response:
    """The names of pairs or hubs that the token may read, in order."""
    service: Service = request.app[SERVICE]
    who, kind = await who_of(request), "pair" if request.path == "/pairs" else "hub"
    after, limit = request.query.get("after", ""), number_of(request, "limit", 100, 1_000)
    rows = await service.database.rows(tables.PAIRS, kind, after, limit)
    names = [it["name"] for it in rows]
    shown = [it for it in names if any(who.may("read", kind, it, document) for document in (*SIDES, "hub", None))]
    return said({"names": shown, "next": names[-1] if len(names) == limit else None})


async def show(request: web.Request) -> web.Response:
    """A pair or a hub: the number of its newest state, its programs, the types of its documents and its form files."""
    it = await about(request, "read", *(("left",) if request.path.startswith("/pairs/") else ()))

    def view(kept: Kept) -> "dict[str, Any]":
        opening = read_json(kept.opening)
        programs = opening["hub"] if it.kind == "hub" else opening["program"]
        types = {name: write_type(ty) for name, ty in kept.state.types().items()}
        return {"name": it.name, "number": kept.number, "program": programs, "types": types, "forms": read_json(it.forms)}

    found = await it.service.keeper.look(it.kind, it.pair, view)
    return said(found, 200, etag(found["number"]))


async def document(request: web.Request) -> web.Response:
    """A document as it is now, with the number of its state as ETag. `?as=file` writes it by its form file."""
    it = await about(request, "read")
    text, number = await it.service.keeper.look(it.kind, it.pair, lambda kept: _document(it, kept, request.query.get("as", "document")))
    headers = etag(number)
    if request.headers.get("If-None-Match") == headers["ETag"]:
        return web.Response(status=304, headers=headers)
    return web.Response(text=text, content_type="application/json", headers=headers)


def _document(it: About, kept: Kept, form: str) -> "tuple[str, int]":
    name = str(it.document)
    if name not in kept.state.names:
        raise NotFound(f"there is no view {name}")
    text = kept.state.document(name)
    if form == "file":
        shape = read_form(kept.state.types()[name], read_json(it.forms).get(name, {}))
        try:
            text = write_file(to_file(shape, read_json(text)))
        except NotWritable as why:
            raise Refused(f"the form file cannot write {why}", cause="not-writable") from None
    elif form != "document":
        raise Problem('"as" in the query is to be document or file')
    return text, kept.number


async def complement(request: web.Request) -> web.Response:
    """The complement of a pair, as the lens remembers it."""
    it = await about(request, "manage")

    def view(kept: Kept) -> "tuple[str, int]":
        assert isinstance(kept.state, PairState)
        return kept.state.complement(), kept.number

    text, number = await it.service.keeper.look(it.kind, it.pair, view)
    return web.Response(text=text, content_type="application/json", headers=etag(number))


async def history(request: web.Request) -> web.Response:
    """The changes of a document behind a number, in order."""
    it = await about(request, "read")
    limit = number_of(request, "limit", 100, it.service.settings.limits.page)
    rows = await it.service.database.rows(tables.ROWS, it.pair, number_of(request, "after", 0), limit)
    if any(row["kind"] == "end" for row in rows):
        raise Gone("this was removed")
    place, changes = it.place(), []
    for row in rows:
        words = read_json(row["words"]) if row["words"] else None
        one = {name: row[name] for name in ("number", "kind", "side", "author")} | {"entry": entry_of(row), "at": row["at"].isoformat()}
        changes.append({**one, "edit": words[place] if words and place < len(words) else None})
    return said({"changes": changes, "next": rows[-1]["number"] if len(rows) == limit else None})


async def remove(request: web.Request) -> web.Response:
    """Removes a pair or a hub with all that is known of it."""
    it = await about(request, "manage")

    async def call(connection: asyncpg.Connection) -> None:
        async with connection.transaction():
            newest = await connection.fetchval(tables.NEWEST, it.pair)
            if newest is None:
                return
            # Whoever stores the next number at this moment is waited for, or finds the end in its place.
            end = (it.pair, newest + 1, f"{it.who.author}/removed", "end", "", "", "", None, None, it.who.author)
            await connection.execute(tables.MAKE_RECORD, *end)
            for statement in tables.REMOVE:
                await connection.execute(statement, it.pair)
            await connection.execute(tables.REMOVE_RECORDS, it.pair, newest)

    while True:
        try:
            await it.service.database.read(call)
            break
        except asyncpg.UniqueViolationError:
            continue
    it.service.feeds.stored(it.pair, 0)
    it.service.forget(it.kind, it.name)
    return web.Response(status=204)
