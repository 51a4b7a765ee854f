"""Edits: the lines of a journal, patches, and changes that are taken back."""

from __future__ import annotations

from typing import Any

from aiohttp import web

from editlens.answers import Refused as ToolRefused
from editlens.json_text import NotJson, read_json, write_json
from editlens.natural import NoCounterpart, NotWritable, read_file, read_form, to_edit, to_patch, write_file
from editlens.natural.to_edit import carried_parts
from editlens.older import NotTaken, OlderEdits
from editlens.private import Private, PrivateLoss, takes_away
from editlens.trial import carry

from .. import tables
from ..drafts import Draft, Kept, Made, step_all
from ..engine import HUB, OTHER, PairState, SIDES, Session
from ..older import late_answer, line_for, older_edits, step_late
from ..problems import Conflict, Gone, NotAllowed, NotCarried, NotFound, Problem, Refused, TooLarge, cause_of
from .pairs import etag, said
from .requests import About, about, body_of, change_of, json_of, member, need_type

JOURNAL = ("application/x-ndjson", "application/jsonl", "application/json", "text/plain")
PATCH = "application/json-patch+json"


async def entries(request: web.Request) -> web.Response:
    """Takes the lines of a journal: edits of the document of the path, each an edit or an entry. Each line is accepted or refused alone.

    With an If-Match of an older state, the lines were made one after another, the first for that state. They are carried to the newest
    state, or refused with a cause. With `Prefer: handling=strict` they are refused unless that state is the newest.
    """
    it = await about(request, "edit")
    need_type(request, *JOURNAL)
    body = await body_of(request)
    lines = [_of_document(it, line) for line in _lines(it, body)]
    return await _answered(request, it, body, lines, it.document)


async def mixed(request: web.Request) -> web.Response:
    """Takes the lines of a journal: edits of any document, and groups, which are accepted as a whole or not at all."""
    it = await about(request, "edit", *(SIDES if request.path.startswith("/pairs/") else ()))
    need_type(request, *JOURNAL)
    body = await body_of(request)
    return await _answered(request, it, body, _lines(it, body))


def _lines(it: About, body: bytes) -> "list[bytes]":
    lines = [line for line in body.split(b"\n") if line.strip(b" \t\r")]
    if not lines:
        raise Problem("the body has no line")
    if len(lines) > it.service.settings.limits.edits:
        raise TooLarge(f"at most {it.service.settings.limits.edits:,} lines are taken at once")
    return lines


def _of_document(it: About, line: bytes) -> bytes:
    """A line as an entry of the document of the path. What is neither an edit nor an entry is left for the engine to refuse."""
    name = "side" if it.kind == "pair" else "at"
    at: "str | int" = it.document if it.document in (*SIDES, HUB) else int(str(it.document))  # type: ignore[assignment]
    if line.lstrip(b" \t\r").startswith(b"["):
        return b'{"%s":%s,"edit":%s}' % (name.encode(), write_json(at).encode(), line)
    try:
        tree = read_json(line.decode())
    except (NotJson, UnicodeDecodeError):
        return line
    if isinstance(tree, dict) and (set(tree) == {name, "edit"} and tree[name] != at or "group" in tree):
        raise Problem(f"a line here is an edit of {at}; entries of other documents and groups go to /{it.kind}s/{it.name}/edits")
    return line


async def _answered(request: web.Request, it: About, body: bytes, lines: "list[bytes]", document: "str | None" = None) -> web.Response:
    async def work(kept: Kept) -> Made:
        late = change.late(kept.number)
        if late is not None:
            assert document is not None
            return step_late(kept, document, lines, await _older(it, kept, document, late))
        made = step_all(kept, lines)
        if document is not None and any(draft.side != document for draft in made.drafts):
            # The engine has read a line in another way than it was read here. The state is thrown away, and nothing is stored.
            raise NotAllowed(f"a line is not an edit of {document}")
        return made

    change = change_of(request, it.who, body, work, carries=document is not None)
    reply, is_earlier = await it.service.keeper.change(it.kind, it.pair, change)
    return _shown(it, reply, is_earlier)


async def _older(it: About, kept: Kept, document: str, number: int) -> OlderEdits:
    """A document as it was in an older state. Raises NotCarried, and NotFound where there is no such view."""
    if document not in kept.state.names:
        raise NotFound(f"there is no view {document}")
    return await older_edits(it.service.keeper, it.service.database, it.kind, kept, document, number)


def _shown(it: About, reply: "dict[str, Any]", is_earlier: bool) -> web.Response:
    """The response to edits. A request of one line that is refused is a problem. Words are shown of documents that the token may read."""
    answers = [_answer(it, one) for one in reply["answers"]]
    headers = {**etag(reply["number"]), **({"Idempotency-Replayed": "true"} if is_earlier else {})}
    if len(answers) == 1 and not answers[0]["ok"]:
        cause = {name: found for name, found in answers[0].items() if name != "ok"}
        if "late" in reply["answers"][0]:
            raise NotCarried(**cause)
        raise Refused(f"the edit is refused: {cause['why']}", headers, number=reply["number"], **cause)
    return said({"number": reply["number"], "answers": answers}, 200, headers)


def _answer(it: About, one: "dict[str, Any]") -> "dict[str, Any]":
    if "late" in one:
        return {"ok": False, **one["late"]}
    if not one["ok"]:
        where = {name: one[name] for name in ("place", "found", "allowed") if name in one}
        is_shown = where and it.who.may("read", it.kind, it.name, one["document"])
        return {"ok": False, **cause_of(one["rest"]), **(where if is_shown else {})}
    names = SIDES if it.kind == "pair" else (HUB, *map(str, range(64)))
    words = dict(zip(names, read_json(one["words"])))
    shown = {name: word for name, word in words.items() if it.who.may("read", it.kind, it.name, name)}
    return {"ok": True, "number": one["number"], "edits": shown, **({"carried": True} if one.get("carried") else {})}


async def patch(request: web.Request) -> web.Response:
    """Takes a JSON Patch (RFC 6902) of the document, or of the file by its form file. It is one change, accepted or refused as a whole.

    A patch by which the other side would lose what it alone has is refused, unless `?drop-private=true` says otherwise. With an If-Match of
    an older state it is a patch of the file as it was then: it is carried to the newest state, or refused with a cause. `sent` has what was
    done. With `Prefer: handling=strict` it is refused unless that state is the newest.
    """
    it = await about(request, "edit")
    need_type(request, PATCH)
    body = await body_of(request)
    try:
        ops = read_file(body.decode())
    except (NotJson, UnicodeDecodeError) as why:
        raise Problem(f"the body is not JSON: {why}") from None
    drops = request.query.get("drop-private") == "true"

    async def work(kept: Kept) -> Made:
        late = change.late(kept.number)
        older = None if late is None else await _older(it, kept, str(it.document), late)
        return _patched(it, kept, ops, drops, older)

    change = change_of(request, it.who, body, work, carries=True)
    reply, is_earlier = await it.service.keeper.change(it.kind, it.pair, change)
    if not reply["answers"][0]["ok"]:
        return _shown(it, reply, is_earlier)
    headers = {**etag(reply["number"]), **({"Idempotency-Replayed": "true"} if is_earlier else {})}
    answer = _answer(it, reply["answers"][0])
    shown = {name: ops for name, ops in reply["patches"].items() if it.who.may("read", it.kind, it.name, name)}
    # What was made of a patch of an older file may name what is in the newest one.
    sent = reply["sent"] if reply.get("is-own", True) or it.who.may("read", it.kind, it.name, str(it.document)) else None
    return said({"number": reply["number"], "answers": [answer], "sent": sent, "patches": shown}, 200, headers)


def _patched(it: About, kept: Kept, ops: Any, drops: bool, older: "OlderEdits | None") -> Made:
    """What a patch makes of a state. `older` has the document of the state for which it was made, where that is another one."""
    state, name, forms = kept.state, str(it.document), read_json(it.forms)
    if name not in state.names:
        raise NotFound(f"there is no view {name}")
    types = state.types()
    before = {each: read_json(state.document(each)) for each in state.names}
    shapes = {each: read_form(types[each], forms.get(each, {})) for each in state.names}
    try:
        made = to_edit(shapes[name], before[name] if older is None else older.near, ops)
        now = made if older is None else carried_parts(made, older.carried(*(part.word() for part in made.parts)))
        if not drops and isinstance(state, PairState):
            _need_no_loss(state, read_json(kept.opening)["program"], name, now.parts)
    except NoCounterpart as why:
        raise Refused(str(why), cause="no-counterpart", operation=why.number) from None
    except PrivateLoss as why:
        raise Refused(str(why), cause="private-loss", operation=why.number, places=list(map(list, why.places))) from None
    except NotTaken as why:
        raise NotCarried(**late_answer(why, kept.number), operation=made.parts[why.word].number) from None
    found = step_all(kept, [line_for(state, name, now.word)])
    found.reply["sent"] = read_json(write_file(made.patch)) if older is None else _patch_of(shapes[name], before[name], now.word)
    found.reply["is-own"] = older is None
    found.reply["patches"] = {}
    if found.drafts:
        if now.word != made.word:
            found.reply["answers"][0]["carried"] = True
        for other, word in zip(state.names, read_json(str(found.drafts[0].words))):
            if other != name:
                found.reply["patches"][other] = _patch_of(shapes[other], before[other], word)
    return found


def _need_no_loss(state: PairState, program: str, side: str, parts: "list[Any]") -> None:
    """Raises PrivateLoss where the parts of a patch take from the other side what it alone has. They are tried out on a twin of the session."""
    private = Private(program, OTHER[side], state.types())
    if not private.has_any() or not any(takes_away(part.word()) and not part.is_removal() for part in parts):
        return
    with Session(program, state=state.kept.state()) as twin:
        try:
            for part in parts:
                carry(twin, side, part, private)
        except ToolRefused:
            # The engine says so when the edit comes to it.
            return


def _patch_of(shape: Any, before: Any, word: Any) -> Any:
    try:
        return read_json(write_file(to_patch(shape, before, word)))
    except NotWritable:
        # The form file cannot show what the edit made. The document has it.
        return None


async def undo(request: web.Request) -> web.Response:
    """Takes the last changes back, one or `count` of them, by a change of its own: the history stays. What was taken back is not taken back twice."""
    it = await about(request, "edit", *(SIDES if request.path.startswith("/pairs/") else ()))
    need_type(request, "application/json")
    body = await body_of(request)
    count = member(json_of(body), "count", int, 1)
    if not 1 <= count <= it.service.settings.limits.undo:
        raise Problem(f'"count" is to be from 1 to {it.service.settings.limits.undo:,}', member="count")

    async def work(kept: Kept) -> Made:
        return await _taken_back(it, kept, count)

    reply, is_earlier = await it.service.keeper.change(it.kind, it.pair, change_of(request, it.who, body, work))
    return _shown(it, reply, is_earlier)


async def _taken_back(it: About, kept: Kept, count: int) -> Made:
    """The record that takes changes back. A change that was taken back before is passed over, so that a second undo goes on behind the first."""
    back, target = [], kept.number
    while len(back) < count:
        row = await it.service.database.row(tables.BACK, it.pair, target)
        if row is None:
            raise Conflict("the log no longer has so many changes", cause="nothing-to-undo")
        if row["kind"] == "undo":
            target = row["back_to"]
            continue
        if row["kind"] != "change":
            raise Conflict("there are not so many changes to take back", cause="nothing-to-undo")
        back.append(row["payload"])
        target -= 1
    try:
        earlier = await it.service.keeper.at(it.kind, it.pair, target)
    except Gone:
        raise Conflict("the log no longer has so many changes", cause="nothing-to-undo") from None
    state = earlier.state
    snapshot, text = state.snapshot(), f"[{','.join(state.words_back(back[::-1], kept.state))}]"  # type: ignore[arg-type]
    state.close()
    draft = Draft("undo", snapshot, "undo", f"undo {count}", text, target)
    replaced = type(state).reopen(f"{kept.opening}\n{snapshot}")
    answer = {"ok": True, "number": kept.number + 1, "rest": draft.answer, "words": text}
    return Made({"answers": [answer]}, [draft], (kept.opening, replaced))
