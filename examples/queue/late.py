"""Edits in a queue that were made for an older state of the store: the lines that do the same now, or why they are refused."""

import os
import sys

sys.path.insert(0, os.path.join(os.path.dirname(os.path.abspath(__file__)), "..", "..", "tools"))

from editlens.edits import NoApply, act, form_fault  # noqa: E402
from editlens.json_text import NotJson, read_json, write_json  # noqa: E402
from editlens.older import BASE, NotTaken  # noqa: E402

MOST_LINE = 1_048_576
SIDES = ("left", "right")


class Late(Exception):
    """An edit with a base that is refused. The text is what stands behind `refused N`, as the program writes what it refuses itself."""


def carried(store, line, base):
    """The line that does to the newest state of an open store what a line does to the state after `base` changes. Raises Late."""
    if not (base.isdigit() and len(base) < 19):
        raise Late(BASE)
    if int(base) == store.stored:
        return line
    change = _change_of(line)
    entries = change.get("group", [change])
    if len({it["side"] for it in entries}) > 1:
        # The second edit of such a group was made for a translation that the store never had.
        raise Late(BASE)
    if not entries:
        return line
    words = _words(store, entries, int(base), "group" in change)
    if words == [it["edit"] for it in entries]:
        return line
    now = [{"side": it["side"], "edit": word} for it, word in zip(entries, words)]
    return write_json({"group": now} if "group" in change else now[0]).encode()


def _change_of(line):
    """The entry or the group of a line that is one."""
    if len(line) > MOST_LINE:
        raise Late("line-too-long")
    try:
        change = read_json(line.decode())
    except (NotJson, UnicodeDecodeError):
        raise Late("not-json") from None
    is_group = isinstance(change, dict) and set(change) == {"group"} and isinstance(change["group"], list)
    entries = change["group"] if is_group else [change]
    if not all(isinstance(it, dict) and set(it) == {"side", "edit"} and it["side"] in SIDES for it in entries):
        raise Late("not-an-entry")
    try:
        if any(form_fault(it["edit"]) for it in entries):
            raise Late("not-an-edit")
    except RecursionError:
        raise Late("not-an-edit") from None
    return change


def _words(store, entries, base, is_group):
    """The edits of entries of one side for the newest state."""
    try:
        older = store.older(entries[0]["side"], base)
        near = older.near
        for part, entry in enumerate(entries):
            near = _after(store.types[entry["side"]], near, entry["edit"], f"group {part} " if is_group else "")
        return older.carried(*(it["edit"] for it in entries))
    except NotTaken as why:
        if why.cause == BASE:
            raise Late(BASE) from None
        at = why.at - sum(len(it["edit"]) for it in entries[: why.word])
        raise Late(f"{f'group {why.word} ' if is_group else ''}not-carried {at} {why.cause}") from None


def _after(ty, near, edit, part):
    try:
        return act(ty, near, edit)
    except NoApply as why:
        raise Late(f"{part}no-apply {why.at} {why.cause}") from None
