"""Why a line of a journal is refused: the place in the document, and what would have been allowed there."""

from __future__ import annotations

from dataclasses import dataclass
from typing import Any

from .edits import NoApply, act, form_fault
from .json_text import NotJson, pointer, read_json, shown
from .parts import HUB
from .types import Ty

MOST_LINE = 1_048_576

CAUSES = {
    "kind": "the place holds a value that this primitive does not edit",
    "place": "there is no such field, key, item or node",
    "tag": "the alternatives have another tag now, or their type has no such tag",
    "value": "the enum has no such member",
    "range": "a count or a place goes past what is there",
    "present": "the map has this key already",
    "length": "a reorder has one number for each item",
    "deep": "the tree would have more than 16 levels",
    "overflow": "the sum does not fit into 64 bits",
}

ENTRIES = {
    "run": '  an entry is an object with exactly the members "side", "left" or "right", and "edit"',
    "hub": '  an edit of a hub is an object with exactly the members "at", "hub" or the number of a view, and "edit"',
}


@dataclass(frozen=True)
class Before:
    """A run before a line: what its lines are, `run` or `hub`, and the types and documents by side, or by "hub" and the numbers of views."""

    kind: str
    types: dict
    documents: dict


def explain_refusal(before: Before, line: str, answer: Any) -> list[str]:
    """The lines that explain why a line of a journal is refused."""
    tree, said = read_line(line, answer)
    if said:
        return said
    if answer.cause == "not-an-entry":
        return [ENTRIES[before.kind], f"  found: {shown(tree)}"]
    if answer.cause == "not-an-edit":
        return [f"  {_edit_fault(tree)}"]
    if answer.cause == "no-view":
        return [f"  the views are numbered from 0 to {len(before.types) - 2}, and {tree['at']} was named"]
    return _no_apply(before, tree, answer)


def read_line(line: str, answer: Any) -> tuple[Any, list[str]]:
    """The tree of a line and no words; or None, and the words that say why it has none."""
    if answer.cause == "line-too-long":
        return None, [f"  the line has {len(line.encode()):,} bytes, and at most {MOST_LINE:,} are read"]
    try:
        return read_json(line), []
    except NotJson as why:
        return None, [f"  the line is not JSON: {why}"]


def _edit_fault(tree):
    for entry in tree.get("group", [tree]):
        fault = form_fault(entry["edit"])
        if fault:
            return fault
    return "the edit has another form than those of docs/FORMATS.md"


def _no_apply(before, tree, answer):
    entries, part = tree.get("group", [tree]), answer.part or 0
    edit, at = entries[part]["edit"], entries[part].get("side", entries[part].get("at"))
    name = f"view {at}" if isinstance(at, int) else "the hub" if at == HUB else f"the {at} document"
    said = [f"  entry {part} of the group does not apply"] if part else []
    if any(it["side"] != at for it in entries[:part]):
        return [*said, f"  {answer.cause}: {CAUSES[answer.cause]}; entries of the other side are before it"]
    document = before.documents[at]
    for earlier in entries[:part]:
        document = act(before.types[at], document, earlier["edit"])
    return said + explain_edit(name, before.types[at], document, edit, answer)


def explain_edit(name: str, ty: Ty, document: Any, edit: Any, answer: Any) -> list[str]:
    """The lines that explain why an edit does not apply to a document, which is called `name`."""
    try:
        act(ty, document, edit)
    except NoApply as why:
        if (why.cause, why.at) != (answer.cause, answer.at):
            raise AssertionError(f"the program said {answer.written}, and here it is {why}") from None
        return [
            f"  primitive {why.at} of the edit of {name}: {shown(edit[why.at], 100)}",
            f"  at {pointer(why.path) or '(the document)'}, which is {shown(why.value, 100)}",
            f"  {why.cause}: {CAUSES[why.cause]}",
            f"  allowed here: {why.allowed}",
        ]
    raise AssertionError(f"the program said {answer.written}, and here the edit applies")
