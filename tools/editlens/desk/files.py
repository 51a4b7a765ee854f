"""The users' files of a desk: as the page draws them, and patches of them that are refused."""

from __future__ import annotations

from typing import Any

from ..answers import Refused
from ..causes import CAUSES
from ..json_text import NotJson
from ..natural import NoCounterpart, NotWritable, write_file
from ..natural.files import Files
from ..private import PrivateLoss
from ..trial import TrialEnded

NOT_TAKEN = (NoCounterpart, PrivateLoss, NotWritable, TrialEnded, NotJson, Refused)
"""Why a patch is not taken. Nothing has changed then."""
NAMES = {NoCounterpart: "no-edit", PrivateLoss: "private-loss", NotWritable: "not-writable", TrialEnded: "failed", NotJson: "not-json"}


def drawn_file(files: Files, side: str) -> dict[str, Any]:
    """The file of a side: its tree, or why no file of its form shows the document."""
    try:
        return {"tree": drawn_tree(files[side])}
    except NotWritable as why:
        return {"fault": f"The form cannot write the document as it is now. {why}."}


def drawn_tree(tree: Any) -> Any:
    """A tree of JSON as the page reads it: an object as an array of its members, and whatever has nothing inside as its own text.

    JavaScript would read other numbers than the file has, and give the members an order of its own.
    """
    if isinstance(tree, dict):
        return {"members": [[name, drawn_tree(tree[name])] for name in sorted(tree)]}
    if isinstance(tree, list):
        return [drawn_tree(it) for it in tree]
    return write_file(tree)


def refused_patch(why: Exception, side: str, text: str) -> dict[str, Any]:
    """The refusal of a patch of a side, with the text that was sent."""
    if isinstance(why, Refused):
        return {"ok": False, "cause": why.cause, "side": side, "place": None, "sentence": CAUSES.get(why.cause, why.cause), "patch": text}
    name = next(name for kind, name in NAMES.items() if isinstance(why, kind))
    sentence = f"this is not JSON: {why}" if name == "not-json" else str(why)
    return {"ok": False, "cause": name, "side": side, "place": None, "sentence": sentence, "patch": text}
