"""JSON Patch (RFC 6902) to edits of a document of a known type, and back.

What a patch says is done: a replaced list gets new items, and a moved item keeps what the other side knows of it only where a `move` or a
`rename` of the same container says so. What would leave a document that is not of the type is refused with a reason. With a form file,
patches are those of users' files: docs/TOOLS.md.
"""

from __future__ import annotations

from typing import Any

from . import natural
from .natural.to_edit import NoCounterpart
from .types import Ty

__all__ = ["NoCounterpart", "to_edit", "to_patch"]


def to_edit(ty: Ty, document: Any, patch: Any) -> list[Any]:
    """The edit that makes the document what the patch makes of it. Raises NoCounterpart."""
    return natural.to_edit(natural.plain(ty), document, patch).word


def to_patch(ty: Ty, document: Any, edit: Any) -> list[Any]:
    """The patch that makes of the document what the edit makes of it. Raises NoApply or NotAnEdit where the edit does not act on it."""
    return natural.to_patch(natural.plain(ty), document, edit)
