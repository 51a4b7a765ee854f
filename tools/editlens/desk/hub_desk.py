"""The desk of a hub: its own document, and one of its views beside it, which a window chooses."""

from __future__ import annotations

from typing import Any, Callable

from ..json_text import write_json
from ..lenses import read_lens
from ..parts import HUB
from .complement import remembered
from .loading import judged
from .shared import Shared

LONG = 40


class HubDesk(Shared):
    """The desk of a hub, whose documents are named "hub" and by the numbers of the views. Its left side is the hub, its right one a view."""

    def __init__(self, keeper: Any, title: str, notices: Any = ()) -> None:
        self.lenses = [read_lens(it) for it in keeper.programs]
        super().__init__(keeper, title, notices)

    def view_of(self, view: int | None) -> int:
        """The number of a view that a window asks for; the first one where there is no such view."""
        return view if view is not None and view < len(self.lenses) else 0

    def place(self, side: str, view: Any) -> Any:
        """The name of the document of a side, or None where there is no such view."""
        if side == "left":
            return HUB
        return view if type(view) is int and 0 <= view < len(self.lenses) else None

    def names_of(self, view: int) -> dict[str, Any]:
        """The names of the documents of both sides."""
        return {"left": HUB, "right": view}

    def said_name(self, name: Any) -> str:
        """What a document is called."""
        return HUB if name == HUB else f"view {name}"

    def lens_of(self, view: int) -> tuple[str, Any]:
        """The text of the lens program of a view, and its lens."""
        return self.keeper.programs[view], self.lenses[view]

    def file(self, _side: str) -> None:
        """A hub shows documents alone."""

    def check(self, program_text: str) -> dict[str, Any]:
        """What the program says of another lens program."""
        return judged(program_text)

    def load(self, _base: int, _program_text: str) -> dict[str, Any]:
        """A hub has the lens programs that it was begun with."""
        return {"ok": False, "sentence": "A hub keeps the lens programs of its views. edithub add gives a stored hub one view more."}

    def _more(self, view: int) -> dict[str, Any]:
        types, changes = self.keeper.types, self.changes
        views = [{"number": it, "about": _about(types[it]), "changed": bool(changes.get(it))} for it in range(len(self.lenses))]
        return {"files": False, "hub": {"view": view, "views": views}}

    def _told(self) -> Callable[[list], dict[str, Any]]:
        return lambda trees: {"trees": trees}

    def _drawn_complement(self, view: int) -> dict[str, Any] | None:
        if self.complement is None:
            return None
        tree = self.complement["trees"][view]
        return {"version": self.complement["version"], "tree": tree, "text": write_json(tree), "sentence": remembered(self.lenses[view], tree)}

    def _taken(self, before: dict[Any, Any], name: Any, edit: Any, words: dict[Any, Any]) -> dict[str, Any]:
        self._changed(before, words, {"side": self.said_name(name), "edit": write_json(edit), "others": self._others(words, name)}, name)
        return {"ok": True, "version": self.version}

    def _undone(self, before: dict[Any, Any], words: dict[Any, Any]) -> None:
        # The sentences are those of the hub's own document, or of the first view that changed where that one did not.
        edited = next((it for it in words if words[it]), HUB)
        entry = {"side": self.said_name(edited), "edit": write_json(words[edited]), "others": self._others(words, edited), "undo": True}
        self._changed(before, words, entry, edited)

    def _others(self, words: dict[Any, Any], name: Any) -> list[list[str]]:
        return [[self.said_name(it), write_json(word)] for it, word in words.items() if it != name]


def _about(ty: Any) -> str:
    """A few words on a document: the names of its fields, or its kind."""
    said = ", ".join(ty.names()) if ty.kind == "record" else ty.kind
    return said if len(said) <= LONG else said[: LONG - 2] + ".."
