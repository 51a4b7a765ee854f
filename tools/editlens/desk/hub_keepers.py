"""Where the hub of a desk is kept: in a run of the program, which keeps nothing, or in a store of edithub.

Both have the texts of the lens programs of the views, the types and the documents, by "hub" and the numbers of the views. `entry` sends an
edit of one of them, and returns the words of all, by the same names. A refused edit is raised as Refused.
"""

from __future__ import annotations

import subprocess
from typing import Any, Callable

from ..answers import Refused, RunEnded
from ..hub import Hub, HubAccepted
from ..hub_store import HubStore, state_of_lines, stored_programs
from ..lines import lines_of
from ..parts import HUB, SEPARATOR, joined
from ..program import find_program
from .keepers import LineKeeper

Words = dict[Any, list]
Reader = Callable[[], list]


def words_of(answer: HubAccepted) -> Words:
    """The word of each document in an answer, by its name."""
    return {HUB: answer.hub, **dict(enumerate(answer.views))}


class HubRunKeeper(LineKeeper):
    """A hub in one run of the program. The lines that were accepted are kept, since a run writes what its lenses remember only at its end."""

    place = "at"

    def __init__(self, programs: list[str], path: str | None = None) -> None:
        super().__init__()
        self.programs, self.path = programs, path or find_program()
        self.hub = Hub(programs, self.path)

    @property
    def types(self) -> dict[Any, Any]:
        """The types of all documents."""
        return self.hub.types

    @property
    def documents(self) -> dict[Any, Any]:
        """All documents."""
        return self.hub.documents

    def begin(self, lines: list[str]) -> list[str]:
        """Takes the lines of a script, and returns why each of those that were refused was."""
        refused = []
        for line in lines:
            answer = self.hub.line(line)
            if isinstance(answer, Refused):
                refused.append(answer.written)
            else:
                self.lines.append(line)
        self.first = len(self.lines)
        return refused

    def entry(self, at: Any, edit: Any) -> Words:
        """Sends an edit of a document, and returns the words of all."""
        answer = self.hub.edit(at, edit)
        self._took(at, edit)
        return words_of(answer)

    def undo(self) -> tuple[Any, Any]:
        """Goes back to the state before the last entry, and returns its place and its edit. Another run takes the entries before it again."""
        self.hub, last = self._without_last(self.hub, Hub(self.programs, self.path))
        return last

    def reader(self) -> Reader:
        """A call that finds what the lens of each view remembers now. It may run beside later edits."""
        text = "\n".join([joined(self.programs).rstrip("\n"), SEPARATOR, *self.lines, ""])
        return lambda: self._complements(text)

    def _complements(self, text: str) -> list:
        ran = subprocess.run([self.path, "hub"], input=text.encode(), stdout=subprocess.PIPE, check=False)
        if ran.returncode not in (0, 1):
            raise RunEnded(ran.returncode)
        state = state_of_lines(it for it in lines_of(ran.stdout) if it.split(" ", 1)[0] in (HUB, "view", "complement"))
        return [complement for _, complement in state.views]

    def close(self) -> None:
        """Ends the run."""
        self.hub.stop()


class HubStoreKeeper:
    """A hub in a store, which is kept open: no other program writes to it until `close`. The program says whether there is an undo."""

    is_store, can_undo, undone = True, True, ()

    def __init__(self, folder: str, path: str | None = None) -> None:
        self.client = HubStore.open(folder, path)
        self.programs = stored_programs(self.client.store.file)

    @property
    def types(self) -> dict[Any, Any]:
        """The types of all documents."""
        return self.client.types

    @property
    def documents(self) -> dict[Any, Any]:
        """All documents."""
        return self.client.documents

    def entry(self, at: Any, edit: Any) -> Words:
        """Sends an edit of a document, and returns the words of all. It is on the disk then."""
        return words_of(self.client.edit(at, edit))

    def undo(self) -> Words:
        """Takes the last change back, and returns the words that did so, by the names of the documents."""
        return self.client.undo()

    def reader(self) -> Reader:
        """A call that finds what the lens of each view remembers when it runs."""
        return lambda: [complement for _, complement in self.client.store.show().views]

    def close(self) -> None:
        """Gives the store back. Each change is on the disk already."""
        if self.client.is_open:
            self.client.close()
