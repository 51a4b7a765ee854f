"""Where the session of a desk is kept: in a run of the program, which keeps nothing, or in a store.

Both have the program's text, both types, both documents and the complement. `entry` sends an edit of a side; a refused one is raised as
Refused. `patch` sends a JSON Patch of the user's file of a side, which `files` has. `undo` takes the last change back. A session in no store
can take back one change after another, and `redo` makes them again.

`forms` has the form files of the sides that have one, each a tree of JSON.
"""

from __future__ import annotations

import subprocess
from typing import Any, Callable, Iterable

from ..answers import Accepted, Refused, RunEnded
from ..construct import set_steps, words_of
from ..documents import misfits
from ..json_text import read_json, write_json
from ..lines import lines_of
from ..load import Disagreement, DoesNotFit, load_words
from ..natural.files import Files, Patched
from ..older import OlderEdits
from ..open_store import stored_program
from ..parts import SEPARATOR, program_of
from ..session import DocumentsDiffer, Session
from ..store import Store
from ..types import Ty

Forms = dict[str, Any]


class LineKeeper:
    """The lines that a run has accepted, and those that were taken back. A run has no undo, so another one takes the lines before again.

    `place` is the member of a line that says which document its edit is of.
    """

    is_store = False
    place: str

    def __init__(self) -> None:
        self.lines: list[str] = []
        self.undone: list[str] = []
        self.first = 0

    @property
    def can_undo(self) -> bool:
        """Whether an entry came since the session began."""
        return len(self.lines) > self.first

    def entry(self, at: Any, edit: Any) -> Any:
        """Sends an edit of a document, and returns what came of it."""
        raise NotImplementedError

    def _took(self, at, edit):
        self.lines.append(write_json({self.place: at, "edit": edit}))
        self.undone = []

    def _without_last(self, run, earlier):
        """Ends a run, and returns the earlier one, which has taken all lines but the last, with the place and the edit of the last."""
        try:
            for line in self.lines[:-1]:
                if isinstance(earlier.line(line), Refused):
                    raise DocumentsDiffer
        except BaseException:
            earlier.stop()
            raise
        run.stop()
        last = self.lines.pop()
        self.undone.append(last)
        entry = read_json(last)
        return earlier, (entry[self.place], entry["edit"])

    def redo(self) -> tuple[Any, Any, Any]:
        """Sends the entry again that was taken back last. Returns its place, its edit and what `entry` returns."""
        *undone, line = self.undone
        entry = read_json(line)
        answer = self.entry(entry[self.place], entry["edit"])
        self.undone = undone
        return entry[self.place], entry["edit"], answer


class RunKeeper(LineKeeper):
    """A session in one run of the program. The lines that were accepted are kept: a run writes its complement only at its end, and has no undo."""

    place = "side"

    def __init__(self, program_text: str, path: str | None = None, forms: Forms | None = None) -> None:
        super().__init__()
        self.program, self.forms = program_of(program_text), forms or {}
        self.session = Session(self.program, path, forms=self.forms)

    @property
    def types(self) -> dict[str, Ty]:
        """The types of both sides."""
        return self.session.types

    @property
    def documents(self) -> dict[str, Any]:
        """Both documents."""
        return self.session.documents

    def entry(self, side: str, edit: Any) -> Accepted:
        """Sends an edit, and returns its answer."""
        answer = self.session.entry(side, edit)
        self._took(side, edit)
        return answer

    @property
    def files(self) -> Files:
        """The users' files of both sides."""
        return self.session.files

    def patch(self, side: str, patch: Any, drop_private: bool = False, older: OlderEdits | None = None) -> Patched:
        """Sends a JSON Patch of the file of a side, or of an older one, and returns what came of it, as Patched."""
        done = self.session.files.patch(side, patch, drop_private, older)
        self._took(side, done.word)
        return done

    def undo(self) -> tuple[str, Any]:
        """Goes back to the state before the last entry, and returns its side and its edit. Another run takes the entries before it again."""
        self.session, last = self._without_last(self.session, Session(self.program, self.session.path, forms=self.forms))
        return last

    def begin(self, left: Any = None, right: Any = None) -> list[Disagreement]:
        """Builds documents that exist, and returns where they disagree. Raises DoesNotFit."""
        disagreements = []
        if right is not None:
            loaded = load_words(self.program, left, right, self.session.path)
            entries, disagreements = [("left", it) for it in loaded.left] + [("right", it) for it in loaded.right], loaded.disagreements
        elif left is not None:
            wrong = list(misfits(self.types["left"], left))
            if wrong:
                raise DoesNotFit("left", wrong)
            entries = [("left", word) for word in words_of(set_steps(self.types["left"], left))]
        else:
            entries = []
        for side, word in entries:
            self.entry(side, word)
        self.first = len(self.lines)
        return disagreements

    def reader(self) -> Callable[[], Any]:
        """A call that finds the complement of the session as it is now. It may run beside later edits."""
        lines = list(self.lines)
        return lambda: state_after(self.program, lines, self.session.path)["complement"]

    def close(self) -> None:
        """Ends the run."""
        self.session.stop()


def state_after(program: str, lines: Iterable[str], path: str) -> dict[str, Any]:
    """What the program says at the end of a run over some lines: both documents and the complement."""
    text = "\n".join([program.rstrip("\n"), SEPARATOR, *lines, ""])
    ran = subprocess.run([path, "run"], input=text.encode(), stdout=subprocess.PIPE, check=False)
    if ran.returncode not in (0, 1):
        raise RunEnded(ran.returncode)
    return {name: read_json(rest) for name, rest in (it.split(" ", 1) for it in lines_of(ran.stdout)[-3:])}


class StoreKeeper:
    """A session in a store, which is kept open: no other program writes to it until `close`. The program says whether there is an undo."""

    is_store, can_undo, undone = True, True, ()

    def __init__(self, folder: str, path: str | None = None, forms: Forms | None = None) -> None:
        self.client, self.forms = Store.open(folder, path, forms=forms), forms or {}
        self.program = stored_program(self.client.store.file)

    @property
    def types(self) -> dict[str, Ty]:
        """The types of both sides."""
        return self.client.types

    @property
    def documents(self) -> dict[str, Any]:
        """Both documents."""
        return self.client.documents

    def entry(self, side: str, edit: Any) -> Accepted:
        """Sends an edit, and returns its answer. It is on the disk then."""
        return self.client.entry(side, edit)

    @property
    def files(self) -> Files:
        """The users' files of both sides."""
        return self.client.files

    def patch(self, side: str, patch: Any, drop_private: bool = False, older: OlderEdits | None = None) -> Patched:
        """Sends a JSON Patch of the file of a side, or of an older one. Returns what came of it, as Patched. It is on the disk then."""
        return self.client.files.patch(side, patch, drop_private, older)

    def undo(self) -> dict[str, Any]:
        """Takes the last change back, and returns the edits that did so, by their sides."""
        return dict(zip(("left", "right"), self.client.undo()))

    def reader(self) -> Callable[[], Any]:
        """A call that finds the complement as it is when it runs."""
        return lambda: self.client.store.show()[2]

    def close(self) -> None:
        """Gives the store back. Each change is on the disk already."""
        if self.client.is_open:
            self.client.close()
