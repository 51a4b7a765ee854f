"""A client whose documents are users' files: patches of either file go in, and patches of the other file come out."""

from __future__ import annotations

from dataclasses import dataclass
from typing import Any, Iterable

from ..answers import OTHER, Accepted
from ..edits import NoApply, act
from ..older import NotTaken, OlderEdits
from ..private import takes_away
from ..trial import Trial
from .forms import read_form
from .places import NotWritable, Written, to_file
from .to_edit import carried_parts, to_edit
from .to_patch import to_patch


@dataclass(frozen=True)
class Patched:
    """An accepted patch: the program's answer, the patch of the other side's file, and the patch as it was sent, each place by its position.

    `word` is the edit of the document that was made of it.
    """

    answer: Accepted
    patch: list
    sent: list
    word: list


@dataclass(frozen=True)
class PatchedGroup:
    """An accepted group: the program's answer, and for each patch that was sent the other side with the patch of its file."""

    answer: Accepted
    patches: list
    sent: list


class Files:
    """The users' files of a session or of an open store, by the form files of its sides. A side without one is written as it is.

    `files["left"]` is a file now. Where the document has a value that the form cannot write, NotWritable is raised. The positions in a
    patch are those of these files: a list by key that keeps no order has the one that is shown here.
    """

    def __init__(self, session: Any, forms: dict[str, Any] | None = None) -> None:
        self.session, self.trial = session, Trial(session)
        self.shapes = {side: read_form(ty, (forms or {}).get(side, {})) for side, ty in session.types.items()}
        self._written = {side: Written() for side in self.shapes}

    def __getitem__(self, side: str) -> Any:
        return to_file(self.shapes[side], self.session.documents[side])

    def _file(self, side, document):
        return self._written[side].of(self.shapes[side], document)

    def _edit(self, side, document, patch):
        return to_edit(self.shapes[side], document, patch, self._written[side])

    def _patch(self, side, document, word):
        return to_patch(self.shapes[side], document, word, self._written[side])

    def patch(self, side: str, patch: Any, drop_private: bool = False, older: OlderEdits | None = None) -> Patched:
        """Sends a JSON Patch of the file of a side. Returns what comes of it, as Patched.

        Raises NoCounterpart where no edit makes it, PrivateLoss where the other side would lose what it alone has, unless `drop_private`,
        NotWritable where the other file could not show what comes of it, and Refused. Nothing has changed then.

        `older` has the document of an older file, for which the patch was made. Then it is carried to the file of now, or NotTaken is
        raised. What was sent is in the answer. NotWritable is raised, too, where this side's own file could not show it.
        """
        with self.session.lock, self.trial.kept_in_step():
            if older is None:
                return self._send(side, self._edit(side, self.session.documents[side], patch), drop_private)
            made = to_edit(self.shapes[side], older.near, patch)
            try:
                with older.taking(*(it.word() for it in made.parts)) as words:
                    return self._send(side, self._carried(side, made, words), drop_private)
            except NotTaken as why:
                why.operation = made.parts[why.word].number if made.parts else None
                raise

    def _send(self, side, made, drop_private):
        before, other = self.session.documents, OTHER[side]
        if self._needs_trial(side, made, drop_private):
            self._try(side, made, drop_private)
        answer = self.session.entry(side, made.word)
        return Patched(answer, self._patch(other, before[other], answer.word), made.patch, made.word)

    def _carried(self, side, made, words):
        """What was made of a patch of an older file, with these words for its parts, as a patch of the file of now."""
        before = self.session.documents[side]
        now = carried_parts(made, words)
        document = act(self.session.types[side], before, now.word)
        try:
            now.file = self._file(side, document)
        except NotWritable as why:
            why.side = side
            raise
        now.document, now.patch = document, self._patch(side, before, now.word)
        return now

    def group(self, *patches: tuple[str, Any], drop_private: bool = False) -> PatchedGroup:
        """Sends patches, each a side and a JSON Patch, that are accepted together or not at all. Returns what comes of it, as PatchedGroup.

        Each patch is of the file as the patches before it leave it. What `patch` raises is raised here.
        """
        with self.session.lock, self.trial.kept_in_step():
            documents, made = self.session.documents, []
            before = documents
            for number, (side, patch) in enumerate(patches):
                made.append((side, self._edit(side, documents[side], patch)))
                documents = self._try(*made[-1], drop_private, is_begun=number > 0)
            answer = self.session.group(*((side, it.word) for side, it in made))
            carried = []
            for (side, it), (other, word) in zip(made, answer.words):
                carried.append((other, self._patch(other, before[other], word)))
                before = {side: it.document, other: act(self.session.types[other], before[other], word)}
            return PatchedGroup(answer, carried, [it.patch for _, it in made])

    def undo(self, count: int = 1) -> list[Any]:
        """Takes the last changes of a store back. Returns the patches of both files, as `patches` does."""
        with self.session.lock:
            before = self.session.documents
            return self.patches(before, self.session.undo(count))

    def patches(self, before: dict[str, Any], words: Iterable[Any]) -> list[Any]:
        """The patches of both files for the words that changed both documents, as `undo` returns them. `before` are the documents then.

        Where another program has changed the store meanwhile, a file comes as a whole.
        """
        return [self._changed(side, before[side], word) for side, word in zip(("left", "right"), words)]

    def _changed(self, side, before, word):
        ty, now = self.session.types[side], self.session.documents[side]
        try:
            if act(ty, before, word) == now:
                return self._patch(side, before, word)
        except NoApply:
            pass
        return [{"op": "replace", "path": "", "value": to_file(self.shapes[side], now)}]

    def _needs_trial(self, side, made, drop_private):
        """Whether a patch is tried out first: the other file may have no way to show the result, or the other side may lose something."""
        if not self.shapes[OTHER[side]].shows_all():
            return True
        takes = any(takes_away(it.word()) and not it.is_removal() for it in made.parts)
        return takes and not drop_private and self.trial.private(OTHER[side]).has_any()

    def _try(self, side, made, drop_private, is_begun=False):
        """Tries a patch out, and returns both documents after it. Raises PrivateLoss, NotWritable and Refused."""
        other = OTHER[side]
        documents = self.trial.carry(side, made.parts, not drop_private, is_begun)
        try:
            self._file(other, documents[other])
        except NotWritable as why:
            why.side = other
            raise
        return documents
