"""JSON Patches of users' files become edits.

Each operation becomes the primitives that do the same to the document. Where none does, or where the file fits again only after some
operations together, the smallest place that has them all inside is replaced. In the end the file after the patch is compared with the file
of the document after the edit.
"""

from __future__ import annotations

from dataclasses import dataclass, replace as changed
from typing import Any, Sequence

from ..construct import add_step, word_of
from ..edits import NoApply, act
from ..json_text import NotJson
from .documents import DoesNotFit
from .forms import Shape
from .operations import Patching, Stop, operation_fault, steps_of, value_at
from .places import Place, Written, written
from .steps import renaming, replaced, step, steps_for
from .text import is_same, need_json
from .where import resolved


class NoCounterpart(Exception):
    """An operation of a patch that no edit makes, or that does not apply: its number, from 0, and the reason."""

    def __init__(self, number: int, reason: str) -> None:
        super().__init__(f"operation {number}: {reason}")
        self.number, self.reason = number, reason


@dataclass(frozen=True)
class Part:
    """Some operations of a patch with their own edit: the number of the first one, the operations with every place by its position, and
    the steps of the edit. `is_around` says that a place around them is replaced."""

    number: int
    ops: list
    steps: list
    is_around: bool

    def word(self) -> list[Any]:
        """The edit of the part alone."""
        return word_of(self.steps)

    def is_removal(self) -> bool:
        """Whether it says itself that something goes: one `remove`, or one null in place of a value. Several operations never do."""
        op = self.ops[0]
        is_gone = op["op"] == "remove" or op["op"] in ("add", "replace") and op["value"] is None
        return is_gone and len(self.ops) == 1 and not self.is_around


class Translated:
    """The edit of a patch: its `parts` one after another, the document after it, and the file. `patch` names every place by its position."""

    def __init__(self, parts: list[Part], document: Any, file: Any) -> None:
        self.parts, self.document, self.file = parts, document, file
        self.patch = [op for part in parts for op in part.ops]
        self.word: list[Any] = []
        for part in parts:
            for path, primitive in part.steps:
                add_step(self.word, path, primitive)


def carried_parts(made: Translated, words: Sequence[Any]) -> Translated:
    """The same patch with another word for each of its parts. Where each is as it was, the edit is the same."""
    if list(words) == [it.word() for it in made.parts]:
        return Translated(made.parts, made.document, made.file)
    parts = [changed(part, steps=[((), it) for it in word]) for part, word in zip(made.parts, words)]
    return Translated(parts, made.document, made.file)


def to_edit(shape: Shape, document: Any, patch: Any, files: Written | None = None) -> Translated:
    """The edit that makes of the file what the patch makes of it, as Translated. `files` is a Written of the shape. Raises NoCounterpart."""
    taking: Any = None
    try:
        _need_patch(patch)
        taking = _Taking(Place(shape, document), patch, files or Written())
        while taking.left:
            taking.take()
        return taking.translated()
    except NoApply as why:
        raise NoCounterpart(taking.number, f"{patch[taking.number]['op']}: {why.cause}, allowed: {why.allowed}") from None
    except (Stop, ValueError) as why:
        raise NoCounterpart(taking.number if taking else 0, str(why)) from None
    except RecursionError:
        raise NoCounterpart(taking.number if taking else 0, "what is nested is too deep") from None


def _need_patch(patch):
    if not isinstance(patch, list):
        raise NoCounterpart(0, "a patch is an array of operations")
    for number, op in enumerate(patch):
        try:
            need_json(op)
            fault = operation_fault(op)
        except NotJson as why:
            fault = str(why)
        if fault:
            raise NoCounterpart(number, fault)


class _Taking:
    """A patch that is translated, operation after operation.

    `root` is the place of the document now, and `file` the file that the patch has made so far. `left` has the operations that follow, the
    next one last, each with its number. Names are read, and a `move` may become two, when an operation is taken.
    """

    def __init__(self, root, patch, files):
        self.root, self.number, self.parts, self.files = root, 0, [], files
        self.file, self.left = Patching(files.of(root.shape, root.value)), list(enumerate(patch))[::-1]

    def take(self):
        """Takes the next operation, or as many as it takes until the file fits again."""
        op = self._next()
        try:
            steps = steps_for(self.root, self.file.tree, op)
        except (Stop, DoesNotFit) as why:
            if isinstance(why, Stop) and not why.may_wait:
                raise
            self._together(op, why)
            return
        self.file.apply(op)
        self._took(self.number, [op], steps)

    def _next(self):
        self.number, op = self.left.pop()
        first, *others = resolved(self.root.shape, self.file.tree, op)
        self.left += [(self.number, it) for it in reversed(others)]
        return first

    def _took(self, number, ops, steps, is_around=False):
        self.parts.append(Part(number, ops, steps, is_around))
        self.root = changed(self.root, value=act(self.root.shape.ty, self.root.value, word_of(steps)))

    def _together(self, op, why):
        """Takes the fewest operations after which the file fits, and replaces the smallest place that has them all inside.

        Where there are none, it raises what is wrong with the file after the first operation, or why that one is not done.
        """
        number, ops, wrong = self.number, [], None
        loose = _Loose(self.root) if self.root.shape.has_bare_leaves() else None
        while True:
            loose = loose and loose.after(self.file.tree, op)
            try:
                self.file.apply(op)
            except Stop:
                break
            ops.append(op)
            renamed = renaming(self.root, ops)
            if renamed is not None:
                return self._took(number, ops, renamed)
            if loose and is_same(self.file.tree, written(changed(self.root, value=loose.place.value))):
                return self._took(number, ops, loose.steps)
            if wrong is None or _may_mend(op, wrong.places[0].path):
                try:
                    return self._took(number, ops, _around(self.root, self.file.tree, ops), is_around=True)
                except DoesNotFit as misfits:
                    why, wrong = misfits if len(ops) == 1 else why, misfits
                except Stop:
                    break
            if not self.left:
                break
            op = self._next()
        self.number = number
        raise why

    def translated(self):
        """What came of the patch. Raises ValueError where the document does not show the file after it."""
        if not is_same(self.file.tree, self.files.of(self.root.shape, self.root.value)):
            orders = "a list by key keeps no order, and would have another one than after the patch"
            raise ValueError("no edit makes this file" if self.root.shape.keeps_orders() else orders)
        return Translated(self.parts, self.root.value, self.file.tree)


class _Loose:
    """Operations that need an empty list of children for a while, where a leaf has none, with their steps."""

    def __init__(self, root):
        self.place, self.steps = changed(root, shape=root.shape.loosened()), []

    def after(self, file, op):
        """The same after one more operation, or None where it is not done so."""
        try:
            more = steps_for(self.place, file, op)
            self.place = changed(self.place, value=act(self.place.shape.ty, self.place.value, word_of(more)))
        except (Stop, DoesNotFit, NoApply):
            return None
        self.steps += more
        return self


def _around(root, file, ops):
    """The steps that replace the smallest place around the places that operations change, by what the file has there after them."""
    places = [steps_of(op[it])[:-1] for op in ops for it in ("path", "from") if _changes(op, it)]
    common = places[0] if places else []
    for other in places:
        count = next((number for number, (one, it) in enumerate(zip(common, other)) if one != it), min(len(common), len(other)))
        common = common[:count]
    place, depth = _replaceable(root, common)
    return replaced(place, value_at(file, common[:depth]), common[:depth])


def _changes(op, member):
    """Whether an operation changes the place that one of its members names."""
    return op["op"] != "test" if member == "path" else op["op"] == "move"


def _may_mend(op, misfit):
    """Whether an operation may make right what did not fit at a place: it is done there, or beside it, as to another item with that key."""
    misfit = [str(it) for it in misfit]
    for steps in (steps_of(op[it]) for it in ("path", "from") if _changes(op, it)):
        near = min(len(steps), len(misfit))
        is_new_item = steps[-1:] == ["-"]
        if steps[:near] == misfit[:near] or not is_new_item and steps[: max(0, len(misfit) - 2)] == misfit[: max(0, len(misfit) - 2)]:
            return True
    return False


def _replaceable(root, steps):
    """The last place on the way of some steps that a value can replace, and how many steps lead there."""
    found, place = (root, 0), root
    for number in range(1, len(steps) + 1):
        try:
            place = step(place, steps[:number])
        except Stop:
            break
        if place.role in ("", "entry", "item", "node"):
            found = place, number
    return found
