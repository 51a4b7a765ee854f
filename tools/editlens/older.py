"""Edits that were made for an older state of a session, carried over the changes since then to the newest one.

An `OlderStates` has the last changes of a session. An `OlderEdits` has one document as the author of some edits has it: they were made one
after another, the first for an older state. `carried` and `taking` give the word that does the same to the newest document, or raise
NotTaken with the cause. `rebase` has the rules, and docs/EDITS.md says them. It is tested and not proved.
"""

from __future__ import annotations

from collections import deque
from contextlib import contextmanager
from dataclasses import dataclass
from typing import Any, Deque, Dict, Iterator, List, Mapping, Optional, Sequence, Tuple

from .causes import CAUSES
from .edits import NoApply, act
from .rebase import SAME, Bridge, Cause, NotCarried, bridge_of, carry, flipped
from .rebase.causes import SENTENCES
from .types import Ty

MOST_CHANGES = 1_000
"""An edit may be made for a state as many changes ago. One for an older state is refused as `base`."""
BASE = "base"
KEPT_EVERY = 25
"""The documents of one of so many states are kept; the others are made anew, by the words since then."""

Words = Mapping[Any, Any]
"""A word of each document, by its name."""
Part = Tuple[Bridge, Optional[int]]
"""A bridge, and the number of the edit that was not taken whose effect it takes back; None for a change of the session."""


class NotTaken(Exception):
    """An edit for an older state that is not taken. Nothing has changed then.

    `cause` is `base` where the state is not known, one of `rebase.Cause`, or one of docs/EDITS.md where the word does not act. `word` is the
    number, from 0, of the word among those that were given together. `edit` has these words one after another, and `at` is the number of its
    first primitive that has no place, from 0. `rests_on` is the number, from 1, of an earlier edit of the same author that was not taken,
    without which this one has no place. Of a patch, `operation` is the number of the operation, from 0.
    """

    operation: int | None = None

    def __init__(self, cause: str, sentence: str, at: int | None = None, rests_on: int | None = None) -> None:
        super().__init__(f"{cause}: {sentence}")
        self.cause, self.sentence, self.at, self.rests_on = cause, sentence, at, rests_on
        self.word, self.edit = 0, []  # type: int, List[Any]


def unknown_base(why: str) -> NotTaken:
    """The refusal of an edit that was made for a state that is not known."""
    return NotTaken(BASE, why)


class _State:
    """The documents of a state. Where they are not kept, they are made of those of the state before, by the words that led from there."""

    def __init__(self, documents: Dict[Any, Any], before: Optional[_State] = None, words: Words | None = None) -> None:
        distance = 0 if before is None else before.distance + 1
        self.kept: Optional[Dict[Any, Any]] = documents
        self.distance: int = distance % KEPT_EVERY
        self.before, self.words = (before, words) if self.distance else (None, None)

    def document(self, types: Mapping[Any, Ty], name: Any) -> Any:
        """A document of this state."""
        if self.kept is not None:
            return self.kept[name]
        assert self.before and self.words
        return act(types[name], self.before.document(types, name), self.words.get(name, []))

    def let_go(self) -> None:
        """Forgets the documents, unless they cannot be made anew."""
        if self.before is not None:
            self.kept = None


@dataclass(frozen=True)
class _Step:
    """What led from a state to the next one: words, or going back to the state before words. Then they lead from `far` to `near`."""

    near: _State
    far: _State
    words: Words
    is_back: bool = False

    def bridge(self, types: Mapping[Any, Ty], name: Any) -> Bridge:
        """The bridge from the document before the step to the one after it."""
        first = self.far if self.is_back else self.near
        bridge = bridge_of(types[name], self.words.get(name, []), first.document(types, name))
        return flipped(bridge) if self.is_back else bridge

    def takes_back(self, other: _Step) -> bool:
        """Whether this step leads back to the state before another one, which came just before."""
        return self.is_back != other.is_back and self.words == other.words


class OlderStates:
    """The newest state of a session, with the changes that led to it: no more than MOST_CHANGES.

    States have numbers, each one more than the state before it. Documents have names, and `types` has the type of each.
    """

    def __init__(self, types: Mapping[Any, Ty], number: int, documents: Dict[Any, Any], most: int = MOST_CHANGES) -> None:
        self.types, self.number = types, number
        self._newest = _State(documents)
        self._steps: Deque[_Step] = deque(maxlen=most)
        self._done: Deque[_Step] = deque(maxlen=most)
        self._is_over = False

    def end(self) -> None:
        """Nothing is known any more of what the session does: from now on each edit for one of these states is refused as `base`."""
        self._is_over = True

    @property
    def first(self) -> int:
        """The number of the oldest state for which an edit is carried."""
        return self.number - len(self._steps)

    @property
    def documents(self) -> Dict[Any, Any]:
        """The documents of the newest state."""
        assert self._newest.kept is not None
        return self._newest.kept

    def changed(self, words: Words, documents: Dict[Any, Any] | None = None) -> None:
        """Takes a change over: the word of each document that it changed, and the documents after it where they are known."""
        if documents is None:
            documents = {name: act(self.types[name], old, words.get(name, [])) for name, old in self.documents.items()}
        before = self._newest
        self._newest = _State(documents, before, words)
        before.let_go()
        step = _Step(before, self._newest, words)
        self._done.append(step)
        self._append(step)

    def went_back(self) -> bool:
        """Takes over that the session is in the state before its last change again. Returns whether that state is still known."""
        if not self._done:
            return False
        step = self._done.pop()
        before = step.near
        before.kept = {name: before.document(self.types, name) for name in self.types}
        self._newest.let_go()
        self._newest = before
        self._append(_Step(step.far, before, step.words, is_back=True))
        return True

    def _append(self, step: _Step) -> None:
        self._steps.append(step)
        self.number += 1

    def document(self, name: Any, number: int) -> Any:
        """A document as it was in a state. Raises NotTaken where that is not known."""
        self._need_known(number)
        return (self._newest if number == self.number else self._steps[number - self.first].near).document(self.types, name)

    def bridges(self, name: Any, number: int) -> List[Bridge]:
        """The bridges that lead from a document in a state to the newest one, one after another. Raises NotTaken where it is not known.

        A change that was taken back, or made again, has none.
        """
        self._need_known(number)
        left: List[_Step] = []
        for place in range(number - self.first, len(self._steps)):
            step = self._steps[place]
            if left and step.takes_back(left[-1]):
                left.pop()
            else:
                left.append(step)
        return [it.bridge(self.types, name) for it in left]

    def _need_known(self, number: int) -> None:
        if self._is_over:
            raise unknown_base("the session was opened again, and what it did meanwhile is not known")
        if number > self.number:
            raise unknown_base(f"state {number}, for which this edit was made, is not there yet: the newest one is {self.number}")
        if number < self.first:
            known = f"edits are taken for states from {self.first} on"
            raise unknown_base(f"state {number}, for which this edit was made, is not known any more: {known}")


class OlderEdits:
    """Edits of a document that their author has made one after another, the first for the state `number`.

    `near` is the document as the author has it. `parts` lead from there to the newest document. An edit that is not taken stays in `near`:
    the author has made those after it with it, and the ones that rest on it are not taken either. `count` is the number of the last edit;
    whoever numbers edits in another way sets it before each.
    """

    def __init__(self, states: OlderStates, name: Any, number: int) -> None:
        self.states, self.name = states, name
        self.near = states.document(name, number)
        self.parts: List[Part] = []
        self._seen, self.count = number, 0

    def carried(self, *words: Any) -> List[Any]:
        """The words of an edit for the newest document. It is not sent by this: `taking` is for an edit that others follow.

        Raises NoApply or NotAnEdit where one does not act on the document for which it was made, and NotTaken.
        """
        self._after(words)
        return self._carried(words)[0]

    @contextmanager
    def taking(self, *words: Any) -> Iterator[List[Any]]:
        """For `with`: gives the words of an edit for the newest document, which the session is to take inside. Raises as `carried` does.

        Where anything is raised inside, the edit counts as not taken. Else the session has taken it as its next change.
        """
        self.count += 1
        after = self._after(words)
        try:
            carried, parts = self._carried(words)
            yield carried
        except BaseException:
            back = flipped(bridge_of(self.states.types[self.name], _joined(words), self.near))
            self.parts, self.near = [(back, self.count), *self.parts], after
            raise
        self.near, self.parts, self._seen = after, parts, self._seen + 1

    def _after(self, words: Sequence[Any]) -> Any:
        near = self.near
        for word in words:
            near = act(self.states.types[self.name], near, word)
        return near

    def _carried(self, words: Sequence[Any]) -> Tuple[List[Any], List[Part]]:
        self.parts = [*self.parts, *((it, None) for it in self.states.bridges(self.name, self._seen))]
        self._seen = self.states.number
        parts, far, at = self.parts, self.states.documents[self.name], 0
        made: List[Any] = []
        for number, word in enumerate(words):
            made.append([])
            for primitive in word:
                try:
                    piece, parts = _over(parts, primitive)
                    far = act(self.states.types[self.name], far, piece)
                except (_NoPlace, NoApply) as why:
                    raise _refused(why, number, at, _joined(words)) from None
                made[-1] += piece
                at += 1
        return made, parts


class _NoPlace(Exception):
    """A primitive that is not carried over a bridge: the cause, and the number of the edit that the bridge takes back, or None."""

    def __init__(self, cause: Cause, rests_on: Optional[int]) -> None:
        super().__init__(cause)
        self.cause, self.rests_on = cause, rests_on


def _refused(why: _NoPlace | NoApply, word: int, at: int, edit: List[Any]) -> NotTaken:
    """The refusal of an edit for a primitive that has no place, or whose sum does not fit any more."""
    if isinstance(why, NoApply):
        refused = NotTaken(why.cause, CAUSES[why.cause], at)
    elif why.rests_on is None:
        refused = NotTaken(why.cause.value, SENTENCES[why.cause], at)
    else:
        refused = NotTaken(why.cause.value, f"this edit rests on edit {why.rests_on}, which was not taken", at, why.rests_on)
    refused.word, refused.edit = word, edit
    return refused


def _joined(words: Sequence[Any]) -> List[Any]:
    return [it for word in words for it in word]


def _over(parts: List[Part], primitive: Any) -> Tuple[List[Any], List[Part]]:
    """A primitive over bridges, one after another. Raises _NoPlace."""
    piece: List[Any] = [primitive]
    behind: List[Part] = []
    for bridge, rests_on in parts:
        try:
            piece, bridge = carry(bridge, piece)
        except NotCarried as why:
            raise _NoPlace(why.cause, rests_on) from None
        behind += [(bridge, rests_on)] if bridge != SAME else []
    return piece, behind
