"""A client that shows a person's edits at once, while they are on their way, and carries them over the changes of others.

It holds the last document that the session has answered, and the edits since then: the first is on its way, and the others wait behind it.
When a change of another comes, they are carried over it (`rebase`). An edit that has no place there any more is dropped, and those that
rest on it too; each is told with its cause.

It wants of the session what a connection of yours gives: each change in order, with its number and this side's word. It is tested and not
proved. Calls from several threads need a lock around them.
"""

from __future__ import annotations

import secrets
from dataclasses import dataclass
from typing import Any, List, Optional, Protocol, Tuple

from .edits import NoApply, act
from .rebase import Bridge, NotCarried, bridge_of, carry, flipped
from .rebase.causes import SENTENCES
from .types import Ty

STALE = "stale"
"""The cause of a refusal because changes came before: the edit is offered again when they are here."""


@dataclass(frozen=True)
class Offer:
    """An edit on its way: the state for which it was made, and a ticket that no other offer has.

    An offer that is sent again is the same. The session must not make it a second time: the ticket is its Idempotency-Key.
    """

    ticket: str
    number: int
    word: Any


class Connection(Protocol):
    """How offers go to the session. Its answers come later, by `took` and `refused`, and never inside of this call."""

    def offer(self, offer: Offer) -> None:
        """Sends an offer. It may be lost; `again` then sends it once more."""


@dataclass(frozen=True)
class LostEdit:
    """An edit that was dropped: its number, and the cause. `rests_on` is the number of the dropped edit without which it has no place."""

    edit: int
    cause: str
    rests_on: Optional[int] = None

    @property
    def sentence(self) -> str:
        """Why it was dropped, for a person."""
        if self.rests_on is not None:
            return f"edit {self.edit} rests on edit {self.rests_on}, which was dropped"
        said = {it.value: sentence for it, sentence in SENTENCES.items()}
        return f"edit {self.edit} was dropped: {said.get(self.cause, f'the session answered {self.cause}')}"


@dataclass(frozen=True)
class Waiting:
    """An edit that the session has not answered, as a word for the document after those before it."""

    edit: int
    word: Any


class MissedChange(Exception):
    """A change came whose number is not the next one. Ask for those behind `number`, or begin again."""


Part = Tuple[Bridge, Optional[int]]
"""A bridge to be carried over, and the number of the dropped edit that it takes back, or None for a change of the session."""


class PendingEdits:
    """The document as a person sees it.

    `document` is that of the state `number` of the session, and `shown` has the edits in `waiting` too.
    """

    def __init__(self, ty: Ty, number: int, document: Any, connection: Connection) -> None:
        self.ty, self.number, self.document, self.shown = ty, number, document, document
        self.connection = connection
        self.waiting: List[Waiting] = []
        self.offered: Optional[Offer] = None
        self._offered_edit, self._last_edit, self._stale_at = 0, 0, -1

    def edit(self, word: Any) -> int:
        """Makes an edit of what is shown, and returns its number. Raises NoApply where it does not act there; nothing has changed then."""
        self.shown = act(self.ty, self.shown, word)
        self._last_edit += 1
        self.waiting.append(Waiting(self._last_edit, word))
        self._offer_next()
        return self._last_edit

    def took(self, number: int, word: Any, ticket: Optional[str] = None) -> List[LostEdit]:
        """A change of the session: its number, this side's word, and the ticket if an offer became this change.

        Returns the edits that are dropped. A change that was here before is passed over. Raises MissedChange where one is left out.
        """
        if number <= self.number:
            return []
        if number > self.number + 1:
            raise MissedChange(f"change {number} came behind change {self.number}")
        before, own = self.document, self.offered is not None and ticket == self.offered.ticket
        self.document, self.number = act(self.ty, before, word), number
        first = self.waiting.pop(0) if own and self._answered() else None
        lost = [] if first and first.word == word else self._carry_over(*self._parts_of(before, word, first))
        self._offer_next()
        return lost

    def refused(self, ticket: str, cause: str) -> List[LostEdit]:
        """The session has refused an offer. Returns the edits that are dropped. Where the cause is `stale` there are none."""
        if self.offered is None or ticket != self.offered.ticket:
            return []
        number, is_first, lost = self.offered.number, self._answered(), []
        if cause == STALE:
            self._stale_at = number
        elif is_first:
            first = self.waiting.pop(0)
            back = flipped(bridge_of(self.ty, first.word, self.document))
            lost = [LostEdit(first.edit, cause), *self._carry_over([(back, first.edit)], act(self.ty, self.document, first.word))]
        self._offer_next()
        return lost

    def again(self) -> None:
        """There is a connection again: what was on its way is sent once more. The changes behind `number` must come, too."""
        if self.offered is not None:
            self.connection.offer(self.offered)

    def begin_again(self, ty: Ty, number: int, document: Any) -> List[LostEdit]:
        """The session is in a state to which no changes lead. All edits are dropped, and returned."""
        lost = [LostEdit(it.edit, "reset") for it in self.waiting]
        self.ty, self.number, self.document, self.shown = ty, number, document, document
        self.waiting, self.offered, self._stale_at = [], None, -1
        return lost

    def _answered(self) -> bool:
        """Forgets the offer. Returns whether its edit still waits: it may have been dropped meanwhile."""
        self.offered = None
        return bool(self.waiting) and self.waiting[0].edit == self._offered_edit

    def _offer_next(self) -> None:
        """Offers the first edit, unless one is on its way or the changes that made it stale have not come. Empty ones have nothing to do."""
        if self.offered is not None or self.number <= self._stale_at:
            return
        while self.waiting and not self.waiting[0].word:
            self.waiting.pop(0)
        if self.waiting:
            self._offered_edit = self.waiting[0].edit
            self.offered = Offer(secrets.token_hex(16), self.number, self.waiting[0].word)
            self.connection.offer(self.offered)

    def _parts_of(self, before: Any, word: Any, first: Optional[Waiting]) -> Tuple[List[Part], Any]:
        """The bridges over a change, and the document from which they lead. They take the edit back of which the session made this change."""
        parts: List[Part] = [(bridge_of(self.ty, word, before), None)] if self.waiting else []
        if first is None:
            return parts, before
        return [(flipped(bridge_of(self.ty, first.word, before)), None), *parts], act(self.ty, before, first.word)

    def _carry_over(self, parts: List[Part], near: Any) -> List[LostEdit]:
        """Carries the edits, made for the document `near`, over bridges that lead from there to the document of the session."""
        waiting, lost = self.waiting, []
        self.waiting, self.shown = [], self.document
        for it in waiting:
            after = act(self.ty, near, it.word)
            carried, dropped = self._carried(parts, it)
            if dropped:
                lost.append(dropped)
                parts = [(flipped(bridge_of(self.ty, it.word, near)), it.edit), *parts]
            else:
                parts = carried
            near = after
        return lost

    def _carried(self, parts: List[Part], it: Waiting) -> Tuple[List[Part], Optional[LostEdit]]:
        """Carries one edit and shows it. Returns the bridges behind it, or why it is dropped."""
        word, behind = it.word, []
        for bridge, rests_on in parts:
            try:
                word, bridge = carry(bridge, word)
            except NotCarried as why:
                return [], LostEdit(it.edit, why.cause.value, rests_on)
            behind.append((bridge, rests_on))
        try:
            self.shown = act(self.ty, self.shown, word)
        except NoApply as why:
            return [], LostEdit(it.edit, why.cause)
        self.waiting.append(Waiting(it.edit, word))
        return behind, None
