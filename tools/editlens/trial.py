"""Edits that are tried out on a second run of a session, before the first one gets them."""

from __future__ import annotations

from contextlib import contextmanager
from typing import TYPE_CHECKING, Any, Iterable, Iterator, Sequence

from .answers import OTHER, Refused, RunEnded
from .construct import set_steps, words_of
from .json_text import write_json
from .private import Private, PrivateLoss, takes_away

if TYPE_CHECKING:
    from .natural.to_edit import Part

MOST_PIECE = 100_000
"""About so many bytes of an edit are tried out in a line."""


class TrialEnded(Exception):
    """The second run, on which an edit was tried out, could not be made or has ended. Nothing was sent."""

    def __init__(self, why: object) -> None:
        super().__init__(f"the second run of the program, on which an edit is tried out, has ended, and nothing was sent: {why}")


class Trial:
    """A twin of a session: another run of its lens program in the same state. It is made where it is first needed.

    From then on it takes each change of the session. One that it took and that the session did not get leaves it ahead: then it is stopped,
    and made anew where it is needed again.
    """

    def __init__(self, session: Any) -> None:
        self.session, self._is_ahead = session, False
        self._twin: Any = None
        self._state: Any = None
        self._private: dict[str, Private] = {}

    def run(self) -> Any:
        """The twin, in the state of the session."""
        if self._twin is None or self._is_ahead or self._state is not self.session.documents:
            self.stop()
            self._twin, self._state = self.session.twin(), self.session.documents
        return self._twin

    def stop(self) -> None:
        """Stops the twin where there is one."""
        twin, self._twin, self._is_ahead = self._twin, None, False
        if twin:
            twin.stop()

    @contextmanager
    def kept_in_step(self) -> Iterator[None]:
        """For `with`: where what is tried out there does not come to the session, the twin is stopped."""
        try:
            yield
        except BaseException:
            if self._is_ahead:
                self.stop()
            raise

    def follow(self, change: Any) -> None:
        """Takes a change that the session has accepted. A twin that is ahead has taken it before."""
        self._state = self.session.documents
        try:
            if self._twin and not self._is_ahead and isinstance(self._twin.line(write_json(change)), Refused):
                self.stop()
        except RunEnded:
            self.stop()
        self._is_ahead = False

    def private(self, side: str) -> Private:
        """What a side has for itself, as Private."""
        if side not in self._private:
            self._private[side] = Private(self.session.program, side, self.session.types)
        return self._private[side]

    def carry(self, side: str, parts: Iterable[Part], keeps_private: bool, is_begun: bool = False) -> dict[str, Any]:
        """Has the twin take the parts of a patch of a side, and returns both documents then. With `is_begun`, other patches came before.

        Raises PrivateLoss where the other side loses what it alone has, Refused, and TrialEnded.
        """
        private = self.private(OTHER[side]) if keeps_private else None
        try:
            twin = self._twin if is_begun else self.run()
            self._is_ahead = True
            for part in parts:
                carry(twin, side, part, private)
            return twin.documents
        except (RunEnded, OSError) as why:
            raise TrialEnded(why) from None


def carry(twin: Any, side: str, part: Part, private: Private | None, is_known: bool = True) -> None:
    """Sends a part of a patch, in pieces. Raises PrivateLoss where it takes what the other side alone has and does not say so."""
    before = twin.documents[OTHER[side]]
    words = [twin.entry(side, piece).word for piece in words_of(part.steps, MOST_PIECE)]
    if private and not part.is_removal() and any(map(takes_away, words)):
        places, orders = private.lost(before, words, is_known)
        if places or orders:
            raise PrivateLoss(part.number, part.ops[0], OTHER[side], places, orders)


def need_no_loss(session: Any, side: str, document: Any, parts: Sequence[Part]) -> None:
    """Raises PrivateLoss where the parts of a patch of a document may make the other side lose private data.

    `session` is one at its initial documents. The other document is not known, so all that its type has counts.
    """
    private = Private(session.program, OTHER[side], session.types)
    if not private.has_any() or not any(takes_away(part.word()) and not part.is_removal() for part in parts):
        return
    for piece in words_of(set_steps(session.types[side], document)):
        session.entry(side, piece)
    for part in parts:
        carry(session, side, part, private, is_known=False)
