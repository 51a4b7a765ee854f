"""A session with clients at a distance, for the tests of pending edits: what is sent takes its time, is lost, or comes in another order."""

import random

from editlens.edits import NoApply, act
from editlens.pending import STALE, PendingEdits
from editlens.rebase import NotCarried, bridge_of, carry

OTHER = {"left": "right", "right": "left"}


class Documents:
    """A session of one document, which both sides share: a word is translated to itself."""

    def __init__(self, ty, document):
        self.types = {"left": ty, "right": ty}
        self.documents = {"left": document, "right": document}

    def send(self, side, word):
        """Makes an edit, and returns the word of each side. Raises NoApply."""
        document = act(self.types[side], self.documents[side], word)
        self.documents = {"left": document, "right": document}
        return {"left": word, "right": word}


class Room:
    """A session and its changes. Where `carries` is true, it carries an offer that was made for an older state; else that one is stale."""

    def __init__(self, session, carries):
        self.session, self.carries = session, carries
        self.changes, self.bridges, self.answers = [], [], {}

    def take(self, side, offer):
        """Answers an offer: None where it is made, or the cause of its refusal. One that is sent again has the same answer."""
        if offer.ticket not in self.answers:
            self.answers[offer.ticket] = self._made(side, offer)
        return self.answers[offer.ticket]

    def _made(self, side, offer):
        word, before = offer.word, self.session.documents
        if offer.number != len(self.changes) and not self.carries:
            return STALE
        try:
            for bridges in self.bridges[offer.number :]:
                word = carry(bridges[side], word).word
            words = self.session.send(side, word)
        except NotCarried as why:
            return why.cause.value
        except NoApply as why:
            return why.cause
        self.bridges.append({it: bridge_of(self.session.types[it], words[it], before[it]) for it in OTHER})
        self.changes.append((words, offer.ticket))
        return None


class Seat:
    """A client of a room, with what is on its way to it and from it. Changes come in order; refusals may come before or after them."""

    def __init__(self, room, side, losing):
        self.room, self.side, self.losing = room, side, losing
        self.sent, self.refusals, self.seen, self.lost = [], [], len(room.changes), []
        self.is_cut = False
        self.client = PendingEdits(room.session.types[side], self.seen, room.session.documents[side], self)

    def offer(self, offer):
        if not self.is_cut:
            self.sent.append(offer)

    def steps(self):
        """What can happen here now."""
        found = [self.join] if self.is_cut else [self.arrive] if self.sent else []
        if not self.is_cut:
            found += [self.hear] if self.refusals else []
            found += [self.see] if self.seen < len(self.room.changes) else []
        return found

    def arrive(self):
        """An offer comes to the session."""
        offer = self.sent.pop(0)
        cause = self.room.take(self.side, offer)
        if cause is not None:
            self.refusals.append((offer.ticket, cause))
        if random.random() < self.losing:
            self.cut()

    def hear(self):
        self.lost += self.client.refused(*self.refusals.pop(0))

    def see(self):
        words, ticket = self.room.changes[self.seen]
        self.seen += 1
        self.lost += self.client.took(self.seen, words[self.side], ticket)
        if random.random() < self.losing:
            self.cut()

    def cut(self):
        """The connection is lost, with all that is on its way."""
        self.sent, self.refusals, self.is_cut = [], [], True

    def join(self):
        """There is a connection again: changes come again from the last one that came, or from one before it."""
        self.is_cut, self.seen = False, self.client.number - random.randint(0, min(1, self.client.number))
        self.client.again()


def run(room, seats, edits, make):
    """Runs a room until all is at rest. `make` makes an edit at a seat, and is called so many times."""
    speeds = [random.choice([1, 1, 3, 9]) for _ in seats]
    while True:
        steps = [step for seat, speed in zip(seats, speeds) for step in seat.steps() for _ in range(speed)]
        if edits and (not steps or random.random() < 0.4):
            make(random.choice(seats))
            edits -= 1
        elif steps:
            random.choice(steps)()
        else:
            break
    for seat in seats:
        client = seat.client
        assert client.number == len(room.changes) and not client.waiting and client.offered is None
        assert client.shown == client.document == room.session.documents[seat.side], (client.shown, room.session.documents)
