"""Edits for older documents and edits on their way, in JavaScript: the answers are those of Python, on random documents, words and runs."""

import os
import random
import shutil
import subprocess
from functools import reduce

from editlens.edits import act
from editlens.json_text import read_json, write_json
from editlens.program import TOP
from editlens.rebase import SAME, NotCarried, bridge_of, carry, flipped, then
from editlens.types import read_type, write_type

from . import Skipped
from .bridged import small_cases, some_count, some_word
from .chance import some_document, some_type
from .pending import FIRST, ROWS, Marks
from .rooms import Documents, Room, Seat, run

NEEDS_PROGRAM = False
SCRIPT = os.path.join(TOP, "service", "tests", "rebase.mjs")
CASES = 4_000
RUNS = 60


def answers_of(rows):
    """What the script in JavaScript answers to lines."""
    node = shutil.which("node")
    if node is None:
        raise Skipped("there is no node: its Debian package is nodejs")
    lines = "".join(write_json(row) + "\n" for row in rows)
    said = subprocess.run([node, SCRIPT], input=lines, capture_output=True, text=True, check=False)
    assert said.returncode == 0, said.stderr[-2000:]
    return [read_json(line) for line in said.stdout.splitlines()]


def assert_alike(rows, wanted):
    found = answers_of(rows)
    assert len(found) == len(wanted), (len(found), len(wanted))
    for row, here, there in zip(rows, wanted, found):
        assert write_json(here) == write_json(there), (row, here, there)


def carried_words(ty, document, afters, changes, is_flipped, words, takes_back):
    """What the script answers to a line of the name `carry`, in Python."""
    bridge = reduce(then, (bridge_of(ty, word, before) for word, before in zip(changes, [document, *afters])), SAME)
    bridge, found = flipped(bridge) if is_flipped else bridge, []
    for word in words:
        try:
            more, bridge = carry(bridge, word, takes_back)
        except NotCarried as why:
            return [*found, {"at": why.at, "cause": why.cause.value, "path": list(why.path), "said": str(why)}]
        found.append(more)
    return found


def some_words(ty, document, count):
    """Random words that act one after another, and the documents after each."""
    words, afters = [], []
    for _ in range(count):
        word, document = some_word(ty, document, some_count())
        words.append(word)
        afters.append(document)
    return words, afters


def some_row():
    """A random line of the name `carry`, with its answer."""
    ty = some_type(random.choice([1, 2, 3]))
    document, is_flipped = some_document(ty), random.random() < 0.3
    changes, afters = some_words(ty, document, random.choice([1, 1, 2]))
    words, _ = some_words(ty, afters[-1] if is_flipped else document, 2)
    content = [document, afters, changes, is_flipped, words, random.random() < 0.2]
    return ["carry", write_type(ty), *content], carried_words(ty, *content)


def test_edits_are_carried_alike():
    rows, wanted = zip(*(some_row() for _ in range(CASES)))
    assert_alike(rows, wanted)
    assert sum(isinstance(it[-1], dict) for it in wanted) > CASES // 50


def test_small_edits_are_carried_alike():
    rows, wanted = [], []
    for ty, document, primitives in small_cases(3):
        for first in primitives:
            content = [document, [act(ty, document, [first])], [[first]], False]
            for second in primitives:
                rows.append(["carry", write_type(ty), *content, [[second]], False])
                wanted.append(carried_words(ty, *content, [[second]], False))
    assert_alike(rows, wanted)
    assert len(rows) > 2_000


class Listening(Seat):
    """A client that keeps all that happens at it, with what it shows after each event."""

    def __init__(self, room, side, losing):
        self.offers, self.events, self.states = [], [], []
        super().__init__(room, side, losing)
        client, self.begin = self.client, [len(room.changes), room.session.documents[side]]
        self.real, self.client = client, self
        client.connection = self

    def __getattr__(self, name):
        return getattr(self.real, name)

    def offer(self, offer):
        self.offers.append(offer)
        super().offer(offer)

    def note(self, event, call):
        lost = call()
        self.events.append(event)
        rows = [[it.edit, it.cause, it.rests_on, it.sentence] for it in lost] if isinstance(lost, list) else []
        real, offered = self.real, self.real.offered
        waiting = [[it.edit, it.word] for it in real.waiting]
        self.states.append([real.shown, real.document, waiting, rows, offered and [offered.number, offered.word], len(self.offers)])
        return lost

    def number_of(self, ticket):
        """The number of the offer with a ticket, or None where another client made it."""
        return next((at for at, it in enumerate(self.offers) if it.ticket == ticket), None)

    def edit(self, word):
        before = self.real.shown
        act(self.real.ty, before, word)
        return self.note(["edit", word], lambda: self.real.edit(word))

    def took(self, number, word, ticket):
        return self.note(["took", number, word, self.number_of(ticket)], lambda: self.real.took(number, word, ticket))

    def refused(self, ticket, cause):
        return self.note(["refused", self.number_of(ticket), cause], lambda: self.real.refused(ticket, cause))

    def again(self):
        return self.note(["again"], self.real.again)


def test_clients_show_alike():
    rows, wanted = [], []
    for number in range(2 * RUNS):
        is_marked, ty = number % 2, read_type(ROWS)
        while not is_marked and ty.kind in ("record", "unit"):
            ty = some_type(3)
        room = Room(Documents(ty, FIRST if is_marked else some_document(ty)), random.random() < 0.5)
        seats = [Listening(room, side, random.choice([0, 0.1])) for side in ("left", "right") for _ in range(2)]
        run(room, seats, random.randint(3, 12), Marks().make if is_marked else make_some)
        rows += [["pending", write_type(ty), *seat.begin, seat.events] for seat in seats]
        wanted += [seat.states for seat in seats]
    assert_alike(rows, wanted)
    assert sum(bool(it[3]) for states in wanted for it in states) > RUNS // 10


def make_some(seat):
    word, _ = some_word(seat.real.ty, seat.real.shown, random.choice([1, 1, 2]))
    if word:
        seat.client.edit(word)
