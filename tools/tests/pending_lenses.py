"""Edits on their way over random lenses: three clients on each side of a session, which the translation of `reference/` makes."""

import collections
import random
import sys

from editlens.edits import act
from editlens.program import TOP
from editlens.types import initial

from .bridged import some_word
from .chance import some_type
from .rooms import OTHER, Room, Seat, run

if TOP not in sys.path:
    sys.path.append(TOP)

from reference.consistency import answer  # noqa: E402
from reference.lenses import missing, translate, type_on  # noqa: E402

NEEDS_PROGRAM = False
RUNS = 150
"""How many runs the gate makes."""


def some_lens(depth=3):
    """A random lens, as `reference/lenses.py` has them."""
    if not depth:
        return ("id", some_type(1))
    kind = random.choice(["id", "rec", "rec", "alt", "each", "each", "keyed", "tree", "part", "inv", "then"])
    if kind == "id":
        return ("id", some_type(depth - 1))
    if kind == "part":
        return ("part", [(tag, some_type(1)) for tag in random.sample("pqr", random.randint(1, 3))])
    if kind == "rec":
        return ("rec", [some_row(name, depth) for name in random.sample("abcd", random.randint(1, 3))])
    if kind == "alt":
        return ("alt", [(tag, tag + "z", some_lens(depth - 1)) for tag in random.sample("pqr", random.randint(1, 3))])
    inner = some_lens(depth - 1)
    return ("then", ("inv", inner), inner) if kind == "then" else (kind, inner)


def some_row(name, depth):
    """A row that ties two fields, or a field of one side alone."""
    if random.random() < 0.5:
        return (name, random.choice([name, name + "z"]), some_lens(depth - 1))
    return (random.choice(["left", "right"]), name, some_type(1))


class Pair:
    """A session over a lens, without the program: both documents, and the complement."""

    def __init__(self, lens):
        self.lens, self.complement = lens, missing(lens)
        self.types = {side: type_on(number, lens) for number, side in enumerate(OTHER)}
        self.documents = {side: initial(ty) for side, ty in self.types.items()}

    def send(self, side, word):
        """Makes an edit of a side, and returns the word of each side. Raises NoApply."""
        edited = act(self.types[side], self.documents[side], word)
        far, self.complement = translate(self.lens, list(OTHER).index(side), self.complement, word)
        other = OTHER[side]
        self.documents = {side: edited, other: act(self.types[other], self.documents[other], far)}
        assert answer(self.lens, self.documents["left"], self.complement, self.documents["right"]) == "consistent"
        return {side: word, other: far}


def make_some(seat):
    word, _ = some_word(seat.client.ty, seat.client.shown, random.choice([1, 1, 2, 3]))
    if word:
        seat.client.edit(word)


def lens_run(carries, losing):
    """A run over a random lens, which has something to edit on both sides. Both sides begin with some edits."""
    pair = Pair(some_lens())
    while any(ty.kind in ("unit", "bool", "enum") for ty in pair.types.values()):
        pair = Pair(some_lens())
    for side in OTHER:
        word, _ = some_word(pair.types[side], pair.documents[side], 4)
        pair.send(side, word)
    room = Room(pair, carries)
    seats = [Seat(room, side, losing) for side in OTHER for _ in range(3)]
    run(room, seats, random.randint(3, 12), make_some)
    return len(room.changes), sum(len(seat.lost) for seat in seats)


def test_both_sides_are_equal_at_rest():
    counts = collections.Counter()
    for number in range(RUNS):
        changes, lost = lens_run(number % 2 == 0, random.choice([0, 0, 0.1]))
        counts["changes"] += changes
        counts["lost"] += lost
    assert counts["changes"] > 2 * RUNS and counts["lost"] > RUNS // 30, counts
