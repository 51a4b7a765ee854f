"""Edits for older states of a session: which states are known, how edits are carried from them, and what the ones that rest on others do."""

import collections
import random

from editlens.edits import NoApply, NotAnEdit, act
from editlens.older import MOST_CHANGES, NotTaken, OlderEdits, OlderStates
from editlens.pending import PendingEdits
from editlens.types import initial, read_type

from . import raised
from .bridged import some_word
from .chance import some_document, some_type
from .pending_lenses import Pair, some_lens
from .rooms import OTHER, Room

NEEDS_PROGRAM = False
ITEMS = read_type("list {title: text, hours: int}")
PLAN = [{"title": "Roof", "hours": 8}, {"title": "Paint", "hours": 3}]


class Kept:
    """A connection that keeps what is sent."""

    def __init__(self):
        self.offers = []

    def offer(self, offer):
        self.offers.append(offer)


def titled(place, text):
    """The edit that sets the title of an item."""
    return [{"mod": [place, [{"at": ["title", [{"set": text}]]}]]}]


def refusal(call):
    """What is told of an edit that is not taken."""
    why = raised(NotTaken, call)
    return why.cause, why.at, why.rests_on


def test_an_edit_lands_at_its_item():
    states = OlderStates({"left": ITEMS}, 0, {"left": PLAN})
    states.changed({"left": [{"move": [1, 0]}]})
    assert OlderEdits(states, "left", 0).carried(titled(1, "Tiles")) == [titled(0, "Tiles")]
    assert OlderEdits(states, "left", 1).carried(titled(1, "Tiles")) == [titled(1, "Tiles")]
    states.changed({"left": [{"del": 1}]})
    assert OlderEdits(states, "left", 0).carried(titled(1, "Tiles")) == [titled(0, "Tiles")]
    why = raised(NotTaken, lambda: OlderEdits(states, "left", 0).carried([], [{"ins": 1}, *titled(0, "Tiles")]))
    assert (why.cause, why.word, why.at, why.edit) == ("gone", 1, 1, [{"ins": 1}, *titled(0, "Tiles")]) and "deleted or replaced" in why.sentence, why
    # A deletion of what is gone has nothing left to do.
    assert OlderEdits(states, "left", 0).carried([{"del": 1}]) == [[{"del": 1}]] and OlderEdits(states, "left", 1).carried([{"del": 1}]) == [[]]


def test_what_does_not_act_where_it_was_made():
    """An edit is held against the document for which it was made. One that would act by chance on the newest one is refused as well."""
    states = OlderStates({"left": ITEMS}, 3, {"left": PLAN})
    states.changed({"left": [{"ins": 1}]})
    why = raised(NoApply, lambda: OlderEdits(states, "left", 3).carried(titled(2, "Tiles")))
    assert (why.cause, why.at) == ("place", 0), why
    assert OlderEdits(states, "left", 4).carried(titled(2, "Tiles")) == [titled(2, "Tiles")]
    raised(NotAnEdit, lambda: OlderEdits(states, "left", 3).carried([{"jump": 1}]))
    counts = OlderStates({"left": read_type("int")}, 0, {"left": 1})
    counts.changed({"left": [{"set": 2**63 - 1}]})
    assert refusal(lambda: OlderEdits(counts, "left", 0).carried([{"add": 0}, {"add": 1}])) == ("overflow", 1, None)


def test_which_states_are_known():
    """Edits are taken for the last MOST_CHANGES changes. One for an older state, or for one that is not there yet, is refused as `base`."""
    states = OlderStates({"left": read_type("int")}, 0, {"left": 0})
    for _ in range(MOST_CHANGES + 5):
        states.changed({"left": [{"add": 1}]})
    assert (states.number, states.first) == (MOST_CHANGES + 5, 5)
    for number, known in ((4, False), (5, True), (MOST_CHANGES + 5, True), (MOST_CHANGES + 6, False), (-1, False)):
        if known:
            assert states.document("left", number) == number and OlderEdits(states, "left", number).carried([{"add": 2}]) == [[{"add": 2}]]
        else:
            assert refusal(lambda: OlderEdits(states, "left", number)) == ("base", None, None), number


def walked(ty, document, count):
    """The states of a random walk of changes, and of going back from them, with each document that was there."""
    states, documents, depth = OlderStates({"it": ty}, 7, {"it": document}), [document], 0
    for _ in range(count):
        if depth and random.random() < 0.35:
            assert states.went_back()
            depth -= 1
        else:
            word, _ = some_word(ty, states.documents["it"], random.choice([1, 1, 2]))
            states.changed({"it": word})
            depth += 1
        documents.append(states.documents["it"])
    return states, documents, depth


def test_documents_of_older_states():
    """Each document is the one that was there, whether it is kept or made anew, and each carried edit acts on the newest one."""
    counts = collections.Counter()
    for _ in range(40):
        ty = some_type(2)
        states, documents, depth = walked(ty, some_document(ty), random.choice([3, 10, 60, 130]))
        assert [states.document("it", number) for number in range(states.first, states.number + 1)] == documents
        for _ in range(12):
            number = random.randint(states.first, states.number)
            word, _ = some_word(ty, states.document("it", number), 2)
            try:
                (carried,) = OlderEdits(states, "it", number).carried(word)
                act(ty, documents[-1], carried)
                counts["taken"] += 1
            except NotTaken as why:
                counts[why.cause] += 1
        for _ in range(depth):
            assert states.went_back()
        assert states.documents["it"] == documents[0] and not states.went_back()
    assert counts["taken"] > 200 and counts["gone"] > 10, counts


def test_what_was_taken_back_is_no_change():
    """An item that was deleted and is there again is edited; so is one that was added, taken back and added again."""
    states = OlderStates({"left": ITEMS}, 0, {"left": PLAN})
    states.changed({"left": [{"del": 1}]})
    assert refusal(lambda: OlderEdits(states, "left", 0).carried(titled(1, "Tiles"))) == ("gone", 0, None)
    assert states.went_back() and OlderEdits(states, "left", 0).carried(titled(1, "Tiles")) == [titled(1, "Tiles")]
    add = [{"ins": 1}, {"move": [2, 0]}]
    states.changed({"left": add})
    edit = titled(0, "Door")
    assert states.went_back() and refusal(lambda: OlderEdits(states, "left", 3).carried(edit)) == ("gone", 0, None)
    states.changed({"left": add})
    assert OlderEdits(states, "left", 3).carried(edit) == [edit]
    assert OlderEdits(states, "left", 2).carried(edit) == [titled(1, "Door")]


def test_edits_that_rest_on_others():
    """An author without a connection makes edits one after another. One that is refused stays in the author's document, with what rests on it."""
    states = OlderStates({"left": read_type("keyed int")}, 0, {"left": {"roof": 8}})
    edits = OlderEdits(states, "left", 0)
    states.changed({"left": [{"put": "door"}, {"rename": ["roof", "top"]}]})

    def take(word):
        with edits.taking(word) as (carried,):
            states.changed({"left": carried})
        return carried

    assert refusal(lambda: take([{"put": "door"}])) == ("taken", 0, None)
    assert edits.near == {"door": 0, "roof": 8}
    why = raised(NotTaken, lambda: take([{"mod": ["door", [{"set": 2}]]}]))
    assert (why.cause, why.rests_on, why.sentence) == ("gone", 1, "this edit rests on edit 1, which was not taken"), why
    assert take([{"mod": ["roof", [{"add": 1}]]}]) == [{"mod": ["top", [{"add": 1}]]}]
    raised(NoApply, lambda: take([{"drop": "wall"}]))
    assert edits.near == {"door": 2, "roof": 9} and states.documents["left"] == {"door": 0, "top": 9}
    assert take([{"drop": "door"}]) == [] and take([{"put": "wall"}]) == [{"put": "wall"}]
    # What the session refuses for reasons of its own counts as not taken, too.
    with raised_inside(), edits.taking([{"put": "key"}]):
        raise KeyError
    assert refusal(lambda: take([{"rename": ["key", "lock"]}])) == ("gone", 0, 7)


class raised_inside:
    """For `with`: a KeyError comes out of it."""

    def __enter__(self):
        pass

    def __exit__(self, kind, *_):
        assert kind is KeyError
        return True


def test_edits_without_a_connection_are_those_of_pending():
    """A client of `editlens.pending` that was away for a while has the words, and loses the edits, that are found here."""
    counts = collections.Counter()
    for _ in range(250):
        ty = some_type(2)
        document = some_document(ty)
        states, client = OlderStates({"it": ty}, 0, {"it": document}), PendingEdits(ty, 0, document, Kept())
        edits, made = OlderEdits(states, "it", 0), []
        for _ in range(random.randint(1, 4)):
            word, _ = some_word(ty, client.shown, random.choice([1, 2]))
            if word:
                made.append((client.edit(word), word))
        lost = []
        for number in range(1, random.randint(2, 5)):
            word, _ = some_word(ty, states.documents["it"], 1)
            states.changed({"it": word})
            lost += client.took(number, word)
        if any(it.cause == "overflow" for it in lost):
            # The client adds after each change, and here the sum is of the newest state alone.
            continue
        # An edit with nothing left to do does not wait any more.
        waiting, told = {it.edit: it.word for it in client.waiting}, {it.edit: it.rests_on for it in lost}
        for number, word in made:
            try:
                with edits.taking(word) as (carried,):
                    states.changed({"it": carried})
                assert number not in told and waiting.get(number, []) == carried, (ty, document, made, word)
                counts["taken"] += 1
            except NotTaken as why:
                # Of several reasons the client tells that of the first change, and here it is that of the first primitive.
                assert number in told and (len(word) > 1 or why.rests_on == told[number]), (ty, document, made, word, why)
                counts["lost"] += 1
    assert counts["taken"] > 200 and counts["lost"] > 20, counts


def test_sessions_of_both_sides():
    """Edits of either side of random lenses, for random states: the answers are those of a session that carries over this side's words."""
    counts = collections.Counter()
    for _ in range(60):
        pair = Pair(some_lens())
        if any(ty.kind == "unit" for ty in pair.types.values()):
            continue
        for side in OTHER:
            pair.send(side, some_word(pair.types[side], pair.documents[side], 3)[0])
        room, states = Room(pair, carries=True), OlderStates(pair.types, 0, dict(pair.documents))
        for turn in range(12):
            side, number = random.choice(list(OTHER)), random.randint(max(0, states.number - 4), states.number)
            word, _ = some_word(pair.types[side], states.document(side, number), random.choice([1, 2]))
            try:
                (carried,) = OlderEdits(states, side, number).carried(word)
                cause = None
            except NotTaken as why:
                cause = why.cause
            assert room.take(side, Offered(turn, number, word)) == cause, (pair.lens, side, number, word)
            counts[cause] += 1
            if cause is None:
                words = room.changes[-1][0]
                assert words[side] == carried
                states.changed(words)
                assert states.documents == pair.documents
    assert counts[None] > 200 and counts["gone"] > 5, counts


class Offered:
    """An edit on its way, as a room takes it."""

    def __init__(self, ticket, number, word):
        self.ticket, self.number, self.word = ticket, number, word


def test_documents_are_not_kept_a_thousand_times():
    """Of many states few have their documents: a long list is not kept for each change."""
    states = OlderStates({"it": read_type("list int")}, 0, {"it": initial(read_type("list int"))})
    for number in range(200):
        states.changed({"it": [{"ins": 1}]})
    kept = {id(it.kept) for step in states._steps for it in (step.near, step.far) if it.kept is not None}
    assert len(kept) <= 10 and len(states.document("it", 90)) == 90
