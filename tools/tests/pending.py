"""Edits that are shown while they are on their way: runs of several clients over documents alone, and what is said of edits that are lost."""

import collections
import random

from editlens.edits import NoApply, act, paths_of
from editlens.pending import LostEdit, MissedChange, PendingEdits
from editlens.types import read_type

from . import raised
from .bridged import some_word
from .chance import some_document, some_type
from .rooms import Documents, Room, Seat, run

NEEDS_PROGRAM = False
RUNS = 300
"""How many runs of each kind the gate makes."""


class Sent:
    """A connection that keeps what is offered."""

    def __init__(self):
        self.offers = []

    def offer(self, offer):
        self.offers.append(offer)


def a_client(text, document):
    sent = Sent()
    return PendingEdits(read_type(text), 0, document, sent), sent.offers


def random_run(carries, losing):
    """A run of three clients a side over a random document."""
    ty = some_type(random.choice([2, 3]))
    while ty.kind in ("unit", "bool", "enum"):
        ty = some_type(3)
    room = Room(Documents(ty, some_document(ty)), carries)
    seats = [Seat(room, side, losing) for side in ("left", "right") for _ in range(3)]

    def make(seat):
        word, _ = some_word(seat.client.ty, seat.client.shown, random.choice([1, 1, 2, 3]))
        if word:
            seat.client.edit(word)

    run(room, seats, random.randint(2, 10), make)
    return len(room.changes), sum(len(seat.lost) for seat in seats)


def test_clients_are_equal_at_rest():
    counts = collections.Counter()
    for carries in (False, True):
        for _ in range(RUNS):
            changes, lost = random_run(carries, random.choice([0, 0, 0.1]))
            counts["changes", carries] += changes
            counts["lost", carries] += lost
    assert min(counts["changes", it] for it in (False, True)) > 2 * RUNS, counts
    assert sum(counts["lost", it] for it in (False, True)) > RUNS // 20, counts


ROWS = '{"list": list {name: text, marks: text}, "keyed": keyed {name: text, marks: text}, "tree": tree {name: text, marks: text}}'
FIRST = {"list": [], "keyed": {}, "tree": {"depths": [0], "items": [{"name": "root", "marks": ""}]}}


class Marks:
    """Edits of rows that have names: rows are added, moved and removed, and each mark is the name of the row to which a person gave it."""

    def __init__(self):
        self.names, self.made = 0, {}

    def word(self, seat):
        """An edit of what is shown at a seat, with the name of the row that it marks, or None."""
        kind = random.choice(["list", "keyed", "tree"])
        value = seat.client.shown[kind]
        rows = value["items"] if kind == "tree" else list(value.values()) if kind == "keyed" else value
        name, inner = None, getattr(self, f"_{kind}")(value)
        if rows and random.random() < 0.5:
            at = random.randrange(len(rows))
            name, place = rows[at]["name"], sorted(value)[at] if kind == "keyed" else at
            row = value[place] if kind == "keyed" else rows[at]
            name = row["name"]
            if kind == "tree":
                place = paths_of(value["depths"])[at]
            inner = [{"mod": [place, [{"at": ["marks", [{"splice": [len(row["marks"]), 0, name + ";"]}]]}]]}]
        return [{"at": [kind, inner]}], name

    def make(self, seat):
        word, name = self.word(seat)
        try:
            edit = seat.client.edit(word)
        except NoApply:
            return
        if name is not None:
            self.made[id(seat), edit] = name

    def named(self, place):
        self.names += 1
        return {"mod": [place, [{"at": ["name", [{"set": f"n{self.names}"}]]}]]}

    def _list(self, rows):
        count = len(rows)
        if not count or random.random() < 0.4:
            return [{"ins": 1}, self.named(count), {"move": [count, random.randint(0, count)]}]
        old, new = random.randrange(count), random.randrange(count)
        order = random.sample(range(count), count)
        return random.choice([[{"move": [old, new]}], [{"move": [old, count - 1]}, {"del": 1}], [{"reorder": order}]])

    def _keyed(self, rows):
        key = random.choice("abcdef")
        if key not in rows:
            return [{"put": key}, self.named(key)]
        return random.choice([[{"drop": key}], [{"rename": [key, random.choice("abcdef")]}]])

    def _tree(self, tree):
        path, other = random.choices(paths_of(tree["depths"]), k=2)
        below = tree["depths"].count(1)
        grown = [{"graft": []}, self.named([below]), {"shift": [[], below, random.randint(0, below)]}]
        moved = [{"shift": [[], random.randrange(below), random.randrange(below)]}] if below else grown
        return random.choice([grown, moved, [{"hang": [path, other]}], [{"prune": other}]])


def marks_run(carries, losing):
    """A run in which each edit must be at the row for which it was made."""
    room = Room(Documents(read_type(ROWS), FIRST), carries)
    seats = [Seat(room, side, losing) for side in ("left", "right") for _ in range(3)]
    marks = Marks()
    run(room, seats, random.randint(6, 20), marks.make)
    lost = {(id(seat), it.edit) for seat in seats for it in seat.lost}
    kept = collections.Counter(name for edit, name in marks.made.items() if edit not in lost)
    document = room.session.documents["left"]
    rows = [*document["list"], *document["keyed"].values(), *document["tree"]["items"]]
    for row in rows:
        assert row["marks"] == f"{row['name']};" * kept[row["name"]], (row, kept)
    assert len({row["name"] for row in rows}) == len(rows), rows
    return sum(kept.values()), len(lost)


def test_each_edit_is_at_its_place():
    counts = collections.Counter()
    for carries in (False, True):
        for _ in range(RUNS // 2):
            kept, lost = marks_run(carries, random.choice([0, 0, 0.1]))
            counts["kept"] += kept
            counts["lost"] += lost
    assert counts["kept"] > RUNS and counts["lost"] > RUNS // 10, counts


def test_what_rests_on_a_lost_edit_is_lost():
    client, offers = a_client("keyed {n: int}", {"a": {"n": 1}})
    assert [client.edit(it) for it in ([{"put": "b"}], [{"mod": ["b", [{"at": ["n", [{"set": 5}]]}]]}], [{"mod": ["a", [{"at": ["n", [{"add": 1}]]}]]}])] == [1, 2, 3]
    assert client.shown == {"a": {"n": 2}, "b": {"n": 5}} and [it.word for it in offers] == [[{"put": "b"}]]
    lost = client.took(1, [{"put": "b"}])
    assert lost == [LostEdit(1, "taken"), LostEdit(2, "gone", rests_on=1)]
    taken = "edit 1 was dropped: another edit has given this key to something else"
    assert [it.sentence for it in lost] == [taken, "edit 2 rests on edit 1, which was dropped"]
    assert client.shown == {"a": {"n": 2}, "b": {"n": 0}} and client.document == {"a": {"n": 1}, "b": {"n": 0}}
    assert client.refused(offers[0].ticket, "stale") == []
    assert [(it.number, it.word) for it in offers[1:]] == [(1, [{"mod": ["a", [{"at": ["n", [{"add": 1}]]}]]}])]


def test_a_refusal_of_the_session():
    client, offers = a_client("list int", [1, 2])
    client.edit([{"ins": 1}, {"move": [2, 0]}])
    client.edit([{"mod": [0, [{"set": 7}]]}])
    client.edit([{"mod": [1, [{"add": 5}]]}])
    assert client.refused(offers[0].ticket, "not-allowed") == [LostEdit(1, "not-allowed"), LostEdit(2, "gone", rests_on=1)]
    assert client.shown == [6, 2] and offers[1].word == [{"mod": [0, [{"add": 5}]]}]
    assert client.took(1, offers[1].word, offers[1].ticket) == [] and client.document == [6, 2] and not client.waiting


def test_what_stands_beside_what_a_lost_edit_has_moved():
    """The first edit moves an item to the end, and the second puts one in front of it. Without the first it stays behind the one before."""
    client, offers = a_client("list int", [1, 2, 3])
    client.edit([{"move": [0, 2]}])
    client.edit([{"ins": 1}, {"move": [3, 2]}, {"mod": [2, [{"set": 9}]]}])
    assert client.shown == [2, 3, 9, 1]
    assert client.refused(offers[0].ticket, "not-allowed") == [LostEdit(1, "not-allowed")] and client.shown == [1, 2, 3, 9]


def test_a_stale_edit_is_offered_again_when_the_changes_came():
    client, offers = a_client("list int", [1, 2])
    client.edit([{"mod": [1, [{"add": 5}]]}])
    client.refused(offers[0].ticket, "stale")
    assert len(offers) == 1 and client.shown == [1, 7]
    client.took(1, [{"move": [1, 0]}])
    assert (offers[1].number, offers[1].word) == (1, [{"mod": [0, [{"add": 5}]]}]) and offers[1].ticket != offers[0].ticket
    assert client.shown == [7, 1] and client.document == [2, 1]


def test_a_lost_connection():
    """The same offer is sent again, and a change that was here already is passed over."""
    client, offers = a_client("int", 1)
    client.edit([{"add": 1}])
    client.edit([{"add": 2}])
    client.again()
    assert offers[0] == offers[1] and len(offers) == 2
    client.took(1, [{"add": 1}], offers[0].ticket)
    client.took(1, [{"add": 1}], offers[0].ticket)
    assert (client.document, client.shown, offers[2].word) == (2, 4, [{"add": 2}])
    assert "change 3" in str(raised(MissedChange, lambda: client.took(3, [])))
    assert client.begin_again(read_type("text"), 9, "x") == [LostEdit(2, "reset")] and client.shown == "x"


def test_what_is_done_already_is_not_offered():
    client, offers = a_client("keyed int", {"a": 1})
    client.edit([{"put": "b"}])
    client.edit([{"drop": "a"}])
    client.took(1, [{"put": "b"}], offers[0].ticket)
    assert offers[1].word == [{"drop": "a"}]
    client.edit([{"drop": "b"}])
    client.took(2, [{"drop": "b"}])
    client.took(3, [{"drop": "a"}], offers[1].ticket)
    assert client.shown == {} and not client.waiting and len(offers) == 2


def test_a_session_that_makes_another_word_of_an_edit():
    """What the session says holds: the edits behind it are carried from the one to the other."""
    client, offers = a_client("list int", [1, 2])
    client.edit([{"ins": 1}])
    client.edit([{"mod": [2, [{"set": 9}]]}])
    client.edit([{"mod": [0, [{"set": 8}]]}])
    lost = client.took(1, [{"move": [1, 0]}], offers[0].ticket)
    assert [it.edit for it in lost] == [2] and client.shown == [2, 8] == act(client.ty, client.document, offers[1].word)
