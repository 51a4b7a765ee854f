"""Writes rows of `compact`, `copy` and `back` over stores of hubs for case_copies. Its stores are put together from their payloads."""

import copy
import json

from editlens.construct import construct
from editlens.edits import act
from editlens.types import initial

from ..kept_hubs import KeptHub, snapshot, state_lines
from ..lenses import missing, translate, type_on
from ..steps import write_step
from ..stores import MARK, log
from .kept_hubs import FIRST, SECOND, THIRD

X3 = (0, [{"at": ["x", [{"set": 3}]]}])
X7 = (0, [{"at": ["x", [{"set": 7}]]}])
Q2 = (1, [{"at": ["q", [{"add": 2}]]}])
A4 = ("hub", [{"at": ["a", [{"set": 4}]]}])
B6 = ("hub", [{"at": ["b", [{"set": 6}]]}])
OWN = (2, [{"at": ["own", [{"set": "mine"}]]}])


def step(words, status, wanted, before, after=None, number=0):
    """The bytes of a step over the store of a hub."""
    return write_step(["hub", *words], status, b"", wanted.encode(), number, (before, before if after is None else after))


class History:
    """A hub that is kept, and the hub that there was after each of its records."""

    def __init__(self, *lenses):
        self.kept = KeptHub(lenses)
        self.hubs = [copy.deepcopy(self.kept.hub)]

    def note(self):
        """Notes the hub after the record that was put behind the others."""
        self.hubs.append(copy.deepcopy(self.kept.hub))
        assert len(self.hubs) == len(self.kept.payloads), (self.hubs, self.kept.payloads)

    def edit(self, at, word):
        """An edit that is accepted."""
        assert self.kept.edit(1, at, word).startswith("ok")
        self.note()

    def group(self, *edits):
        """A group of edits that is accepted."""
        assert self.kept.group(1, list(edits)).startswith("ok")
        self.note()

    def add(self, lens):
        """A view more."""
        self.kept.add(lens)
        self.note()

    def pack(self):
        """A snapshot."""
        self.kept.pack()
        self.note()

    def undo(self, count):
        """The last changes taken back."""
        assert self.kept.undo(count)
        self.note()

    def payloads(self):
        """All payloads."""
        return list(self.kept.payloads)

    def compacted(self):
        """The payloads of the compacted store: the first one, those that add a view, and the snapshot."""
        first, *others = self.kept.payloads
        return [first, *(it for it in others if list(json.loads(it)) == ["add"]), snapshot(self.kept.hub)]

    def earlier(self, number):
        """The hub after the record with this number, or after the last one, with the views that were added later."""
        hub = copy.deepcopy(self.hubs[min(number, len(self.hubs)) - 1])
        for lens in self.kept.hub.lenses[len(hub.lenses) :]:
            word, comp = translate(lens, 0, missing(lens), construct(hub.type, hub.doc))
            right = type_on(1, lens)
            hub.lenses.append(lens)
            hub.comps.append(comp)
            hub.views.append(act(right, initial(right), word))
        return hub


def remade(history):
    """The store is compacted and copied, and taken back to each of its records, and to one behind the last."""
    held = history.payloads()
    made = history.compacted()
    yield step(["compact"], 0, "compacted %d %d\n" % (len(held), len(made)), log(*held), log(*made))
    yield step(["show"], 0, state_lines(history.kept.hub), log(*made), number=1)
    yield step(["verify"], 0, "consistent 0\n", log(*made), number=2)
    yield step(["compact"], 0, "compacted %d %d\n" % (len(made), len(made)), log(*made), number=3)
    yield step(["copy"], 0, "copied %d\n" % len(held), log(*held))
    for number in (*range(1, len(held) + 2), 99):
        hub = history.earlier(number)
        back = log(*held, snapshot(hub))
        yield step(["back", str(number)], 0, "back %d\n" % number, log(*held), back)
        yield step(["show"], 0, state_lines(hub), back, number=1)
        yield step(["verify"], 0, "consistent %d\n" % history.kept.count(), back, number=2)


def histories():
    """Hubs with changes, groups, snapshots, changes that were taken back, and views that were added between them."""
    start = History(FIRST)
    yield start
    changed = History(FIRST, SECOND)
    changed.edit(*X3)
    changed.edit(*Q2)
    changed.group(A4, X7)
    yield changed
    added = History(FIRST)
    added.edit(*X3)
    added.add(SECOND)
    added.edit(*Q2)
    added.edit(*A4)
    added.add(THIRD)
    added.edit(*OWN)
    added.group(B6, X7)
    yield added
    packed = History(FIRST)
    packed.add(SECOND)
    packed.edit(*X3)
    packed.pack()
    packed.edit(*A4)
    packed.undo(1)
    packed.add(THIRD)
    packed.edit(*OWN)
    yield packed
    last = History(FIRST)
    last.edit(*X7)
    last.add(SECOND)
    yield last


def refused():
    """What is no store of a hub is refused for its reason, and nothing is made."""
    history = History(FIRST)
    history.edit(*X3)
    first, change = history.payloads()
    added = '{"add":"main id int"}'
    for bytes_of_store, reason in (
        (b"", "not-a-log"),
        (MARK, "not-a-log"),
        (log(), "bad-record 1"),
        (log("{}"), "bad-record 1"),
        (log(change), "bad-record 1"),
        (log(first, change)[:-1], "bad-record 2"),
        (log(first, added), "bad-record 2"),
        (log(first, change, first), "bad-record 3"),
        (log(first, change, '{"add":7}'), "bad-record 3"),
    ):
        for words in (["compact"], ["copy"], ["back", "1"], ["back", "9"]):
            yield step(words, 4, "store refused: %s\n" % reason, bytes_of_store)
    yield step(["back", "0"], 2, "", log(first, change))


def other_disks():
    """The other disk is not empty or fails, or the sink fails: then the store from before is there as it was."""
    history = History(FIRST)
    history.edit(*X3)
    held = log(*history.payloads())
    for word in ("compact", "copy"):
        yield step([word, "taken"], 4, "store refused: log-exists\n", held)
        yield step([word, "fails-at-once"], 7, "", held)
        yield step([word, "fails-later"], 7, "", held)
    for words in (["compact"], ["copy"], ["back", "1"]):
        yield write_step(["hub", *words], 6, b"", b"", stores=(held, held), devices={"sink_fails": [0]})


def files():
    """The file of cases."""
    rows = [row for history in histories() for row in remade(history)]
    yield "case_copies/data/hub_copies.cases", b"".join([*rows, *refused(), *other_disks()])
