"""Writes rows of `compact`, `copy` and `back` for case_copies. Each step is worked out by hand, and its stores are put together from their payloads."""

from ..steps import write_step
from ..stores import MARK, entry, log, program
from .stores import ADD, BOOK_CANONICAL, BOOK_STATE, BOOK_WORDS, GROUP, PLAIN, SET, STATE, step
from .undo import snapshot

VERSION = '{"version":2}'


def compacted(held, made, number=0):
    """A store of some payloads is made of others."""
    return step(["compact"], 0, "", "compacted %d %d\n" % (len(held), len(made)), log(*held), log(*made), number)


def copied(held, number=0):
    """A store is copied, and the copy has the same bytes as its log."""
    return step(["copy"], 0, "", "copied %d\n" % len(held), log(*held), log(*held), number)


def versions():
    """A compacted store has the first record, the version record if that one says version 1, and the state."""
    first, add = entry("left", SET), entry("right", ADD)
    old, new = program(PLAIN, 1), program(PLAIN)
    for held, value in (
        ((), 0),
        ((first,), 5),
        ((first, add), 6),
        ((first, snapshot(5), add), 6),
        ((first, add, snapshot(0)), 0),
        ((snapshot(7),), 7),
    ):
        yield compacted((new, *held), (new, snapshot(value)))
        yield compacted((old, *held), (old, VERSION, snapshot(value)))
        yield compacted((old, VERSION, *held), (old, VERSION, snapshot(value)))
        for payloads in ((new, *held), (old, *held), (old, VERSION, *held)):
            yield copied(payloads)
    yield compacted((new, GROUP), (new, snapshot(6)))
    yield compacted((old, first, VERSION, GROUP), (old, VERSION, snapshot(6)))
    yield copied((old, first, VERSION, GROUP))


def states():
    """The new store shows the same state, and counts no changes once it is compacted."""
    changes = entry("left", SET), entry("right", ADD)
    held, made = (program(PLAIN), *changes), (program(PLAIN), snapshot(6))
    yield step(["show"], 0, "", STATE % (6, 6), log(*held))
    yield step(["verify"], 0, "", "consistent 2\n", log(*held), number=1)
    yield copied(held, 2)
    yield step(["verify"], 0, "", "consistent 2\n", log(*held), number=3)
    yield compacted(held, made, 4)
    yield step(["show"], 0, "", STATE % (6, 6), log(*made), number=5)
    yield step(["verify"], 0, "", "consistent 0\n", log(*made), number=6)
    yield compacted(made, made, 7)
    yield copied(made, 8)


def book():
    """A lens of several parts, with its complement."""
    held = (program(BOOK_CANONICAL), *(entry(side, word) for side, word in BOOK_WORDS))
    left, right, complement = (line.split(" ", 1)[1] for line in BOOK_STATE.splitlines())
    state = '{"snapshot":{"complement":%s,"left":%s,"right":%s}}' % (complement, left, right)
    yield compacted(held, (held[0], state))
    yield copied(held)


def gone_back(held, number, value, at=0):
    """A store goes back to the state after a record, where both documents of PLAIN have this value."""
    return step(["back", str(number)], 0, "", "back %d\n" % number, log(*held), log(*held, snapshot(value)), at)


def backs():
    """A store goes back to the state after each record, or after the last one, and its version stays."""
    changes = entry("left", SET), entry("right", ADD)
    for first in ((program(PLAIN),), (program(PLAIN, 1),), (program(PLAIN, 1), VERSION)):
        held = (*first, *changes)
        for number, value in ((1, 0), (len(first), 0), (len(first) + 1, 5), (len(first) + 2, 6), (9, 6)):
            yield gone_back(held, number, value)
    held = (program(PLAIN), *changes)
    yield gone_back(held, 2, 5)
    yield step(["show"], 0, "", STATE % (5, 5), log(*held, snapshot(5)), number=1)
    yield step(["verify"], 0, "", "consistent 2\n", log(*held, snapshot(5)), number=2)
    yield gone_back((*held, snapshot(5)), 3, 6, 3)
    yield step(["back", "0"], 2, "", "", log(*held))


def refused():
    """What is no store is refused for its reason, and nothing is made."""
    first, whole = entry("left", SET), log(program(PLAIN), entry("left", SET))
    uneven = '{"snapshot":{"complement":{"rec":[null]},"left":{"a":1},"right":{"b":2}}}'
    for bytes_of_store, reason in (
        (b"", "not-a-log"),
        (MARK, "not-a-log"),
        (b"EDLENS2\n\0", "not-a-log"),
        (log(), "bad-record 1"),
        (log("{}"), "bad-record 1"),
        (log(program("main idd int")), "bad-record 1"),
        (whole[:-1], "bad-record 2"),
        (log(program(PLAIN), entry("left", '[{"at":["zz",[]]}]')), "bad-record 2"),
        (log(program(PLAIN, 1), GROUP), "bad-record 2"),
        (log(program(PLAIN), first, VERSION), "bad-record 3"),
        (log(program(PLAIN), first, uneven), "not-consistent 3"),
    ):
        for words in (["compact"], ["copy"], ["back", "1"], ["back", "9"]):
            yield step(words, 4, "", "store refused: %s\n" % reason, bytes_of_store)


def taken():
    """The other disk is not empty, which is found before anything is read."""
    for bytes_of_store in (b"", log(program(PLAIN)), log("{}")):
        for word in ("compact", "copy"):
            yield step([word, "taken"], 4, "", "store refused: log-exists\n", bytes_of_store)


def faults():
    """The other disk fails, or the sink does: then the store from before is there as it was."""
    held = log(program(PLAIN), entry("left", SET))
    for words in (["compact"], ["copy"], ["back", "1"]):
        yield sink_fails(words, held)
        yield sink_fails(words, held[:-1])
    for word in ("compact", "copy"):
        yield step([word, "fails-at-once"], 7, "", "", held)
        yield step([word, "fails-later"], 7, "", "", held)
        yield sink_fails([word, "taken"], held)


def sink_fails(words, bytes_of_store):
    """The first call of the sink fails."""
    return write_step(words, 6, b"", b"", stores=(bytes_of_store, bytes_of_store), devices={"sink_fails": [0]})


def files():
    """The file of cases."""
    parts = (versions, states, book, backs, refused, taken, faults)
    yield "case_copies/data/copies.cases", b"".join(row for part in parts for row in part())
