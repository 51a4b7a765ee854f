"""Writes long runs of two sites that take turns for case_commands.

Each run has 1,000 events: they lose, repeat and reorder packets, and restart sites.
"""

import random

from editlens.json_text import write_json

from ..documents import INT
from ..lenses import text_of, type_on
from ..links import SIDES, Link
from ..steps import write_step
from .lenses import CARD, TAGS


def left_word(chance, doc, fill):
    """A random word for a mixed list: now and then one that does not apply."""
    size = len(doc)
    kind = chance.choice(("ins", "del", "move", "switch", "fill", "fill"))
    if kind == "ins" or size == 0:
        return [{"ins": chance.randint(1, 2)}]
    place = chance.randrange(size + (chance.random() < 0.05))
    if kind == "del":
        return [{"del": 1}]
    if kind == "move":
        return [{"move": [place, chance.randrange(size)]}]
    old = next(iter(doc[min(place, size - 1)]))
    new = chance.choice(sorted(fill)) if kind == "switch" else old
    name, word = ("switch", [old, new, fill[new](chance)]) if kind == "switch" else ("stay", [old, fill[old](chance)])
    return [{"mod": [place, [{name: word}]]}]


def right_word(chance, doc, fill):
    """A random word for the lists into which the items go."""
    tag = chance.choice(sorted(fill))
    size = len(doc[tag])
    kind = chance.choice(("ins", "del", "move", "fill", "fill"))
    if kind == "ins" or size == 0:
        return [{"at": [tag, [{"ins": 1}]]}]
    place = chance.randrange(size + (chance.random() < 0.05))
    if kind == "del":
        return [{"at": [tag, [{"del": 1}]]}]
    if kind == "move":
        return [{"at": [tag, [{"move": [place, chance.randrange(size)]}]]}]
    return [{"at": [tag, [{"mod": [place, fill[tag](chance)]}]]}]


def schedule(lens, fills, seed):
    """The bytes of a case with 1,000 random events."""
    chance, link, lines, events, refused = random.Random(seed), Link(lens), [], [], False
    for number in range(1, 1001):
        side = chance.randrange(2)
        kind = chance.choices(("edit", "seal", "send", "deliver", "restart"), (10, 3, 6, 8, 1))[0]
        if kind == "edit":
            doc = link.sites[side].after_draft()
            event = {"edit": [SIDES[side], (left_word, right_word)[side](chance, doc, fills[side])]}
        elif kind == "deliver":
            # Mostly one of the last packets, and now and then one that was never sent.
            event = {"deliver": max(0, len(link.packets) - chance.randint(0, 6))}
        else:
            event = {kind: SIDES[side]}
        accepted, said = link.step(event)
        refused = refused or not accepted
        events.append(write_json(event))
        lines.append("%s %d %s" % ("ok" if accepted else "refused", number, said))
    left, right = link.sites
    lines += ["left " + write_json(left.doc), "right " + write_json(right.doc), "complement " + write_json(left.comp), "numbers %d %d" % (left.number, right.number)]
    given, wanted = "main %s\n---\n%s\n" % (text_of(lens), "\n".join(events)), "\n".join(lines) + "\n"
    return write_step(["link"], int(refused), given.encode(), wanted.encode())


PLAIN = {"p": lambda c: [{"set": "t%d" % c.randrange(100)}], "o": lambda c: [{"add": c.randrange(10)}], "b": lambda c: [{"set": c.random() < 0.5}]}
PARTED = ("then", ("each", ("alt", [("p", "p", CARD), ("o", "o", ("id", INT))])), ("part", [("p", type_on(1, CARD)), ("o", INT)]))
LEFT_CARD = {"p": lambda c: [{"at": [c.choice(("name", "age")), [{"set": "t%d" % c.randrange(100)}]]}], "o": PLAIN["o"]}
RIGHT_CARD = {"p": lambda c: [{"at": [c.choice(("label", "note")), [{"set": "t%d" % c.randrange(100)}]]}], "o": PLAIN["o"]}


def files():
    """The file of cases."""
    lenses = ((("part", TAGS), (PLAIN, PLAIN)), (PARTED, (LEFT_CARD, RIGHT_CARD)))
    yield "case_commands/data/link_schedules.cases", b"".join(schedule(*lens, seed) for seed in range(4) for lens in lenses)
