"""Writes runs of hubs for case_commands, worked out by the rules of docs/MEANING.md and docs/EDITS.md."""

import random

from editlens.json_text import write_json

from ..documents import INT, TEXT
from ..hubs import Hub
from ..lenses import text_of, type_on
from ..steps import write_step
from .links import left_word, right_word


def step(programs, entries, wanted, status):
    """The bytes of a run of a hub with these programs."""
    journal = "".join(write_json({"at": at, "edit": word}) + "\n" for at, word in entries)
    given = "\n+++\n".join(programs) + "\n---\n" + journal
    return write_step(["hub"], status, given.encode(), wanted.encode())


def case(lenses, entries):
    """The bytes of a run of a hub with these lenses."""
    hub, lines, refused = Hub(lenses), [], False
    for number, (at, word) in enumerate(entries, 1):
        accepted, said = hub.step(at, word)
        refused = refused or not accepted
        lines.append("%s %d %s" % ("ok" if accepted else "refused", number, said))
    lines.append("hub " + write_json(hub.doc))
    for view in range(len(lenses)):
        lines += ["view %d %s" % (view, write_json(hub.views[view])), "complement %d %s" % (view, write_json(hub.comps[view]))]
    return step(["main " + text_of(lens) for lens in lenses], entries, "\n".join(lines) + "\n", int(refused))


def rows():
    """64 views and 65, a view whose edit reaches no other, and two views of one list, one of them by kinds."""
    two = [("rec", [("a", "x", ("id", INT)), ("left", "b", INT)]), ("rec", [("a", "p", ("id", INT)), ("b", "q", ("id", INT))])]
    yield case(two, [(0, [{"at": ["x", [{"set": 3}]]}]), (1, [{"at": ["q", [{"add": 2}]]}]), (2, [])])
    yield step(["main id int", "main id text"], [], "program refused: views-differ 1\n", 3)
    many = [("rec", [("a", "v%d" % view, ("id", INT)), ("right", "own", TEXT)]) for view in range(65)]
    yield case(many[:64], [("hub", [{"at": ["a", [{"set": 1}]]}]), (63, [{"at": ["v63", [{"add": 1}]]}]), (7, [{"at": ["own", [{"set": "x"}]]}]), (64, [])])
    yield step(["main " + text_of(lens) for lens in many], [("hub", [])], "program refused: too-many-views\n", 3)
    tags = [("o", INT), ("p", TEXT)]
    lists = [("part", tags), ("each", ("alt", [("o", "number", ("id", INT)), ("p", "name", ("id", TEXT))])), ("id", type_on(0, ("part", tags)))]
    fill = {"o": lambda c: [{"add": c.randrange(10)}], "p": lambda c: [{"set": "t%d" % c.randrange(100)}]}
    for seed in range(3):
        chance, hub, entries = random.Random(seed), Hub(lists), []
        for _ in range(120):
            at = chance.choice(("hub", 0, 2))
            word = right_word(chance, hub.views[0], fill) if at == 0 else left_word(chance, hub.doc, fill)
            hub.step(at, word)
            entries.append((at, word))
        yield case(lists, entries)


def files():
    """The file of cases."""
    yield "case_commands/data/hub_rows.cases", b"".join(rows())
