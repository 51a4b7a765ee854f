"""Writes runs of lenses for case_commands, worked out by the rules of docs/EDITS.md."""

from editlens.edits import NoApply, act
from editlens.json_text import write_json
from editlens.types import initial

from ..documents import BOOL, INT, TEXT
from ..lenses import missing, text_of, translate, type_on
from ..steps import write_step
from ..stores import line

SIDES = ("left", "right")


def case(lens, entries):
    """The bytes of a case: the script of these entries, a side with a word, and what it writes."""
    types, comp, lines, refused = [type_on(side, lens) for side in (0, 1)], missing(lens), [], False
    documents = [initial(ty) for ty in types]
    for number, (side, word) in enumerate(entries, 1):
        try:
            near = act(types[side], documents[side], word)
        except NoApply as why:
            lines.append(f"refused {number} no-apply {why.at} {why.cause}")
            refused = True
            continue
        emitted, comp = translate(lens, side, comp, word)
        documents[1 - side] = act(types[1 - side], documents[1 - side], emitted)
        documents[side] = near
        lines.append(f"ok {number} {SIDES[1 - side]} {write_json(emitted)}")
    lines += ["left " + write_json(documents[0]), "right " + write_json(documents[1]), "complement " + write_json(comp)]
    journal = "".join(line(SIDES[side], write_json(word)) for side, word in entries)
    given, wanted = f"main {text_of(lens)}\n---\n{journal}", "\n".join(lines) + "\n"
    return write_step(["run"], int(refused), given.encode(), wanted.encode())


# A record with a field that both sides know, and one of each side alone.
CARD = ("rec", [("name", "label", ("id", TEXT)), ("left", "age", INT), ("right", "note", TEXT)])


def card(place, number):
    """Fills a record at a place: the shared field and the private one of the left, and that of the right."""
    return [(0, [{"mod": [place, [{"at": ["name", [{"set": "n%d" % number}]]}, {"at": ["age", [{"set": number}]]}]]}]),
            (1, [{"mod": [place, [{"at": ["note", [{"set": "p%d" % number}]]}]]}])]


def container_rows():
    """Each shape edit of each kind, once from each side, with private fields on both sides."""
    made = {"each": ([{"ins": 3}], [0, 1, 2]), "keyed": ([{"put": "a"}, {"put": "b"}, {"put": "d"}], ["a", "b", "d"]),
            "tree": ([{"graft": []}, {"graft": []}, {"graft": [0]}], [[], [0], [1], [0, 0]])}
    edits = {"each": [{"ins": 2}, {"del": 2}, {"move": [2, 0]}, {"move": [0, 1]}, {"reorder": [2, 0, 1]}, {"reorder": [0, 0, 1]}, {"del": 4}],
             "keyed": [{"put": "c"}, {"put": "b"}, {"drop": "a"}, {"drop": "c"}, {"rename": ["a", "c"]}, {"rename": ["a", "e"]}, {"rename": ["a", "b"]}],
             "tree": [{"graft": [0]}, {"prune": []}, {"prune": [1]}, {"shift": [[], 1, 0]}, {"hang": [[1], [0]]}, {"hang": [[0], [0, 0]]}]}
    for kind, (making, places) in made.items():
        for edit in edits[kind]:
            for side in (0, 1):
                entries = [(0, making)]
                for number, place in enumerate(places):
                    entries += card(place, number)
                yield case((kind, CARD), entries + [(side, [edit])])


TAGS = [("p", TEXT), ("o", INT), ("b", BOOL)]


def part_rows():
    """Each edit of a partition, from each side and of its inverse."""
    mixed = [(0, [{"ins": 6}] + [{"mod": [p, [{"switch": ["p", tag, []]}]]} for p, tag in [(1, "o"), (2, "b"), (4, "o"), (5, "b")]])]
    part = ("part", TAGS)
    left = [{"mod": [0, [{"switch": ["p", "p", [{"set": "x"}]]}, {"stay": ["p", [{"set": "y"}]]}]]}, {"mod": [3, [{"switch": ["p", "o", [{"set": 4}]]}]]},
            {"ins": 2}, {"del": 4}, {"del": 7}, {"move": [0, 5]}, {"move": [4, 1]}, {"reorder": [3, 1, 2, 0, 4, 5]}, {"reorder": [5, 4, 3, 2, 1, 0]},
            {"reorder": [1, 0, 2, 3, 4, 5]}, {"mod": [1, [{"stay": ["o", []]}]]}, {"mod": [1, [{"stay": ["p", []]}]]}]
    right = [{"at": ["o", [{"ins": 2}, {"mod": [3, [{"set": 9}]]}]]}, {"at": ["p", [{"ins": 1}]]}, {"at": ["o", [{"del": 2}]]}, {"at": ["b", [{"del": 3}]]},
             {"at": ["b", [{"move": [0, 1]}]]}, {"at": ["p", [{"reorder": [1, 0]}]]}, {"at": ["p", [{"reorder": [0, 1]}]]}, {"at": ["q", []]},
             {"at": ["o", [{"mod": [1, [{"add": 5}]]}, {"move": [1, 0]}, {"del": 1}]]}]
    for side, edits in enumerate((left, right)):
        for edit in edits:
            yield case(part, mixed + [(side, [edit])])
            yield case(("inv", part), [(1, mixed[0][1]), (1 - side, [edit])])


def nested_rows():
    """Lenses inside lenses."""
    inner = ("keyed", ("each", ("tree", CARD)))
    entries = [(0, [{"put": "k"}, {"mod": ["k", [{"ins": 2}, {"mod": [1, [{"graft": []}]]}]]}]),
               (1, [{"mod": ["k", [{"mod": [1, [{"mod": [[0], [{"at": ["note", [{"set": "deep"}]]}]]}]]}]]}]),
               (0, [{"mod": ["k", [{"move": [1, 0]}]]}, {"rename": ["k", "a"]}]), (1, [{"mod": ["a", [{"mod": [0, [{"prune": [0]}]]}]]}])]
    yield case(inner, entries)
    mixed = ("keyed", ("alt", [("l", "r", ("part", TAGS)), ("m", "n", ("id", INT))]))
    entries = [(0, [{"put": "k"}, {"mod": ["k", [{"stay": ["l", [{"ins": 2}, {"mod": [1, [{"switch": ["p", "o", [{"set": 3}]]}]]}]]}]]}]),
               (1, [{"mod": ["k", [{"stay": ["r", [{"at": ["b", [{"ins": 1}]]}]]}]]}]), (0, [{"mod": ["k", [{"stay": ["l", [{"move": [2, 0]}]]}]]}]),
               (1, [{"mod": ["k", [{"switch": ["r", "n", [{"add": 2}]]}]]}]), (0, [{"mod": ["k", [{"switch": ["m", "l", []]}]]}])]
    yield case(mixed, entries)
    parted = ("then", ("each", ("alt", [("p", "p", CARD), ("o", "o", ("id", INT))])),
              ("part", [("p", type_on(1, CARD)), ("o", INT)]))
    entries = [(0, [{"ins": 3}]), (0, [{"mod": [1, [{"switch": ["p", "o", [{"set": 8}]]}]]}]), (1, [{"at": ["p", [{"mod": [1, [{"at": ["note", [{"set": "x"}]]}]]}]]}]),
               (0, [{"mod": [0, [{"stay": ["p", [{"at": ["age", [{"set": 4}]]}]]}]]}, {"reorder": [2, 0, 1]}]), (1, [{"at": ["p", [{"move": [0, 1]}]]}, {"at": ["o", [{"del": 1}]]}])]
    yield case(parted, entries)
    yield case(("inv", parted), [(1 - side, word) for side, word in entries])


def files():
    """The file of cases."""
    yield "case_commands/data/lenses_reference.cases", b"".join([*container_rows(), *part_rows(), *nested_rows()])
