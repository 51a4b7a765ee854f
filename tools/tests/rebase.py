"""Edits that were made for older documents, carried to newer ones: what both ways lead to, what is refused, and where each edit is."""

import collections
import os
import random

from editlens.edits import NoApply, act
from editlens.json_text import read_json, write_json
from editlens.program import TOP
from editlens.rebase import SAME, Cause, DoesNotAct, NotCarried, bridge_of, carry, flipped, then
from editlens.rebase.bridges import Then
from editlens.types import initial, read_type

from . import raised
from .bridged import small_cases, some_count, some_word, spans
from .chance import some_document, some_type

NEEDS_PROGRAM = False
PAIRS = 4_000
"""How many random pairs of words the gate tries."""


def carried(ty, document, first, second, after):
    """Holds a pair of words against what is promised. Returns the word that the second becomes, or the cause for which it has no place."""
    bridge, alone = bridge_of(ty, first, document), act(ty, document, second)
    assert spans(ty, document, bridge, after), (document, first, bridge)
    assert spans(ty, after, flipped(bridge), document), (document, first, bridge)
    try:
        word, both = carry(bridge, second)
    except NotCarried as why:
        return why.cause
    try:
        together = act(ty, after, word)
    except NoApply as why:
        assert why.cause == "overflow", (document, first, second, word, why)
        return why.cause
    assert spans(ty, alone, both, together), (document, first, second, word, both)
    return word


def test_pairs_of_small_primitives():
    """All pairs over small documents. Each refusal is of a row of the table in docs/EDITS.md, and each of these rows refuses some pair."""
    counts, said = collections.Counter(), collections.Counter()
    for ty, document, primitives in small_cases(4):
        afters = [act(ty, document, [it]) for it in primitives]
        for first, after in zip(primitives, afters):
            for second in primitives:
                found = carried(ty, document, [first], [second], after)
                counts["all"] += 1
                if isinstance(found, Cause):
                    counts[found] += 1
                    said[found, *(next(iter(it)) for it in (first, second))] += 1
    assert set(said) == REFUSED, set(said) ^ REFUSED
    assert counts["all"] > 9_000, counts


DELETIONS = {"list": ["del"], "keyed": ["drop"], "tree": ["prune"]}
LATER = {"list": ["mod", "move"], "keyed": ["mod", "rename"], "tree": ["mod", "graft", "hang", "shift"]}
REFUSED = {
    *((Cause.GONE, first, second) for kind, firsts in DELETIONS.items() for first in firsts for second in LATER[kind]),
    (Cause.GONE, "set", "splice"),
    (Cause.GONE, "switch", "stay"),
    (Cause.GONE, "mod", "mod"),
    (Cause.KEPT, "hang", "prune"),
    (Cause.CYCLE, "hang", "hang"),
    (Cause.TAKEN, "put", "put"),
    (Cause.TAKEN, "put", "rename"),
    (Cause.TAKEN, "rename", "put"),
    (Cause.TAKEN, "rename", "rename"),
}
"""The cause of each refusal, with the names of the first and the second primitive. A `mod` in a `mod` is a switch and what it replaces."""


SIMPLE = [read_type(it) for it in ("text", "list int", "keyed int", "tree int", "tree unit", "list <p: text, f: int>")]


def some_case():
    """A type, a document and two words for it. Now and then the type is simple, and the words are long."""
    if random.random() < 0.6:
        ty = some_type(random.choice([1, 2, 3]))
        document, counts = some_document(ty), [some_count(), some_count()]
    else:
        ty = random.choice(SIMPLE)
        document = some_document(ty) if random.random() < 0.5 else some_word(ty, initial(ty), 9)[1]
        counts = random.choices([1, 2, 3, 4, 6], k=2)
    return ty, document, *(some_word(ty, document, it)[0] for it in counts)


def random_pairs(count):
    """Random pairs of words over random documents. Returns how many there were of each outcome.

    With a seed, it is run by hand for many: `random.seed(1); random_pairs(10**6)`.
    """
    counts = collections.Counter()
    for _ in range(count):
        ty, document, first, second = some_case()
        after = act(ty, document, first)
        found = carried(ty, document, first, second, after)
        counts["all"] += 1
        counts["words" if isinstance(found, list) else found] += 1
        if isinstance(found, list):
            in_two_parts(ty, document, first, second, found)
            counts["over two"] += over_two(ty, after, first, second, document)
    return counts


def in_two_parts(ty, document, first, second, word):
    """A word is carried part by part, each with the bridge that the part before left; and over nothing it stays as it is."""
    at = random.randrange(len(second) + 1)
    one, between = carry(bridge_of(ty, first, document), second[:at])
    other, _ = carry(between, second[at:])
    assert one + other == word
    assert carry(bridge_of(ty, [], document), second) == (second, SAME)


def over_two(ty, after, first, second, document):
    """A word over two changes goes over the first, and then over the second. It acts there, and both bridges lead on."""
    third, last = some_word(ty, after, some_count())
    try:
        word, both = carry(then(bridge_of(ty, first, document), bridge_of(ty, third, after)), second)
    except NotCarried:
        return False
    between, _ = carry(bridge_of(ty, first, document), second)
    assert carry(bridge_of(ty, third, after), between).word == word
    try:
        middle, together = act(ty, after, between), act(ty, last, word)
    except NoApply as why:
        assert why.cause == "overflow", why
        return False
    if isinstance(both, Then):
        assert spans(ty, act(ty, document, second), both.first, middle)
        assert spans(ty, middle, both.second, together)
    return True


def test_random_words():
    counts = random_pairs(PAIRS)
    assert counts["words"] > PAIRS // 2 and counts["over two"] > PAIRS // 3 and min(counts[Cause.GONE], counts[Cause.TAKEN]) > PAIRS // 200, counts


def test_words_that_do_not_act_are_not_carried():
    """What does not act at its own document is refused, or does not act at the newer one either, but for a sum."""
    count = 0
    for _ in range(PAIRS // 4):
        ty = some_type(2)
        document, other = some_document(ty), some_document(ty)
        first, after = some_word(ty, document, some_count())
        second, _ = some_word(ty, other, some_count())
        try:
            act(ty, document, second)
            continue
        except NoApply as why:
            cause = why.cause
        count += 1
        try:
            act(ty, after, carry(bridge_of(ty, first, document), second).word)
            assert cause == "overflow", (ty, document, first, second)
        except (NotCarried, DoesNotAct, NoApply):
            pass
    assert count > PAIRS // 40, count


EXAMPLES = [
    ("text", "one two", [{"splice": [0, 0, "> "]}], [{"splice": [4, 3, "2"]}], [{"splice": [6, 3, "2"]}]),
    ("text", "abcd", [{"splice": [2, 0, "XY"]}], [{"splice": [1, 2, ""]}], [{"splice": [1, 1, ""]}, {"splice": [3, 1, ""]}]),
    ("text", "ab", [{"splice": [1, 0, "x"]}], [{"splice": [1, 0, "y"]}], [{"splice": [2, 0, "y"]}]),
    ("text", "ab", [{"set": "c"}], [{"splice": [1, 0, "y"]}], Cause.GONE),
    ("text", "ab", [{"set": "c"}], [{"set": "d"}], [{"set": "d"}]),
    ("int", 1, [{"add": 2}], [{"add": 3}], [{"add": 3}]),
    ("list int", [1, 2, 3], [{"move": [2, 0]}], [{"mod": [2, [{"add": 5}]]}], [{"mod": [0, [{"add": 5}]]}]),
    ("list int", [1, 2, 3], [{"del": 1}], [{"mod": [2, [{"add": 5}]]}], Cause.GONE),
    ("list int", [1, 2, 3], [{"del": 1}], [{"move": [2, 0]}], Cause.GONE),
    ("list int", [1, 2, 3], [{"del": 1}], [{"del": 2}], [{"del": 1}]),
    ("list int", [1, 2, 3], [{"move": [2, 0]}], [{"del": 2}], [{"move": [0, 2]}, {"del": 2}]),
    ("list int", [1, 2, 3], [{"ins": 1}, {"move": [3, 0]}], [{"reorder": [2, 1, 0]}], [{"reorder": [0, 3, 2, 1]}]),
    ("list int", [1, 2, 3], [{"ins": 1}, {"move": [3, 0]}], [{"ins": 1}, {"move": [3, 0]}], [{"ins": 1}, {"move": [4, 1]}]),
    ("keyed int", {"a": 1}, [{"rename": ["a", "b"]}], [{"mod": ["a", [{"add": 5}]]}], [{"mod": ["b", [{"add": 5}]]}]),
    ("keyed int", {"a": 1}, [{"rename": ["a", "b"]}], [{"rename": ["a", "c"]}], [{"rename": ["b", "c"]}]),
    ("keyed int", {"a": 1}, [{"put": "b"}], [{"put": "b"}], Cause.TAKEN),
    ("keyed int", {"a": 1}, [{"drop": "a"}], [{"drop": "a"}], []),
    ("tree int", {"depths": [0, 1, 1], "items": [1, 2, 3]}, [{"shift": [[], 1, 0]}], [{"graft": [1]}], [{"graft": [0]}]),
    ("tree int", {"depths": [0, 1, 1], "items": [1, 2, 3]}, [{"hang": [[0], [0]]}], [{"hang": [[1], [0]]}], Cause.CYCLE),
    ("tree int", {"depths": [0, 1, 1], "items": [1, 2, 3]}, [{"hang": [[0], [0]]}], [{"prune": []}], Cause.KEPT),
    ("tree int", {"depths": [0, 1, 1], "items": [1, 2, 3]}, [{"hang": [[1], [0]]}], [{"shift": [[], 1, 0]}], []),
    ("<a: text, b: int>", {"a": "x"}, [{"switch": ["a", "b", []]}], [{"stay": ["a", [{"set": "y"}]]}], Cause.GONE),
    ("<a: text, b: int>", {"a": "x"}, [{"switch": ["a", "b", []]}], [{"switch": ["a", "a", []]}], [{"switch": ["b", "a", []]}]),
    ("{a: text}", {"a": "x"}, [{"at": ["a", [{"set": "y"}]]}], [{"at": ["a", [{"splice": [0, 1, ""]}]]}], Cause.GONE),
]


def test_examples():
    for text, document, first, second, wanted in EXAMPLES:
        ty = read_type(text)
        assert carried(ty, document, first, second, act(ty, document, first)) == wanted, (text, first, second)


def rows_of_page():
    """The examples of the table in docs/EDITS.md: a type, a document, two edits, and what the second becomes."""
    with open(os.path.join(TOP, "docs", "EDITS.md"), encoding="utf-8") as file:
        section = file.read().split("\n## Edits for older documents\n")[1].split("\n## ")[0]
    for line in section.split("\n"):
        cells = [it.strip("`") for it in line.strip("| ").split(" | ")]
        if line.startswith("| `") and len(cells) == 5:
            yield cells


def test_the_examples_of_the_page():
    found = list(rows_of_page())
    assert len(found) >= 20, found
    for text, document, first, second, wanted in found:
        ty, document, first, second = read_type(text), *map(read_json, (document, first, second))
        became = carried(ty, document, first, second, act(ty, document, first))
        assert wanted == (became.value if isinstance(became, Cause) else write_json(became)), (text, document, first, second, became)


def test_a_tree_that_would_be_too_deep():
    ty, tree = read_type("tree int"), {"depths": [*range(15), 1], "items": [0] * 16}
    first = [{"hang": [[1], [0] * 13]}]
    after = act(ty, tree, first)
    assert carried(ty, tree, first, [{"graft": [1]}], after) == [{"graft": [*[0] * 13, 1]}]
    assert carried(ty, tree, first, [{"graft": [1]}, {"graft": [1, 0]}], after) == Cause.DEEP


def test_a_refusal_names_its_place():
    ty = read_type("{a: list {t: text}, b: int}")
    document = {"a": [{"t": "x"}, {"t": "y"}], "b": 0}
    bridge = bridge_of(ty, [{"at": ["a", [{"mod": [1, [{"at": ["t", [{"set": "z"}]]}]]}]]}], document)
    edit = [{"at": ["b", [{"add": 1}]]}, {"at": ["a", [{"mod": [1, [{"at": ["t", [{"splice": [0, 0, "!"]}]]}]]}]]}]
    why = raised(NotCarried, lambda: carry(bridge, edit))
    assert (why.cause, why.at, why.path) == (Cause.GONE, 1, ("a", 1, "t")), why
    assert str(why) == 'gone at "a", 1, "t": what this edit changes is not there any more: another edit has deleted or replaced it'


def test_what_takes_an_older_change_back_loses_no_later_one():
    for text, document, later in (("text", "b", [{"set": "c"}]), ("text", "b", [{"splice": [0, 0, "c"]}]), ("int", 2, [{"add": 1}])):
        bridge, back = bridge_of(read_type(text), later, document), [{"set": document}]
        assert carry(bridge, back).word == back
        assert raised(NotCarried, lambda: carry(bridge, back, takes_back=True)).cause is Cause.CHANGED
    assert carry(SAME, [{"set": "a"}], takes_back=True).word == [{"set": "a"}]
