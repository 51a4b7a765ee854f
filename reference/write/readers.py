"""Writes lines and documents for case_layers whose texts are out of the ordinary, from the rules of docs/FORMATS.md.

White space, the order of members, members that come twice, escapes and numbers are at random, and lines nest as deep as a text may, and deeper.
"""

import json
import math

from editlens.documents import fits
from editlens.types import write_type

from ..edits import entry_answer
from . import lines_of
from .chance import Chance

MOST_NESTED = 127
INNERMOST = [[], [{"set": 1}], [{"reorder": [0]}]]


class Texts(Chance):
    """A source of texts of JSON."""

    def space(self):
        """White space, mostly none."""
        return self.choice(["", "", "", " ", "\t", "\r", "  "])

    def joined(self, opening, parts, closing):
        """Parts in brackets, with white space."""
        inside = ",".join(self.space() + part + self.space() for part in parts)
        return opening + (inside or self.space()) + closing

    def string(self, text):
        """A string, now and then with an escape for each character."""
        if self.random() < 0.8:
            return json.dumps(text, ensure_ascii=False)
        units = text.encode("utf-16-be")
        return '"' + "".join("\\u%04x" % int.from_bytes(units[at : at + 2], "big") for at in range(0, len(units), 2)) + '"'

    def number_text(self, number):
        """A number. Minus zero is a float."""
        if type(number) is int:
            return str(number)
        return "-0" if number == 0 and math.copysign(1, number) < 0 else self.choice([repr(number), "%.17e" % number])

    def text(self, tree):
        """A text with this tree, whose members are in any order. A name may come twice; its last member counts."""
        if isinstance(tree, dict):
            members = self.sample(list(tree.items()), len(tree))
            if members and self.random() < 0.15:
                name, _ = self.choice(members)
                members.insert(0, (name, self.changed(tree)))
            return self.joined("{", (self.string(name) + self.space() + ":" + self.space() + self.text(inner) for name, inner in members), "}")
        if isinstance(tree, list):
            return self.joined("[", map(self.text, tree), "]")
        if isinstance(tree, str):
            return self.string(tree)
        return json.dumps(tree) if tree is None or isinstance(tree, bool) else self.number_text(tree)

    def other_numbers(self, tree):
        """The tree with some of its numbers as floats, or outside of what an int can be."""
        if isinstance(tree, dict):
            return {name: self.other_numbers(inner) for name, inner in tree.items()}
        if isinstance(tree, list):
            return [self.other_numbers(inner) for inner in tree]
        if type(tree) is int and self.random() < 0.3:
            return self.choice([float(tree), -0.0, 2**63, -(2**63) - 1, 2**64, 2**63 - 1, -(2**63)])
        return tree

    def entry(self):
        """An entry."""
        return {"side": self.choice(["left", "right"]), "edit": self.word(self.some_type(2), 2)}

    def varied(self, tree):
        """The tree, one that differs at one place, or one with other numbers."""
        return self.choice([lambda it: it, self.changed, self.other_numbers])(tree)


def group_answer(tree):
    """What is said of a tree that is a line of a journal: the change, or the fault."""
    if not isinstance(tree, dict) or set(tree) != {"group"}:
        return entry_answer(tree)
    if not isinstance(tree["group"], list):
        return {"fault": "not-an-entry"}
    answers = [entry_answer(entry) for entry in tree["group"]]
    for fault in ("not-an-entry", "not-an-edit"):
        if {"fault": fault} in answers:
            return {"fault": fault}
    return {"ok": tree}


def line_rows(chance, count):
    """Lines of a journal, and some that are not."""
    for number in range(count):
        tree = chance.entry() if number % 3 else {"group": [chance.entry() for _ in range(chance.randint(0, 3))]}
        tree = chance.varied(tree)
        yield {"call": "read_entry", "text": chance.text(tree) + chance.space(), **group_answer(tree)}


def nested_rows():
    """Lines that nest nearly as deep as a text may, and deeper.

    A row with its answer nests one deeper than the line. So a line that nests just as deep as a text may is only asked whether it is blank.
    """
    for levels in (40, 41, 42):
        for word in INNERMOST:
            for _ in range(levels):
                word = [{"at": ["a", word]}]
            entry = {"edit": word, "side": "left"}
            for tree in (entry, {"group": [entry]}):
                text = json.dumps(tree, separators=(",", ":"))
                if nested(tree) == MOST_NESTED:
                    yield {"call": "is_blank", "text": text, "ok": False}
                else:
                    answer = {"ok": tree} if nested(tree) < MOST_NESTED else {"fault": "not-json"}
                    yield {"call": "read_entry", "text": text, **answer}


def nested(tree):
    """How deep a tree nests."""
    if not isinstance(tree, (dict, list)):
        return 0
    return 1 + max(map(nested, tree.values() if isinstance(tree, dict) else tree), default=0)


def document_rows(chance, count):
    """Documents of a type, and some that are not."""
    for _ in range(count):
        ty = chance.some_type(3)
        tree = chance.varied(chance.document(ty))
        answer = {"ok": tree} if fits(ty, tree) else {"fault": "not-of-type"}
        yield {"call": "read_doc", "type": write_type(ty), "text": chance.text(tree), **answer}


def files():
    """The file of cases."""
    chance = Texts(21)
    rows = [*line_rows(chance, 240), *nested_rows(), *document_rows(chance, 160)]
    yield "case_layers/data/readers_reference.jsonl", lines_of(rows)
