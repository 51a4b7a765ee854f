"""Writes cases of shapes, edits, documents and journal lines for case_layers, from the rules of docs/EDITS.md and docs/FORMATS.md."""

import itertools
import json

from editlens.documents import fits
from editlens.edits import NoApply, act
from editlens.json_text import write_json
from editlens.types import initial, write_type

from ..documents import container, has_type
from ..edits import entry_answer, is_word
from . import lines_of
from .chance import Chance
from .plans import place_rows, plan_rows


def in_order(tree):
    """A tree with the members of each object in byte order."""
    return json.loads(write_json(tree))


def act_rows(chance, count):
    """What random edits make of random documents."""
    for number in range(count):
        ty = chance.some_type(3) if number % 2 else container(chance.choice(["list", "keyed", "tree"]), chance.some_type(1))
        document, word = chance.document(ty), chance.word(ty)
        row = {"call": "act", "type": write_type(ty), "doc": document, "edit": word}
        try:
            yield {**row, "ok": in_order(act(ty, document, word))}
        except NoApply as why:
            yield {**row, "at": why.at, "cause": why.cause}


def document_rows(chance, count):
    """Trees that are documents of a type, and some that are not."""
    for number in range(count):
        ty = chance.some_type(3)
        tree = chance.document(ty)
        if number % 2:
            tree = chance.changed(tree)
        answer = {"ok": tree} if fits(ty, tree) else {"fault": "not-of-type"}
        yield {"call": "read_doc", "type": write_type(ty), "tree": tree, **answer}
        if number % 10 == 0:
            yield {"call": "init", "type": write_type(ty), "ok": initial(ty)}


def type_rows(chance, count):
    """Whether a document of one type has another, and whether two types are the same."""
    for number in range(count):
        ty, other = chance.some_type(2), chance.some_type(2)
        if number % 2:
            other = chance.near_type(ty)
        tree = chance.document(other)
        yield {"call": "has_type", "type": write_type(ty), "of": write_type(other), "doc": tree, "ok": has_type(ty, other, tree)}
        yield {"call": "is_same", "left": write_type(ty), "right": write_type(chance.shuffled(other)), "ok": ty == other}


def word_rows(chance, count):
    """Trees that are edits, and some that are not."""
    for number in range(count):
        tree = chance.word(chance.some_type(2))
        if number % 2:
            tree = chance.changed(tree)
        yield {"call": "read_word", "tree": tree, **({"ok": tree} if is_word(tree) else {"fault": "not-an-edit"})}


def entry_rows(chance, count):
    """Lines of a journal, and some that are not; and which bytes are blank."""
    for number in range(count):
        tree = {"side": chance.choice(["left", "right"]), "edit": chance.word(chance.some_type(2), 2)}
        if number % 2:
            tree = chance.changed(tree)
        text = json.dumps(tree, ensure_ascii=number % 3 == 0, indent=chance.choice([None, 1]))
        yield {"call": "read_entry", "text": text, **entry_answer(tree)}
        if number % 4 == 0:
            yield {"call": "read_entry", "text": text[: chance.randrange(len(text))].rstrip("0123456789"), "fault": "not-json"}
    for byte in range(128):
        yield {"call": "is_blank", "bytes": [32, byte, 9], "ok": byte in (9, 13, 32)}


def files():
    """The files of cases. One source of chance goes through all of them, in this order."""
    chance = Chance(14)
    for name, rows in (
        ("plans", itertools.chain(plan_rows(chance), place_rows())),
        ("edits", itertools.chain(act_rows(chance, 1200), word_rows(chance, 500))),
        ("documents", itertools.chain(document_rows(chance, 600), type_rows(chance, 150))),
        ("lines", entry_rows(chance, 200)),
    ):
        yield f"case_layers/data/{name}_reference.jsonl", lines_of(rows)
