"""Writes constructions and inverses for case_layers, by the tables of docs/EDITS.md. An inverse that brings nothing back stops it."""

from editlens.construct import construct
from editlens.edits import NoApply, act
from editlens.types import initial, write_type

from ..documents import container
from ..inverses import inverse
from . import lines_of
from .chance import Chance


def construct_row(ty, doc):
    """The construction of a document, which has to make it."""
    word = construct(ty, doc)
    assert act(ty, initial(ty), word) == doc, (ty, doc, word)
    return {"call": "construct", "type": write_type(ty), "doc": doc, "ok": word}


def inverse_row(ty, doc, word):
    """The inverse of a word, which has to bring the document back."""
    row = {"call": "inverse", "type": write_type(ty), "doc": doc, "edit": word}
    try:
        value = act(ty, doc, word)
    except NoApply as fault:
        return {**row, "at": fault.at, "cause": fault.cause}
    back = inverse(ty, word, doc)
    assert act(ty, value, back) == doc, (row, back)
    return {**row, "ok": back}


def acting(chance, ty, doc):
    """The first of some words that has a primitive and acts, or else the last."""
    for _ in range(40):
        word = chance.word(ty)
        try:
            act(ty, doc, word)
        except NoApply:
            continue
        if word:
            break
    return word


def rows(chance, count):
    """Constructions and inverses of random documents and words."""
    for number in range(count):
        ty = chance.some_type(3) if number % 2 else container(chance.choice(["list", "keyed", "tree", "tree"]), chance.some_type(1))
        doc = chance.document(ty)
        if number % 4 == 0:
            yield construct_row(ty, doc)
        yield inverse_row(ty, doc, chance.word(ty) if number % 8 == 1 else acting(chance, ty, doc))


def files():
    """The file of cases."""
    yield "case_layers/data/inverses_reference.jsonl", lines_of(rows(Chance(20), 500))
