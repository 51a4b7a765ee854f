"""Types are read and written, documents fit or do not, and what is built is what was wanted."""

import random

from editlens.construct import construct, set_steps, words_of
from editlens.documents import fits, misfits
from editlens.edits import act, form_fault
from editlens.json_text import NotJson, pointer, read_json, read_pointer
from editlens.types import NotAType, initial, read_type, write_type

from .chance import some_document, some_type


def test_types_are_read_back():
    for _ in range(300):
        ty = some_type(4)
        assert read_type(write_type(ty)) == ty


def test_texts_that_are_no_types():
    for text in ("", "in", "list", "{a: int", "<>", "enum[]", "int = x", "text = 5", "int int", '{"": int}'):
        try:
            read_type(text)
        except NotAType:
            continue
        raise AssertionError(text)


def test_documents_fit_their_types():
    for _ in range(300):
        ty = some_type(4)
        assert fits(ty, some_document(ty)) and fits(ty, initial(ty))


def test_every_place_that_does_not_fit_is_named():
    ty = read_type('{done: bool, level: enum["low", "high"], n: int, outline: tree int, phone: <none: unit, some: text>, tags: list text}')
    wrong = {"done": 1, "level": "mid", "n": 1.0, "note": 1, "outline": {"depths": [0, 2], "items": [0, "x"]}, "phone": None, "tags": ["a", 5]}
    found = [(pointer(it.path), it.found) for it in misfits(ty, wrong)]
    assert found == [
        ("/done", "1"),
        ("/level", '"mid"'),
        ("/n", "1.0"),
        ("/outline/depths", "[0,2]"),
        ("/outline/items/1", '"x"'),
        ("/phone", "null"),
        ("/tags/1", "5"),
        ("/note", "1"),
    ], found


def test_the_table_of_formats():
    """The table of docs/FORMATS.md of trees that no document has."""
    for text, tree in (
        ("bool", "1"),
        ('enum["up", "down"]', '"left"'),
        ("{done: bool, title: text}", '{"done":false}'),
        ("{done: bool, title: text}", '{"done":false,"note":1,"title":"x"}'),
        ("<p: text, o: int>", '{"o":1,"p":""}'),
        ("<p: text, o: int>", '{"q":1}'),
        ("list int", "[9223372036854775808]"),
        ("int", "-0"),
        ("int", "1e2"),
        ("tree int", '{"depths":[0,2],"items":[1,2]}'),
        ("tree int", '{"depths":[0,1],"items":[1]}'),
    ):
        assert not fits(read_type(text), read_json(tree)), (text, tree)
    assert fits(read_type("{done: bool, title: text}"), read_json('{"done":0,"title":"","done":true}'))


def test_what_is_no_json():
    for text in ("", "{", "NaN", "1e400", "[1,]", '"\\ud800"'):
        try:
            read_json(text)
        except NotJson:
            continue
        raise AssertionError(text)


def test_constructed_documents():
    for _ in range(300):
        ty = some_type(4)
        document = some_document(ty)
        word = construct(ty, document)
        assert form_fault(word) is None and act(ty, initial(ty), word) == document
        built, most = initial(ty), random.choice([1, 50, 4000])
        for part in words_of(set_steps(ty, document), most):
            built = act(ty, built, part)
        assert built == document


def test_pointers():
    for path in ([], ["a/b", "m~n", ""], ["~1"]):
        assert read_pointer(pointer(path)) == path
