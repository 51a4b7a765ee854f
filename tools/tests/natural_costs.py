"""What patches of users' files cost: long ones what they change, and none more than a bound."""

import time

from editlens.json_text import NotJson
from editlens.natural import NoCounterpart, read_file, read_form, to_document, to_edit, to_file, to_patch, write_file
from editlens.natural.operations import MOST_COPIED
from editlens.natural.places import Written
from editlens.types import read_type

NEEDS_PROGRAM = False
ITEM = '{a: text, n: text = "0"}'


def seconds(call):
    """How much time of a processor a call takes."""
    start = time.process_time()
    call()
    return time.process_time() - start


def refused(kind, call):
    """The refusal of a call."""
    try:
        call()
    except kind as why:
        return str(why)
    raise AssertionError(f"{kind.__name__} did not come")


def test_copies_are_bounded_while_they_are_made():
    """Each pair of these copies doubles the file. The patch is refused before it is large."""
    shape = read_form(read_type('{items: list {x: text = "null"}}'), {"/items/*/x": "json"})
    file = read_file('{"items":[{"x":1}]}')
    pair = [{"op": "copy", "from": "/items", "path": "/items/0/x"}, {"op": "copy", "from": "/items/0", "path": "/items/-"}]
    said = []
    spent = seconds(lambda: said.append(refused(NoCounterpart, lambda: to_edit(shape, to_document(shape, file), pair * 100))))
    assert said[0].endswith(f"the copies of a patch have at most {MOST_COPIED:,} bytes together") and spent < 60, (said, spent)
    many = to_edit(shape, to_document(shape, file), [{"op": "copy", "from": "/items/0", "path": "/items/-"}] * 300)
    assert len(many.document["items"]) == 301


def test_a_member_that_comes_twice_is_found_at_once():
    def twice(count):
        return "{" + ",".join(f'"k{number}":0' for number in range(count)) + f',"k{count - 1}":0}}'

    text = twice(60_000)
    said = []
    spent = seconds(lambda: said.append(refused(NotJson, lambda: read_file(text))))
    assert said == ['the member "k59999" comes twice in an object'] and spent < 20, (said, spent)


LONG = (
    (f"{{l: list {ITEM}}}", {"/l/*/n": "number"}, '{"l":[]}', lambda it: {"op": "add", "path": "/l/-", "value": {"a": "x", "n": it}}),
    (f"{{l: keyed {ITEM}}}", {"/l/*/n": "number"}, '{"l":{}}', lambda it: {"op": "add", "path": f"/l/{it}", "value": {"a": "x", "n": it}}),
    (f"{{l: keyed {ITEM}}}", {"/l": {"key": "id"}}, '{"l":[]}', lambda it: {"op": "add", "path": "/l/-", "value": {"id": str(it), "a": "", "n": "1"}}),
)


def test_a_long_patch_costs_what_it_changes():
    """Four times the operations cost some four times as much, in a list, a map and a list by key. Where each looked at all, it was sixteen."""
    for ty, form, text, op in LONG:
        shape = read_form(read_type(ty), form)
        document, spent = to_document(shape, read_file(text)), []
        for count in (750, 3000):
            patch = [op(number) for number in range(count)]
            made = []
            there = seconds(lambda: made.append(to_edit(shape, document, patch)))
            back = seconds(lambda: made.append(to_patch(shape, document, made[0].word)))
            assert len(made[1]) >= count
            spent.append((there, back))
        (there, back), (there_4, back_4) = spent
        assert there_4 < 9 * there + 0.2 and back_4 < 9 * back + 0.2, (ty, spent)


def test_a_small_patch_of_a_long_file():
    """What a patch leaves alone is not written again: the second of two is far from the cost of the complete file."""
    shape = read_form(read_type(f"{{l: list {ITEM}, t: tree text}}"), {"/l/*/n": "number", "/t": {"children": "c", "content": "v"}})
    nodes = {"depths": [0, *[1] * 3000], "items": ["x"] * 3001}
    document, files = {"l": [{"a": "x", "n": str(it)} for it in range(3000)], "t": nodes}, Written()
    patch = [{"op": "replace", "path": "/l/7/a", "value": "y"}, {"op": "replace", "path": "/t/c/9/v", "value": "z"}]
    complete = min(seconds(lambda: to_file(shape, document)) for _ in range(3))
    made = to_edit(shape, document, patch, files)
    again = min(seconds(lambda: to_edit(shape, made.document, patch, files)) for _ in range(3))
    assert again < complete / 1.5, (again, complete)
    assert write_file(files.of(shape, made.document)) == write_file(to_file(shape, made.document)) == write_file(made.file)


def test_operations_that_never_fit_are_looked_at_once():
    """Where nothing that follows can make the first operation right, the file is not read again after each."""
    shape = read_form(read_type(f"{{l: list {ITEM}}}"), {})
    patch = [{"op": "add", "path": "/l/-", "value": {"a": 5, "n": "1"}}] * 3000
    said = []
    spent = seconds(lambda: said.append(refused(NoCounterpart, lambda: to_edit(shape, {"l": []}, patch))))
    assert said == ["operation 0: /l/0/a: wanted a string, found 5"] and spent < 20, (said, spent)
