"""Faults that the tools for users' files once had, each as a row with what comes of it now. Quiet losses are refused with a sentence."""

from editlens import Session
from editlens.edits import act
from editlens.json_text import NotJson
from editlens.natural import (
    DoesNotFit,
    FormFault,
    NoCounterpart,
    NotWritable,
    Number,
    read_file,
    read_form,
    to_document,
    to_edit,
    to_file,
    to_patch,
    write_file,
)
from editlens.natural.operations import Patching, patched
from editlens.private import PrivateLoss
from editlens.types import read_type

LABELS = 'main {name ~ name: id text = "Bolt", others ~ labels: keyed id text = "null"}'
LABELS_FORM = {"left": {"/others": "flat", "/others/*": "json"}}


def came(call):
    """What comes of a call: its value, or the name of the refusal with its first line."""
    try:
        return call()
    except (DoesNotFit, FormFault, NoCounterpart, NotJson, NotWritable, PrivateLoss) as why:
        return f"{type(why).__name__}: {why}"


def sent(program, before, side, patch, forms=None):
    """What comes of a patch in a session that some edits began: its positions, and both documents."""
    with Session(program, forms=forms) as session:
        for its_side, edit in before:
            session.entry(its_side, edit)
        documents = session.documents
        said = came(lambda: session.files.patch(side, patch).sent)
        assert said == patch or session.documents == documents, "what is refused changes nothing"
        return said, session.documents


def notes(count, path):
    """An edit of the right document that gives each item of a list a note."""
    return [{"mod": [number, [{"at": [path, [{"set": f"mine {number}"}]]}]]} for number in range(count)]


def op(name, path, *value, **more):
    """An operation of a patch."""
    return {"op": name, "path": path, **({"value": value[0]} if value else {}), **more}


def test_a_group_of_operations_is_no_removal():
    lens = "main each {x ~ x: <p ~ p: id int, q ~ q: id unit>, m ~ m: keyed id int, right note: text}"
    begun = [("left", [{"ins": 2}, {"mod": [1, [{"at": ["m", [{"put": "k"}]]}]]}]), ("right", notes(2, "note"))]
    patch = [op("remove", "/0/x/p"), op("remove", "/1/m/k"), op("add", "/0/x/q", None)]
    said, documents = sent(lens, begun, "left", patch)
    assert said == "PrivateLoss: operation 0: by this remove of /0/x/p the right side would lose what it alone has at /*/note", said
    assert [it["note"] for it in documents["right"]] == ["mine 0", "mine 1"]


def test_an_order_that_a_side_alone_has():
    """A list that a partition makes of two has an order that neither of the two has."""
    lens, begun = "main part <p: text, o: int>", [("left", [{"ins": 3}, {"mod": [1, [{"switch": ["p", "o", []]}]]}])]
    said, documents = sent(lens, begun, "right", [op("replace", "/p", ["", "new"])])
    assert said == "PrivateLoss: operation 0: by this replace of /p the left side would lose its own order of the items at (the document)", said
    assert [next(iter(it)) for it in documents["left"]] == ["p", "o", "p"]
    for patch in ([op("replace", "/o", [7])], [op("remove", "/p/0")], [op("replace", "/p/0", "x"), op("add", "/p/-", "y")]):
        begun = [("left", [{"ins": 2}, {"ins": 1}, {"mod": [2, [{"switch": ["p", "o", []]}]]}])]
        assert sent(lens, begun, "right", patch)[0] == patch, "nothing stands behind what goes, or it says that it goes"


def test_every_word_reaches_the_trial():
    """What later operations of a patch do is asked of documents that have the earlier ones."""
    lens = "main each {t ~ t: id text, l ~ l: each {n ~ n: id int, right p: text}}"
    patch = [op("add", "/-", {"t": "x", "l": [{"n": 1}]}), op("replace", "/0/l", [])]
    assert sent(lens, [], "left", patch)[0] == patch


def test_a_replace_over_a_long_file():
    """A file of more than 1,048,576 bytes is asked about, too: no line has all of it."""
    with Session("main each {t ~ t: id text, right p: text}") as session:
        session.left([{"ins": 3}])
        for number in range(3):
            session.left([{"mod": [number, [{"at": ["t", [{"set": "x" * 400_000}]]}]]}])
        assert session.files.patch("left", [op("replace", "", [])]).answer.word == [{"del": 3}]


def test_a_name_that_another_member_has():
    """The other side adds a key that is the name of a field here. Nothing is stored, and later patches of the file are taken."""
    with Session(LABELS, forms=LABELS_FORM) as session:
        said = came(lambda: session.files.patch("right", [op("add", "/labels/name", "7")]))
        wanted = "NotWritable: the left file could not show what comes of it: (the document): the member name would come twice"
        assert said == wanted and session.documents["right"]["labels"] == {}, said
        assert session.files.patch("left", [op("replace", "/name", "Nut")]).patch == [op("replace", "/name", "Nut")]
        assert session.files["left"] == {"name": "Nut"}


def test_a_row_of_another_key_is_another_row():
    begun = [("left", [{"put": "bolt"}]), ("right", [{"mod": ["bolt", [{"at": ["stock", [{"set": 700}]]}]]}])]
    lens, form = "main keyed {price ~ cost: id int, right stock: int}", {"left": {"": {"key": "id"}}}
    said, documents = sent(lens, begun, "left", [op("replace", "/0", {"id": "nut", "price": 9})], form)
    assert said == "PrivateLoss: operation 0: by this replace of /0 the right side would lose what it alone has at /*/stock", said
    assert documents["right"] == {"bolt": {"cost": 0, "stock": 700}}
    renamed = [op("replace", "/0/id", "nut"), op("replace", "/0/price", 9)]
    assert sent(lens, begun, "left", renamed, form)[1]["right"] == {"nut": {"cost": 9, "stock": 700}}


def test_what_one_item_has_is_not_asked_of_another():
    lens = "main each {l ~ l: each {n ~ n: id int, right note: text}}"
    begun = [("left", [{"ins": 2}, *({"mod": [it, [{"at": ["l", [{"ins": 1}]]}]]} for it in (0, 1))])]
    begun.append(("right", [{"mod": [0, [{"at": ["l", notes(1, "note")]}]]}]))
    assert sent(lens, begun, "left", [op("replace", "/1/l", [])])[0] == [op("replace", "/1/l", [])]
    assert sent(lens, begun, "left", [op("replace", "/0/l", [])])[0].startswith("PrivateLoss: operation 0: by this replace of /0/l")


def after(ty, form, document, edit):
    """The file after the patch of an edit, which is the file of the document after the edit."""
    shape = read_form(read_type(ty), form)
    patching = Patching(to_file(shape, document))
    for it in to_patch(shape, document, edit):
        patching.apply(it)
    assert write_file(patching.tree) == write_file(to_file(shape, act(shape.ty, document, edit)))
    return write_file(patching.tree)


FLAT = {"/m": "flat"}
EDITS = (
    # a map puts or renames a key that is the name of another member
    ("{a: int, m: keyed int}", FLAT, {"a": 1, "m": {}}, [{"at": ["m", [{"put": "a"}]]}], "(the document): the member a would come twice"),
    ("{a: int, m: keyed int}", FLAT, {"a": 1, "m": {"k": 7}}, [{"at": ["m", [{"rename": ["k", "a"]}]]}], "(the document): the member a would come twice"),
    ("<a: keyed int>", {"": {"kind": "type"}}, {"a": {}}, [{"stay": ["a", [{"put": "type"}]]}], "(the document): the member type would come twice"),
    (
        "tree keyed int",
        {"": {"children": "c"}},
        {"depths": [0], "items": [{}]},
        [{"mod": [[], [{"put": "c"}]]}],
        "(the document): the member c would come twice",
    ),
    ("keyed keyed int", {"": {"key": "id"}}, {"x": {}}, [{"mod": ["x", [{"put": "id"}]]}], "/x: the member id would come twice"),
    (
        "{a: <none: unit, some: int>, m: keyed int}",
        {"/a": {"missing": "none"}, **FLAT},
        {"a": {"none": None}, "m": {}},
        [{"at": ["m", [{"put": "a"}]]}],
        "(the document): the member a would come twice",
    ),
    # a switch of alternatives that stand alone beside a kind, a key or children
    (
        "<a: <only: {x: int}>>",
        {"": {"kind": "type"}, "/a": "untagged"},
        {"a": {"only": {"x": 5}}},
        [{"stay": ["a", [{"switch": ["only", "only", []]}]]}],
        '{"type":"a","x":0}',
    ),
    (
        "keyed <only: {b: int}>",
        {"": {"key": "id"}, "/*": "untagged"},
        {"k": {"only": {"b": 1}}},
        [{"mod": ["k", [{"switch": ["only", "only", []]}]]}],
        '[{"b":0,"id":"k"}]',
    ),
    (
        "tree <only: {b: int}>",
        {"": {"children": "c"}, "/*": "untagged"},
        {"depths": [0, 1], "items": [{"only": {"b": 1}}, {"only": {"b": 2}}]},
        [{"mod": [[], [{"switch": ["only", "only", []]}]]}],
        '{"b":0,"c":[{"b":2,"c":[]}]}',
    ),
    # a document between two primitives that no file shows
    ('{a: text = "0"}', {"/a": "number"}, {"a": "1"}, [{"at": ["a", [{"set": "x"}, {"set": "2"}]]}], '{"a":2}'),
    ("{a: int, m: keyed int}", FLAT, {"a": 1, "m": {}}, [{"at": ["m", [{"put": "a"}]]}, {"at": ["m", [{"rename": ["a", "b"]}]]}], '{"a":1,"b":0}'),
)


def test_the_file_after_the_patch_of_an_edit():
    for ty, form, document, edit, wanted in EDITS:
        found = came(lambda: after(ty, form, document, edit))
        assert found.removeprefix("NotWritable: ") == wanted, (ty, edit, found)


def reads_back(ty, form, document):
    shape = read_form(read_type(ty), form)
    text = write_file(to_file(shape, document))
    assert to_document(shape, read_file(text)) == document, text
    return text


def comes_back(ty, form, text):
    shape = read_form(read_type(ty), form)
    return write_file(to_file(shape, to_document(shape, read_file(text))))


def edited(ty, form, text, patch):
    """The edit of a patch, where the document after it shows the file after the patch."""
    shape, file = read_form(read_type(ty), form), read_file(text)
    made = to_edit(shape, to_document(shape, file), patch)
    for it in patch:
        file = patched(file, it)
    assert write_file(file) == write_file(made.file) and to_document(shape, file) == made.document
    return made.word


KIND = {"/k": {"kind": "type", "flat": True}, "/rest": "flat"}
KIND_TYPE = "{k: <a: {x: int}, b: {y: int}>, rest: keyed int}"
NUMBERS = {"": {"members": {"no": 0, "yes": 1}}}
JSON = '{a: text = "null"}'
NOT_SO = "is JSON, but not as a file has it: without spaces, members by their bytes"


def test_files_and_documents_come_back_to_the_letter():
    for call, wanted in (
        (lambda: reads_back(KIND_TYPE, KIND, {"k": {"a": {"x": 1}}, "rest": {"y": 5}}), "NotWritable: (the document): the member y would come twice"),
        (lambda: reads_back(KIND_TYPE, KIND, {"k": {"a": {"x": 1}}, "rest": {"z": 5}}), '{"type":"a","x":1,"z":5}'),
        (
            lambda: edited(KIND_TYPE, KIND, '{"type":"a","x":1}', [op("add", "/y", 5)]),
            "NoCounterpart: operation 0: (the document): the member y would come twice",
        ),
        (
            lambda: comes_back(
                "tree {c: <none: unit, some: int>, rest: keyed int}",
                {"": {"children": "c"}, "/*/c": {"missing": "none"}, "/*/rest": "flat"},
                '{"c":[]}',
            ),
            "FormFault: (the document): the member c would come twice",
        ),
        (lambda: comes_back('enum["no", "yes"]', NUMBERS, "1.0"), "DoesNotFit: (the document): wanted one of 0, 1, found 1.0"),
        (lambda: comes_back('enum["no", "yes"]', NUMBERS, "1"), "1"),
        (lambda: reads_back(JSON, {"/a": "json"}, {"a": '{"b":1, "a":2}'}), 'NotWritable: /a: "{\\"b\\":1, \\"a\\":2}" ' + NOT_SO),
        (lambda: reads_back(JSON, {"/a": "json"}, {"a": '{"a":2,"b":1.50}'}), '{"a":{"a":2,"b":1.50}}'),
        (lambda: comes_back('text = "0"', {"": "number"}, "1" * 5000), "1" * 5000),
        (lambda: edited('text = "0"', {"": "number"}, "1", [op("replace", "", float("inf"))]), "NoCounterpart: operation 0: inf is not a number of JSON"),
    ):
        found = came(call)
        assert found == wanted, (found, wanted)


def test_operations_that_were_odd():
    digits = "1e99999999999999999999"
    for ty, form, text, patch, wanted in (
        ('text = "0"', {"": "number"}, "1", [op("test", "", Number(digits))], "NoCounterpart: operation 0: (the document): the test fails, here is 1"),
        ('text = "0"', {"": "number"}, digits, [op("test", "", Number(digits))], []),
        ("keyed int", {}, "{}", [op("add", "/a~2", 5)], 'NoCounterpart: operation 0: "/a~2" is not a JSON Pointer: behind a ~ comes 0 or 1'),
        (
            'keyed text = "null"',
            {"/*": "json"},
            '{"c":{},"id":{}}',
            [op("copy", "/c/k", **{"from": "/id"})],
            [{"mod": ["c", [{"set": '{"k":{}}'}]]}],
        ),
        ("tree int", {}, '{"depths":[0],"items":[1]}', [op("replace", "/items", [2])], [{"mod": [[], [{"set": 2}]]}]),
    ):
        found = came(lambda: edited(ty, form, text, patch))
        assert found == wanted, (patch, found)
