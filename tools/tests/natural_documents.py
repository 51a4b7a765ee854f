"""Users' files become documents and back: random types, forms and files, and the faults of forms and files."""

from editlens.documents import fits
from editlens.json_text import NotJson, pointer, read_json, write_json
from editlens.natural import DoesNotFit, FormFault, NotWritable, lost_orders, read_file, read_form, to_document, to_file, write_file
from editlens.types import read_type

from .natural_chance import some_natural, spoiled

FILES = 10_000


def key_order_is_kept(form):
    """Whether a form file keeps the order of every list by key."""
    return not any("key" in it and "order" not in it for it in form.values() if isinstance(it, dict))


def test_files_come_back():
    """`from(to(f)) = f` for random files, also when the document went through the text that the program reads and writes."""
    count = again = 0
    while count < FILES:
        ty, form, draw = some_natural()
        shape = read_form(ty, form)
        for _ in range(10):
            count += 1
            file = read_file(write_file(draw()))
            document = to_document(shape, file)
            assert fits(ty, document), (str(ty), form, file)
            assert write_file(to_file(shape, document)) == write_file(file), (str(ty), form, write_file(file))
            if key_order_is_kept(form):
                again += 1
                document = read_json(write_json(document))
                assert write_file(to_file(shape, document)) == write_file(file), (str(ty), form, write_file(file))
    assert again > FILES // 3, again


def test_what_is_read_is_not_changed():
    """A file that was spoiled in one place is refused, or it comes back as it is."""
    refused = read = 0
    for _ in range(400):
        ty, form, draw = some_natural()
        shape = read_form(ty, form)
        for _ in range(5):
            file = read_file(write_file(spoiled(draw())))
            try:
                document = to_document(shape, file)
            except DoesNotFit as why:
                refused += 1
                assert why.places
                continue
            read += 1
            assert fits(ty, document) and write_file(to_file(shape, document)) == write_file(file), (str(ty), form, write_file(file))
    assert refused > 300 and read > 100, (refused, read)


PERSON = '{fax: <none: unit, some: text>, "id": text, name: {first: text}}'


def test_forms_that_do_not_fit_their_type():
    for ty, form, said in (
        (PERSON, {"/none": "flat"}, "/none: the type has no such place"),
        (PERSON, {"/fax": "often"}, '/fax: "often" is not a form: one of key, number, '),
        (PERSON, {"/id": "flat"}, "/id: flat is a form of a record or a keyed map, and not of text"),
        (PERSON, {"/fax": {"missing": "gone"}}, "/fax: gone is not a tag with null as its content"),
        (PERSON, {"/fax": {"missing": "some"}}, "/fax: some is not a tag with null as its content"),
        (PERSON, {"/fax": {"missing": "none", "kind": "k"}}, "/fax: missing has no option kind"),
        (PERSON, {"/fax": {"kind": "k"}}, "/fax: the content of some is not written as an object: name a member for it by content"),
        (PERSON, {"/id": "number"}, '/id: what is new begins with "", which is not a number: declare another initial value, as text = "0"'),
        (PERSON, {"/id": "decimal"}, '/id: what is new begins with "", which is not a number: declare another initial value, as text = "0"'),
        (PERSON, {"": {"key": "id"}}, "(the document): key is a form of a keyed map, and not of"),
        ("list <none: unit, some: text>", {"/*": {"missing": "none"}}, "(the document): * cannot be missing: only a field of a record can"),
        ("<none: unit, one: text, two: text>", {"": {"null": "none"}}, "(the document): two tags are written as string, so nothing tells them apart"),
        ("<none: unit, some: text>", {"": {"missing": "none"}}, "(the document): the document itself cannot be missing or flat"),
        ("{a: {b: int}, b: int}", {"/a": "flat"}, "(the document): the member b would come twice"),
        ("{a: keyed int, b: keyed int}", {"/a": "flat", "/b": "flat"}, "(the document): a and b would both take the members that have no other place"),
        ('keyed {"id": int}', {"": {"key": "id"}}, "(the document): the member id would come twice"),
        ("keyed int", {"": {"key": "id"}}, "(the document): the contents are not written as objects: name a member for them by content"),
        ("{a: keyed int, b: int}", {"": {"key": "id", "order": "b"}}, "(the document): b is not a list text"),
        ('enum["a", "b"]', {"": {"members": {"a": "b"}}}, '(the document): the member string "b" would come twice'),
        ('enum["a"]', {"": {"members": {"c": 1}}}, "(the document): a name in members is not a member"),
        ("tree int", {"": {"children": "c", "content": "c"}}, "(the document): the member c would come twice"),
        ("int", [], "(the document): a form file is an object from places to forms, and not []"),
    ):
        try:
            read_form(read_type(ty), form)
        except FormFault as why:
            assert said in str(why), (str(why), said)
            continue
        raise AssertionError((ty, form))


def test_files_that_do_not_fit():
    ty = """{"id": text, kind: <a: {n: int}, b: unit>, m: keyed {n: int}, price: text = "0", t: tree {n: int}, up: enum["no", "yes"],
x: <none: unit, some: text>}"""
    form = {
        "/kind": {"kind": "is"},
        "/m": {"key": "k"},
        "/price": "number",
        "/t": {"children": "c", "leaf": "missing"},
        "/up": {"members": {"no": False, "yes": True}},
        "/x": {"missing": "none"},
    }
    shape = read_form(read_type(ty), form)
    fit = '{"id":"","kind":{"is":"a","n":1},"m":[{"k":"x","n":1}],"price":1.0,"t":{"c":[{"n":2}],"n":1},"up":true}'
    assert write_file(to_file(shape, to_document(shape, read_file(fit)))) == fit
    file = '{"kind":{"is":"c"},"m":[{"k":"x","n":1},{"n":1},{"k":"x","n":1.5},5],"price":"1","t":{"c":[],"n":1,"m":1},"up":1,"x":null,"y":2}'
    try:
        to_document(shape, read_file(file))
    except DoesNotFit as why:
        found = {pointer(it.path): it.found for it in why.places}
    places = ["/id", "/kind/is", "/m/1/k", "/m/2/n", "/m/2/k", "/m/3", "/price", "/t/c", "/t/m", "/up", "/x", "/y"]
    assert sorted(found) == sorted(places), found
    assert found["/id"] == "nothing" and found["/m/2/k"] == '"x"' and found["/up"] == "1" and found["/x"] == "null"


def test_a_string_with_a_number():
    """Two files that have a number as a string and as a number take the same texts."""
    shape = read_form(read_type('list text = "0"'), {"/*": "decimal"})
    fit = '["0.50","-1e400","7"]'
    assert to_document(shape, read_file(fit)) == ["0.50", "-1e400", "7"] and write_file(to_file(shape, ["0.50"])) == '["0.50"]'
    for wrong in ('["many"]', "[7]", '[" 7"]', '["07"]', '[""]'):
        try:
            to_document(shape, read_file(wrong))
        except DoesNotFit as why:
            assert "wanted a string with the text of a number" in str(why), why
            continue
        raise AssertionError(wrong)


def test_what_no_file_shows():
    for ty, form, document, said in (
        ('text = "0"', {"": "number"}, "much", '(the document): "much" is not the text of a number'),
        ('text = "0"', {"": "number"}, "1.", '(the document): "1." is not the text of a number'),
        ('{a: text = "null"}', {"/a": "json"}, {"a": "{"}, '/a: "{" is not the text of a JSON value'),
        ("{a: int, b: keyed int}", {"/b": "flat"}, {"a": 1, "b": {"a": 2}}, "(the document): the member a would come twice"),
        ('text = "0"', {"": "decimal"}, "much", '(the document): "much" is not the text of a number'),
        ("keyed {}", {"": {"key": "id", "number": True}}, {"x": {}}, '/x: "x" is not the text of a number'),
    ):
        shape = read_form(read_type(ty), form)
        try:
            to_file(shape, document)
        except NotWritable as why:
            assert str(why) == said, (str(why), said)
            continue
        raise AssertionError(document)


def test_an_order_of_keys():
    """Keys that the order does not name come at the end, and names without a key are passed over."""
    shape = read_form(read_type("{m: keyed {n: int}, o: list text}"), {"": {"key": "k", "order": "o"}})
    document = {"m": {"b": {"n": 1}, "a": {"n": 2}, "c": {"n": 3}}, "o": ["c", "x", "c"]}
    assert [it["k"] for it in to_file(shape, document)] == ["c", "a", "b"]
    plain = read_form(read_type("{l: keyed {n: int}}"), {"/l": {"key": "k"}})
    assert lost_orders(plain, to_document(plain, {"l": [{"k": "b", "n": 1}, {"k": "a", "n": 1}]})) == ["/l"]
    inside = read_form(read_type("keyed list {l: keyed {n: int}}"), {"/*/*/l": {"key": "k"}})
    assert lost_orders(inside, to_document(inside, {"x": [{"l": [{"k": "b", "n": 1}, {"k": "a", "n": 1}]}], "y": []})) == ["/x/0/l"]


def test_users_files_are_read_to_the_letter():
    for text in ('{"a":1.50}', "[-0,1e400,123456789012345678901234567890,0.0]", '"é\\n"'):
        assert write_file(read_file(text)) == text
    for text in ('{"a":1,"a":2}', "{", "NaN", '"\\ud800"'):
        try:
            read_file(text)
        except NotJson:
            continue
        raise AssertionError(text)


def test_no_order_is_lost_in_a_map():
    """A map has its members by their keys, also where a list by key is among them, which does lose its order."""
    shape = read_form(read_type("keyed {rows: keyed {n: int}}"), {"/*/rows": {"key": "id"}})
    assert lost_orders(shape, {}) == [] == lost_orders(shape, {"a": {"rows": {"x": {"n": 1}, "y": {"n": 2}}}})
    assert lost_orders(shape, {"a": {"rows": {"y": {"n": 1}, "x": {"n": 2}}}}) == ["/a/rows"]
