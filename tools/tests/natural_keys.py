"""Lists of exactly one item, and lists by a key that is inside its items or stands there several times."""

import json

from editlens.json_text import pointer
from editlens.natural import DoesNotFit, FormFault, NoCounterpart, read_file, read_form, to_document, to_edit, to_file, to_patch, write_file
from editlens.natural.text import is_same
from editlens.types import read_type

NEEDS_PROGRAM = False
TYPE = "keyed {metadata: {labels: keyed text}, spec: {replicas: int, template: {metadata: {}, spec: {containers: {image: text, ports: list int}}}}}"
REPEAT = ["/metadata/labels/app", "/spec/selector/matchLabels/app", "/spec/template/metadata/labels/app", "/spec/template/spec/containers/0/name"]
FORM = {"": {"key": "name", "in": "/metadata", "repeat": REPEAT}, "/*/spec/template/spec/containers": "one"}
EVERY = ["/metadata/name", *REPEAT]


def item(name):
    return {
        "metadata": {"name": name, "labels": {"app": name, "tier": "front"}},
        "spec": {
            "replicas": 2,
            "selector": {"matchLabels": {"app": name}},
            "template": {"metadata": {"labels": {"app": name}}, "spec": {"containers": [{"name": name, "image": "x", "ports": [80]}]}},
        },
    }


SHAPE = read_form(read_type(TYPE), FORM)
FILE = read_file(json.dumps([item("web")]))
DOCUMENT = {
    "web": {
        "metadata": {"labels": {"tier": "front"}},
        "spec": {"replicas": 2, "template": {"metadata": {}, "spec": {"containers": {"image": "x", "ports": [80]}}}},
    }
}


def replacing(place, value):
    return {"op": "replace", "path": place, "value": value}


def edit_of(*patch):
    """The edit of a patch, which makes the same file by its own patch."""
    made = to_edit(SHAPE, DOCUMENT, list(patch))
    assert is_same(made.file, to_file(SHAPE, made.document)) and to_document(SHAPE, made.file) == made.document
    back = to_edit(SHAPE, DOCUMENT, to_patch(SHAPE, DOCUMENT, made.word))
    assert back.document == made.document
    return made.word


def refused(*patch):
    try:
        return edit_of(*patch)
    except NoCounterpart as why:
        return str(why)


def misfits(change):
    tree = read_file(write_file(FILE))
    change(tree[0])
    try:
        return to_document(SHAPE, tree)
    except DoesNotFit as why:
        return str(why).split("\n")


def test_a_file_comes_back():
    assert to_document(SHAPE, FILE) == DOCUMENT and is_same(to_file(SHAPE, DOCUMENT), FILE)


def test_a_new_item_has_its_key_everywhere():
    word = [{"put": "db"}]
    ((op,),) = [to_patch(SHAPE, DOCUMENT, word)]
    assert op["op"] == "add" and op["path"] == "/1" and write_file(op["value"]).count('"db"') == len(EVERY)
    added = edit_of({"op": "add", "path": "/-", "value": read_file(json.dumps(item("db")))})
    assert added[0] == {"put": "db"}


def test_a_key_is_renamed_everywhere():
    renamed = [{"rename": ["web", "api"]}]
    assert edit_of(*(replacing("/0" + it, "api") for it in EVERY)) == renamed
    assert edit_of(*(replacing("/0" + it, "api") for it in reversed(EVERY))) == renamed
    assert [op["path"] for op in to_patch(SHAPE, DOCUMENT, renamed)] == ["/0" + it for it in EVERY]
    for some in (EVERY[:1], EVERY[:4], EVERY[1:]):
        said = refused(*(replacing("/0" + it, "api") for it in some))
        assert said.startswith("operation 0: /0") and "wanted" in said, said
    other = refused(*(replacing("/0" + it, "api" if number else "apj") for number, it in enumerate(EVERY)))
    assert other.startswith("operation 0: /0"), other


def test_patches_around_a_key():
    labels = {"at": ["metadata", [{"at": ["labels", [{"drop": "tier"}]]}]]}
    assert edit_of(replacing("/0/metadata", {"name": "web", "labels": {"app": "web"}})) == [{"mod": ["web", [labels]]}]
    assert edit_of(replacing("/0/spec/selector", {"matchLabels": {"app": "web"}})) == []
    assert "there is no such member" in refused(replacing("/0/spec/selector", {"matchLabels": {"app": "web", "x": "y"}}))
    assert "wanted" in refused(replacing("/0/metadata", {"name": "web", "labels": {"app": "w"}}))
    assert "wanted" in refused({"op": "add", "path": "/0/metadata/labels/app", "value": "w"})
    assert edit_of({"op": "add", "path": "/0/metadata/labels/x", "value": ""})[0]["mod"][0] == "web"
    assert "wanted" in refused({"op": "remove", "path": "/0/metadata/name"})
    assert edit_of(replacing([{"where": {"/metadata/name": "web"}}, "spec", "replicas"], 5))[0]["mod"][0] == "web"
    assert "no place in the document has" in refused(replacing([{"where": {"/metadata/x": "web"}}, "spec"], 5))


def test_a_list_of_one():
    place = "/0/spec/template/spec/containers"
    inside = edit_of(replacing(place + "/0/image", "y"))
    assert '{"at":["containers",[{"at":["image",[{"set":"y"}]]}]]}' in write_file(inside)
    assert edit_of(replacing(place, [{"name": "web", "image": "y", "ports": [80]}])) == inside
    removed, added = {"op": "remove", "path": place + "/0"}, {"op": "add", "path": place + "/-", "value": {"name": "web", "image": "y", "ports": [80]}}
    assert edit_of(removed, added) == inside
    assert refused(removed).startswith("operation 0: /0") and "an array of exactly one item, found 2 items" in refused(added)


def test_files_that_do_not_fit():
    key = '"web", the key of this item'
    assert misfits(lambda it: it["metadata"]["labels"].update(app="w")) == [f'/0/metadata/labels/app: wanted {key}, found "w"']
    assert misfits(lambda it: it["metadata"].pop("name")) == ["/0/metadata/name: wanted a string, found nothing"]
    assert misfits(lambda it: it["spec"].pop("selector")) == [f"/0/spec/selector/matchLabels/app: wanted {key}, found nothing"]
    assert misfits(lambda it: it["spec"]["selector"].update(x=1)) == ["/0/spec/selector/x: wanted no such member, found 1"]
    both = misfits(lambda it: it["spec"]["template"]["spec"].update(containers=[]))
    place = "/0/spec/template/spec/containers"
    assert both == [f"{place}/0/name: wanted {key}, found nothing", f"{place}: wanted an array of exactly one item, found 0 items"]


FAULTS = {
    '{"":{"key":"name","in":"/spec/replicas"}}': "the key cannot stand at /spec/replicas/name: it leads through int",
    '{"":{"key":"name","in":"metadata"}}': "in is the JSON Pointer of an object, and repeat a list of those of members",
    '{"":{"key":"name","repeat":[7]}}': "in is the JSON Pointer of an object, and repeat a list of those of members",
    '{"":{"key":"name","repeat":["/metadata"]}}': "the key cannot stand at /metadata: the type has this member",
    '{"":{"key":"name","repeat":["/name"]}}': "/name and another place of the key are one place",
    '{"":{"key":"a","repeat":["/metadata/labels/a/b"]}}': "the key cannot stand at /metadata/labels/a/b: it leads through keyed text",
    '{"":{"key":"a","in":"/b","content":"c"}}': "a key that is inside its item, or stands there several times, cannot have content",
    '{"/*/spec/replicas":{"one":true,"number":true}}': "number is a form of a text, and not of int",
    '{"/*/metadata":{"one":true,"flat":true}}': "what is in a list of one cannot be missing or flat itself",
}


def test_forms_that_do_not_fit_their_type():
    for form, said in FAULTS.items():
        try:
            read_form(read_type(TYPE), json.loads(form))
        except FormFault as why:
            assert said in str(why), (form, str(why))
        else:
            raise AssertionError(form)


def test_ones_of_other_kinds():
    for ty, form, file in (
        ("text", {"": "one"}, ["x"]),
        ('{a: text = "0"}', {"/a": {"one": True, "number": True}}, {"a": [5]}),
        ("list {a: <none: unit, some: int>}", {"/*/a": {"missing": "none"}, "/*/a/some": "one"}, [{"a": [3]}, {}]),
        ("tree {a: text}", {"": {"one": True, "children": "below"}}, [{"a": "x", "below": [{"a": "y", "below": []}]}]),
        ("keyed int", {"/*": "one"}, {"k": [1]}),
    ):
        shape = read_form(read_type(ty), form)
        assert is_same(to_file(shape, to_document(shape, file)), file), (ty, form)
        made = to_edit(shape, to_document(shape, file), [{"op": "test", "path": pointer([]), "value": file}])
        assert made.word == [], (ty, form)
