"""Proposals from samples and from JSON Schemas: what is proposed is accepted, and every sample fits it. Examples, cases by hand, and random ones."""

import json
import os
import random
import tempfile
from unittest import mock

from editlens import infer
from editlens.checked import check
from editlens.documents import misfits
from editlens.infer import NotProposed, propose
from editlens.json_text import read_json, write_json
from editlens.natural import Number, read_file, read_file_at, read_form, to_document, to_file, write_file
from editlens.program import TOP
from editlens.types import write_type

from . import raised
from .natural_chance import NUMBERS, OPAQUE, TEXTS, WHOLES, some_natural
from .scripts import called, files

EXAMPLES = (
    ("compose", "compose", "values"),
    ("customers", "old", "new"),
    ("messages", "messages", "units"),
    ("outline", "outline", "tasks"),
    ("queue", "shop", "warehouse"),
    ("tracker", "tracker", "board"),
)


def tree_of(text):
    return read_file(text) if isinstance(text, str) else read_file(json.dumps(text))


def held(made, samples):
    """Holds a proposal against samples, by the program and the forms alone."""
    types = check(made.program)
    for ty, (side, trees) in zip(types, samples.items()):
        shape = read_form(ty, read_json(made.form_text(side)))
        for tree in trees:
            document = to_document(shape, tree)
            assert not list(misfits(ty, document)), (made.program, tree)
            assert write_file(to_file(shape, document)) == write_file(tree), (made.program, made.forms, write_file(tree))
    return types


def proposed(*left, right=()):
    """The types, the forms and the program for some samples, held against them."""
    samples = {"left": [tree_of(it) for it in left], **({"right": [tree_of(it) for it in right]} if right else {})}
    made = propose(samples)
    types = held(made, samples)
    return [write_type(it) for it in types], made.forms, made.program


def test_the_examples_by_the_tools():
    """The files that `infer` makes are taken by `natural` and `fits`, and each example comes back from its document."""
    with tempfile.TemporaryDirectory() as folder:
        for name, *sides in EXAMPLES:
            paths = [os.path.join(TOP, "examples", name, f"{it}.json") for it in sides]
            assert called(folder, "infer", "--left", paths[0], "--right", paths[1], "--out", name) == (0, "", ""), name
            for side, path in zip(("left", "right"), paths):
                with open(path, encoding="utf-8") as file:
                    status, document, said = called(folder, "natural", "to", f"{name}.lens", side, f"{name}.{side}.form", given=file.read())
                assert status == 0, said
                files(folder, document=document)
                assert called(folder, "fits", f"{name}.lens", side, "document") == (0, "it fits\n", "")
                status, back, said = called(folder, "natural", "from", f"{name}.lens", side, f"{name}.{side}.form", given=document)
                assert status == 0, said
                with open(os.path.join(folder, f"{name}.{side}.form"), encoding="utf-8") as file:
                    is_by_key = '{"key":' in file.read()
                # A list by key comes back in the order of its keys, as the program says.
                assert is_by_key or read_file(back) == read_file_at(path), (name, side)
                words = ("to", f"{name}.lens", side, f"{name}.{side}.form")
                assert not is_by_key or called(folder, "natural", *words, given=back)[:2] == (0, document), (name, side)


def test_types_of_one_file():
    """Each line: samples, the type and the form file that are proposed."""
    for samples, ty, form in (
        (([1, 2],), "list int", {}),
        (([],), 'list text = "null"', {"/*": "json"}),
        (("[1, 0.50]",), 'list text = "0"', {"/*": "number"}),
        (([2**70],), 'list text = "0"', {"/*": "number"}),
        (([None, "x"],), "list <none: unit, some: text>", {"/*": {"null": "none"}}),
        ((["x", 1, None],), "list <none: unit, string: text, number: int>", {"/*": {"null": "none"}}),
        ((["x", [True]],), "list <string: text, array: list bool>", {"/*": "untagged"}),
        (({"a": 1}, {}), "{a: <none: unit, some: int>}", {"/a": {"missing": "none"}}),
        (({"a": 1}, {}, {"a": None}), "{a: <none: unit, null: unit, some: int>}", {"/a": {"missing": "none", "null": "null"}}),
        (({"a": None},), '{a: text = "null"}', {"/a": "json"}),
        (({"a": None}, {}), '{a: <none: unit, some: text = "null">}', {"/a": {"missing": "none"}, "/a/some": "json"}),
        (({"b-1": {"n": 1}, "b-2": {"n": 2}},), "keyed {n: int}", {}),
        (({'"': 1},), "keyed int", {}),
        (({"first": {"n": 1}, "second": {"n": 2}},), "{first: {n: int}, second: {n: int}}", {}),
        (
            ([{"type": "a", "x": 1}, {"type": "b", "y": True}],),
            "list <a: {x: int}, b: {y: bool}>",
            {"/*": {"kind": "type"}},
        ),
        (
            ({"n": 1, "sub": [{"n": 2, "sub": []}], "x": True},),
            "tree {n: int, x: <none: unit, some: bool>}",
            {"": {"children": "sub"}, "/*/x": {"missing": "none"}},
        ),
        (({"n": 1, "sub": [{"n": 2, "sub": []}]},), "tree {n: int}", {"": {"children": "sub"}}),
        (({"n": 1, "sub": [{"n": 2, "sub": [{"n": 3}]}]},), "tree {n: int}", {"": {"children": "sub", "leaf": "missing"}}),
    ):
        types, forms, _ = proposed(*samples)
        assert (types[0], forms["left"]) == (ty, form), (samples, types[0], forms)


SAME_NAME = "the names are the same but for how they are written"
NODE = {"type": "object", "properties": {"t": {"type": "string"}, "sub": {"type": "array", "items": {"$ref": "#"}}}, "additionalProperties": False}
DRAFT = "https://json-schema.org/draft/2020-12/schema"


def test_the_lens_of_two_files():
    """Each line: a left and a right sample, and lines that the program has."""
    for left, right, lines in (
        ({"a": 1, "b": "x"}, {"a": 2, "c": True}, ["  a ~ a: id int,", "  left b: text,", "  right c: bool"]),
        ({"firstName": "Ida"}, {"first_name": "Bo"}, [f"  # ? {SAME_NAME}", "  firstName ~ first_name: id text"]),
        ({"name": "Bolt"}, {"title": "Bolt"}, ["  # ? tied since 100 % of 1 values agree; the names differ", "  name ~ title: id text"]),
        ({"phone": "11"}, {"phone_number": "12"}, ["  # ? tied since one name has the other in it", "  phone ~ phone_number: id text"]),
        ({"a": 1}, {"a": "x"}, ["  left a: int,", "  right a: text"]),
        ("[1]", "[0.5]", ['main each id text = "0"']),
        ([{"a": "x"}], [{"b": True}], ["main disc", "  list {"]),
        ({"a": [1, None]}, {"a": [1]}, ["  a ~ a: each <none ~ none: id unit, some ~ some: id int>"]),
        ({"o": [{"id": "b-1", "n": 1}, {"id": "b-2", "n": 2}]}, {"o": {"b-1": {"n": 1}, "b-2": {"n": 2}}}, ["  o ~ o: keyed {", "    n ~ n: id int"]),
    ):
        _, _, program = proposed(left, right=[right])
        assert all(line in program.splitlines() for line in lines), program
    _, forms, program = proposed({"o": [{"id": "b-1", "n": 1}, {"id": "b-2", "n": 2}]}, right=[{"o": {"b-1": {"n": 3}, "b-2": {"n": 2}}}])
    assert forms["left"] == {"/o": {"key": "id"}}
    _, _, program_too = proposed({"o-1\nmain": {"a": 1}}, right=[{"o-1\nmain": {"a": 2}}])
    assert "# ? the samples disagree, at /o-1 main/a: by the left document 1, here 2" in program_too.splitlines()
    assert "# ? the samples disagree, at /o/b-1/n: by the left document 1, here 3" in program.splitlines()


def test_what_stands_where_no_proposal_can():
    """A file that is there is kept, and words that say two things are refused."""
    with tempfile.TemporaryDirectory() as folder:
        files(folder, **{"a.json": [1], "bad.json": "{", "x.form": "mine"})
        status, _, said = called(folder, "infer", "a.json", "--out", "x")
        assert status == 2 and "x.form is there already" in said and not os.path.exists(os.path.join(folder, "x.lens"))
        assert called(folder, "infer", "bad.json")[0] == 2 and called(folder, "infer", "--left", "a.json")[0] == 2
        assert called(folder, "infer", "a.json")[1].splitlines() == [
            "# Proposed from samples: 1. Every line with a ? is a doubt, to be decided by a person.",
            "main id list int",
            "",
            "# form:",
            "# {",
            "# }",
        ]
    raised(NotProposed, lambda: propose({"left": []}))


def test_samples_above_the_limits():
    """What nests too deeply or has too many parts is kept as JSON, so that the program is accepted."""
    deep = 0
    for _ in range(60):
        deep = {"a": deep, "b": [deep] if not deep else []}
    proposed(deep)
    letters = "abcdefghijklmnopqrstuvwxyz"
    with mock.patch.object(infer, "LEVELS", (14, 1)):
        types, forms, _ = proposed({a: {a + b: [{a + "p" + b: 1, "q": "x"}] for b in letters} for a in letters})
    assert len(types[0]) < 65_536 and "json" in forms["left"].values()


NAMES = ["a", "b", "id", "type", "left", "x y", "B-1", "B-2", "é", "", 'q"', "a/b", "m~n", "children", "line\nfeed", "x" * 65]


def some_json(depth=4):
    """A random tree of JSON, with places that are alike and places that are not."""
    sort = random.choice(["scalar", "scalar", "array", "object", "object", "nested", "kinds"] if depth > 0 else ["scalar"])
    if sort == "array":
        one = some_json(depth - 1)
        return [some_json(depth - 1) if random.random() < 0.3 else one for _ in range(random.randint(0, 4))]
    if sort == "object":
        return {name: some_json(depth - 1) for name in random.sample(NAMES, random.randint(0, 4))}
    if sort == "nested":
        return some_nodes(random.randint(0, 3), random.random() < 0.5)
    if sort == "kinds":
        tags = {tag: random.sample(NAMES, 2) for tag in ("one", "two", 'q"')[: random.randint(1, 3)]}
        return [{**{name: some_json(depth - 2) for name in tags[tag]}, "type": tag} for tag in random.choices(list(tags), k=5)]
    return random.choice([*WHOLES, *TEXTS, *TEXTS, *map(lambda it: tree_of(it), NUMBERS), *OPAQUE, None, True, False])


def some_nodes(depth, has_empty):
    below = [some_nodes(depth - 1, has_empty) for _ in range(random.randint(1, 3))] if depth else []
    return {"t": random.choice(TEXTS), **({"children": below} if below or has_empty or random.random() < 0.1 else {})}


def some_samples():
    """Random samples of one side: of one type and forms, or of none."""
    if random.random() < 0.5:
        _, _, draw = some_natural(2)
        return [read_file(write_file(draw())) for _ in range(random.randint(1, 4))]
    return [read_file(write_file(some_json())) for _ in range(random.randint(1, 3))]


def changed_names(tree):
    """A tree with other names and values at some places."""
    if isinstance(tree, dict):
        return {name + random.choice(["", "", "", "2", "_"]): changed_names(it) for name, it in tree.items() if random.random() < 0.9}
    if isinstance(tree, list):
        return [changed_names(it) for it in tree]
    return random.choice([tree, tree, tree, None, Number("0.5"), "x"])


def test_random_samples_fit():
    for _ in range(60):
        samples = {"left": some_samples()}
        held(propose(samples), samples)


def test_random_pairs_of_samples_fit():
    """The right side is drawn by itself, or made of the left one with other names and values."""
    tied = 0
    for _ in range(40):
        left = some_samples()
        right = some_samples() if random.random() < 0.3 else [read_file(write_file(changed_names(it))) for it in left]
        samples = {"left": left, "right": right}
        made = propose(samples)
        held(made, samples)
        tied += "~" in made.program or "main each" in made.program
    assert tied > 10, tied


def test_json_schemas():
    """Each line: a schema, and the type and the forms that are proposed."""
    for schema, ty, form in (
        ({"type": "integer", "minimum": 3}, "int", {}),
        ({"type": ["string", "null"]}, "<none: unit, some: text>", {"": {"null": "none"}}),
        ({"enum": ["a", "b"]}, 'enum["a", "b"]', {}),
        ({"enum": [True, False]}, 'enum["true", "false"]', {"": {"members": {"true": True, "false": False}}}),
        ({"type": "object", "properties": {"a": {"type": "number"}}, "required": ["a"]}, '{a: text = "0"}', {"/a": "number"}),
        ({"type": "object", "properties": {"a": {"type": "boolean"}}}, "{a: <none: unit, some: bool>}", {"/a": {"missing": "none"}}),
        ({"type": "object", "additionalProperties": {"type": "string"}}, "keyed text", {}),
        ({"type": "array", "items": {"$ref": "#/$defs/x"}, "$defs": {"x": {"type": "null"}}}, "list unit", {}),
        (
            {"oneOf": [{"properties": {"k": {"const": it}, it: {"type": "string"}}, "required": ["k", it]} for it in ("a", "b")]},
            "<a: {a: text}, b: {b: text}>",
            {"": {"kind": "k"}},
        ),
        (
            {"anyOf": [{"type": "string"}, {"type": "object", "required": ["a"], "properties": {"a": True}}]},
            "<string: text, object: {a: text = \"null\"}>",
            {"": "untagged", "/object/a": "json"},
        ),
        ({**NODE, "$schema": DRAFT}, None, {"": {"children": "sub", "leaf": "missing"}, "/*/t": {"missing": "none"}}),
        ({"$ref": "#"}, 'text = "null"', {"": "json"}),
    ):
        made = propose({"left": [schema]}, are_schemas=True)
        found = held(made, {"left": []})[0]
        assert (write_type(found) if ty else None, made.forms["left"]) == (ty, form), (schema, write_type(found), made.forms)
    assert "# ? of the schema this is not kept: minimum" in propose({"left": [{"type": "integer", "minimum": 3}]}, True).program
    with tempfile.TemporaryDirectory() as folder:
        files(folder, schema={"type": "integer"})
        assert "main id int" in called(folder, "infer", "--schema", "schema")[1].splitlines()
    assert write_json(made.forms) == '{"left":{"":"json"}}'
