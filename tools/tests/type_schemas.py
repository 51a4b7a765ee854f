"""JSON Schemas of both sides against the library jsonschema: what fits validates, and what does not fit does not. And types of TypeScript."""

import json
import os
import tempfile

from editlens.checked import check
from editlens.documents import misfits
from editlens.infer import propose
from editlens.natural import DoesNotFit, FormFault, plain, read_file, read_file_at, read_form, read_form_at, to_document, to_file, write_file
from editlens.natural_schemas import json_schema
from editlens.program import TOP
from editlens.types import read_type

from . import Skipped
from .chance import some_document, some_type
from .natural_chance import some_natural, spoiled
from .scripts import called, files

try:
    import jsonschema
except ImportError:
    jsonschema = None

GAPS = ("depths in preorder", "contents, one for each depth", "a key that no other item has", "the key of this item", "at most 17 levels")
"""What a schema cannot say: so begin what a place wants there."""


def schema_of(shape):
    """A schema of one side."""
    return {**json_schema({"left": shape}), "$ref": "#/$defs/left"}


def validator(shape):
    if jsonschema is None:
        raise Skipped("python3-jsonschema is not installed")
    schema = schema_of(shape)
    jsonschema.Draft202012Validator.check_schema(schema)
    return jsonschema.Draft202012Validator(schema)


def is_gap(place):
    """Whether a schema cannot say that something does not fit at a place."""
    if place.wanted.startswith("a whole number") and place.found in ("-0", "-0.0", "1.0"):
        return True
    return any(it in place.wanted for it in GAPS)


def is_told(valid, tree, wrong):
    """Whether a schema says of a tree what the places say that do not fit. Where only gaps are wrong, it may say either."""
    return valid.is_valid(tree) == (not wrong) or bool(wrong) and all(map(is_gap, wrong))


def test_documents_of_random_types():
    refused = 0
    for _ in range(150):
        ty = some_type()
        valid = validator(plain(ty))
        for _ in range(4):
            document = some_document(ty)
            assert valid.is_valid(document), (str(ty), document)
            damaged = spoiled(document)
            wrong = list(misfits(ty, damaged))
            assert is_told(valid, damaged, wrong), (str(ty), damaged, wrong)
            refused += bool(wrong) and not all(map(is_gap, wrong))
    assert refused > 200, refused


def test_files_of_random_forms():
    refused = 0
    for _ in range(250):
        ty, form, draw = some_natural()
        shape = read_form(ty, form)
        valid = validator(shape)
        for _ in range(4):
            file = read_file(write_file(draw()))
            assert valid.is_valid(file), (str(ty), form, write_file(file))
            damaged = read_file(write_file(spoiled(file)))
            try:
                wrong = []
                document = to_document(shape, damaged)
                assert write_file(to_file(shape, document)) == write_file(damaged)
            except DoesNotFit as why:
                wrong = why.places
            assert is_told(valid, damaged, wrong), (str(ty), form, write_file(damaged), wrong)
            refused += bool(wrong) and not all(map(is_gap, wrong))
    assert refused > 300, refused


def test_a_schema_gives_types_back():
    """What is proposed from the schema of random forms reads the files of these forms."""
    for _ in range(40):
        ty, form, draw = some_natural()
        made = propose({"left": [schema_of(read_form(ty, form))]})
        shape = read_form(check(made.program)[0], made.forms["left"])
        for _ in range(5):
            file = read_file(write_file(draw()))
            document = to_document(shape, file)
            assert write_file(to_file(shape, document)) == write_file(file), (str(ty), form, made.program)


def test_the_files_of_the_examples():
    for name, *sides in (("compose", "compose", "values"), ("customers", "old", "new"), ("outline", "outline", "tasks")):
        place = os.path.join(TOP, "examples", name)
        with open(os.path.join(place, f"{name}.lens"), encoding="utf-8") as file:
            types = check(file.read())
        for ty, side in zip(types, sides):
            valid = validator(read_form_at(ty, os.path.join(place, f"{side}.form")))
            file = read_file_at(os.path.join(place, f"{side}.json"))
            assert valid.is_valid(file) and not valid.is_valid([file])


PROGRAM = """type item = {"id": int, price: text = "0", fax: <none: unit, some: text>};
main {items ~ lines: each id item, left note: enum["a", "b"], outline ~ toc: tree {title ~ name: id text}}
"""
FORMS = {"/items/*/price": "number", "/items/*/fax": {"missing": "none"}, "/outline": {"children": "parts"}}


def test_the_tool():
    with tempfile.TemporaryDirectory() as folder:
        files(folder, lens=PROGRAM, forms=FORMS, wrong={"/x": "number"})
        status, out, said = called(folder, "types", "lens", "--json-schema", "--left-form", "forms")
        assert (status, said) == (0, "")
        schema = json.loads(out)["$defs"]
        assert sorted(schema) == ["left", "left_node_1", "right"] and schema["right"]["required"] == ["lines", "toc"]
        assert schema["left"]["properties"]["items"]["items"]["required"] == ["id", "price"]
        assert schema["left"]["properties"]["items"]["items"]["properties"]["price"] == {"type": "number"}
        assert schema["left"]["properties"]["note"] == {"enum": ["a", "b"]}
        assert schema["left_node_1"]["properties"]["parts"] == {"type": "array", "items": {"$ref": "#/$defs/left_node_1"}}
        status, out, said = called(folder, "types", "lens", "--typescript", "--left-form", "forms")
        assert (status, said) == (0, "") and out.splitlines()[1:] == [
            'export type Left = { "items": Array<{ "fax"?: string; "id": number; "price": number }>; "note": "a" | "b"; "outline": LeftNode1 };',
            'export type LeftNode1 = { "title": string; "parts": Array<LeftNode1> };',
            'export type Right = { "lines": Array<{ "fax": { "none": null } | { "some": string }; "id": number; "price": string }>; '
            '"toc": { "depths": Array<number>; "items": Array<{ "name": string }> } };',
        ], out
        status, _, said = called(folder, "types", "lens", "--json-schema", "--left-form", "wrong")
        assert status == 2 and "/x: the type has no such place" in said


def test_members_of_another_variant():
    """A map of what is left does not take a member that only another kind has."""
    ty = read_type("{it: <a: {x: int}, b: {y: int}>, rest: keyed int}")
    shape = read_form(ty, {"/it": {"kind": "k", "flat": True}, "/rest": "flat"})
    first, second = json_schema({"left": shape})["$defs"]["left"]["anyOf"]
    assert first["properties"]["y"] is False and second["properties"]["x"] is False and first["additionalProperties"]["type"] == "integer"
    try:
        read_form(ty, {"/it": "flat"})
    except FormFault:
        return
    raise AssertionError("flat is no form of alternatives without a kind")
