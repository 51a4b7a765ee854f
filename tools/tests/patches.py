"""JSON Patch to edits and back, over random documents, against the library jsonpatch and the program."""

import copy
import random

from editlens import Session
from editlens.construct import construct
from editlens.documents import fits
from editlens.edits import NoApply, NotAnEdit, act
from editlens.patches import NoCounterpart, to_edit, to_patch
from editlens.types import read_type, write_type

from . import Skipped
from .chance import some_document, some_edit, some_operation, some_type

try:
    import jsonpatch
except ImportError:
    jsonpatch = None


def patched(document, patch):
    """The document after a patch by the library, in a list, or None where it refuses it.

    The library changes no text or number that is a whole document. So the document is a member here, and every pointer goes into it.
    """
    if jsonpatch is None:
        raise Skipped("python3-jsonpatch is not installed")
    inside = [{**op, **{name: "/all" + op[name] for name in ("path", "from") if name in op}} for op in copy.deepcopy(patch)]
    try:
        after = jsonpatch.apply_patch({"all": copy.deepcopy(document)}, inside)
    except (jsonpatch.JsonPatchException, jsonpatch.JsonPointerException, TypeError):
        return None
    return [after["all"]] if "all" in after else None


def test_edits_become_patches():
    for _ in range(600):
        ty = some_type(3)
        document = some_document(ty)
        edit = some_edit(ty, document) + some_edit(ty, document)
        try:
            after = act(ty, document, edit)
        except (NoApply, NotAnEdit):
            continue
        patch = to_patch(ty, document, edit)
        assert patched(document, patch) == [after], (write_type(ty), document, edit, patch)


def has_a_tree(ty):
    return ty.kind == "tree" or any(has_a_tree(it) for _, it in ty.fields) or (ty.inner is not None and has_a_tree(ty.inner))


def test_patches_become_edits():
    """The document is the one after the patch. A single operation is refused only where it does not apply or its result does not fit."""
    made = refused = 0
    for _ in range(4000):
        ty = some_type(3)
        document = some_document(ty)
        patch = [some_operation(ty, document) for _ in range(random.choice([1, 1, 2]))]
        wanted = patched(document, patch)
        try:
            edit = to_edit(ty, document, patch)
        except NoCounterpart as why:
            refused += 1
            if len(patch) == 1 and wanted is not None and not has_a_tree(ty):
                assert not fits(ty, wanted[0]), (write_type(ty), document, patch, why)
            continue
        made += 1
        assert wanted is not None and act(ty, document, edit) == wanted[0], (write_type(ty), document, patch, edit, wanted)
    assert made > 800 and refused > 400, (made, refused)


def test_patches_through_the_program():
    """A journal of edits made from patches: after each the program has the document that the library has."""
    for _ in range(8):
        ty = some_type(3)
        document = some_document(ty)
        with Session(f"main id {write_type(ty)}") as session:
            session.left(construct(ty, document))
            for _ in range(15):
                patch = [some_operation(ty, document)]
                try:
                    edit = to_edit(ty, document, patch)
                except NoCounterpart:
                    continue
                document = patched(document, patch)[0]
                answer = session.left(edit)
                assert session.documents["left"] == document, (write_type(ty), patch, edit)
                assert answer.word == edit


def test_what_has_no_counterpart():
    ty = read_type("{a: int, k: keyed int, l: list int, p: <none: unit, some: int>, t: tree int}")
    document = {"a": 1, "k": {"x": 1}, "l": [1, 2], "p": {"none": None}, "t": {"depths": [0], "items": [5]}}
    for op, reason in (
        ({"op": "remove", "path": "/a"}, "/a: wanted a whole number within 64 bits, without fraction or exponent, found nothing"),
        ({"op": "add", "path": "/b", "value": 1}, "/b: wanted no such member, found 1"),
        ({"op": "replace", "path": "/a", "value": "x"}, '/a: wanted a whole number within 64 bits, without fraction or exponent, found "x"'),
        ({"op": "add", "path": "/p/some", "value": 1}, "/p: wanted an object with exactly one member, one of none, some, found"),
        ({"op": "add", "path": "/t/depths/-", "value": 1}, "the nodes of a tree"),
        ({"op": "remove", "path": "/l/2"}, "there is no place 2"),
        ({"op": "test", "path": "/a", "value": 2}, "the test fails"),
        ({"op": "add", "path": "/a"}, "the operation has no value"),
        ({"op": "frob", "path": "/a"}, "not an operation"),
        ({"op": "remove", "path": ""}, "a document cannot be removed"),
        ({"op": "move", "from": "/k", "path": "/k/y"}, "cannot be moved into itself"),
    ):
        try:
            to_edit(ty, document, [op])
        except NoCounterpart as why:
            assert reason in why.reason, (op, why)
        else:
            raise AssertionError(op)


def test_what_is_made_of_parts():
    ty = read_type("{a: int, l: list int, p: <none: unit, some: int>}")
    document = {"a": 1, "l": [1, 2], "p": {"none": None}}
    for patch, edit in (
        ([{"op": "replace", "path": "", "value": {"a": 2, "l": [], "p": {"none": None}}}], [{"at": ["a", [{"set": 2}]]}, {"at": ["l", [{"del": 2}]]}]),
        ([{"op": "add", "path": "/l/0", "value": 7}], [{"at": ["l", [{"ins": 1}, {"move": [2, 0]}, {"mod": [0, [{"set": 7}]]}]]}]),
        ([{"op": "copy", "from": "/l/1", "path": "/a"}], [{"at": ["a", [{"set": 2}]]}]),
        ([{"op": "remove", "path": "/l/0"}], [{"at": ["l", [{"move": [0, 1]}, {"del": 1}]]}]),
        (
            [{"op": "remove", "path": "/p/none"}, {"op": "add", "path": "/p/some", "value": 4}],
            [{"at": ["p", [{"switch": ["none", "some", [{"set": 4}]]}]]}],
        ),
        ([{"op": "replace", "path": "/p", "value": {"some": 4}}], [{"at": ["p", [{"switch": ["none", "some", [{"set": 4}]]}]]}]),
    ):
        assert to_edit(ty, document, patch) == edit, (patch, to_edit(ty, document, patch))
