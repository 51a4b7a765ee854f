"""Patches of users' files to edits and back, over random types, forms and files, against the library jsonpatch and the program."""

import random

from editlens import Session
from editlens.construct import construct
from editlens.edits import NoApply, NotAnEdit, act
from editlens.json_text import pointer
from editlens.natural import DoesNotFit, NoCounterpart, NotWritable, read_file, read_form, to_document, to_edit, to_file, to_patch, write_file
from editlens.types import write_type

from .chance import some_edit
from .natural_chance import some_natural, spoiled
from .patches import patched


def every_place(tree, path=()):
    """Every path in a tree, with what is there."""
    yield path, tree
    for step, it in tree.items() if isinstance(tree, dict) else enumerate(tree) if isinstance(tree, list) else ():
        yield from every_place(it, (*path, step))


def some_operation(file, other):
    """An operation at random places of a file. Values come from other files of the same form, so that many of them fit."""
    path, here = random.choice(list(every_place(file)))
    fitting = [it for place, it in every_place(other) if len(place) == len(path) and place[:1] == path[:1]]
    name = random.choice(["add", "remove", "replace", "replace", "move", "copy", "test"])
    if name in ("add", "move", "copy") and isinstance(here, (list, dict)) and random.random() < 0.7:
        fitting = [it for place, it in every_place(other) if len(place) == len(path) + 1] or fitting
        path = (*path, random.choice(["-", 0, len(here)]) if isinstance(here, list) else random.choice([*here, "k", "new"]))
    op = {"op": name, "path": pointer(path)}
    if name in ("add", "replace", "test"):
        op["value"] = random.choice(fitting) if fitting and random.random() < 0.9 else spoiled(here)
    if name in ("move", "copy"):
        near = [it for it, _ in every_place(file) if it[:-1] == path[:-1] and it] * 3 + [it for it, _ in every_place(file)]
        op["from"] = pointer(random.choice(near))
    return op


def some_case():
    """A random shape with a file of it, its document, and one more file."""
    ty, form, draw = some_natural()
    shape = read_form(ty, form)
    file, other = (read_file(write_file(draw())) for _ in range(2))
    return shape, form, file, to_document(shape, file), other


def after_all(shape, file, patch):
    """The file after a patch by the library, or None where the library refuses the patch or the file does not fit."""
    wanted = patched(file, patch)
    try:
        return write_file(to_file(shape, to_document(shape, wanted[0]))) if wanted else None
    except (DoesNotFit, RecursionError):
        # The library moves a list into itself, without an end.
        return None


def has_plain_tree(shape):
    """Whether a tree is written as depths and items, whose nodes no operation of a patch brings or takes."""
    return shape.ty.kind == "tree" and not shape.form or any(map(has_plain_tree, shape.inner.values()))


def test_the_file_after_the_patch_is_the_file_after_the_edit():
    """One operation is refused only where it does not apply, where the file does not fit then, or where a list keeps no order."""
    made = refused = 0
    for _ in range(3000):
        shape, form, file, document, other = some_case()
        # Through its text, so that no two operations share a value.
        patch = read_file(write_file([some_operation(file, other) for _ in range(random.choice([1, 1, 1, 2, 3]))]))
        wanted = after_all(shape, file, patch)
        case = write_type(shape.ty), form, write_file(file), patch
        try:
            edit = to_edit(shape, document, patch).word
        except NoCounterpart as why:
            refused += 1
            is_odd = patch[0]["op"] == "test" or any(it in str(why) for it in ("keeps no order", "moved into itself"))
            if len(patch) == 1 and not is_odd:
                assert wanted is None or has_plain_tree(shape), (case, why)
            continue
        made += 1
        found = write_file(to_file(shape, act(shape.ty, document, edit)))
        assert found == wanted, (case, edit, found, wanted)
    assert made > 900 and refused > 600, (made, refused)


def test_edits_become_patches_of_files():
    made = 0
    for _ in range(3000):
        shape, form, file, document, _ = some_case()
        edit = some_edit(shape.ty, document) + some_edit(shape.ty, document)
        try:
            after = write_file(to_file(shape, act(shape.ty, document, edit)))
            patch = to_patch(shape, document, edit)
        except (NoApply, NotAnEdit, NotWritable):
            continue
        made += 1
        case = write_type(shape.ty), form, write_file(file), edit, patch
        assert write_file(patched(file, patch)[0]) == after, case
        try:
            again = to_edit(shape, document, patch).document
        except NoCounterpart as why:
            assert "keeps no order" in str(why) or has_plain_tree(shape), (case, why)
            continue
        assert write_file(to_file(shape, again)) == after, case
    assert made > 1000, made


def test_nodes_move_below_leaves():
    """A leaf without a list of children gets one for a moment, and what is private stays with the node that moves."""
    form = {"": {"children": "c", "leaf": "missing"}}
    with Session("main tree {t ~ t: id text, right p: text}", forms={"left": form}) as session:
        session.files.patch("left", [{"op": "add", "path": "/c", "value": [{"t": "one"}, {"t": "two", "c": [{"t": "three"}]}]}])
        session.right([{"mod": [{"where": {"t": "three"}}, [{"at": ["p", [{"set": "private"}]]}]]}])
        patch = [{"op": "add", "path": "/c/0/c", "value": []}, {"op": "move", "from": "/c/1/c/0", "path": "/c/0/c/0"}, {"op": "remove", "path": "/c/1/c"}]
        assert session.files.patch("left", patch).answer.word == [{"hang": [[1, 0], [0]]}]
        assert session.files["left"] == {"t": "", "c": [{"t": "one", "c": [{"t": "three"}]}, {"t": "two"}]}
        assert session.documents["right"]["items"][2] == {"p": "private", "t": "three"}
        try:
            session.files.patch("left", [{"op": "add", "path": "/c/1/c", "value": []}])
        except NoCounterpart as why:
            assert "not empty" in str(why), why
        else:
            raise AssertionError("an empty list of children was taken")


def test_patches_of_files_through_the_program():
    """Edits made from patches of files: after each the program has the document that the file after the patch shows."""
    for _ in range(8):
        shape, form, _, document, _ = some_case()
        with Session(f"main id {write_type(shape.ty)}") as session:
            session.left(construct(shape.ty, document))
            file = to_file(shape, session.documents["left"])
            for _ in range(12):
                patch = [some_operation(file, to_file(shape, document))]
                try:
                    edit = to_edit(shape, session.documents["left"], patch).word
                except NoCounterpart:
                    continue
                file = patched(file, patch)[0]
                session.left(edit)
                shown = write_file(to_file(shape, session.documents["left"]))
                assert shown == write_file(file), (write_type(shape.ty), form, patch, shown, write_file(file))
