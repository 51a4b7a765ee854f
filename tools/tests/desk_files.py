"""The desk with form files: what it says of a user's file, and patches of it that it takes and refuses. No browser is needed."""

import json
import os
import subprocess
import tempfile

from editlens.desk.desk import Desk
from editlens.desk.files import drawn_tree
from editlens.desk.keepers import RunKeeper, StoreKeeper
from editlens.json_text import read_json_file
from editlens.natural import read_file, read_file_at, read_form, to_document, write_file
from editlens.program import TOP
from editlens.store import Store

from . import PATIENCE
from .desks import DESK, SMALL, asked, sent, served

CUSTOMERS = os.path.join(TOP, "examples", "customers")
FORMS = {side: os.path.join(CUSTOMERS, name) for side, name in (("left", "old.form"), ("right", "new.form"))}
FILES = {side: os.path.join(CUSTOMERS, name) for side, name in (("left", "old.json"), ("right", "new.json"))}


def program():
    """The program of the example."""
    with open(os.path.join(CUSTOMERS, "customers.lens"), encoding="utf-8") as file:
        return file.read()


def begun():
    """A desk over the files of the example."""
    forms = {side: read_json_file(path) for side, path in FORMS.items()}
    keeper = RunKeeper(program(), forms=forms)
    keeper.begin(*(to_document(read_form(keeper.types[side], forms[side]), read_file_at(FILES[side])) for side in ("left", "right")))
    return Desk(keeper, "customers")


def patched(server, base, side, text, drop=False):
    return sent(server, "patch", base=base, side=side, patch=text, drop=drop)


def shown(server, side):
    """What the desk says of the file of a side."""
    status, _, text = asked(server, "GET", f"/{server.token}/file?side={side}")
    assert status == 200, text
    return json.loads(text)


def undrawn(tree):
    """The file of a drawn tree."""
    if isinstance(tree, str):
        return read_file(tree)
    return [undrawn(it) for it in tree] if isinstance(tree, list) else {name: undrawn(it) for name, it in tree["members"]}


def test_a_file_is_drawn_as_it_is():
    tree = read_file('{"b": [1.50, "1.50", -0, 123456789012345678901234567890], "10": {}, "9": [], "a": {"x": null, "é\\n": true}}')
    drawn = drawn_tree(tree)
    assert [name for name, _ in drawn["members"]] == ["10", "9", "a", "b"] and drawn["members"][3][1] == ["1.50", '"1.50"', "-0", "1234567890" * 3], drawn
    assert write_file(undrawn(drawn)) == write_file(tree)


def test_files_of_both_sides():
    """The desk says the files of both sides as they are, and a patch of one changes the other: the answers are those of tools/patch."""
    with served(begun()) as server:
        assert json.loads(asked(server, "GET", f"/{server.token}/state")[2])["files"] is True
        left = shown(server, "left")
        assert left["version"] == 0 and write_file(undrawn(left["tree"])) == write_file(read_file_at(FILES["left"]))
        assert patched(server, 0, "right", '[{"op":"replace","path":"/c-1001/discount","value":5.10}]') == {"ok": True, "version": 1}
        one = undrawn(shown(server, "left")["tree"])[1]
        assert one["discount"] == "5.10" and undrawn(shown(server, "right")["tree"])["c-1001"]["discount"].text == "5.10"
        assert server.desk.history[-1]["sentences"] == ['right: customers, key "c-1001", discount: set to "5.10"'], server.desk.history[-1]
        # An edit of a document comes to the file as well.
        edit = [{"at": ["customers", [{"mod": ["c-1002", [{"at": ["fax", [{"switch": ["none", "some", [{"set": "7"}]]}]]}]]}]]}]
        assert sent(server, "edit", base=1, side="left", edit=edit)["ok"]
        assert undrawn(shown(server, "left")["tree"])[0]["fax"] == "7" and undrawn(shown(server, "right")["tree"])["c-1002"]["fax"] == "7"
        assert sent(server, "undo", base=2)["ok"] and "fax" not in undrawn(shown(server, "left")["tree"])[0]
        assert patched(server, 3, "left", '[{"op":"add","path":"/0/fax","value":"8"}]')["ok"] and sent(server, "undo", base=4)["ok"]
        assert sent(server, "redo", base=5)["ok"] and undrawn(shown(server, "right")["tree"])["c-1002"]["fax"] == "8"


REFUSED = [
    ("no-edit", "wanted one of \"light\", \"dark\"", '[{"op":"replace","path":"/c-1001/preferences/theme","value":"blue"}]'),
    ("private-loss", "/customers/*/phones/*/home/verified", '[{"op":"replace","path":"/c-1001/contact/home","value":[{"number":"1"}]}]'),
    ("not-json", "this is not JSON", '[{"op":"replace",'),
    ("no-edit", "a patch is an array", "{}"),
]


def test_patches_that_are_refused():
    with served(begun()) as server:
        before = server.desk.keeper.documents
        for cause, told, text in REFUSED:
            said = patched(server, 0, "right", text)
            assert (said["ok"], said["cause"], said["patch"]) == (False, cause, text) and told in said["sentence"], said
        assert server.desk.keeper.documents == before and server.desk.version == 0
        assert patched(server, 0, "right", REFUSED[1][2], drop=True)["ok"] and undrawn(shown(server, "left")["tree"])[1]["phones"][0]["verified"] is False


def test_a_document_that_its_form_cannot_write():
    """Where a text is no number, the form `number` cannot write it: the desk says so, and goes on."""
    desk = Desk(RunKeeper("main {a ~ b: id text = \"0\"}", forms={"left": {"/a": "number"}}), "number")
    with served(desk) as server:
        assert sent(server, "edit", base=0, side="left", edit=[{"at": ["a", [{"set": "many"}]]}])["ok"]
        said = shown(server, "left")
        assert "tree" not in said and '"many" is not the text of a number' in said["fault"] and undrawn(shown(server, "right")["tree"]) == {"b": "many"}
        said = patched(server, 1, "right", '[{"op":"replace","path":"/b","value":"more"}]')
        assert said["cause"] == "not-writable" and "the left file could not show" in said["sentence"], said


def test_files_of_a_store_and_of_another_program():
    with tempfile.TemporaryDirectory() as folder:
        Store.init(folder, SMALL)
        with served(Desk(StoreKeeper(folder, forms={"left": {}}), "small")) as server:
            assert patched(server, 0, "left", '[{"op":"replace","path":"/a","value":3}]')["ok"] and undrawn(shown(server, "right")["tree"]) == {"b": 3}
        assert Store(folder).show()[0] == {"a": 3, "hours": 0}
    desk = Desk(RunKeeper("main {a ~ b: id text = \"0\"}", forms={"left": {"/a": "number"}}), "number")
    said = desk.load(0, "main {a ~ b: id int}")
    assert said["ok"] and any("/a" in it and "form files do not fit" in it for it in said["notices"]) and desk.file("left") is None, said
    desk.close()


def test_no_files_without_form_files():
    with served(Desk(RunKeeper(SMALL), "small")) as server:
        assert json.loads(asked(server, "GET", f"/{server.token}/state")[2])["files"] is False
        assert [asked(server, "GET", f"/{server.token}/file?side={it}")[0] for it in ("left", "up", "")] == [404] * 3


def test_the_command_takes_form_files():
    """The files of the example open as they are, with the place where they disagree; what does not fit is refused."""
    words = [DESK, "--left-form", FORMS["left"], "--right-form", FORMS["right"], os.path.join(CUSTOMERS, "customers.lens"), FILES["left"], FILES["right"]]
    running = subprocess.Popen([*words, "--no-browser"], stdout=subprocess.PIPE, text=True)
    try:
        assert running.stdout.readline().startswith("the desk is at "), running.poll()
    finally:
        running.terminate()
        running.communicate()
    how = {"capture_output": True, "text": True, "timeout": PATIENCE, "check": False}
    ran = subprocess.run([*words[:-2], FILES["right"]], **how)
    assert ran.returncode == 2 and "wanted an array of objects with the member id" in ran.stderr, ran
    for word in ("--hub", "--replay"):
        ran = subprocess.run([*words[:1], "--left-form", FORMS["left"], word, os.path.join(TOP, "examples", "tasks.script")], **how)
        assert ran.returncode == 2 and "a hub and a replay show documents alone" in ran.stderr, ran
