"""The scripts, as they are called."""

import json
import os
import signal
import subprocess
import sys
import tempfile

from editlens.lock import StoreLock
from editlens.program import TOP
from editlens.store import Store

from . import PATIENCE

TOOLS = os.path.join(TOP, "tools")
PROGRAM = "main keyed {title ~ card: id text, left hours: int, right color: text}\n"


def called(folder, tool, *words, given=""):
    ran = subprocess.run([os.path.join(TOOLS, tool), *words], cwd=folder, input=given, capture_output=True, text=True, check=False)
    return ran.returncode, ran.stdout, ran.stderr


def written(command, script):
    """What the program writes for a script in which nothing is refused."""
    said = subprocess.run([os.environ["EDITLENS"], command], input=script, capture_output=True, text=True, check=False)
    assert said.returncode == 0, said
    return said.stdout


def files(folder, **texts):
    for name, text in texts.items():
        with open(os.path.join(folder, name), "w", encoding="utf-8") as file:
            file.write(text if isinstance(text, str) else json.dumps(text))


def test_help():
    for tool in ("fits", "load", "load-hub", "explain", "types", "patch", "natural", "patch-to-edit", "edit-to-patch", "check"):
        status, out, _ = called(TOP, tool, "--help")
        assert status == 0 and out.startswith("usage: "), tool


def test_fits():
    with tempfile.TemporaryDirectory() as folder:
        files(folder, lens=PROGRAM, good={"door": {"hours": 3, "title": "Paint"}}, bad={"door": {"hours": "3"}})
        assert called(folder, "fits", "lens", "left", "good") == (0, "it fits\n", "")
        status, out, _ = called(folder, "fits", "lens", "left", "bad")
        assert status == 1 and out.splitlines() == [
            '/door/hours: wanted a whole number within 64 bits, without fraction or exponent, found "3"',
            "/door/title: wanted a field of type text, found nothing",
        ], out


def test_load_and_explain():
    with tempfile.TemporaryDirectory() as folder:
        files(folder, lens=PROGRAM, left={"door": {"hours": 3, "title": "Paint"}}, right={"door": {"card": "Paint", "color": "red"}})
        status, script, err = called(folder, "load", "lens", "left", "right")
        assert (status, err) == (0, ""), err
        assert called(folder, "explain", "-", given=script) == (0, "nothing is refused\n", "")
        files(folder, right={"door": {"card": "Draw", "color": "red"}})
        status, again, err = called(folder, "load", "lens", "left", "right")
        assert status == 1 and again == script and '/door/card: by the left document "Paint", here "Draw"' in err
        status, out, err = called(folder, "explain", "-", given="main id\n")
        assert status == 3 and "found: the end of the program" in err


def test_load_a_link():
    with tempfile.TemporaryDirectory() as folder:
        left, right = {"door": {"hours": 3, "title": "Paint"}}, {"door": {"card": "Paint", "color": "red"}}
        for mine, theirs, numbers in ((left, right, "2 2"), (left, {"door": {"card": "Paint", "color": ""}}, "1 1"), ({}, {}, "0 0")):
            files(folder, lens=PROGRAM, left=mine, right=theirs)
            status, script, err = called(folder, "load", "--link", "lens", "left", "right")
            assert (status, err) == (0, ""), err
            said = dict(it.split(" ", 1) for it in written("link", script).splitlines()[-4:])
            assert (json.loads(said["left"]), json.loads(said["right"]), said["numbers"]) == (mine, theirs, numbers)


def test_load_a_hub():
    with tempfile.TemporaryDirectory() as folder:
        other = "main keyed {title ~ name: id text, hours ~ time: id int}\n"
        hub = {"door": {"hours": 3, "title": "Paint"}}
        cards, times = {"door": {"card": "Paint", "color": "red"}}, {"door": {"name": "Paint", "time": 4}}
        files(folder, hub=hub, lens=PROGRAM, other=other, cards=cards, times=times)
        status, script, err = called(folder, "load-hub", "hub", "lens", "cards", "other", "times")
        assert status == 1 and err.splitlines()[1:] == ["view 1, /door/time: by the hub 3, here 4"], err
        said = written("hub", script).splitlines()
        state = [json.loads(it.rsplit(" ", 1)[1]) for it in said if it.startswith(("hub ", "view "))]
        assert state == [hub, cards, {"door": {"name": "Paint", "time": 3}}], said
        files(folder, wrong="main keyed {title ~ name: id text, left hours: text}", broken="main id", bad={"door": {}})
        for words, status, told in (
            (("hub", "lens", "cards", "wrong", "times"), 3, "at /*/hours: text against int"),
            (("hub", "lens", "cards", "broken", "times"), 3, "program refused: view 1 not-a-program 8\nline 2, column 1:"),
            (("hub", "lens", "cards", "other"), 2, "each view is a program and a document"),
            (("hub", "lens", "bad"), 2, "the right document does not fit"),
        ):
            answer = called(folder, "load-hub", *words)
            assert answer[0] == status and not answer[1] and told in answer[2], (words, answer)


def test_load_a_store():
    with tempfile.TemporaryDirectory() as folder:
        left, right = {"door": {"hours": 3, "title": "Paint"}}, {"door": {"card": "Paint", "color": "red"}}
        files(folder, lens=PROGRAM, left=left, right=right, other={"door": {"card": "Draw", "color": "blue"}}, wrong={"door": {}})
        words = ("lens", "left", "right")
        assert called(folder, "load", "--store", "kept", "lens", "left", "wrong")[0] == 2
        assert called(folder, "load", "--store", "kept", *words) == (0, "", "")
        store = Store(os.path.join(folder, "kept"))
        assert store.show()[:2] == (left, right) and store.verify() == 2
        status, out, err = called(folder, "load", "--store", "kept", *words)
        assert (status, out) == (4, "") and err.startswith("store refused: log-exists\nthere is a store already"), err
        status, out, err = called(folder, "load", "--store", "again", "lens", "left", "other")
        assert status == 0 and not out and '/door/card: by the left document "Paint", here "Draw"' in err, err
        assert Store(os.path.join(folder, "again")).show()[1] == {"door": {"card": "Paint", "color": "blue"}}


def test_patches_of_a_store():
    """Each line has its answer, and what is refused changes nothing."""
    with tempfile.TemporaryDirectory() as folder:
        files(folder, form={"": {"key": "id"}, "/*/hours": {"missing": "none"}})
        lens = "main keyed {title ~ card: id text, left hours: <none: unit, some: int>, right color: text}\n"
        store = Store.init(os.path.join(folder, "kept"), lens)
        store.right([{"put": "gate"}, {"mod": ["gate", [{"at": ["color", [{"set": "red"}]]}]]}])
        add = {"op": "add", "path": "/-", "value": {"id": "door", "title": "Paint"}}
        lines = [json.dumps([it]) for it in (add, {**add, "path": "/x"}, {"op": "replace", "path": "", "value": []}, {"op": "test", "path": "", "value": []})]
        status, out, err = called(folder, "patch", "--left-form", "form", "kept", "left", given="\n".join([*lines, "[", '{"op":"test"}', ""]))
        assert (status, err) == (1, "") and out.splitlines() == [
            'ok 1 [{"op":"add","path":"/door","value":{"card":"","color":""}},{"op":"replace","path":"/door/card","value":"Paint"}]',
            "refused 2 operation 0: /x: x is no place of a list",
            "refused 3 operation 0: by this replace of the document the right side would lose what it alone has at /*/color",
            'refused 4 operation 0: (the document): the test fails, here is [{"id":"gate","title":""},{"id":"door","title":"Paint"}]',
            "refused 5 not JSON: Expecting value: line 1 column 2 (char 1)",
            "refused 6 operation 0: a patch is an array of operations",
        ], out
        assert store.show()[1] == {"door": {"card": "Paint", "color": ""}, "gate": {"card": "", "color": "red"}} and store.verify() == 2


PRICES = 'main keyed {name ~ title: id text, price ~ cost: id text = "0", right stock: int}'


def test_patches_of_both_files():
    """Patches of either side, a group, an undo: one line each. What is refused changes nothing."""
    with tempfile.TemporaryDirectory() as folder:
        files(folder, form={"": {"key": "id"}, "/*/price": "number"}, other={"/*/cost": "number"})
        store = Store.init(os.path.join(folder, "kept"), PRICES)
        rename, price = {"op": "replace", "path": "/0/name", "value": "Nut"}, {"op": "replace", "path": "/b/cost", "value": 3}
        lines = [
            {"side": "left", "patch": [{"op": "add", "path": "/-", "value": {"id": "b", "name": "Bolt", "price": 1}}]},
            {"side": "right", "patch": [{"op": "replace", "path": "/b/stock", "value": 700}]},
            {"group": [{"side": "left", "patch": [rename]}, {"side": "right", "patch": [price]}]},
            {"group": [{"side": "right", "patch": [price]}, {"side": "left", "patch": [{"op": "remove", "path": "/7"}]}]},
            {"side": "left", "patch": [{"op": "replace", "path": "", "value": []}]},
            {"undo": 1},
            {"side": "left", "patch": [{"op": "replace", "path": "", "value": []}], "drop_private": True},
            {"undo": 5},
            {"undo": True},
            {"side": "middle", "patch": []},
            [rename],
        ]
        words = ("--left-form", "form", "--right-form", "other", "kept", "both")
        status, out, err = called(folder, "patch", *words, given="\n".join(map(json.dumps, lines)))
        said = out.splitlines()
        assert (status, err, len(said)) == (1, "", len(lines)), (err, said)
        assert said[1] == "ok 2 left []"
        assert said[2] == (
            'ok 3 group [{"patch":[{"op":"replace","path":"/b/title","value":"Nut"}],"side":"right"},'
            '{"patch":[{"op":"replace","path":"/0/price","value":3}],"side":"left"}]'
        )
        assert said[3] == "refused 4 operation 0: /7: there is no place 7 in a list of 1"
        assert said[4] == "refused 5 operation 0: by this replace of the document the right side would lose what it alone has at /*/stock"
        assert json.loads(said[5].removeprefix("ok 6 undo ")) == {
            "left": [{"op": "replace", "path": "/0/price", "value": 1}, {"op": "replace", "path": "/0/name", "value": "Bolt"}],
            "right": [{"op": "replace", "path": "/b/cost", "value": 1}, {"op": "replace", "path": "/b/title", "value": "Bolt"}],
        }
        assert said[6] == 'ok 7 right [{"op":"remove","path":"/b"}]'
        assert said[7].startswith("refused 8 nothing-to-undo: ") and said[8].startswith("refused 9 undo says how many")
        assert said[9].startswith("refused 10 a patch of a side is ") and said[10].startswith('refused 11 a line is {"side":SIDE')
        assert store.show()[:2] == ({}, {}) and store.verify() == 4


def test_a_store_that_is_busy():
    with tempfile.TemporaryDirectory() as folder:
        place = os.path.join(folder, "kept")
        Store.init(place, PRICES)
        with StoreLock(place):
            status, out, err = called(folder, "patch", "kept", "left", given="[]\n")
        assert status == 7 and not out and err.startswith("another program is writing to the store"), (status, err)
        assert "7" in called(folder, "patch", "--help")[1].split("The status is")[1]


STRANGE = [
    b"5", b"null", b"[5]", b"[{}]", b"\xff\xfe", b"[" * 100_000, b"[" * 900 + b"]" * 900, b'[{"op":{},"path":""}]',
    b'[{"op":"test","path":"/0/price","value":1e999999999999999999999}]',
    b'[{"op":"test","path":[{"where":{"price":1e999999999999999999999}},"name"],"value":""}]',
    b'[{"op":"remove","path":"/' + b"9" * 5000 + b'"}]', b'[{"op":"test","path":[["a"]],"value":1}]', b'[{"op":"remove","path":[null]}]',
    b'[{"op":"add","path":"/-","value":{"id":"\\ud800","name":"","price":1}}]', b'[{"op":"test","path":"/0/price","value":NaN}]',
    b'[{"op":"replace","path":"","value":' + b'[{"id":' * 300 + b"1" + b"}]" * 300 + b"}]", b'[{"op":"add","path":"/a~2","value":1}]',
]
"""Lines that once ended the tool, or might."""


def test_no_line_ends_the_tool():
    """Each strange line is refused with a sentence, and the line behind it is answered."""
    with tempfile.TemporaryDirectory() as folder:
        files(folder, form={"": {"key": "id"}, "/*/price": "number"})
        Store.init(os.path.join(folder, "kept"), PRICES)
        digits = b'{"id":"b","name":"","price":' + b"7" * 5000 + b"}"
        lines = [b'[{"op":"add","path":"/-","value":' + digits + b"}]", *STRANGE, b'[{"op":"test","path":"","value":[' + digits + b"]}]"]
        words = [os.path.join(TOOLS, "patch"), "--left-form", "form", "kept", "left"]
        ran = subprocess.run(words, cwd=folder, input=b"\n".join(lines), capture_output=True, check=False)
        said = ran.stdout.decode().split("\n")[:-1]
        assert (ran.returncode, ran.stderr, len(said)) == (1, b"", len(lines)), (ran.stderr[-400:], said)
        assert said[0].startswith("ok 1 ") and said[-1] == f"ok {len(lines)} []"
        assert [it.split(" ")[:2] for it in said[1:-1]] == [["refused", str(number)] for number in range(2, len(lines))]


def test_a_number_that_is_too_large_for_arithmetic():
    """It is stored as it is written, and later lines compare it and name an item by it."""
    huge, more = "1e999999999999999999999", "10e999999999999999999998"
    with tempfile.TemporaryDirectory() as folder:
        files(folder, form={"": {"key": "id"}, "/*/price": "number"})
        store = Store.init(os.path.join(folder, "kept"), PRICES)
        lines = [
            f'[{{"op":"add","path":"/-","value":{{"id":"a","name":"","price":{huge}}}}},{{"op":"add","path":"/-","value":{{"id":"b","name":"","price":1}}}}]',
            f'[{{"op":"replace","path":[{{"where":{{"price":{huge}}}}},"name"],"value":"found"}}]',
            f'[{{"op":"test","path":"/0/price","value":{huge}}}]',
            f'[{{"op":"test","path":"/0/price","value":{more}}}]',
            f'[{{"op":"test","path":"/1/price","value":{huge}}}]',
            '[{"op":"replace","path":[{"where":{"price":1}},"name"],"value":"other"}]',
        ]
        status, out, err = called(folder, "patch", "--left-form", "form", "kept", "left", given="\n".join(lines) + "\n")
        said = [it.split(" ")[0] for it in out.splitlines()]
        assert (status, err) == (1, "") and said[:3] == ["ok", "ok", "ok"] and said[4:] == ["refused", "ok"], (out, err)
        assert store.show()[0] == {"a": {"name": "found", "price": huge}, "b": {"name": "other", "price": "1"}}, store.show()


def test_load_names_places_of_users_files():
    with tempfile.TemporaryDirectory() as folder:
        form = {"": {"key": "id", "content": "is"}, "/*/cost": "number"}
        row = {"name": "Bolt", "price": "1.50"}
        theirs = [{"id": "c", "is": {"cost": 2, "stock": 0, "title": "Nut"}}, {"id": "b", "is": {"cost": 2.50, "stock": 0, "title": "Bolt"}}]
        files(folder, lens=PRICES, left={"a": row, "b": row}, form=form, right=theirs)
        status, _, err = called(folder, "load", "--right-form", "form", "lens", "left", "right")
        assert status == 1 and sorted(err.splitlines()[1:]) == [
            "/0: by the left document nothing, here {\"cost\":2,\"stock\":0,\"title\":\"Nut\"}",
            "/1/is/cost: by the left document 1.50, here 2.5",
            '/a: by the left document {"cost":1.50,"stock":0,"title":"Bolt"}, here nothing',
        ], err


def test_explain_a_store():
    """The entry is given as a word, in a file, or on the standard input, and each is explained as the others are."""
    with tempfile.TemporaryDirectory() as folder:
        Store.init(os.path.join(folder, "kept"), PROGRAM)
        entry = '{"side":"left","edit":[{"drop":"door"}]}'
        files(folder, journal=entry + "\n")
        said = called(folder, "explain", "--store", "kept", entry)
        assert said[0] == 1 and said[1].startswith("refused 1 no-apply 0 place\n") and said[2] == "", said
        for words, given in ((["journal"], ""), (["-"], entry), ([], entry + "\n")):
            assert called(folder, "explain", "--store", "kept", *words, given=given) == said, words
        assert called(folder, "explain")[0] == 2 and Store(os.path.join(folder, "kept")).verify() == 0


def test_load_a_store_of_a_long_document():
    """A document that is too long for a line is not imported, but built by entries."""
    with tempfile.TemporaryDirectory() as folder:
        left = {f"{number}": {"hours": number, "title": "x" * 2000} for number in range(600)}
        right = {key: {"card": it["title"], "color": "red" if key == "7" else ""} for key, it in left.items()}
        files(folder, lens=PROGRAM, left=left, right=right)
        assert called(folder, "load", "--store", "kept", "lens", "left", "right") == (0, "", "")
        assert Store(os.path.join(folder, "kept")).show()[:2] == (left, right)


def test_files_that_cannot_be_used():
    with tempfile.TemporaryDirectory() as folder:
        files(folder, lens=PROGRAM, broken="{bad", good={})
        for words in (("nowhere", "left", "good"), ("lens", "left", "broken"), ("lens", "left", "nowhere")):
            status, out, err = called(folder, "fits", *words)
            assert (status, out) == (2, "") and err.count("\n") == 1, (words, err)


def test_line_ends_of_another_system():
    """Offsets count each byte, so CR and LF stay as they are."""
    with tempfile.TemporaryDirectory() as folder:
        with open(os.path.join(folder, "script"), "wb") as file:
            file.write(b"type t = int;\r\nmain {a ~ b: id u}\r\n---\r\n")
        status, _, err = called(folder, "explain", "script")
        assert status == 3 and "line 2, column 17:" in err.splitlines(), err


def test_types():
    """One field a line, and with the line feeds taken out it is what `check` writes."""
    with tempfile.TemporaryDirectory() as folder:
        lens = 'main {a ~ b: each <p ~ q: keyed id int, r ~ s: {}>, left c: enum["x", "y"] = "y"}\n'
        files(folder, lens=lens)
        status, out, _ = called(folder, "types", "lens")
        assert status == 0 and out.splitlines()[:8] == ["left {", "  a: list <", "    p: keyed int,", "    r: {}", "  >,", '  c: enum["x", "y"] = "y"', "}", "right {"], out
        assert "".join(out.split()) == "".join(written("check", lens).split())


def test_patch_and_back():
    with tempfile.TemporaryDirectory() as folder:
        files(folder, lens=PROGRAM, left={"door": {"hours": 3, "title": "Paint"}}, patch=[{"op": "move", "from": "/door", "path": "/gate"}])
        status, line, _ = called(folder, "patch-to-edit", "lens", "left", "left", "patch")
        assert status == 0 and json.loads(line) == {"side": "left", "edit": [{"rename": ["door", "gate"]}]}
        files(folder, edit=json.loads(line)["edit"])
        status, patch, _ = called(folder, "edit-to-patch", "lens", "left", "left", "edit")
        assert status == 0 and json.loads(patch) == [{"op": "move", "from": "/door", "path": "/gate"}]


def test_the_examples_in_python():
    """The Python of the page of the tools, in a folder with the lens of that page."""
    with open(os.path.join(TOOLS, "README.md"), encoding="utf-8") as file:
        page = file.read()
    lens = page.split("$ cat > book.lens <<'END'\n")[1].split("END\n")[0]
    said = []
    for code in page.split("```python\n")[1:]:
        with tempfile.TemporaryDirectory() as folder:
            files(folder, **{"book.lens": lens, "example.py": code.split("```")[0]})
            how = {**os.environ, "PYTHONPATH": TOOLS, "PYTHONDONTWRITEBYTECODE": "1"}
            ran = subprocess.run([sys.executable, "example.py"], cwd=folder, env=how, capture_output=True, text=True, check=False)
        assert ran.returncode == 0, ran
        said += ran.stdout.splitlines()
    assert said == [
        "[{'at': ['people', [{'ins': 1}]]}]",
        "range 0",
        "  allowed here: from 1 to 1 items, which is all that it has",
        "{'firms': [], 'people': [{'name': '', 'note': ''}]}",
        "1 2",
        "{'firms': ['Acme'], 'people': [{'name': '', 'note': ''}]}",
        "([{'del': 1}], [{'at': ['people', [{'del': 1}]]}])",
        "[{'op': 'add', 'path': '/people/-', 'value': {'name': '', 'note': ''}}, {'op': 'remove', 'path': '/people/0'}, "
        "{'op': 'add', 'path': '/firms/-', 'value': ''}, {'op': 'replace', 'path': '/firms/0', 'value': 'Acme'}] "
        "[{'type': 'firm', 'is': 'Acme'}]",
    ], said


def test_the_picture_is_drawn_anew():
    drawn = subprocess.run([os.path.join(TOP, "dev", "draw"), "--print"], capture_output=True, text=True, check=True)
    with open(os.path.join(TOP, "docs", "lens.svg"), encoding="utf-8") as file:
        assert file.read() == drawn.stdout, "run dev/draw"


def test_the_tests_run_in_the_background():
    """A shell may start them with signals ignored: the programs that they start can be ended by these signals all the same."""
    for it in (signal.SIGINT, signal.SIGHUP):
        child = subprocess.Popen(["sleep", "600"])
        child.send_signal(it)
        assert child.wait(PATIENCE) == -it
    if "EDITLENS_IGNORED" not in os.environ:
        command = f"trap '' INT HUP; exec {os.path.join(TOOLS, 'check')} --only the_tests_run_in_the_background"
        ran = subprocess.run(["bash", "-c", command], env={**os.environ, "EDITLENS_IGNORED": "1"}, capture_output=True, text=True, check=False)
        assert (ran.returncode, ran.stdout) == (0, "tools: 1 tests passed, 0 failed\n"), ran
