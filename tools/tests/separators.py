"""Characters at which Python cuts lines and the program does not, in all that a user writes, with every tool and client.

The program writes them as they are. They are in texts, keys, tags, members, and the names of fields, and in a comment.
"""

import json
import os
import subprocess
import tempfile

from editlens import Hub, HubStore, Link, NoProgram, Refused, Session, Store, find_program
from editlens.desk.desk import Desk
from editlens.desk.keepers import RunKeeper, StoreKeeper
from editlens.desk.replay import Replay
from editlens.explain import explain_script, explain_store
from editlens.json_text import write_json
from editlens.lines import lines_of
from editlens.parts import views_of
from editlens.program import TOP
from editlens.store import NAME

from . import Skipped
from .scripts import called, files

S = "\x85\u2028\u2029"
PROGRAM = f"""# a comment{S}+++{S}---{S}
main {{"m{S}" ~ "p{S}": each {{"t{S}" ~ "u{S}": id text}},
  "k{S}" ~ "o{S}": keyed id text,
  left "l{S}": <a: unit, "v{S}": text>,
  left "e{S}": enum["x", "y{S}"]}}
"""
PAIR = f'main {{"m{S}" ~ "p{S}": id text, left "l{S}": text}}\n'
EDIT = [
    {"at": [f"m{S}", [{"ins": 1}, {"mod": [0, [{"at": [f"t{S}", [{"set": f"text{S}"}]]}]]}]]},
    {"at": [f"k{S}", [{"put": f"key{S}"}, {"mod": [f"key{S}", [{"set": S}]]}]]},
    {"at": [f"l{S}", [{"switch": ["a", f"v{S}", [{"set": S}]]}]]},
    {"at": [f"e{S}", [{"set": f"y{S}"}]]},
]
CARRIED = [
    {"at": [f"p{S}", [{"ins": 1}, {"mod": [0, [{"at": [f"u{S}", [{"set": f"text{S}"}]]}]]}]]},
    {"at": [f"o{S}", [{"put": f"key{S}"}, {"mod": [f"key{S}", [{"set": S}]]}]]},
]
LEFT = {f"m{S}": [{f"t{S}": f"text{S}"}], f"k{S}": {f"key{S}": S}, f"l{S}": {f"v{S}": S}, f"e{S}": f"y{S}"}
RIGHT = {f"p{S}": [{f"u{S}": f"text{S}"}], f"o{S}": {f"key{S}": S}}
WRONG = [{"at": [f"e{S}", [{"set": f"z{S}"}]]}]
LINE = write_json({"side": "left", "edit": EDIT})


def raw_lines(text):
    """The lines of what a tool wrote, as the program has lines."""
    return text.split("\n")[:-1]


def test_lines_end_at_line_feeds_alone():
    text = "".join(map(chr, range(32, 0x3000)))
    assert lines_of(text) == [text] and lines_of(text.encode()) == [text] and len(text.splitlines()) > 1
    assert lines_of("a\r\n\nb") == ["a\r", "", "b"] and lines_of("") == [] and lines_of("\n") == [""] and lines_of(b"a\n") == ["a"]
    assert views_of(PROGRAM) == [PROGRAM] and views_of(f"a{S}\r\n+++\r\nb") == [f"a{S}\r\n", "b"]
    assert views_of("a\n+++") == ["a\n", ""] == views_of("a\n+++\n") and views_of("") == [""]


def test_a_session_a_hub_and_a_link():
    with Session(PROGRAM) as session:
        assert session.left(EDIT).word == CARRIED and session.documents == {"left": LEFT, "right": RIGHT}
        try:
            session.left(WRONG)
            raise AssertionError
        except Refused as why:
            assert f"z{S}" in str(why), ascii(str(why))
    with Hub([PAIR, PAIR]) as hub:
        assert hub.edit(0, [{"at": [f"p{S}", [{"set": S}]]}]).hub == [{"at": [f"m{S}", [{"set": S}]]}]
        assert hub.documents[1] == {f"p{S}": S}
    with Link(PAIR) as link:
        link.edit("left", [{"at": [f"m{S}", [{"set": S}]]}])
        link.seal("left")


def test_a_store_and_its_clients():
    """What is stored is answered once, and the store goes on. Before, the answer was not read, and a caller that sent it again had it twice."""
    with tempfile.TemporaryDirectory() as folder:
        store = Store.init(folder, PROGRAM)
        assert store.left(EDIT).word == CARRIED and store.verify() == 1
        assert store.show()[:2] == (LEFT, RIGHT)
        assert store.undo()[0] and store.left(EDIT) and store.pack() == 2
        with Store.open(folder) as kept:
            kept.right([{"at": [f"o{S}", [{"mod": [f"key{S}", [{"splice": [0, 0, S]}]]}]]}])
            kept.compare()
            kept.undo()
        assert store.show()[:2] == (LEFT, RIGHT)
        said, *_ = explain_store(folder, [write_json({"side": "left", "edit": WRONG})])
        assert said.startswith("refused 1 "), said
    with tempfile.TemporaryDirectory() as folder:
        assert Store.begin(folder, PROGRAM, LEFT).show()[:2] == (LEFT, RIGHT)


def test_a_text_that_looks_like_lines_of_the_program():
    """A text in a line of a stranger that would be an answer or a document, if it were cut as Python cuts lines."""
    answers = '\u2028ok 2 right [{"at":["p",[]]}]\u2028refused 3 not-json\u2028'
    state = '\u2028left {"l":"FORGED","m":""}\u2028right {"p":"FORGED"}\u2028complement null\u2028'
    for forged in (answers, state, state.replace("\u2028", "\x85")):
        with tempfile.TemporaryDirectory() as folder:
            store = Store.init(folder, "main {m ~ p: id text, left l: text}\n")
            entries = [{"side": "left", "edit": [{"at": [field, [{"set": forged}]]}]} for field in ("l", "m")]
            assert [it.number for it in store.apply(map(write_json, entries))] == [1, 2]
            wanted = {"l": forged, "m": forged}, {"p": forged}
            assert store.show()[:2] == wanted and store.verify() == 2
            with Store.open(folder) as kept:
                kept.compare()
                assert (kept.documents["left"], kept.documents["right"]) == wanted
            status, out, _ = called(folder, "store", "history")
            assert status == 0 and len(raw_lines(out)) == 3, ascii(out)


def test_a_hub_that_is_kept():
    try:
        find_program("edithub")
    except NoProgram:
        raise Skipped("there is no program edithub") from None
    with tempfile.TemporaryDirectory() as folder:
        store = HubStore.init(folder, [PAIR, PAIR])
        store.edit(0, [{"at": [f"p{S}", [{"set": S}]]}])
        with HubStore.open(folder) as kept:
            kept.edit("hub", [{"at": [f"l{S}", [{"set": S}]]}])
            kept.compare()
        assert store.show().hub == {f"m{S}": S, f"l{S}": S} and store.undo()
        assert called(folder, "store", "compact")[0] == 0 and len(raw_lines(called(folder, "store", "history")[1])) == 2


def test_tools_over_a_program():
    with tempfile.TemporaryDirectory() as folder:
        files(folder, lens=PROGRAM, left=LEFT, right=RIGHT, edit=EDIT, form={}, wrong={**LEFT, f"e{S}": S})
        status, out, _ = called(folder, "types", "lens")
        assert status == 0 and sum(f'"{it}{S}"' in out for it in "mtklevpuo") == 9, ascii(out)
        assert called(folder, "fits", "lens", "left", "left") == (0, "it fits\n", "")
        assert called(folder, "fits", "lens", "left", "wrong")[0] == 1
        status, script, err = called(folder, "load", "lens", "left", "right")
        assert (status, err) == (0, "") and called(folder, "explain", "-", given=script) == (0, "nothing is refused\n", "")
        status, out, _ = called(folder, "explain", "-", given=script + write_json({"side": "left", "edit": WRONG}) + "\n")
        assert status == 1 and out.startswith("refused ") and f"/e{S}" in out, ascii(out)
        assert called(folder, "explain", "--import", "-", given=f"{PROGRAM}---\n{write_json(LEFT)}\n")[0] == 0
        assert called(folder, "natural", "to", "lens", "left", "form", given=json.dumps(LEFT)) == (0, write_json(LEFT) + "\n", "")
        assert json.loads(called(folder, "natural", "from", "lens", "left", "form", given=write_json(LEFT))[1]) == LEFT
        files(folder, begin={f"m{S}": [], f"k{S}": {}, f"l{S}": {"a": None}, f"e{S}": "x"})
        status, patch, err = called(folder, "edit-to-patch", "lens", "left", "begin", "edit")
        assert status == 0 and len(raw_lines(patch)) == 1, (patch, err)
        files(folder, patch=patch)
        status, line, err = called(folder, "patch-to-edit", "lens", "left", "begin", "patch")
        assert status == 0 and len(raw_lines(line)) == 1, err
        with Session(PROGRAM) as session:
            session.line(line.rstrip("\n"))
            assert session.documents == {"left": LEFT, "right": RIGHT}


def test_load_hub():
    with tempfile.TemporaryDirectory() as folder:
        files(folder, lens=PAIR, hub={f"m{S}": S, f"l{S}": ""}, view={f"p{S}": S})
        status, script, err = called(folder, "load-hub", "hub", "lens", "view", "lens", "view")
        assert (status, err) == (0, ""), err
        assert list(explain_script(script)) == []


def test_tools_over_a_store():
    """Each verb of tools/store, and tools/patch, tools/load --store and tools/explain --store."""
    with tempfile.TemporaryDirectory() as top:
        files(top, lens=PROGRAM, left=LEFT, right=RIGHT, journal=LINE + "\n")
        assert called(top, "load", "lens", "left", "right", "--store", "made")[0] == 0
        assert Store(os.path.join(top, "made")).show()[:2] == (LEFT, RIGHT)
        assert called(top, "store", "import", "lens", "left", "here")[0] == 0
        here = os.path.join(top, "here")
        store = Store(here)
        assert called(top, "explain", "--store", "here", "journal")[0] == 1
        patch = json.dumps([{"op": "replace", "path": f"/k{S}/key{S}", "value": f"new{S}"}], ensure_ascii=False)
        status, out, err = called(top, "patch", "here", "left", given=patch + "\n" + patch + "\n")
        assert status == 0 and [it.split(" ")[:2] for it in raw_lines(out)] == [["ok", "1"], ["ok", "2"]], (ascii(out), err)
        count = store.verify()
        status, out, _ = called(here, "store", "history")
        assert status == 0 and [it.split(" ")[0] for it in raw_lines(out)] == [str(it) for it in range(1, len(raw_lines(out)) + 1)], ascii(out)
        assert len(raw_lines(called(here, "store", "history", "--at", "2")[1])) == 3
        assert called(here, "store", "check")[1].startswith(f"consistent: {count} changes")
        assert called(here, "store", "backup", "../copy")[0] == 0 and called(here, "store", "back", "2")[0] == 0
        assert called(here, "store", "restore", "../copy")[0] == 0 and store.verify() == count
        assert called(here, "store", "change-lens", "../lens")[0] == 0 and store.show()[0][f"k{S}"] == {f"key{S}": f"new{S}"}
        assert called(here, "store", "compact", "--drop-old")[0] == 0
        store.apply([write_json({"side": "right", "edit": [{"at": [f"o{S}", [{"mod": [f"key{S}", [{"set": f"{it}{S}"}]]}]]}]}) for it in range(40)])
        assert called(here, "store", "compact")[0] == 0 and store.show()[1][f"o{S}"] == {f"key{S}": f"39{S}"}


def test_the_desk():
    desk = Desk(RunKeeper(PROGRAM), "run")
    assert desk.edit(0, "left", EDIT)["ok"] and desk.keeper.reader()()["rec"]
    assert desk.edit(1, "left", WRONG)["sentence"]
    assert desk.check(PROGRAM)["accepted"] and desk.load(1, PROGRAM)["ok"] and desk.keeper.documents["left"] == LEFT
    desk.close()
    assert desk.death is None
    with tempfile.TemporaryDirectory() as folder:
        Store.init(folder, PROGRAM)
        desk = Desk(StoreKeeper(folder), "store")
        assert desk.edit(0, "left", EDIT)["ok"] and desk.keeper.reader()()["rec"] and desk.undo(1)["ok"]
        desk.close()
    replay = Replay(f"{PROGRAM}---\n{LINE}\n", "script")
    assert replay.state(1)["complement"]["tree"]["rec"]


def test_the_script():
    """What ./editlens and the program write has the same lines as ever."""
    with tempfile.TemporaryDirectory() as folder:
        script = f"{PROGRAM}---\n{LINE}\n"
        how = {"input": script.encode(), "stdout": subprocess.PIPE, "cwd": folder, "check": False}
        ran = subprocess.run([os.path.join(TOP, "editlens"), "run"], **how)
        assert ran.returncode == 0 and [it.split(" ")[0] for it in lines_of(ran.stdout)] == ["ok", "left", "right", "complement"], ran
        assert not os.path.exists(os.path.join(folder, NAME))
