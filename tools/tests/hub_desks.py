"""The desk of a hub without a browser: edits of the hub and of its views, refusals, undo and redo, and what a window gets."""

import json
import os
import subprocess
import tempfile

from editlens.browser import Browser
from editlens.desk.drawing import drawn_document
from editlens.desk.hub_desk import HubDesk
from editlens.desk.hub_keepers import HubRunKeeper, HubStoreKeeper
from editlens.hub_store import HubStore
from editlens.parts import SEPARATOR, joined
from editlens.program import TOP

from . import PATIENCE
from .desks import DESK, asked, sent, served
from .hub_stores import VIEWS, changed, made

EXAMPLE = os.path.join(TOP, "examples", "hub")
SET3 = [{"at": ["x", [{"set": 3}]]}]


def example():
    """The lens programs of the example, and the lines of its journal."""
    programs = []
    for name in ("proxy", "supervisor", "monitor"):
        with open(os.path.join(EXAMPLE, f"{name}.lens"), encoding="utf-8") as file:
            programs.append(file.read())
    with open(os.path.join(EXAMPLE, "hub.journal"), encoding="utf-8") as file:
        return programs, file.read().splitlines()


def state(server, query=""):
    return json.loads(asked(server, "GET", f"/{server.token}/state{query}")[2])


def test_edits_of_a_hub_and_of_its_views():
    keeper = HubRunKeeper(VIEWS)
    with served(HubDesk(keeper, "hub")) as server:
        first = state(server)
        assert first["hub"]["view"] == 0 and [it["about"] for it in first["hub"]["views"]] == ["x", "p, q"] and first["mode"] == "session", first["hub"]
        assert sent(server, "edit", base=0, side="right", view=0, edit=SET3) == {"ok": True, "version": 1}
        assert sent(server, "edit", base=1, side="left", edit=[{"at": ["b", [{"set": 2}]]}])["ok"]
        said = sent(server, "edit", base=1, side="right", view=1, edit=[{"at": ["q", [{"set": "x"}]]}])
        assert said["cause"] == "kind" and said["since"] == ["hub: b: set to 2"], said
        said = sent(server, "edit", base=2, side="right", view=1, edit=[{"at": ["q", [{"set": "x"}]]}])
        assert (said["cause"], said["place"], said["side"]) == ("kind", "/q", "view 1"), said
        assert keeper.documents == {"hub": {"a": 3, "b": 2}, 0: {"x": 3}, 1: {"p": 3, "q": 2}}
        now = state(server, "?view=1")
        assert now["hub"]["view"] == 1 and [it["changed"] for it in now["hub"]["views"]] == [False, True], now["hub"]
        assert {side: now["sides"][side]["document"] for side in ("left", "right")} == {"left": ["3", "2"], "right": ["3", "2"]}, now["sides"]
        assert now["program"] == VIEWS[1] and now["sides"]["right"]["changes"] == [["/q", "set"]]
        assert now["history"][-1]["others"] == [["view 0", "[]"], ["view 1", '[{"at":["q",[{"set":2}]]}]']] and "others" not in now["history"][0]
        refused = {"base": 2, "side": "right", "edit": []}
        for view in (None, 2, -1, True, "1"):
            assert asked(server, "POST", f"/{server.token}/edit", json.dumps({**refused, "view": view}))[0] == 400, view
        assert asked(server, "POST", f"/{server.token}/patch", json.dumps({**refused, "patch": "[]", "drop": False}))[0] == 404
        assert asked(server, "GET", f"/{server.token}/file?side=left")[0] == 404 and not sent(server, "load", base=2, program=VIEWS[0])["ok"]


def test_undo_and_redo_of_a_hub():
    """A hub in no store takes back one change after another, what its lenses remember and all, and makes them again."""
    programs, lines = example()
    keeper = HubRunKeeper(programs)
    first = '{"at":"hub","edit":[{"at":["services",[{"put":"cart"},{"put":"search"}]]}]}'
    assert keeper.begin([first, '{"at":9,"edit":[]}', "{"]) == ["refused 2 no-view", "refused 3 not-json"] and keeper.lines == [first]
    seen = lambda: (dict(keeper.documents), keeper.reader()())
    with served(HubDesk(keeper, "hub")) as server:
        states, version = [seen()], 0
        for line in lines:
            entry = json.loads(line)
            view = {} if entry["at"] == "hub" else {"view": entry["at"]}
            if entry["at"] == 3:
                continue
            side = "left" if entry["at"] == "hub" else "right"
            if sent(server, "edit", base=version, side=side, edit=entry["edit"], **view)["ok"]:
                version += 1
                states.append(seen())
        assert version == 6, version
        for wanted in states[-2::-1]:
            assert sent(server, "undo", base=version)["ok"] and seen() == wanted
            version += 1
        assert "nothing to take back" in sent(server, "undo", base=version)["sentence"]
        for wanted in states[1:]:
            assert sent(server, "redo", base=version)["ok"] and seen() == wanted
            version += 1
        assert "nothing to make again" in sent(server, "redo", base=version)["sentence"]


def test_a_window_gets_what_is_new_of_its_view():
    keeper = HubRunKeeper(VIEWS)
    desk = HubDesk(keeper, "hub")
    with served(desk) as server:
        Browser.until(lambda: desk.complement, "the complement does not come")
        assert sent(server, "edit", base=0, side="right", view=0, edit=SET3)["ok"]
        Browser.until(lambda: desk.complement["version"] == 1, "the complement does not come")
        said = state(server, "?session=0&version=0&complement=0&view=1")
        assert said["sides"]["right"]["replaced"] == [[["p"], "3"]] and said["sides"]["left"]["replaced"] == [[["a"], "3"]], said["sides"]
        assert said["complement"] == {"version": 1, "tree": {"rec": [None, None]}, "text": '{"rec":[null,null]}', "sentence": said["complement"]["sentence"]}
        assert "sides" not in state(server, "?session=0&version=1&complement=1&view=1")
        whole = state(server, "?view=7")
        assert whole["hub"]["view"] == 0 and whole["sides"]["right"]["document"] == ["3"]


def test_a_hub_in_a_store():
    with tempfile.TemporaryDirectory() as folder:
        changed(made(folder))
        with served(HubDesk(HubStoreKeeper(folder), folder)) as server:
            assert state(server)["mode"] == "store" and len(state(server)["hub"]["views"]) == 3
            assert "nothing to take back" in sent(server, "undo", base=0)["sentence"]
            assert sent(server, "edit", base=0, side="right", view=2, edit=[{"at": ["z", [{"add": 4}]]}])["ok"]
            assert HubStore(folder).show().documents == {"hub": {"a": 3, "b": 7}, 0: {"x": 3}, 1: {"p": 3, "q": 7}, 2: {"z": 7}}
            assert sent(server, "undo", base=1)["ok"] and server.desk.keeper.documents[1] == {"p": 3, "q": 3}
            entry = state(server, "?view=1")["history"][-1]
            assert entry["undo"] and entry["side"] == "hub" and entry["others"][1] == ["view 1", '[{"at":["q",[{"set":3}]]}]'], entry
            assert drawn_document(server.desk.keeper.types["hub"], {"a": 3, "b": 3}) == state(server)["sides"]["left"]["document"]
        assert HubStore(folder).show().documents["hub"] == {"a": 3, "b": 3}


def test_the_command_opens_a_hub():
    """A script of a hub opens with its entries, and a store of a hub as such. Form files are for pairs."""
    with tempfile.TemporaryDirectory() as folder:
        path = os.path.join(folder, "hub.script")
        with open(path, "w", encoding="utf-8") as file:
            file.write(joined(VIEWS) + f'{SEPARATOR}\n{{"at":0,"edit":[{{"at":["x",[{{"set":3}}]]}}]}}\n{{"at":9,"edit":[]}}\n')
        stored = os.path.join(folder, "kept")
        made(stored)
        for words in (["--hub", path], ["--store", stored]):
            running = subprocess.Popen([DESK, *words, "--no-browser"], stdout=subprocess.PIPE, text=True)
            try:
                assert running.stdout.readline().startswith("the desk is at "), running.poll()
            finally:
                running.terminate()
                running.communicate()
        form = os.path.join(folder, "a.form")
        with open(form, "w", encoding="utf-8") as file:
            file.write("{}")
        how = {"capture_output": True, "text": True, "timeout": PATIENCE, "check": False}
        for words, told in ((["--hub", path], "show documents alone"), (["--store", stored], "a hub shows documents alone")):
            ran = subprocess.run([DESK, *words, "--left-form", form], **how)
            assert ran.returncode == 2 and told in ran.stderr, ran
        with open(path, "w", encoding="utf-8") as file:
            file.write(joined([VIEWS[0], "main idd"]))
        ran = subprocess.run([DESK, "--hub", path], **how)
        assert ran.returncode == 3 and "line 1, column 6" in ran.stderr, ran
