"""The clients of a hub that is kept, and tools/store over its store."""

import os
import subprocess
import sys
import tempfile

from editlens import DocumentsDiffer, HubAccepted, HubGroupAccepted, HubStore, ProgramRefused, Refused, RunEnded, Store, StoreBusy, StoreRefused
from editlens.checkup import Checkup
from editlens.hub_store import stored_programs
from editlens.kinds import TwoStores, split
from editlens.lock import StoreLock
from editlens.log import Log, kind_of, told
from editlens.program import NoProgram, find_program
from editlens.replacement import NotDone
from editlens.upkeep import back, backup, compact, history, restore, state_at

from . import PATIENCE, Skipped, raised

VIEWS = ["main {a ~ x: id int, left b: int}\n", "main {a ~ p: id int, b ~ q: id int}"]
MORE = "main {b ~ z: id int, left a: int}"
SET3 = [{"at": ["x", [{"set": 3}]]}]
STORE = os.path.join(os.path.dirname(os.path.dirname(os.path.abspath(__file__))), "store")


def made(folder):
    """A store of two views."""
    try:
        find_program("edithub")
    except NoProgram:
        raise Skipped("there is no program edithub") from None
    return HubStore.init(folder, VIEWS)


def changed(store):
    """Two changes and a view more."""
    store.edit(0, SET3)
    store.group(("hub", [{"at": ["b", [{"set": 2}]]}]), (1, [{"at": ["q", [{"add": 1}]]}]))
    store.add(MORE)
    return store


def test_a_hub_that_is_kept():
    with tempfile.TemporaryDirectory() as folder:
        store = made(folder)
        answer = store.edit(0, SET3)
        assert answer == HubAccepted(1, [{"at": ["a", [{"set": 3}]]}], [SET3, [{"at": ["p", [{"set": 3}]]}]]), answer
        answer = store.group(("hub", [{"at": ["b", [{"set": 2}]]}]), (1, [{"at": ["q", [{"add": 1}]]}]))
        assert isinstance(answer, HubGroupAccepted) and [it[1][1] for it in answer.parts] == [[{"at": ["q", [{"set": 2}]]}], [{"at": ["q", [{"add": 1}]]}]]
        for call, cause, part in (
            (lambda: store.edit(7, []), "no-view", None),
            (lambda: store.group((0, []), (9, [])), "no-view", 1),
            (lambda: store.group((0, []), (1, [{"at": ["q", [{"set": "x"}]]}])), "kind", 1),
        ):
            why = raised(Refused, call)
            assert (why.cause, why.part) == (cause, part) and why.written.startswith("refused 1 "), why.written
        state = store.show()
        assert state.documents == {"hub": {"a": 3, "b": 3}, 0: {"x": 3}, 1: {"p": 3, "q": 3}} and store.verify() == 2
        assert store.add(MORE).documents[2] == {"z": 3} and stored_programs(store.file)[2] == MORE
        assert raised(StoreRefused, store.undo).reason == "nothing-to-undo"
        store.edit(2, [{"at": ["z", [{"add": 1}]]}])
        assert store.undo()["hub"] == [{"at": ["b", [{"set": 3}]]}] and store.pack() == 3
        assert "views-differ 3" in str(raised(ProgramRefused, lambda: store.add("main id int")))
        assert raised(StoreRefused, lambda: HubStore.init(folder, VIEWS)).reason == "log-exists"


def test_a_hub_that_is_kept_open():
    with tempfile.TemporaryDirectory() as folder:
        made(folder)
        with HubStore.open(folder, timeout=PATIENCE) as hub:
            assert hub.edit(0, SET3).number == 1 and hub.stored == 1
            assert "0 to 1" in str(raised(Refused, lambda: hub.edit(2, [])))
            hub.group((1, [{"at": ["q", [{"set": 5}]]}]), ("hub", [{"at": ["a", [{"add": 1}]]}]))
            assert hub.documents == {"hub": {"a": 4, "b": 5}, 0: {"x": 4}, 1: {"p": 4, "q": 5}}
            raised(StoreBusy, HubStore(folder).pack)
            hub.compare()
            assert hub.add(MORE).documents[2] == {"z": 5} and hub.documents[2] == {"z": 5}
            hub.edit(2, [{"at": ["z", [{"add": 1}]]}])
            assert hub.undo() == {"hub": [{"at": ["b", [{"set": 5}]]}], 0: [], 1: [{"at": ["q", [{"set": 5}]]}], 2: [{"at": ["z", [{"set": 5}]]}]}
            assert hub.stored == 3 and hub.pack() == 3
            hub._run.stop()
            assert raised(RunEnded, lambda: hub.edit(0, SET3)).stored == 3 and hub.reopen() == 3
            hub.documents = {**hub.documents, 0: {"x": 9}}
            raised(DocumentsDiffer, hub.compare)
            hub.reopen()
            assert hub.close().documents == HubStore(folder).show().documents


def test_the_upkeep_of_a_hub():
    with tempfile.TemporaryDirectory() as folder:
        store = changed(made(os.path.join(folder, "hub")))
        here = store.folder
        lines = list(history(here))
        assert lines[1:] == [
            '2 edit view 0 [{"at":["x",[{"set":3}]]}]',
            '3 group hub [{"at":["b",[{"set":2}]]}] view 1 [{"at":["q",[{"add":1}]]}]',
            "4 add " + MORE,
        ], lines
        assert lines[0].startswith('1 programs ["main {a ~ x: id int, left b: int}"')
        assert state_at(here, 2).documents == {"hub": {"a": 3, "b": 0}, 0: {"x": 3}, 1: {"p": 3, "q": 0}}
        assert Checkup(here).lines == [f"consistent: 2 changes in 4 records, {os.path.getsize(store.file):,} bytes"]
        copy, count = backup(here, os.path.join(folder, "copy"))
        assert count == 2
        whole = store.show()
        for _ in range(4):
            store.edit(2, [{"at": ["z", [{"add": 1}]]}])
        last = store.show()
        said = compact(here)
        assert store.show() == last and store.verify() == 0 and "in 8 records" in said[0], said
        assert restore(here, copy)[0].startswith("the store has 2 changes") and store.show() == whole
        assert back(here, 4)[0].endswith("already")
        store.edit(2, [{"at": ["z", [{"set": 9}]]}])
        assert back(here, 4)[0] == "the store is as it was after record 4, and has 6 records" and store.show() == whole
        assert any(it.startswith("the old store is") for it in back(here, 2)) and len(store.show().views) == 2 and store.verify() == 1
        with open(store.file, "r+b") as file:
            file.seek(40)
            file.write(b"\0")
        assert Checkup(here).refusal == "bad-record 1"
        raised(NotDone, lambda: back(here, 1))


def test_two_stores_in_a_folder():
    with tempfile.TemporaryDirectory() as folder:
        store = made(folder)
        assert split(folder) == (folder, HubStore)
        Store.init(folder, VIEWS[0])
        raised(TwoStores, lambda: split(folder))
        assert split(store.file) == (folder, HubStore)
        ran = subprocess.run([sys.executable, STORE, "history", store.file], capture_output=True, text=True, check=True)
        assert ran.stdout.startswith("1 programs ")
        with StoreLock(folder):
            raised(StoreBusy, lambda: store.edit(0, SET3))


def test_the_kinds_of_records():
    with tempfile.TemporaryDirectory() as folder:
        store = changed(made(folder))
        store.pack()
        with Log(store.file) as log:
            assert [kind_of(it) for it in log.payloads()] == ["programs", "edit", "group", "add", "snapshot"]
            assert all(told(it) for it in log.payloads())
        assert kind_of(b'{"at":0}') is None and kind_of(b'{"lens":1,"version":1}') is None
