"""What one does with a store from day to day, on stores of random edits, killed in the middle and with a program that says no."""

import os
import random
import signal
import stat
import subprocess
import sys
import tempfile
from contextlib import contextmanager
from unittest import mock

from editlens.answers import Accepted
from editlens.json_text import write_json
from editlens.load import DoesNotFit
from editlens.lock import StoreBusy, StoreLock
from editlens.log import kind_of
from editlens.program import TOP
from editlens.relens import Fitting, change_lens, import_document
from editlens.replacement import WORK, NotDone
from editlens.session import Session
from editlens.store import NAME, ImportRefused, Store, StoreRefused
from editlens.store_file import UnsafeFile
from editlens.types import read_type, write_type
from editlens.upkeep import back, backup, compact, drop_old, history, restore, state_at

from . import Skipped, raised
from .chance import some_edit, some_type
from .logs import SET, bytes_of, changed, payloads_of, placed
from .scripts import called, files

PROGRAM = "main {a ~ b: id int, left hours: int, right note: text}\n"
ADD = '{"side":"right","edit":[{"at":["b",[{"add":1}]]}]}'
NOTE = '{"side":"right","edit":[{"at":["note",[{"set":"call"}]]}]}'


def kept_in(folder):
    """The one file that was kept beside a store."""
    (kept,) = (it for it in os.listdir(folder) if it.endswith(".old"))
    return os.path.join(folder, kept)


@contextmanager
def counted(changes=4):
    """A store that begins with a document, with a snapshot and with so many additions behind it. Its `a` is 10, 11 and so on."""
    with tempfile.TemporaryDirectory() as folder:
        store = Store.begin(folder, PROGRAM, {"a": 10, "hours": 1})
        store.pack()
        store.apply([ADD] * changes)
        yield store


def some_lines(session, count):
    """Lines of a journal at random, entries and groups, each with the documents after it if it was accepted, or None."""
    for _ in range(count):
        entries = []
        for _ in range(random.choice([1, 1, 1, 2, 3])):
            side = random.choice(["left", "right"])
            entries.append({"side": side, "edit": some_edit(session.types[side], session.documents[side])})
        line = write_json({"group": entries} if len(entries) > 1 else entries[0])
        answer = session.line(line)
        yield line, dict(session.documents) if isinstance(answer, Accepted) else None


@contextmanager
def some_store():
    """A store of random edits, with snapshots of `pack` and of `undo`, and the documents after each record, which a run beside it followed."""
    kinds = [write_type(some_type(2)) for _ in range(3)]
    program = f"main {{doc ~ copy: id {kinds[0]}, left own: {kinds[1]}, right its: {kinds[2]}}}"
    with tempfile.TemporaryDirectory() as folder, Session(program) as session:
        store, states = Store.init(folder, program), [dict(session.documents)]
        for turn in range(3):
            lines = list(some_lines(session, 8))
            store.apply(line for line, _ in lines)
            states += [documents for _, documents in lines if documents]
            if turn < 2:
                store.pack()
                states.append(states[-1])
        changes = sum(documents is not None for _, documents in lines)
        if changes:
            count = random.randint(1, changes)
            store.undo(count)
            states.append(states[-1 - count])
        yield store, states


def documents_of(state):
    return {"left": state[0], "right": state[1]}


def test_every_state_of_a_random_store_comes_back():
    """By `history --at` and by `back`, past snapshots, forwards and backwards; what is there stays, and undo takes a later change back."""
    with some_store() as (store, states):
        assert len(list(history(store.folder))) == len(states)
        for _ in range(3):
            number = random.randint(1, len(states))
            before, count = payloads_of(store.file), store.verify()
            assert documents_of(state_at(store.folder, number)) == states[number - 1]
            back(store.folder, number)
            assert documents_of(store.show()) == states[number - 1] and store.verify() == count
            if number < len(states):
                states.append(states[number - 1])
            assert payloads_of(store.file)[: len(before)] == before and len(payloads_of(store.file)) == len(states)
        store.apply(['{"group":[]}'])
        store.undo()
        assert documents_of(store.show()) == states[-1]
        assert sorted(os.listdir(store.folder)) == [NAME]


def test_a_random_store_is_made_compact():
    with some_store() as (store, _):
        state, whole = store.show(), bytes_of(store.file)
        try:
            compact(store.folder)
        except NotDone as why:
            assert str(why).startswith("nothing is gained") and bytes_of(store.file) == whole
            return
        assert store.show() == state and store.verify() == 0 and bytes_of(kept_in(store.folder)) == whole
        assert [kind_of(it) for it in payloads_of(store.file)] == ["program", "snapshot"]


def test_compact_and_what_was_kept():
    with counted(20) as store:
        whole = bytes_of(store.file)
        os.chmod(store.file, 0o640)
        said = compact(store.folder)
        kept = kept_in(store.folder)
        assert said[0].startswith(f"{len(whole):,} bytes in 23 records are ") and said[1].endswith("which was 21 and is 0 now")
        assert stat.S_IMODE(os.stat(store.file).st_mode) == 0o640 and bytes_of(kept) == whole
        assert store.show() == ({"a": 30, "hours": 1}, {"b": 30, "note": ""}, {"rec": [None]})
        assert "nothing is gained" in str(raised(NotDone, lambda: compact(store.folder)))
        assert store.apply([ADD])[0].number == 1 and store.verify() == 1
        changed(store, 70, 0xFF)
        raised(StoreRefused, lambda: drop_old(store.folder))
        assert os.path.exists(kept)
        assert restore(store.folder, kept)[0].startswith("the store has 21 changes; before it had none that could be read")
        assert bytes_of(store.file) == whole and len(drop_old(store.folder)) == 2 and os.listdir(store.folder) == [NAME]


def test_back_past_a_snapshot():
    """The values are worked out by hand: record 1 is the program, 2 makes the document, 3 is a snapshot, and each later one adds 1."""
    with counted() as store:
        assert [state_at(store.folder, number)[0]["a"] for number in range(1, 8)] == [0, 10, 10, 11, 12, 13, 14]
        said = back(store.folder, 1)
        assert said == [
            "the store is as it was after record 1, and has 8 records",
            'left {"a":0,"hours":0}',
            'right {"b":0,"note":""}',
            'complement {"rec":[null]}',
        ]
        assert back(store.folder, 8)[0] == "the store is as it was after record 8 already"
        back(store.folder, 6)
        assert store.show()[0] == {"a": 13, "hours": 1} and store.verify() == 5
        assert raised(StoreRefused, store.undo).reason == "nothing-to-undo"
        for number in (0, 10):
            assert "the records 1 to 9 can be read" in str(raised(NotDone, lambda: back(store.folder, number)))
        assert "no record 10" in str(raised(NotDone, lambda: state_at(store.folder, 10)))


def test_a_store_of_version_1():
    with tempfile.TemporaryDirectory() as folder:
        store = placed(folder, [b'{"program":"main {a ~ b: id int}"}', SET, SET, SET])
        back(folder, 1)
        assert store.show()[:2] == ({"a": 0}, {"b": 0})
        back(folder, 4)
        compact(folder)
        # The program editstore, where it is built, stores the version of the snapshot.
        assert [kind_of(it) for it in payloads_of(store.file) if kind_of(it) != "version"] == ["program", "snapshot"]
        assert store.apply(['{"group":[]}'])[0].number == 1 and store.show()[0] == {"a": 5}


def test_a_backup_beside_a_writer():
    """Each copy is good, has every change that was answered before it began, and is the beginning of the store as it is later."""
    with counted(0) as store, tempfile.TemporaryDirectory() as copies:
        child = subprocess.Popen([store.path, "apply"], cwd=store.folder, stdin=subprocess.PIPE, stdout=subprocess.PIPE)
        for number in range(1, 9):
            child.stdin.write((ADD + "\n").encode() * 20)
            child.stdin.flush()
            for _ in range(20 * (number % 2)):
                child.stdout.readline()
            made, count = backup(store.folder, os.path.join(copies, str(number)))
            assert made == os.path.join(copies, str(number)) and 20 * ((number + 1) // 2) + 1 <= count <= 20 * number + 1
        child.communicate()
        whole = bytes_of(store.file)
        assert store.verify() == 161
        for name in os.listdir(copies):
            copy = bytes_of(os.path.join(copies, name))
            assert copy[-1:] == b"\x00" and whole.startswith(copy[:-1])


def test_backup_and_restore():
    with counted() as store, tempfile.TemporaryDirectory() as other:
        to, count = backup(store.folder, other)
        assert os.path.dirname(to) == other and count == 5 and bytes_of(to) == bytes_of(store.file)
        assert "is there already" in str(raised(NotDone, lambda: backup(store.folder, to)))
        moved = os.path.join(other, "moved")
        assert restore(moved, to) == ["the store has 5 changes; before it had none"] and Store(moved).show() == store.show()
        store.apply([ADD])
        whole = bytes_of(store.file)
        files(other, bad=bytes_of(to)[:-1].decode(), worse="{}")
        for name in ("bad", "worse"):
            raised(NotDone, lambda: restore(os.path.join(other, "new"), os.path.join(other, name)))
            raised(NotDone, lambda: restore(store.folder, os.path.join(other, name)))
        assert not os.path.exists(os.path.join(other, "new"))
        assert "the store itself" in str(raised(NotDone, lambda: restore(store.folder, store.file)))
        assert bytes_of(store.file) == whole
        assert restore(store.folder, to)[0] == "the store has 5 changes; before it had 6" and bytes_of(kept_in(store.folder)) == whole
        assert store.show()[0] == {"a": 14, "hours": 1}


def test_another_lens():
    with counted() as store:
        store.apply([NOTE])
        whole = bytes_of(store.file)
        lens = "main {a ~ b: id int, left time: int = 7, right note: text, right done: bool}\n"
        lines = ["left /hours: goes, and was 1", "left /time: is new, and is 7", "right /done: is new, and is false"]
        assert str(raised(NotDone, lambda: change_lens(store.folder, lens))).splitlines()[:3] == lines
        assert "left /a" not in str(raised(DoesNotFit, lambda: change_lens(store.folder, "main {a ~ b: id text, left hours: int, right note: text}")))
        assert bytes_of(store.file) == whole
        assert change_lens(store.folder, lens, is_accepted=True)[:3] == lines
        assert store.show()[:2] == ({"a": 14, "time": 7}, {"b": 14, "done": False, "note": "call"})
        assert bytes_of(kept_in(store.folder)) == whole


def test_what_another_lens_takes_from_the_right_document():
    """A field that both had is now the right document's alone, and one that it had alone is now the left one's, too."""
    with tempfile.TemporaryDirectory() as folder:
        store = Store.begin(folder, "main {a ~ b: id int, right n: int, right tags: list text}", {"a": 3})
        store.right([{"at": ["n", [{"set": 8}]]}, {"at": ["tags", [{"ins": 1}]]}])
        lens = "main {a ~ c: id int, n ~ n: id int, right b: int, right tags: list text}"
        said = str(raised(NotDone, lambda: change_lens(folder, lens))).splitlines()
        assert said[:3] == ["left /n: is new, and is 0", "right /c: is new, and is 3", "right /n: by the left document 0, here 8"]
        change_lens(folder, lens, ({"a": 3, "n": 8}, None))
        assert store.show()[:2] == ({"a": 3, "n": 8}, {"b": 3, "c": 3, "tags": [""], "n": 8})


def test_what_goes_is_said_by_types():
    """One line for a field of many items, with the first five places and how many others there are."""
    ty = read_type("list {name: text, time: int = 7}")
    document = [{"name": "x", "hours": number % 3} for number in range(2000)]
    fitted = Fitting(ty, document)
    assert list(fitted.lines("left", fitted.document)) == [
        "left hours of every item goes: 2,000 values, 3 different",
        *(f"  /{number}/hours: was {number % 3}" for number in range(5)),
        "  and 1,995 others",
        "left time of every item is new, and is 7: 2,000 values",
    ]
    fitted = Fitting(ty, document, [("/*/hours", "time")])
    assert list(fitted.lines("left", fitted.document)) == ["left hours of every item is now time: 2,000 values"]
    assert fitted.document == [{"name": "x", "time": number % 3} for number in range(2000)]
    both = Fitting(read_type("{time: int}"), {"hours": 1, "time": 2}, [("hours", "time")])
    assert both.document == {"time": 2} and list(both.lines("left", both.document)) == ["left /hours: goes, and was 1"] and not both.used
    tree = Fitting(read_type("tree {b: int}"), {"depths": [0, 1], "items": [{"a": 1}, {"a": 2}]}, [("a", "b")])
    assert list(tree.lines("right", tree.document)) == ["right a of every node is now b: 2 values"]


def test_another_lens_asks_before_anything_goes():
    old = "main {rows ~ lines: each {name ~ name: id text, left hours: int}, left by: keyed {a: int}}\n"
    rows = [{"name": "x", "hours": number % 3} for number in range(7)]
    with tempfile.TemporaryDirectory() as folder:
        store = Store.begin(folder, old, {"by": {"k": {"a": 7}}, "rows": rows})
        whole = bytes_of(store.file)
        lens = "main {rows ~ lines: each {name ~ name: id text, left time: int = 7}, left by: keyed {b: int}}\n"
        said = str(raised(NotDone, lambda: change_lens(folder, lens))).splitlines()
        assert said == [
            "left /by/k/a: goes, and was 7",
            "left hours of every item of rows goes: 7 values, 3 different",
            *(f"  /rows/{number}/hours: was {number % 3}" for number in range(5)),
            "  and 2 others",
            "left /by/k/b: is new, and is 0",
            "left time of every item of rows is new, and is 7: 7 values",
            "nothing was changed: with --yes it is done so",
        ], said
        for renames in ([("hours", "hour")], [("a", "time")], [("/rows/hours", "time")], [("a", "b"), ("a", "c")]):
            raised(NotDone, lambda: change_lens(folder, lens, is_accepted=True, renames=renames))
        assert bytes_of(store.file) == whole
        said = change_lens(folder, lens, renames=[("/rows/*/hours", "time"), ("a", "b")])
        assert said[:2] == ["left a of every key of by is now b: 1 value", "left hours of every item of rows is now time: 7 values"]
        assert store.show()[0] == {"by": {"k": {"b": 7}}, "rows": [{"name": "x", "time": number % 3} for number in range(7)]}


def test_another_lens_with_files_as_they_are():
    """By the tool: a field is renamed on both sides, and the left document is given as a user's file."""
    with tempfile.TemporaryDirectory() as folder:
        store = Store.begin(folder, "main {a ~ b: id text, left gone: int}\n", {"a": "3", "gone": 5})
        files(folder, lens='main {c ~ d: id text, left price: text = "0"}', **{"left.json": '{"c": "4", "price": 0.50}', "left.form": {"/price": "number"}})
        words = ("store", "change-lens", "lens", "--rename", "a", "c", "--rename", "b", "d")
        status, _, said = called(folder, *words)
        assert status == 1 and said.splitlines() == [
            "left /gone: goes, and was 5",
            "left a is now c: 1 value",
            'left /price: is new, and is "0"',
            "right b is now d: 1 value",
            "nothing was changed: with --yes it is done so",
        ], said
        assert called(folder, "store", "change-lens", "lens", "--left-form", "left.form")[0] == 2
        status, _, said = called(folder, *words[:3], "--left", "left.json", "--left-form", "left.form", "--rename", "b", "d")
        assert status == 1 and 'right /d: by the left document "4", here "3"' in said.splitlines(), said
        assert called(folder, *words[:3], "--left", "left.json", "--left-form", "left.form", "--rename", "b", "d", "--yes")[0] == 0
        assert store.show()[:2] == ({"c": "4", "price": "0.50"}, {"d": "4"})
        assert called(folder, *words[:3], "--left", "left.json", "--left-form", "lens")[0] == 2


def test_a_document_of_any_form():
    with tempfile.TemporaryDirectory() as folder:
        files(folder, **{"lens": "main each id text\n", "short.json": "\ufeff[\n  \"x\",\n  \"y\"\n]\n"})
        assert called(folder, "store", "import", "lens", "short.json", "short")[1].splitlines()[0] == 'left ["x","y"]'
        place = os.path.join(folder, "short")
        assert "is there already" in str(raised(NotDone, lambda: import_document(place, "main each id text\n", [])))
        place = os.path.join(folder, "wrong")
        why = raised(DoesNotFit, lambda: import_document(place, "main each id text\n", ["x", 5]))
        assert [str(it) for it in why.places] == ["/1: wanted a string, found 5"] and not os.path.exists(place)


def test_a_document_that_is_too_long_for_a_line():
    """It comes in by entries. The program is spared the long line itself, with which it would take seconds."""
    refused = mock.Mock(side_effect=ImportRefused("line-too-long"))
    with tempfile.TemporaryDirectory() as folder, mock.patch.object(Store, "begin", refused):
        long = ["x" * 900, "", "y"] * 9
        assert import_document(folder, "main each id text\n", long)[:2] == (long, long)
        assert refused.called and Store(folder).verify() > 1


def writing_calls(store, other):
    """The verbs that write, each as a call on a store: `other` is a folder with a copy."""
    copy, _ = backup(store.folder, other)
    lens = PROGRAM.replace("note", "note2")
    return {
        "compact": lambda: compact(store.folder),
        "back": lambda: back(store.folder, 2),
        "restore": lambda: restore(store.folder, copy),
        "change-lens": lambda: change_lens(store.folder, lens, is_accepted=True),
    }


SAYS_NO = """#!/bin/sh
case $PWD in *.editlens*) [ "$1" = {word} ] && {{ echo '{said}'; exit {status}; }};; esac
exec "{program}" "$@"
"""


def test_a_new_file_that_the_program_refuses_is_not_put_in_place():
    state = "left {}\nright {}\ncomplement null"
    for word, said, status in (("verify", "store refused: bad-record 2", 4), ("verify", "consistent 77", 0), ("show", state, 0)):
        with counted(20) as store, tempfile.TemporaryDirectory() as other:
            program = os.path.join(other, "program")
            files(other, program=SAYS_NO.format(word=word, said=said, status=status, program=store.path))
            os.chmod(program, 0o755)
            whole = bytes_of(store.file)
            raised(NotDone, lambda: compact(store.folder, program))
            raised(NotDone, lambda: back(store.folder, 2, program))
            if status:
                raised(NotDone, lambda: change_lens(store.folder, PROGRAM, path=program))
                raised(StoreRefused, lambda: backup(store.folder, os.path.join(other, "copy"), program))
                copy, _ = backup(store.folder, other)
                raised(NotDone, lambda: restore(store.folder, copy, program))
                raised(NotDone, lambda: import_document(os.path.join(other, "new"), PROGRAM, {"a": 1, "hours": 0}, program))
                assert os.listdir(os.path.join(other, "new")) == [] and not os.path.exists(os.path.join(other, "copy"))
            assert bytes_of(store.file) == whole and os.listdir(store.folder) == [NAME]


KILLED = """
import os, signal, sys
sys.dont_write_bytecode = True
sys.path.insert(0, {tools!r})
from editlens import replacement
from editlens.relens import change_lens
from editlens.upkeep import back, compact, restore
def dies(*_):
    os.kill(os.getpid(), signal.SIGKILL)
{where} = dies
{call}
"""


def test_killed_before_the_new_file_is_in_place():
    """The store is as it was, and the next call takes away what was left."""
    with counted(20) as store, tempfile.TemporaryDirectory() as other:
        copy, _ = backup(store.folder, other)
        whole = bytes_of(store.file)
        calls = ["back('.', 2)", "compact('.')", "compact('.')", f"restore('.', {copy!r})", f"change_lens('.', {PROGRAM!r})"]
        for call, where in zip(calls, ["os.replace", "os.rename", "os.replace", "replacement.sync_folder", "replacement._sync"]):
            code = KILLED.format(tools=os.path.join(TOP, "tools"), where=where, call=call)
            ran = subprocess.run([sys.executable, "-c", code], cwd=store.folder, capture_output=True, check=False)
            assert ran.returncode == -signal.SIGKILL, ran
            assert bytes_of(store.file) == whole and WORK in os.listdir(store.folder)
            assert os.stat(store.file).st_nlink == 1, "a program that writes refuses this store"
        back(store.folder, 2)
        assert WORK not in os.listdir(store.folder) and store.show()[0] == {"a": 10, "hours": 1}


def test_a_full_disk():
    """No file may have more than 1,024 bytes, and the store has more: nothing is done, and nothing is left."""
    with counted(20) as store, tempfile.TemporaryDirectory() as other:
        copy, _ = backup(store.folder, other)
        whole, tool = bytes_of(store.file), os.path.join(TOP, "tools", "store")
        for words in (["compact"], ["back", "2"], ["restore", copy], ["backup", os.path.join(other, "to")]):
            limited = ["bash", "-c", 'ulimit -f 1 && exec "$@"', "bash", tool, *words]
            ran = subprocess.run(limited, cwd=store.folder, capture_output=True, check=False)
            assert ran.returncode == 7 and ran.stderr.count(b"\n") == 1, ran
            assert bytes_of(store.file) == whole and os.listdir(store.folder) == [NAME] and os.listdir(other) == [os.path.basename(copy)]


def test_a_store_that_another_program_writes_to():
    with counted(20) as store, tempfile.TemporaryDirectory() as other:
        calls, whole = writing_calls(store, other), bytes_of(store.file)
        with StoreLock(store.folder):
            for call in (*calls.values(), lambda: drop_old(store.folder), lambda: import_document(store.folder, PROGRAM, {"a": 1, "hours": 0})):
                raised(StoreBusy, call)
            assert len(list(history(store.folder))) == 23 and backup(store.folder, other)[1] == 21
            status, _, err = called(store.folder, "store", "compact")
            assert status == 7 and err.startswith("another program is writing")
        assert bytes_of(store.file) == whole
        for name, call in calls.items():
            assert call(), name
            restore(store.folder, os.path.join(other, min(os.listdir(other))))


def test_a_run_of_the_program_holds_the_lock():
    with counted(20) as store, tempfile.TemporaryDirectory() as other:
        with StoreLock(store.folder):
            if subprocess.run([store.path, "pack"], cwd=store.folder, stdout=subprocess.DEVNULL, check=False).returncode != 7:
                raise Skipped("the program takes no lock on a store")
        child = subprocess.Popen([store.path, "apply"], cwd=store.folder, stdin=subprocess.PIPE, stdout=subprocess.PIPE)
        child.stdin.write((ADD + "\n").encode())
        child.stdin.flush()
        child.stdout.readline()
        whole = bytes_of(store.file)
        for call in writing_calls(store, other).values():
            raised(StoreBusy, call)
        assert bytes_of(store.file) == whole
        child.communicate()
        assert compact(store.folder)[1].endswith("which was 22 and is 0 now")


def test_a_link_is_not_replaced():
    with counted() as store, tempfile.TemporaryDirectory() as other:
        os.symlink(store.file, os.path.join(other, NAME))
        assert "is a link" in str(raised(UnsafeFile, lambda: back(other, 2)))
        assert os.listdir(other) == [NAME] and len(list(history(other))) == 7


def test_the_words():
    with counted() as store:
        here = store.folder
        assert called(here, "store")[0] == 2 and called(here, "store", "--help")[1].startswith("usage: store")
        assert called(here, "store", "history")[1].splitlines()[3] == '4 entry right [{"at":["b",[{"add":1}]]}]'
        assert called(here, "store", "history", "--at", "4")[:2] == (0, 'left {"a":11,"hours":1}\nright {"b":11,"note":""}\ncomplement {"rec":[null]}\n')
        assert called(here, "store", "check") == (0, f"consistent: 5 changes in 7 records, {os.path.getsize(store.file):,} bytes\n", "")
        assert called(here, "store", "back", "99")[0] == 1
        files(here, lens="main {id ~ b: id int}\n")
        status, _, err = called(here, "store", "change-lens", "lens")
        assert status == 3 and 'id is a keyword: as a field it is written "id"' in err
        os.truncate(store.file, 100)
        assert called(here, "store", "check")[0] == 4 and called(here, "store", "compact")[0] == 4
        assert called(here, "store", "check", "nowhere")[0] == 1
        assert called(here, "store", "check", "--remove")[0] == 1
        os.truncate(store.file, 0)
        assert called(here, "store", "check", "--remove") == (0, "removed\n", "") and NAME not in os.listdir(here)
