"""The client over the commands of a store."""

import os
import shutil
import tempfile
from unittest import mock

from editlens import program
from editlens.answers import ProgramRefused, Refused
from editlens.store import ImportRefused, Store, StoreRefused

from . import raised

PROGRAM = "main {a ~ b: id int, left hours: int}\n"


def test_a_stored_session():
    with tempfile.TemporaryDirectory() as folder:
        store = Store.init(folder, PROGRAM)
        answer = store.left([{"at": ["a", [{"set": 5}]]}])
        assert (answer.number, answer.side, answer.word) == (1, "right", [{"at": ["b", [{"set": 5}]]}])
        why = raised(Refused, lambda: store.right([{"at": ["b", [{"set": "x"}]]}]))
        assert (why.cause, why.at) == ("kind", 0)
        answer = store.group(("left", [{"at": ["hours", [{"set": 2}]]}]), ("right", [{"at": ["b", [{"add": 1}]]}]))
        assert [side for side, _ in answer.words] == ["right", "left"]
        assert Store(folder).show() == ({"a": 6, "hours": 2}, {"b": 6}, {"rec": [None]})
        assert store.verify() == 2 and store.pack() == 2 and store.verify() == 2
        assert raised(StoreRefused, lambda: Store.init(folder, PROGRAM)).reason == "log-exists"


def test_stores_that_are_refused():
    with tempfile.TemporaryDirectory() as folder:
        assert raised(ProgramRefused, lambda: Store.init(folder, "main idd int")).reason.startswith("not-a-program")
        assert raised(StoreRefused, Store(folder).show).reason == "not-a-log"
        store = Store.init(folder, PROGRAM)
        os.truncate(store.file, os.path.getsize(store.file) - 1)
        assert raised(StoreRefused, store.verify).reason == "bad-record 1"


def test_many_lines_in_one_run():
    with tempfile.TemporaryDirectory() as folder:
        store = Store.init(folder, PROGRAM)
        lines = ['{"side":"left","edit":[{"at":["a",[{"add":1}]]}]}'] * 20 + ["", "{", '{"group":[]}']
        answers = store.apply(lines)
        assert len(answers) == 22 and isinstance(answers[20], Refused) and answers[20].cause == "not-json"
        assert store.show()[0] == {"a": 20, "hours": 0} and store.verify() == 21


def test_a_document_that_one_has_and_undo():
    with tempfile.TemporaryDirectory() as folder:
        assert raised(ImportRefused, lambda: Store.begin(folder, PROGRAM, {"a": 1})).reason == "not-of-type"
        store = Store.begin(folder, PROGRAM, {"a": 41, "hours": 7})
        assert store.show()[:2] == ({"a": 41, "hours": 7}, {"b": 41}) and store.verify() == 1
        store.right([{"at": ["b", [{"add": 1}]]}])
        left, right = store.undo()
        assert store.show()[:2] == ({"a": 41, "hours": 7}, {"b": 41})
        assert (left, right) == ([{"at": ["a", [{"set": 41}]]}], [{"at": ["b", [{"set": 41}]]}])
        assert raised(StoreRefused, store.undo).reason == "nothing-to-undo"
        assert raised(StoreRefused, lambda: Store.begin(folder, PROGRAM, {"a": 1, "hours": 0})).reason == "log-exists"


def test_changes_are_taken_back_from_the_end():
    with tempfile.TemporaryDirectory() as folder:
        store = Store.begin(folder, PROGRAM + "---\na journal is no part of the program\n", {"a": 1, "hours": 0})
        store.left([{"at": ["a", [{"set": 2}]]}])
        store.group(("left", [{"at": ["hours", [{"set": 9}]]}]), ("right", [{"at": ["b", [{"set": 3}]]}]))
        store.right([{"at": ["b", [{"set": 4}]]}])
        left, right = store.undo(2)
        assert store.show()[:2] == ({"a": 2, "hours": 0}, {"b": 2}) and store.verify() == 4
        assert left == [{"at": ["a", [{"set": 3}]]}, {"at": ["a", [{"set": 2}]]}, {"at": ["hours", [{"set": 0}]]}]
        assert right == [{"at": ["b", [{"set": 3}]]}, {"at": ["b", [{"set": 2}]]}]
        store.left([{"at": ["a", [{"set": 7}]]}])
        assert raised(StoreRefused, lambda: store.undo(2)).reason == "nothing-to-undo"
        assert store.undo(1) and store.show()[1] == {"b": 2}
        for count in (0, 10_001):
            raised(ValueError, lambda: store.undo(count))


def test_the_proved_program_comes_first():
    with tempfile.TemporaryDirectory() as folder, mock.patch.dict(os.environ, {"PATH": folder}):
        kept, proved = os.path.join(folder, "kept"), os.path.join(folder, "proved")
        del os.environ["EDITLENS"]
        with mock.patch.multiple(program, kept=lambda _: kept, proved=lambda _: proved):
            raised(program.NoProgram, program.find_program)
            shutil.copy("/bin/true", kept)
            assert program.find_program() == kept
            assert Store(folder).path == kept
            shutil.copy("/bin/true", proved)
            assert program.find_program() == proved and Store(folder).path == proved
