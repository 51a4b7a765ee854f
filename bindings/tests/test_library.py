"""Tests of the module for Python, over the library that EDITLENS_LIBRARY_PATH names. bindings/check runs them."""

import ctypes
import json
import os
import sys
import threading
import unittest

HERE = os.path.dirname(os.path.abspath(__file__))
TOP = os.path.dirname(os.path.dirname(HERE))
sys.path[:0] = [os.path.join(TOP, "bindings", "python"), os.path.join(TOP, "tools")]
sys.dont_write_bytecode = True

import editlens_library as library  # noqa: E402
from editlens.answers import ProgramRefused, Refused  # noqa: E402
from editlens_library import Session  # noqa: E402

# What a sanitizer watches is slow, and many cases reach the same code.
CASES = 25 if os.environ.get("EDITLENS_FEW_CASES") else 500
SMALL = "main {hours ~ time: id int, left done: bool}\n"


def read(*path):
    with open(os.path.join(TOP, *path), "rb") as file:
        return file.read()


def report(script):
    """What `editlens run` writes for a script, by a session."""
    lines = script.split(b"\n")
    at = next((number for number, line in enumerate(lines) if line in (b"---", b"---\r")), None)
    program = script if at is None else b"".join(it + b"\n" for it in lines[:at])
    try:
        kept = library.Kept(program)
    except library.Unopened as why:
        return why.line
    with kept:
        answers = [kept.step(it)[1] for it in ([] if at is None else lines[at + 1 :])]
        return b"".join(answers) + kept.show(library.STATE)


def cases(name, words):
    """The input and the output of each step of a file that has these words."""
    data, at = read("crates", "case_commands", "data", name), 0
    while at < len(data):
        end = data.index(b"\n", at)
        step, begin = json.loads(data[at:end]), end + 1
        middle = begin + step["input"]
        if step["words"] == words:
            yield data[begin:middle], data[middle : middle + step["output"]]
        at = middle + step["output"] + 1


class OverCalls(unittest.TestCase):
    """The functions of the library themselves, called where nothing is open or something is."""

    def setUp(self):
        self.calls = library.load()
        size = self.calls.editlens_session_size()
        self.room = ctypes.create_string_buffer(size + 15)
        self.at = (ctypes.addressof(self.room) + 15) & ~15
        self.program = SMALL.encode()

    def statuses(self, at):
        """What each call answers that wants a session."""
        calls, line = self.calls, b"{}"
        answers = [calls.editlens_session_status(at), calls.editlens_session_step(at, line, len(line))]
        answers += [calls.editlens_session_show(at, library.STATE), calls.editlens_session_text(at, None, 0)]
        self.assertTrue(all(it.size == library.Answer.size.offset + 8 for it in answers))
        return {*(it.status for it in answers), calls.editlens_session_close(at)}

    def test_where_nothing_is_open_a_call_says_so(self):
        for at in (None, self.at):
            self.assertEqual(self.statuses(at), {library.NOT_OPEN})
        self.assertEqual(self.calls.editlens_session_open(self.at, self.program, len(self.program)), library.DONE)
        self.assertEqual(self.calls.editlens_session_close(self.at), library.DONE)
        self.assertEqual(self.statuses(self.at), {library.NOT_OPEN})

    def test_a_session_is_not_opened_over_another(self):
        self.assertEqual(self.calls.editlens_session_open(None, self.program, len(self.program)), library.NOT_OPEN)
        self.assertEqual(self.calls.editlens_session_open(self.at, self.program, len(self.program)), library.DONE)
        line = b'{"side":"left","edit":[{"at":["hours",[{"set":8}]]}]}'
        self.assertEqual(self.calls.editlens_session_step(self.at, line, len(line)).status, library.DONE)
        self.assertEqual(self.calls.editlens_session_open(self.at, self.program, len(self.program)), library.NOT_OPEN)
        self.assertEqual(self.calls.editlens_session_reopen(self.at, b"", 0), library.NOT_OPEN)
        self.assertEqual(self.calls.editlens_session_status(self.at).number, 1)
        self.assertEqual(self.calls.editlens_session_close(self.at), library.DONE)

    def test_the_interface_has_a_number(self):
        self.assertEqual(self.calls.editlens_version(), library.VERSION)

    def test_a_library_without_this_number_is_another_one(self):
        with self.assertRaises(library.OtherLibrary) as caught:
            library.load("libc.so.6")
        self.assertIn("libc.so.6 has another interface", str(caught.exception))


class OverBytes(unittest.TestCase):
    def test_example_of_the_tasks(self):
        self.assertEqual(report(read("examples", "tasks.script")), read("examples", "tasks.out"))

    def test_cases(self):
        tried = 0
        for given, wanted in cases("runs.cases", ["run"]):
            self.assertEqual(report(given), wanted)
            tried += 1
            if tried == CASES:
                break
        self.assertEqual(tried, CASES)

    def test_a_refusal_has_its_numbers(self):
        with library.Kept(SMALL.encode()) as kept:
            answer, line = kept.step(b'{"side":"left","edit":[{"at":["hours",[{"set":1}]]},{"at":["none",[]]}]}')
            self.assertEqual((answer.status, answer.cause, answer.number, answer.part, answer.at), (library.REFUSED, 2, 1, 0, 1))
            self.assertEqual(line, b"refused 1 no-apply 1 place\n")
            self.assertEqual(kept.step(b"")[0].status, library.BLANK)
            with self.assertRaises(ValueError):
                kept.step(b"a\nb")
            with self.assertRaises(ValueError):
                kept.show(99)
            self.assertEqual(kept.items, 1)
        with self.assertRaises(ValueError):
            kept.step(b"{}")

    def test_a_program_that_is_refused_has_its_numbers(self):
        # (the program is looked at before the texts)
        for given in ({}, {"left": b"{}"}, {"right": b"{}"}, {"state": (b"{}", b"7", b"")}):
            with self.assertRaises(library.Unopened) as caught:
                library.Kept(b"main {", **given)
            self.assertEqual((caught.exception.status, caught.exception.cause, caught.exception.at), (library.PROGRAM_REFUSED, 22, 6))
            self.assertEqual(caught.exception.line, b"program refused: not-a-program 6\n")

    def test_a_state_is_resumed_if_it_is_consistent(self):
        with library.Kept(SMALL.encode()) as kept:
            kept.step(b'{"side":"left","edit":[{"at":["hours",[{"set":8}]]}]}')
            state, shown = kept.state(), kept.show(library.STATE)
        with library.Kept(SMALL.encode(), state) as kept:
            self.assertEqual(kept.show(library.STATE), shown)
        left, comp, right = state
        for texts, cause in (
            ((b"{}", comp, right), library.NOT_LEFT),
            ((left, b"7", right), library.NOT_COMPLEMENT),
            ((left, comp, b""), library.NOT_RIGHT),
            ((left, comp, b'{"time":9}'), library.NOT_CONSISTENT),
            # (the first of those that are wrong is named)
            ((b"{}", b"7", b""), library.NOT_LEFT),
            ((left, b"7", b""), library.NOT_COMPLEMENT),
        ):
            with self.assertRaises(library.Unopened) as caught:
                library.Kept(SMALL.encode(), texts)
            self.assertEqual((caught.exception.status, caught.exception.cause), (library.STATE_REFUSED, cause))

    def test_a_log_is_reopened(self):
        with library.Kept(SMALL.encode()) as kept:
            records = [kept.opening]
            self.assertEqual(json.loads(kept.opening), {"program": SMALL.rstrip("\n"), "version": 2})
            for line in (
                b'{"side":"left","edit":[{"at":["hours",[{"set":8}]]}]}',
                b'{"side":"left","edit":[{"at":["none",[]]}]}',
                b"",
                b'{"group":[{"side":"right","edit":[{"at":["time",[{"add":1}]]}]},{"side":"left","edit":[{"at":["done",[{"set":true}]]}]}]}',
            ):
                if kept.step(line)[0].status == library.DONE:
                    records.append(kept.show(library.CHANGE))
                else:
                    with self.assertRaises(ValueError):
                        kept.show(library.CHANGE)
            self.assertEqual(len(records), 3)
            self.assertEqual(json.loads(kept.show(library.UNDO_LEFT)), [{"at": ["done", [{"set": False}]]}, {"at": ["hours", [{"set": 8}]]}])
            self.assertEqual(json.loads(kept.show(library.UNDO_RIGHT)), [{"at": ["time", [{"set": 8}]]}])
            shown, snapshot = kept.show(library.STATE), kept.show(library.SNAPSHOT)
        for log in (records, [*records, snapshot], [records[0], snapshot]):
            with library.Kept(records=log) as kept:
                self.assertEqual((kept.show(library.STATE), kept.opening, kept.items), (shown, b"", 0))
        with library.Kept(records=[b'{"program":"main id int"}']) as kept:
            self.assertEqual(kept.opening, b'{"version":2}')
        wrong = snapshot.replace(b'"hours":9', b'"hours":7')
        for log, cause, at in (
            ([], library.BAD_RECORD, 1),
            ([b"{}"], library.BAD_RECORD, 1),
            ([*records[:2], b"{}", wrong], library.BAD_RECORD, 3),
            ([*records, wrong, b"{}"], library.RECORD_NOT_CONSISTENT, 4),
        ):
            with self.assertRaises(library.Unopened) as caught:
                library.Kept(records=log)
            self.assertEqual((caught.exception.status, caught.exception.cause, caught.exception.at), (library.RECORDS_REFUSED, cause, at))

    def test_records_are_those_of_a_store(self):
        # (what a store's commands store, of the same program and lines)
        with library.Kept(SMALL.encode()) as kept:
            kept.step(b' {"edit" : [{"at":["hours",[{"set":8}]]}], "side" : "left"} ')
            self.assertEqual(kept.show(library.CHANGE), b'{"entry":{"edit":[{"at":["hours",[{"set":8}]]}],"side":"left"}}')

    def test_one_document_is_given(self):
        with library.Kept(SMALL.encode(), right=b'{"time":8}') as kept:
            self.assertEqual((kept.show(library.LEFT), kept.items), (b'{"done":false,"hours":8}', 0))
            log, shown = [kept.opening, kept.show(library.SNAPSHOT)], kept.show(library.STATE)
        with library.Kept(records=log) as kept:
            self.assertEqual(kept.show(library.STATE), shown)
        with library.Kept(SMALL.encode(), left=b'{"done":true,"hours":8}') as kept:
            self.assertEqual(kept.show(library.RIGHT), b'{"time":8}')
        for given, cause in (({"left": b'{"time":8}'}, library.NOT_LEFT), ({"right": b'{"done":true,"hours":8}'}, library.NOT_RIGHT)):
            with self.assertRaises(library.Unopened) as caught:
                library.Kept(SMALL.encode(), **given)
            self.assertEqual((caught.exception.status, caught.exception.cause), (library.STATE_REFUSED, cause))

    def test_a_session_stays_on_its_thread(self):
        caught = []

        def work():
            try:
                kept.step(b"")
            except ValueError as why:
                caught.append(why)

        with library.Kept(SMALL.encode()) as kept:
            thread = threading.Thread(target=work)
            thread.start()
            thread.join()
        self.assertEqual(len(caught), 1)


class AsTheToolsHaveIt(unittest.TestCase):
    def test_the_class_of_the_tools(self):
        with Session(SMALL) as session:
            answer = session.left([{"at": ["hours", [{"set": 8}]]}])
            self.assertEqual((answer.number, answer.side, answer.word), (1, "right", [{"at": ["time", [{"set": 8}]]}]))
            self.assertEqual(session.documents, {"left": {"done": False, "hours": 8}, "right": {"time": 8}})
            with self.assertRaises(Refused) as caught:
                session.right([{"at": ["none", []]}])
            self.assertEqual((caught.exception.cause, caught.exception.at), ("place", 0))
            state = session.state()
            self.assertEqual(session.close()[:2], ({"done": False, "hours": 8}, {"time": 8}))
        with Session(SMALL, state=state) as session:
            self.assertEqual(session.documents["right"], {"time": 8})

    def test_a_program_that_is_refused(self):
        with self.assertRaises(ProgramRefused) as caught:
            Session("main {")
        self.assertEqual(caught.exception.reason, "not-a-program 6")


if __name__ == "__main__":
    unittest.main()
