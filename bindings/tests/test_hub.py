"""Tests of the module for hubs in Python, over the library that EDITLENS_LIBRARY_PATH names. bindings/check runs them."""

import json
import os
import re
import sys
import threading
import unittest

HERE = os.path.dirname(os.path.abspath(__file__))
TOP = os.path.dirname(os.path.dirname(HERE))
sys.path[:0] = [os.path.join(TOP, "bindings", "python")]
sys.dont_write_bytecode = True

import editlens_hub as hubs  # noqa: E402
import editlens_library as library  # noqa: E402

# What a sanitizer watches is slow, and many cases reach the same code.
IS_SHORT = bool(os.environ.get("EDITLENS_FEW_CASES"))
CASES = 25 if IS_SHORT else 200
FIRST, SECOND = b"main {hours ~ time: id int, left done: bool}\n", b"main {hours ~ all: id int, done ~ ready: id bool}"


def read(*path):
    with open(os.path.join(TOP, *path), "rb") as file:
        return file.read()


def divided(script):
    """The program part of a script, and the lines of its journal."""
    lines = script.split(b"\n")
    at = next((number for number, line in enumerate(lines) if line in (b"---", b"---\r")), None)
    return (script, []) if at is None else (b"".join(it + b"\n" for it in lines[:at]), lines[at + 1 :])


def report(script):
    """What `editlens hub` writes for a script, by a hub."""
    part, lines = divided(script)
    try:
        hub = hubs.Hub(part)
    except library.Unopened as why:
        return why.line
    with hub:
        answers = [hub.step(it)[1] for it in lines]
        return b"".join(answers) + hub.show(hubs.HUB_STATE)


def resumed_report(script):
    """The same by many hubs: each takes one line, and the next goes on from its texts. The answers are numbered through."""
    part, lines = divided(script)
    answers, texts = [], None
    for line in [*lines, b""]:
        try:
            hub = hubs.Hub(part, texts)
        except library.Unopened as why:
            return why.line
        with hub:
            answer = hub.step(line)[1]
            if answer:
                answers.append(re.sub(rb"^(\w+) 1 ", b"\\g<1> %d " % (len(answers) + 1), answer))
            texts, shown = hub.texts(), hub.show(hubs.HUB_STATE)
    return b"".join(answers) + shown


def refusal(programs, texts=None):
    """Why no hub is opened over these programs, or goes on from these texts."""
    try:
        hubs.Hub(programs, texts).close()
    except library.Unopened as why:
        return why
    raise AssertionError("there is a hub")


def cases(name):
    """The input and the output of each step of a file."""
    data, at = read("crates", "case_commands", "data", name), 0
    while at < len(data):
        end = data.index(b"\n", at)
        step, begin = json.loads(data[at:end]), end + 1
        middle = begin + step["input"]
        if step["words"] == ["hub"]:
            yield data[begin:middle], data[middle : middle + step["output"]]
        at = middle + step["output"] + 1


class Hubs(unittest.TestCase):
    def test_cases(self):
        tried = 0
        for given, wanted in cases("hub.cases"):
            self.assertEqual(report(given), wanted)
            self.assertEqual(resumed_report(given), wanted)
            tried += 1
            if tried == CASES:
                break
        self.assertEqual(tried, CASES)

    def test_two_hubs_go_on_together(self):
        tried = 0
        for given, _ in cases("hub_rows.cases"):
            part, lines = divided(given)
            try:
                first = hubs.Hub(part)
            except library.Unopened as why:
                self.assertEqual(refusal(part, []).line, why.line)
                continue
            with first:
                for line in lines:
                    with hubs.Hub(part, first.texts()) as other:
                        self.assertEqual((other.items, other.text(), other.texts()), (0, b"", first.texts()))
                        answer, said = other.step(line)
                        wanted, first_said = first.step(line)
                        self.assertEqual((answer.status, answer.cause, answer.part, answer.at), (wanted.status, wanted.cause, wanted.part, wanted.at))
                        self.assertEqual(said.split(b" ", 2)[2:], first_said.split(b" ", 2)[2:])
                        self.assertEqual(other.show(hubs.HUB_STATE), first.show(hubs.HUB_STATE))
                        tried += 1
            if IS_SHORT and tried:
                break
        self.assertGreaterEqual(tried, 1 if IS_SHORT else 300)

    def test_a_state_is_resumed_if_it_is_consistent(self):
        programs = [FIRST, SECOND]
        with hubs.Hub(programs) as hub:
            hub.step(b'{"at":1,"edit":[{"at":["all",[{"set":8}]]}]}')
            texts, shown = hub.texts(), hub.show(hubs.HUB_STATE)
        self.assertEqual((texts[:2], texts[3]), ((b'{"done":false,"hours":8}', b'{"time":8}'), b'{"all":8,"ready":false}'))
        for given in (texts, list(texts), [b" " + it + b"\r" for it in texts]):
            with hubs.Hub(programs, given) as hub:
                self.assertEqual((hub.show(hubs.HUB_STATE), hub.items), (shown, 0))
        document, first, comp, second, other = texts
        for given, cause, view in (
            ((), hubs.OTHER_COUNT, 0),
            (texts[:-1], hubs.OTHER_COUNT, 0),
            ((*texts, other), hubs.OTHER_COUNT, 0),
            ((b"{}", first, comp, second, other), hubs.NOT_HUB, 0),
            ((document, b"", comp, second, other), hubs.NOT_VIEW, 0),
            ((document, first, comp, first, other), hubs.NOT_VIEW, 1),
            ((document, first, b"7", second, other), library.NOT_COMPLEMENT, 0),
            ((document, first, comp, second, comp), library.NOT_COMPLEMENT, 1),
            ((document, b'{"time":9}', comp, second, other), library.NOT_CONSISTENT, 0),
            ((document, first, comp, b'{"all":8,"ready":true}', other), library.NOT_CONSISTENT, 1),
            ((b'{"done":true,"hours":8}', first, comp, second, other), library.NOT_CONSISTENT, 1),
            # (the first fault is named: the count, then each text in order, then each view)
            ((b"{}", b"{}", b"7", second), hubs.OTHER_COUNT, 0),
            ((b"{}", b"{}", b"7", b"{}", b"7"), hubs.NOT_HUB, 0),
            ((document, b"{}", b"7", b"{}", b"7"), hubs.NOT_VIEW, 0),
            ((document, first, b"7", b"{}", b"7"), library.NOT_COMPLEMENT, 0),
            ((document, b'{"time":9}', comp, b"{}", b"7"), hubs.NOT_VIEW, 1),
            ((document, b'{"time":9}', comp, second, b"7"), library.NOT_COMPLEMENT, 1),
            ((b'{"done":true,"hours":9}', first, comp, second, other), library.NOT_CONSISTENT, 0),
        ):
            why = refusal(programs, given)
            self.assertEqual((why.status, why.cause, why.view, why.at, why.line), (library.STATE_REFUSED, cause, view, 0, b""), given)
        self.assertEqual(str(refusal(programs, texts[1:])), "the texts are not one of the hub and two of each view")
        self.assertEqual(str(refusal(programs, (document, first, comp, second, b"7"))), "the second text of view 1 is not the JSON of a complement of it")

    def test_parts_and_refusals(self):
        with hubs.Hub([FIRST, SECOND]) as hub:
            answer, line = hub.step(b'{"at":0,"edit":[{"at":["time",[{"set":8}]]}]}')
            self.assertEqual((answer.status, answer.number), (library.DONE, 1))
            self.assertEqual(line, b'ok 1 [{"at":["hours",[{"set":8}]]}] [[{"at":["time",[{"set":8}]]}],[{"at":["all",[{"set":8}]]}]]\n')
            self.assertEqual(hub.show(hubs.HUB_DOCUMENT), b'{"done":false,"hours":8}')
            self.assertEqual(hub.show(hubs.VIEW_DOCUMENT, 1), b'{"all":8,"ready":false}')
            self.assertEqual(hub.show(hubs.VIEW_DOCUMENT, 0), b'{"time":8}')
            self.assertEqual(json.loads(hub.show(hubs.VIEW_COMPLEMENT, 0)), json.loads(hub.show(hubs.HUB_STATE).split(b"\n")[2][len("complement 0 ") :]))
            with self.assertRaises(hubs.NoView):
                hub.show(hubs.VIEW_DOCUMENT, 2)
            answer, line = hub.step(b'{"at":2,"edit":[]}')
            self.assertEqual((answer.status, answer.cause, line), (library.REFUSED, hubs.NO_VIEW, b"refused 2 no-view\n"))
            answer, line = hub.step(b'{"at":"hub","edit":[{"at":["hours",[{"set":1}]]},{"at":["none",[]]}]}')
            self.assertEqual((answer.status, answer.cause, answer.at, line), (library.REFUSED, 2, 1, b"refused 3 no-apply 1 place\n"))
            self.assertEqual(hub.step(b"")[0].status, library.BLANK)
            with self.assertRaises(ValueError):
                hub.step(b"a\nb")
            with self.assertRaises(ValueError):
                hub.show(99)
            self.assertEqual(hub.items, 3)
        with self.assertRaises(ValueError):
            hub.step(b"{}")

    def test_programs_that_are_refused(self):
        for programs, cause, view, at, line in (
            # (the end is refused, and it is behind all bytes of the program: a line feed is added to one of a list that has none)
            ([FIRST, b"main {"], 22, 1, 7, b"program refused: view 1 not-a-program 7\n"),
            (FIRST + b"+++\nmain {", 22, 1, 6, b"program refused: view 1 not-a-program 6\n"),
            ([FIRST, b"main id int"], hubs.VIEWS_DIFFER, 1, 0, b"program refused: views-differ 1\n"),
            ([FIRST] * 65, hubs.TOO_MANY_VIEWS, 0, 0, b"program refused: too-many-views\n"),
        ):
            # (the programs are looked at before the texts)
            for why in (refusal(programs), refusal(programs, [b"{}"])):
                self.assertEqual((why.status, why.cause, why.view, why.at, why.line), (library.PROGRAM_REFUSED, cause, view, at, line))

    def test_a_hub_stays_on_its_thread(self):
        caught = []

        def work():
            try:
                hub.step(b"")
            except ValueError as why:
                caught.append(why)

        with hubs.Hub([FIRST]) as hub:
            thread = threading.Thread(target=work)
            thread.start()
            thread.join()
        self.assertEqual(len(caught), 1)


if __name__ == "__main__":
    unittest.main()
