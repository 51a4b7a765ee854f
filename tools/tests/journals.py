"""The rules of edits here against the program, the client, loading, and explanations."""

import glob
import os

from editlens import Accepted, ProgramRefused, Refused, RunEnded, Session, check
from editlens.answers import read_answer
from editlens.construct import construct
from editlens.edits import NoApply, NotAnEdit, act
from editlens.explain import explain_program, explain_script
from editlens.grammar import wanted_at
from editlens.json_text import write_json
from editlens.load import DoesNotFit, load
from editlens.program import TOP
from editlens.parts import journal_of, program_of
from editlens.types import write_type

from .chance import some_document, some_edit, some_type

TASKS = "main keyed {title ~ card: id text, left hours: int, right color: text}"
BOARD = """lens issue = {title ~ name: id text, severity ~ priority: bij["low"="3", "high"="1"], left assignee: text};
main {open ~ cards: keyed issue, left version: int, right columns: list text}"""


def test_edits_act_as_in_the_program():
    """Random edits of random documents: the same answer, cause and primitive, and at the end the same document."""
    for _ in range(20):
        ty = some_type(3)
        with Session(f"main id {write_type(ty)}") as session:
            assert session.types["left"] == ty
            session.left(construct(ty, some_document(ty)))
            for _ in range(15):
                document = session.documents["left"]
                edit = some_edit(ty, document) + some_edit(ty, document)
                try:
                    here = act(ty, document, edit)
                except NotAnEdit:
                    here = ("not-an-edit", None)
                except NoApply as why:
                    here = (why.cause, why.at)
                answer = session.line(write_json({"side": "left", "edit": edit}))
                said = session.documents["left"] if isinstance(answer, Accepted) else (answer.cause, answer.at)
                assert said == here, (write_type(ty), document, edit, said, here)


def test_examples_are_followed():
    """The documents after each entry are, at the end, those of the program; the answers are those that are stored."""
    for path in glob.glob(os.path.join(TOP, "examples", "**", "*.script"), recursive=True):
        with open(path, encoding="utf-8") as file:
            script = file.read()
        with open(path.removesuffix("script") + "out", encoding="utf-8") as file:
            stored = [read_answer(it) for it in file.read().splitlines() if it.startswith(("ok ", "refused "))]
        with Session(program_of(script)) as session:
            answers = [session.line(line) for line in journal_of(script)]
        assert answers == stored, path


def test_refusals_are_exceptions():
    with Session(TASKS) as session:
        assert session.left([{"put": "door"}]).word == [{"put": "door"}]
        before = session.documents
        for edit, cause, at in (([{"drop": "roof"}], "place", 0), ([{"put": "x"}, {"put": "door"}], "present", 1), ([5], "not-an-edit", None)):
            try:
                session.left(edit)
            except Refused as why:
                assert (why.cause, why.at) == (cause, at), why
                assert session.documents == before
            else:
                raise AssertionError(edit)
    try:
        Session("main id")
    except ProgramRefused as why:
        assert why.reason == "not-a-program 7"
    else:
        raise AssertionError("main id")


def test_a_run_that_ends_is_told():
    session = Session(TASKS)
    session.process.child.kill()
    try:
        session.left([])
        session.left([])
    except RunEnded:
        return
    raise AssertionError


def test_answers_of_groups_are_read():
    answer = read_answer('ok 1 group [{"edit":[{"at":["b",[{"set":5}]]}],"side":"right"},{"edit":[],"side":"left"}]')
    assert answer.words == (("right", [{"at": ["b", [{"set": 5}]]}]), ("left", []))
    assert read_answer("refused 1 group 1 no-apply 0 kind") == Refused(1, "kind", at=0, part=1)


def test_a_group_is_accepted_together_or_not_at_all():
    with Session(TASKS) as session:
        answer = session.group(("left", [{"put": "door"}]), ("right", [{"put": "roof"}]))
        assert answer.words == (("right", [{"put": "door"}]), ("left", [{"put": "roof"}]))
        assert set(session.documents["left"]) == {"door", "roof"}
        before = session.documents
        try:
            session.group(("left", [{"put": "gate"}]), ("right", [{"drop": "wall"}]))
        except Refused as why:
            assert (why.cause, why.at, why.part) == ("place", 0, 1) and session.documents == before
        else:
            raise AssertionError("the second entry does not apply")


def run_lines(program, lines):
    with Session(program) as session:
        for line in lines:
            assert isinstance(session.line(line), Accepted), line
    return session.documents["left"], session.documents["right"]


def test_loading_two_documents():
    left = {"open": {"B-1": {"assignee": "mia", "severity": "high", "title": "Crash"}}, "version": 3}
    right = {"cards": {"B-1": {"name": "Crash", "priority": "1"}}, "columns": ["doing", "todo"]}
    lines, disagreements = load(BOARD, left, right)
    assert disagreements == [] and run_lines(BOARD, lines) == (left, right)


def test_disagreements_are_listed_and_kept():
    left = {"open": {"B-1": {"assignee": "mia", "severity": "high", "title": "Crash"}}, "version": 3}
    right = {"cards": {"B-1": {"name": "Crash!", "priority": "1"}, "B-2": {"name": "", "priority": "3"}}, "columns": ["todo"]}
    lines, disagreements = load(BOARD, left, right)
    assert sorted(str(it).split(":")[0] for it in disagreements) == ["/cards/B-1/name", "/cards/B-2"]
    agreed = {"cards": {"B-1": {"name": "Crash", "priority": "1"}}, "columns": ["todo"]}
    assert run_lines(BOARD, lines) == (left, agreed)


def test_private_data_inside_lists_and_parts():
    program = """main then(each <p ~ p: {n ~ n: id text, left a: int}, o ~ o: id int>, then(part <p: {n: text}, o: int>,
      {p ~ ps: each {n ~ n: id text, right note: <none: unit, some: list text>}, o ~ os: each id int}))"""
    left = [{"o": 4}, {"p": {"a": 1, "n": "x"}}, {"p": {"a": 2, "n": "y"}}]
    right = {"os": [4], "ps": [{"n": "x", "note": {"none": None}}, {"n": "y", "note": {"some": ["1", "2"]}}]}
    lines, disagreements = load(program, left, right)
    assert disagreements == [] and run_lines(program, lines) == (left, right)
    _, disagreements = load(program, left, {"os": [4, 5], "ps": right["ps"]})
    assert [it.path for it in disagreements] == [("os",)]


def test_loading_random_documents():
    """Documents of a lens that gives each side something of its own: what is loaded is what was given."""
    for _ in range(6):
        one, two, three = some_type(2), some_type(2), some_type(2)
        program = f"main keyed {{s ~ t: id {write_type(one)}, left l: {write_type(two)}, right r: {write_type(three)}}}"
        keys = ["a", "b"]
        shared = {key: some_document(one) for key in keys}
        left = {key: {"l": some_document(two), "s": shared[key]} for key in keys}
        right = {key: {"r": some_document(three), "t": shared[key]} for key in keys}
        lines, disagreements = load(program, left, right)
        assert disagreements == [] and run_lines(program, lines) == (left, right), program


def test_documents_that_do_not_fit():
    try:
        load(BOARD, {"open": {}, "version": "3"}, {"cards": {}, "columns": []})
    except DoesNotFit as why:
        assert why.side == "left" and why.places[0].path == ("version",)
        return
    raise AssertionError


REFUSED = {
    'main {id ~ number: id int}': ["line 1, column 7:", 'id is a keyword: as a field it is written "id"'],
    'main {a ~ b: id int,\n  max-conns ~ c: id int}': ["line 2, column 6:", "a - without a digit behind it; a field with a - in it is written between quotes"],
    "main id": ["line 1, column 8:", "found: the end of the program"],
    "lens c = id person; main c": ["line 1, column 13:", "person: no earlier definition of the sort that is wanted here, type or lens, has this name"],
    "main then(part <p: text, f: int>, {p ~ a: each id text, f ~ b: each id text})": ["  at /f/*: int against text"],
    "main {a ~ b: id int, left a: int}": ["  line 1, column 7", "  line 1, column 27"],
    "main {é_ ~ b: id int}": ["line 1, column 7:"],
    "main " + "each " * 99 + "id int": ["a type or a lens stands inside 100 others here"],
}


def test_refused_programs_are_explained():
    for program, wanted in REFUSED.items():
        try:
            check(program)
        except ProgramRefused as why:
            said = explain_program(program, why.reason)
            assert all(it in said for it in wanted), said
        else:
            raise AssertionError(program)


def test_the_next_token_is_the_one_of_the_program():
    """Cut and changed programs: the same token is named by the program and by the reader here."""
    with open(os.path.join(TOP, "examples", "address-book.script"), encoding="utf-8") as file:
        program = program_of(file.read())
    for at in range(0, len(program), 61):
        for changed in (program[:at], program[:at] + "}" + program[at:], program[:at] + " list " + program[at:]):
            stuck = wanted_at(changed.encode())
            try:
                check(changed)
                reason = "accepted"
            except ProgramRefused as why:
                reason = why.reason
            if stuck:
                assert reason == f"not-a-program {stuck[0].at}", (changed, reason, stuck)
            else:
                assert not reason.startswith("not-a-program"), (changed, reason)


def test_refused_entries_are_explained():
    script = TASKS + """
---
{"side":"left","edit":[{"put":"door"},{"mod":["door",[{"at":["hours",[{"set":3}]]}]]}]}
{"side":"left","edit":[{"drop":"roof"}]}
{"side":"left","edit":[{"put":"x"},{"mod":["door",[{"at":["hours",[{"add":9223372036854775807}]]}]]}]}
{"side":"up","edit":[]}
{"side":"left","edit":[{"ins":0}]}
{
"""
    said = list(explain_script(script))
    for wanted in (
        "refused 2 no-apply 0 place",
        '  at (the document), which is {"door":{"hours":3,"title":""}}',
        '  allowed here: the keys "door"',
        "refused 3 no-apply 1 overflow",
        "  at /door/hours, which is 3",
        "refused 4 not-an-entry",
        "  ins wants a number from 1 to 65536, and not 0",
    ):
        assert wanted in said, (wanted, said)
    assert said[-2] == "refused 6 not-json"


def test_refused_groups_are_explained():
    """The place in the document as the entries before it make it, where these are of the same side."""
    script = TASKS + """
---
{"group":[{"side":"left","edit":[{"put":"door"}]},{"side":"left","edit":[{"mod":["door",[{"at":["hours",[{"set":"3"}]]}]]}]}]}
{"group":[{"side":"right","edit":[{"put":"door"}]},{"side":"left","edit":[{"drop":"roof"}]}]}
"""
    assert list(explain_script(script)) == [
        "refused 1 group 1 no-apply 0 kind",
        "  entry 1 of the group does not apply",
        '  primitive 0 of the edit of the left document: {"mod":["door",[{"at":["hours",[{"set":"3"}]]}]]}',
        "  at /door/hours, which is 0",
        "  kind: the place holds a value that this primitive does not edit",
        '  allowed here: {"set":NUMBER}, {"add":NUMBER}',
        "refused 2 group 1 no-apply 0 place",
        "  entry 1 of the group does not apply",
        "  place: there is no such field, key, item or node; entries of the other side are before it",
    ], list(explain_script(script))
