"""The client of a hub, and what is said of its refusals."""

import glob
import os

from editlens import Hub, HubAccepted, ProgramRefused, Refused
from editlens.explain import explain_program, explain_script
from editlens.parts import joined, views_of
from editlens.program import TOP

VIEWS = ["main {a ~ x: id int, left b: int}\n", "main {a ~ p: id int, b ~ q: id int}"]


def raised(programs):
    try:
        Hub(programs)
    except ProgramRefused as why:
        return why.reason
    raise AssertionError(programs)


def test_a_hub_and_its_views():
    with Hub(VIEWS) as hub:
        answer = hub.edit(0, [{"at": ["x", [{"set": 3}]]}])
        assert answer == HubAccepted(1, [{"at": ["a", [{"set": 3}]]}], [[{"at": ["x", [{"set": 3}]]}], [{"at": ["p", [{"set": 3}]]}]])
        hub.edit("hub", [{"at": ["b", [{"set": 2}]]}])
        for at, edit, wanted in ((2, [], "no-view"), (1, [{"at": ["q", [{"set": "x"}]]}], "kind"), (1, 5, "not-an-edit")):
            try:
                hub.edit(at, edit)
            except Refused as why:
                assert why.cause == wanted
            else:
                raise AssertionError(wanted)
        assert hub.documents == {"hub": {"a": 3, "b": 2}, 0: {"x": 3}, 1: {"p": 3, "q": 2}}


def test_the_example_is_followed():
    """The documents after each edit of the example are, at its end, those of the program."""
    (path,) = glob.glob(os.path.join(TOP, "examples", "hub"))
    programs = [open(os.path.join(path, f"{it}.lens"), encoding="utf-8").read() for it in ("proxy", "supervisor", "monitor")]
    with Hub(programs) as hub, open(os.path.join(path, "hub.answers"), encoding="utf-8") as answers:
        hub.edit("hub", [{"at": ["services", [{"put": key} for key in ("cart", "search")]]}])
        with open(os.path.join(path, "hub.journal"), encoding="utf-8") as lines:
            said = [hub.line(line.rstrip("\n")) for line in lines]
        wanted = [it.split(" ")[0] for it in answers.read().splitlines()[4:12]]
        assert ["refused" if isinstance(it, Refused) else "ok" for it in said] == wanted


def test_refused_programs_of_a_hub():
    assert views_of(joined(VIEWS)) == [VIEWS[0], VIEWS[1] + "\n"] and views_of("a\n+++\r\n+++\nb") == ["a\n", "", "b"]
    for programs, reason, told in (
        (["main id int", "main {a ~ : id int}"], "view 1 not-a-program 10", "wanted: a field"),
        (["main id int", "main each id int"], "views-differ 1", "at (the document): list int against int"),
        (["main id int"] * 65, "too-many-views", "there are more than 64 views"),
    ):
        assert raised(programs) == reason
        assert any(told in line for line in explain_program(joined(programs), reason)), explain_program(joined(programs), reason)


def test_refused_lines_of_a_hub():
    lines = ['{"at":1,"edit":[{"at":["q",[{"set":true}]]}]}', '{"at":7,"edit":[]}', '{"side":"left","edit":[]}', '{"at":0,"edit":[5]}', "{"]
    said = list(explain_script(joined(VIEWS) + "---\n" + "\n".join(lines)))
    assert '  primitive 0 of the edit of view 1: {"at":["q",[{"set":true}]]}' in said and "  at /q, which is 0" in said, said
    assert "  the views are numbered from 0 to 1, and 7 was named" in said, said
    assert sum(it.startswith("refused") for it in said) == 5 and any("an edit of a hub is an object" in it for it in said), said
