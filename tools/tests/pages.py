"""The desk in a browser: each kind of edit from both sides, refusals, undo, two windows, many records, another program, a replay.

Debian's chromium and chromium-driver are wanted, or all is skipped.
"""

import json
import os
import tempfile
import threading

from editlens.desk.desk import Desk
from editlens.desk.keepers import RunKeeper, StoreKeeper, state_after
from editlens.desk.replay import Replay
from editlens.json_text import pointer
from editlens.program import TOP
from editlens.store import Store

from .desks import TASKS
from .sharing import COMPOSED
from .windows import ALL, opened, started

NEEDS_BROWSER = True
FIELDS = {
    "left": {it: it for it in ("flag", "level", "count", "name", "tags", "costs", "kind", "outline")},
    "right": {
        "flag": "on", "level": "grade", "count": "number", "name": "title", "tags": "labels", "costs": "prices", "kind": "sort", "outline": "toc",
    },
}
EVIL = "<script>window.bad=1</script><img src=x onerror=\"window.bad=1\">"
BIG = 2**63 - 1


def edits_of_all_kinds(window, side):
    """Makes each kind of edit in one document. After each comes a number of changes that it is."""
    name, click, write, choose = FIELDS[side], window.click, window.write, window.choose
    field = {it: (name[it],) for it in name}
    yield click(side, field["flag"], "value")
    yield choose(side, field["level"], {"left": "high", "right": "2"}[side])
    yield write(side, field["count"], "41", "Enter")
    yield click(side, field["count"], "more")
    yield click(side, field["count"], "less")
    yield write(side, field["name"], "Ida é", "Tab")
    for number, text in enumerate("xyz"):
        yield click(side, field["tags"], "add")
        yield write(side, (*field["tags"], number), text, "Enter")
    yield click(side, (*field["tags"], 2), "up")
    yield click(side, (*field["tags"], 0), "down")
    yield click(side, (*field["tags"], 0), "remove")
    yield window.browser.drag(f"#{side} [data-place='/{name['tags']}/1'] .handle", f"#{side} [data-place='/{name['tags']}/0']")
    for key in ("9", "a/b"):
        yield write(side, field["costs"], key, "Enter", role="new-key")
    yield write(side, (*field["costs"], "9"), "-7", "Enter")
    yield write(side, (*field["costs"], "9"), "nine", "Enter", role="key")
    yield click(side, (*field["costs"], "a/b"), "remove")
    yield choose(side, field["kind"], {"left": "some", "right": "value"}[side], "tag")
    yield write(side, (*field["kind"], {"left": "some", "right": "value"}[side]), "here", "Enter")
    window.ask_for(side, field["kind"], "n")
    yield click(side, field["kind"], "tag-change")
    yield from edits_of_trees(window, side, field["outline"])


def edits_of_trees(window, side, field):
    """Edits of a tree: nodes that are added, named, moved among their siblings, hung elsewhere, and removed."""
    click, place = window.click, lambda number: (*field, "items", number)
    for _ in range(3):
        yield click(side, place(0), "graft")
    yield window.write(side, place(0), "top", "Enter")
    yield window.write(side, place(3), "three", "Enter")
    yield click(side, place(3), "up")
    yield click(side, place(1), "down")
    yield click(side, place(3), "nest")
    yield click(side, place(3), "lift")
    yield window.browser.drag(f"#{side} [data-place='{pointer(place(3))}'] .handle", f"#{side} [data-place='{pointer(place(1))}'] input")
    yield click(side, place(3), "remove")


def test_each_kind_of_edit_from_both_sides():
    for side in ("left", "right"):
        with started(ALL) as window:
            for number, _ in enumerate(edits_of_all_kinds(window, side), 1):
                window.after(number)
                if number % 10 == 0:
                    window.shows_what_the_program_says()
            window.shows_what_the_program_says()
            left = window.desk.keeper.documents["left"]
            assert (left["flag"], left["level"], left["count"], left["name"], left["kind"]) == (True, "high", 41, "Ida é", {"none": None}), left
            assert left["costs"] == {"nine": -7} and left["tags"] == ["y", "x"], left
            assert left["outline"] == {"depths": [0, 1, 2], "items": ["top", "three", ""]}, left


TIED = """
const place = (it) => it.closest(".side").id + it.dataset.place;
const tied = () => [...document.querySelectorAll(".tied")].map(place).sort();
"""
POINTED = f"""{TIED}
const [side, selector] = arguments;
window.page.pointedAt(null, null);
window.page.pointedAt(window.page.sides[side], document.querySelector(selector));
return tied();
"""
"""The places that are tied where the pointer is over an element. All in one step, since the pointer of the browser is somewhere, too."""


def test_the_tasks_example():
    """The README's four edits, by hand and by the controls: the documents, what is said of them, and what belongs together."""
    with started(TASKS) as window:
        page = window.browser
        for number in range(2):
            window.click("left", ("plan",), "add")
            window.after(number + 1)
        window.choose("left", ("plan", 0), "done", "tag")
        window.after(3)
        window.write("left", ("plan", 0, "done"), "Lock", "Enter")
        window.after(4)
        window.write("left", ("plan", 1, "todo"), "Paint", "Enter")
        window.after(5)
        window.shows_what_the_program_says()
        page.until(window.is_told, "the complement does not come")
        assert "done, todo" in window.says("#complement")
        page.point(window.control("left", ("plan", 0, "done")))
        page.point(window.control("left", ("plan", 1, "todo")))
        tied = f"{TIED} return tied();"
        page.until(lambda: page.run(tied) == ["left/plan/1", "right/board/todo/0"], lambda: f"tied are {page.run(tied)}")
        window.send("left", '[{"at":["plan",[{"del":4}]]}]')
        page.until(lambda: "refused: range at /plan" in window.says("#left [data-place='/plan'] > .refused"), "no refusal at its place")
        assert "from 1 to 2 items" in window.says("#left .refused") and "Nothing has changed" in window.says("#last-edit")
        window.send("right", "[{")
        page.until(lambda: "not JSON" in window.says("#right .refused"), "no refusal of what is not JSON")
        window.shows_what_the_program_says()
        colours = page.run("return ['/hours', '/plan'].map((it) => document.querySelector(`#left [data-place='${it}']`).className)")
        assert "own" in colours[0] and "shared" in colours[1] and "only here" in window.says("#left [data-place='/hours']")


BELONG = [
    ("left", "/1/person/name", ["left/1/person/name", "right/people/0/name"]),
    ("left", "/1/person/birthday", []),
    ("left", "/2/firm", []),
    ("right", "/people/1/name", ["left/3/person/name", "right/people/1/name"]),
    ("right", "/people/1", ["left/3", "right/people/1"]),
    ("right", "/people/1/note", []),
]


def test_what_belongs_together():
    """Over lenses one behind another, and a list that the other side has in parts: the places that are marked, and those that are not."""
    left = [{"firm": "A"}, {"person": {"birthday": "", "name": "Ida"}}, {"firm": "B"}, {"person": {"birthday": "", "name": "Bo"}}]
    with started(COMPOSED, left) as window:
        window.shows_what_the_program_says()
        window.browser.until(window.is_told, "the complement does not come")
        assert "firm, person, firm, person" in window.says("#complement")
        for side, place, wanted in BELONG:
            found = window.browser.run(POINTED, side, f"#{side} [data-place={json.dumps(place)}]")
            assert found == wanted, (side, place, found)


HOLD = """
const asked = window.fetch;
window.answers = 0;
window.fetch = async (...words) => {
  const said = await asked(...words);
  window.answers += 1;
  if (window.answers === 1) await new Promise((done) => { window.release = done; });
  return said;
};
window.page.refresh();
"""
"""Asks for the state of the desk, and holds the answer back until `release` is called."""


def test_no_answer_is_drawn_over_a_later_one():
    """An answer without the complement comes late, behind the news that the complement is there."""
    keeper, is_known = RunKeeper(TASKS), threading.Event()
    with opened(Desk(keeper, "test")) as window:
        page, reader = window.browser, keeper.reader
        page.until(window.is_told, "the complement does not come")
        keeper.reader = lambda: lambda read=reader(): is_known.wait() and read()
        window.write("left", ("hours",), "5", "Enter")
        window.after(1)
        page.run(HOLD)
        page.until(lambda: page.run("return Boolean(window.release)"), "no answer comes")
        is_known.set()
        page.until(lambda: window.desk.complement["version"] == 1, "the desk does not find the complement")
        for _ in range(50):
            # A page that draws answers as they come draws the later one now.
            if page.run("return window.answers") > 1:
                break
        page.run("window.release()")
        page.until(window.is_told, "an older answer was drawn over a newer one")


def test_numbers_of_64_bits_and_refusals_at_their_places():
    with started("main {a ~ b: id int, c ~ d: keyed id int}", {"a": BIG, "c": {"x": -BIG - 1, "y": 0}}) as window:
        page = window.browser
        window.shows_what_the_program_says()
        refused = [
            (lambda: window.click("left", ("a",), "more"), "/a", "overflow"),
            (lambda: window.write("right", ("b",), "12x", "Enter"), "/b", "kind"),
            (lambda: window.write("right", ("d", "x"), "y", "Enter", role="key"), "/d", "present"),
            (lambda: window.write("left", ("c",), "x", "Enter", role="new-key"), "/c", "present"),
        ]
        for act, place, cause in refused:
            act()
            selector = f"[data-place='{place}'] > .refused"
            page.until(lambda: f"refused: {cause} at {place}" in window.says(selector), lambda: f"{cause}: {window.says('.refused')}")
            window.shows_what_the_program_says()
        assert window.desk.version == 0
        window.write("left", ("a",), str(BIG - 1), "Enter")
        window.after(1)
        window.shows_what_the_program_says()
        assert window.desk.keeper.documents["right"]["b"] == BIG - 1 and window.says(".refused") == ""


def test_undo_in_a_store():
    with tempfile.TemporaryDirectory() as folder:
        Store.init(folder, TASKS)
        with opened(Desk(StoreKeeper(folder), "test")) as window:
            stored = lambda: dict(zip(("left", "right"), Store(folder).show()))
            window.click("right", ("board", "todo"), "add")
            window.after(1)
            window.shows(stored())
            window.write("right", ("board", "todo", 0), "Paint", "Enter")
            window.after(2)
            window.shows(stored())
            window.browser.click("#undo")
            window.after(3)
            assert stored() == {"left": {"hours": 0, "plan": [{"todo": ""}]}, "right": {"board": {"done": [], "todo": [""]}, "color": ""}}
            window.shows(stored())
            window.browser.until(lambda: "taken back" in window.says("#history"), "the history has no undo")
            window.browser.click("#undo")
            window.browser.until(lambda: "nothing to take back" in window.says("#message"), "no word on what cannot be undone")


def test_two_windows():
    with started(TASKS, {"hours": 1, "plan": [{"todo": "Paint"}, {"todo": "Roof"}]}) as window:
        page, first = window.browser, window.browser.window
        second = page.new_window()
        page.use(second)
        page.open(window.url)
        window.write("right", ("board", "todo", 1), "Tiles")
        page.use(first)
        window.click("left", ("plan", 0), "down")
        window.after(1)
        window.shows_what_the_program_says()
        page.use(second)
        window.after(1)
        assert "moved" in window.says("#last-edit"), "the second window does not see the change"
        shown = "return document.activeElement.value"
        assert page.run(shown) == "Tiles", page.run(shown)
        page.press("Enter")
        window.after(2)
        window.shows_what_the_program_says()
        assert window.desk.keeper.documents["right"]["board"]["todo"] == ["Tiles", "Paint"], "the late edit did not come to its item"
        assert "begun before other changes, as" in window.says("#last-edit"), window.says("#last-edit")
        page.use(first)
        window.shows_what_the_program_says()
        page.use(second)
        window.write("right", ("color",), "green")
        page.use(first)
        window.click("left", ("plan",), "add")
        window.after(3)
        page.use(second)
        window.after(3)
        page.press("Enter")
        window.after(4)
        assert window.desk.keeper.documents["right"]["color"] == "green"
        page.use(first)
        page.close_others()


def test_a_late_edit_of_what_is_gone():
    """An item goes while another window writes in it. The page says why that was not sent, what it was, and what changed since."""
    with started(TASKS, {"hours": 1, "plan": [{"todo": "Paint"}, {"todo": "Roof"}]}) as window:
        page, first = window.browser, window.browser.window
        page.use(page.new_window())
        page.open(window.url)
        window.write("right", ("board", "todo", 1), "Tiles")
        # The other window has shown nothing of it yet when its edit comes.
        assert window.desk.edit(0, "left", [{"at": ["plan", [{"del": 1}]]}])["ok"]
        page.run("const at = arguments[0]; page.send(page.sides.right, [{at: ['board', [{at: ['todo', [{mod: [1, [{set: 'Tiles'}]]}]]}]]}], {base: at})", 0)
        page.until(lambda: "refused: gone" in window.says("#message"), "the late edit was not refused")
        said = window.says("#message")
        assert "another edit has deleted or replaced it" in said and 'right: board, todo, item 1: set to "Tiles"' in said, said
        assert "Since then:" in said and "1 item deleted from the end" in said, said
        window.after(1)
        window.shows_what_the_program_says()
        page.use(first)
        page.close_others()


def test_edits_faster_than_their_answers():
    """Presses that follow each other at once are all taken where they mean the same place, and never at another one."""
    with started(ALL) as window:
        press = "for (let time = 0; time < arguments[1]; time += 1) document.querySelector(arguments[0]).click()"
        window.browser.run(press, window.control("left", ("count",), "more"), 5)
        window.after(5)
        window.browser.run(press, window.control("right", ("labels",), "add"), 3)
        window.after(8)
        window.write("left", ("name",), "Ida")
        window.browser.run("document.querySelector(arguments[0]).focus()", window.control("left", ("outline", "items", 0)))
        window.browser.press("7", "Enter")
        window.after(10)
        window.shows_what_the_program_says()
        window.write("left", ("tags", 0), "a", "Enter")
        window.after(11)
        window.browser.run(press, window.control("left", ("tags", 0), "remove"), 2)
        window.after(12)
        assert window.says("#message-text") == "", window.says("#message-text")
        left = window.desk.keeper.documents["left"]
        assert (left["count"], left["name"], left["outline"]["items"], left["tags"]) == (5, "Ida", ["7"], ["", ""]), left


def test_texts_are_texts():
    field = "<b>f"
    program = f"""main {{"{field}" ~ g: id text, k ~ k: keyed <"<i>t" ~ t: id enum["<u>m"]>, left l: list text}}"""
    with started(program, {field: EVIL, "k": {EVIL: {"<i>t": "<u>m"}}, "l": [EVIL, "a\nb", "\x00\u202e"]}) as window:
        page = window.browser
        window.shows_what_the_program_says()
        window.send("left", json.dumps([{"at": [field, [{"set": EVIL + EVIL}]]}]))
        window.after(1)
        window.shows_what_the_program_says()
        window.send("left", json.dumps([{"at": [EVIL, []]}]))
        page.until(lambda: "place" in window.says("#left .refused"), "no refusal")
        made = page.run("return document.querySelectorAll('img, i, u, main script, .document b').length + Number(window.bad ?? 0)")
        assert made == 0


def test_a_replay_forward_and_back():
    with open(os.path.join(TOP, "examples", "tasks.script"), encoding="utf-8") as file:
        replay = Replay(file.read(), "tasks.script")
    with opened(replay) as window:
        page = window.browser
        steps = [("forward", 1), ("forward", 2), ("forward", 3), ("back", 2), ("last", 4), ("first", 0)]
        for button, step in steps:
            page.click(f"#{button}")
            page.until(lambda: window.says("#step") == f"Step {step} of 4", f"{button} does not lead to step {step}")
            window.shows(state_after(replay.program, replay.lines[:step], replay.path), step)
            if step == 3:
                assert window.says("#left [data-place='/plan/0'] .mark") == "moved"
            if step == 4:
                assert "refused: range at /plan" in window.says("#left [data-place='/plan'] > .refused")
        page.run("document.activeElement.blur()")
        page.press("ArrowRight")
        page.until(lambda: window.says("#step") == "Step 1 of 4", "the key does not lead on")
        assert page.run("return document.querySelectorAll('.document button:not(.fold), #undo:not([hidden]), #redo:not([hidden])').length") == 0


def test_another_program_in_the_editor():
    with started(TASKS, {"hours": 3, "plan": [{"todo": "Paint"}]}) as window:
        page = window.browser
        page.run("const it = document.getElementById('program-text'); it.focus(); it.select()")
        page.press(*"main {plan ~ board: part <todo: text, done: txt>}")
        page.until(lambda: "unknown-name" in window.says("#program-said"), "the program is not checked")
        page.until(lambda: window.says("#program-colours .bad") == "txt", lambda: f"marked is {window.says('#program-colours .bad')}")
        page.run("document.getElementById('program-text').select()")
        page.press(*"main {plan ~ board: part <todo: text, done: text>, left hours: text}")
        page.until(lambda: page.run("return !document.getElementById('load').disabled"), "it cannot be loaded")
        page.click("#load")
        page.until(lambda: "/hours" in window.says("#notices"), "no list of what does not fit")
        window.shows_what_the_program_says()
        assert window.desk.keeper.documents["left"] == {"hours": "", "plan": [{"todo": "Paint"}]}
