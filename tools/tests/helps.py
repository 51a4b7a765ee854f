"""What helps a person at the desk, in a browser: a sign that it is busy, plain words, warnings, folding, a filter, the order of the program.

Debian's chromium and chromium-driver are wanted, or all is skipped.
"""

import tempfile

from editlens.desk.desk import Desk
from editlens.desk.keepers import StoreKeeper
from editlens.store import Store

from .desks import TASKS
from .windows import ALL, opened, started

NEEDS_BROWSER = True

SLOW = """
const asked = window.fetch;
const held = new Promise((done) => { window.release = done; });
window.calls = [];
window.fetch = async (...words) => {
  if (["edit", "undo", "redo", "load"].includes(words[0])) {
    window.calls.push(words[0]);
    await held;
  }
  return asked(...words);
};
"""
"""Holds each call that changes something back until `release` is called, and lists these calls."""


def test_a_sign_that_it_is_busy():
    """Until the answer is there, a second press of the same button sends nothing, and nobody is told that their own undo made them late."""
    with tempfile.TemporaryDirectory() as folder:
        Store.init(folder, TASKS)
        with opened(Desk(StoreKeeper(folder), "slow")) as window:
            page = window.browser
            for number in range(2):
                window.click("left", ("plan",), "add")
                window.after(number + 1)
            assert window.says("#busy") == ""
            page.run(SLOW)
            page.run("for (let time = 0; time < 3; time += 1) document.getElementById('undo').click()")
            page.until(lambda: window.says("#busy") == "Taking the last change back …", lambda: f"the sign is {window.says('#busy')}")
            assert page.run("return document.getElementById('left').getAttribute('aria-busy')") == "true"
            page.run("window.release()")
            window.after(3)
            assert (page.run("return window.calls"), window.says("#message-text"), window.says("#busy")) == (["undo"], "", "")
            assert window.desk.keeper.documents["left"]["plan"] == [{"todo": ""}]


BIG = 2**63 - 1
REFUSED = [
    (lambda it: it.write("left", ("count",), "1.5", "Enter"), "/count", "A whole number is wanted here, such as 7 or -12. “1.5” is not one."),
    (lambda it: it.write("right", ("number",), str(BIG + 1), "Enter"), "/number", f"to {BIG:,}. “{BIG + 1}” is not one."),
    (lambda it: it.click("left", ("costs", "x"), "more"), "/costs/x", "The sum would go past what a whole number can be here"),
    (lambda it: it.write("left", ("costs", "y"), "x", "Enter", role="key"), "/costs", "There is a key “x” here already. Choose another name."),
    (lambda it: it.write("right", ("prices",), "x", "Enter", role="new-key"), "/prices", "There is a key “x” here already. Choose another name."),
    (lambda it: it.click("left", ("outline", "items", 15), "graft"), "/outline", "A tree has at most 16 levels"),
]


def test_refusals_in_plain_words():
    """What a control cannot do is said in a sentence at its place, without the forms of edits, which nobody wrote."""
    deep = {"depths": list(range(16)), "items": [""] * 16}
    whole = {"costs": {"x": BIG, "y": 0}, "count": 0, "flag": False, "kind": {"none": None}, "level": "low", "name": ""}
    whole |= {"outline": deep, "secret": "", "tags": []}
    with started(ALL, whole) as window:
        for act, place, wanted in REFUSED:
            act(window)
            selector = f"[data-place='{place}'] > .refused"
            window.browser.until(lambda: wanted in window.says(selector), lambda: f"{place}: {window.says('.refused')}")
            assert "Allowed here" not in window.says(".refused") and '{"' not in window.says(".refused"), window.says(".refused")
            window.settle()
        assert window.desk.version == 0


def test_a_warning_before_a_content_goes():
    """Where a kind is changed and something would go with it, the page asks, and what has the focus then keeps all as it is."""
    with started(TASKS, {"hours": 0, "plan": [{"todo": "task 1"}, {"todo": ""}]}) as window:
        page, item = window.browser, ("plan", 0)
        for keys in (["Enter"], ["Escape"]):
            window.ask_for("left", item, "d")
            assert window.says(".warning > span") == "“task 1” goes with the kind todo.", window.says(".warning")
            assert page.run("return arguments[0].value", page.find(window.control("left", item, "tag"))) == "todo"
            page.press(*keys)
            page.until(lambda: page.run("return !document.querySelector('.warning')"), "the question stays")
            window.settle()
            assert window.desk.version == 0
        window.ask_for("left", item, "d")
        page.press("Tab", "Enter")
        window.after(1)
        window.choose("left", ("plan", 1), "done", "tag")
        window.after(2)
        window.shows_what_the_program_says()
        assert window.desk.keeper.documents["left"]["plan"] == [{"done": ""}, {"done": ""}]


def test_a_warning_about_the_other_document():
    program = "main each <a ~ b: {x ~ y: id int, right memo: text}, c ~ d: id unit>"
    with started(program, [{"a": {"x": 0}}, {"a": {"x": 7}}], [{"b": {"y": 0, "memo": "red"}}, {"b": {"y": 7, "memo": ""}}]) as window:
        for number, wanted in ((0, "With the kind goes what the right document alone keeps: “red”."), (1, "7 goes with the kind a.")):
            window.ask_for("left", (number,), "c")
            assert window.says(".warning > span") == wanted, window.says(".warning")
            window.browser.press("Escape")
        window.ask_for("right", (0,), "d")
        assert window.says(".warning > span") == "“red” goes with the kind b.", window.says(".warning")


CARET = """
const lines = [...document.querySelectorAll("#program-said pre")].map((it) => it.firstChild).find((it) => it.data.includes("^"));
if (!lines) return null;
const place = (from, to) => {
  const range = document.createRange();
  range.setStart(lines, from);
  range.setEnd(lines, to);
  return range.getBoundingClientRect();
};
const caret = lines.data.indexOf("^");
const size = /\\^+/.exec(lines.data)[0].length;
const line = lines.data.lastIndexOf("\\n", caret) + 1;
const above = lines.data.lastIndexOf("\\n", line - 2) + 1 + caret - line;
const [here, there] = [place(caret, caret + size), place(above, above + size)];
return [lines.data.slice(above, above + size), Math.round(here.left - there.left), Math.round((here.top - there.top) / here.height)];
"""
"""The token above the carets, how far they are to its right, and how many lines below it."""


def test_the_caret_is_below_its_token():
    """However long the line is, and however narrow the page."""
    long = "main {plan ~ board: part <todo: text, done: text>, first_of_them ~ another_one: id text, left hours: txt, right color: text}"
    with started(TASKS) as window:
        page = window.browser
        for text, token in ((long, "txt"), (long.replace("plan", "é", 1), "é"), ("main {é ~ a: id int}", "é"), (f"{long[:-8]} ?", "?")):
            page.run("const it = document.getElementById('program-text'); it.value = arguments[0]; it.dispatchEvent(new Event('input'))", text)
            for width in (1280, 480):
                page.resize(width, 800)
                page.until(lambda: (page.run(CARET) or [None])[0] == token, lambda: f"{token} is not marked: {window.says('#program-said')}")
                assert page.run(CARET) == [token, 0, 1], (width, page.run(CARET))


CARDS = """type card = {title: text, note: text, points: int};
main {name ~ name: id text, cards ~ cards: each id card, map ~ map: keyed id card, plan ~ plan: tree id card, words ~ words: tree id text}"""
TITLES = "return [...document.querySelectorAll(`#${arguments[0]} [data-place^='/${arguments[1]}/'] > .fold`)].map((it) => it.innerText.trim())"
FIELDS_OF = "return [...document.querySelectorAll(`#left [data-place='${arguments[0]}'] .name`)].map((it) => it.innerText)"


def cards(count):
    """Documents of CARDS with so many cards in each place, which all have a title."""
    all_of = [{"title": f"Card {number}", "note": "", "points": number} for number in range(count)]
    tree = {"depths": [0, *[1] * (count - 1)], "items": all_of}
    words = {"depths": [0, 1, 2, 1], "items": ["top", "one", "below", "two"]}
    return {"name": "", "cards": all_of, "map": {f"k{number}": it for number, it in enumerate(all_of)}, "plan": tree, "words": words}


def test_many_contents_are_folded_to_their_titles():
    """Of many records the titles are shown, and each is unfolded where it stands, by keyboard too. What is unfolded stays so where it is moved."""
    with started(CARDS, cards(20)) as window:
        page = window.browser
        for field in ("cards", "map", "plan"):
            numbers = sorted(range(20), key=str) if field == "map" else range(20)
            titles = page.run(TITLES, "left", field)
            assert titles == [f"▸\nCard {number}" for number in numbers], titles
        assert page.run(FIELDS_OF, "/cards/3") == []
        window.focus(window.control("left", ("cards", 3), "fold"))
        page.press("Enter")
        page.until(lambda: page.run(FIELDS_OF, "/cards/3") == ["title", "note", "points"], lambda: page.run(FIELDS_OF, "/cards/3"))
        assert page.run("return document.activeElement.getAttribute('aria-expanded')") == "true"
        window.click("left", ("cards", 3), "up")
        window.after(1)
        assert page.run(FIELDS_OF, "/cards/2") == ["title", "note", "points"] and page.run(FIELDS_OF, "/cards/3") == []
        window.click("left", ("cards",), "add")
        window.after(2)
        assert page.run("return document.activeElement.dataset.key") == "/cards/20/title|value"
        for fields in ([], ["title", "note", "points"]):
            # The first press folds what is open, and the next one unfolds all.
            page.click(window.control("left", ("cards",), "fold-all"))
            assert [page.run(FIELDS_OF, f"/cards/{number}") for number in (2, 9)] == [fields] * 2
        page.click(window.control("right", ("words", "items", 1), "branch"))
        shown = "return [...document.querySelectorAll('#right [data-place^=\"/words/items/\"]')].map((it) => it.dataset.place.split('/')[3])"
        assert page.run(shown) == ["0", "1", "3"], page.run(shown)


KINDS = "main {tasks ~ jobs: each <open ~ todo: {title ~ name: id text, left hours: int}, closed ~ done: {title ~ name: id text}>}"
FOLDS = """
const folds = [...document.querySelectorAll(`#${arguments[0]} .entry > .fold`)];
return folds.map((it) => [it.querySelector(".fold-kind")?.innerText ?? null, it.querySelector(".fold-title").innerText, it.getAttribute("aria-label")]);
"""


def test_a_folded_item_shows_its_kind():
    """The tag of alternatives stands before the title, by its name on each side, also for who hears the page. A title that is the tag comes once."""
    left = {"tasks": [{"open": {"title": f"Task {number}", "hours": 0}} if number % 2 else {"closed": {"title": ""}} for number in range(10)]}
    with started(KINDS, left) as window:
        page = window.browser
        for side, kinds in (("left", ("closed", "open")), ("right", ("done", "todo"))):
            folds = page.run(FOLDS, side)
            assert [it[:2] for it in folds[:3]] == [[None, kinds[0]], [kinds[1], "Task 1"], [None, kinds[0]]], folds
            assert folds[0][2].endswith(f"item 0, {kinds[0]}: its content") and folds[1][2].endswith(f"item 1, {kinds[1]}, Task 1: its content"), folds
            assert len(folds) == 10 and window.says(f"#{side} .entry.folded .name") == ""
        window.click("left", ("tasks", 1), "fold")
        window.ask_for("left", ("tasks", 1), "c")
        window.click("left", ("tasks", 1), "tag-change")
        window.after(1)
        window.write("left", ("tasks", 1, "closed", "title"), "Ended", "Enter")
        window.after(2)
        window.click("left", ("tasks", 1), "fold")
        assert page.run(FOLDS, "left")[1][:2] == ["closed", "Ended"] and page.run(FOLDS, "right")[1][:2] == ["done", "Ended"]


def test_a_filter():
    """Only what has the text is shown, with its true place, so that what is done there is done to it."""
    with started(CARDS, cards(20)) as window:
        page = window.browser
        window.focus("#left .filter")
        page.press(*"card 17")
        shown = "return [...document.querySelectorAll('#left .entry')].map((it) => it.dataset.place)"
        page.until(lambda: page.run(shown) == ["/cards/17", "/map/k17", "/plan/items/17"], lambda: page.run(shown))
        assert "1 of 20 items" in window.says("#left [data-place='/cards']")
        window.write("left", ("cards", 17, "points"), "99", "Enter")
        window.after(1)
        window.click("left", ("cards", 17), "remove")
        window.after(2)
        kept = window.desk.keeper.documents["left"]["cards"]
        assert [it["points"] for it in kept] == [number for number in range(20) if number != 17], kept
        page.run("const it = document.querySelector('#left .filter'); it.value = ''; it.dispatchEvent(new Event('input'))")
        assert len(page.run(shown)) > 60 and page.run("return document.querySelectorAll('#right .entry').length") > 60


def test_undo_and_redo_by_keyboard():
    """A session in no store takes its changes back and makes them again; what the page shows and says is that of the program then."""
    with started(TASKS, {"hours": 1, "plan": [{"todo": "Paint"}]}) as window:
        page, hours = window.browser, lambda: window.desk.keeper.documents["left"]["hours"]
        off = lambda: page.run("return ['undo', 'redo'].map((it) => document.getElementById(it).getAttribute('aria-disabled'))")
        window.settle()
        page.until(lambda: off() == ["true", "true"], lambda: f"at the beginning {off()}")
        window.write("left", ("hours",), "5", "Enter")
        window.after(1)
        page.until(lambda: off() == ["false", "true"], lambda: f"after a change {off()}")
        window.focus("#undo")
        page.press("Enter")
        window.after(2)
        assert hours() == 1 and "taken back: left: hours: set to 5" in window.says("#history"), window.says("#history")
        assert "Taken back: left: hours: set to 5" in window.says("#last-edit") and off() == ["true", "false"], window.says("#last-edit")
        assert page.run("return document.activeElement.id") == "undo"
        page.press("Control+Shift+z")
        window.after(3)
        assert hours() == 5 and off() == ["false", "true"]
        window.shows_what_the_program_says()
        page.press("Control+z")
        window.after(4)
        window.shows_what_the_program_says()
        page.press("Enter")
        page.until(lambda: "nothing to take back" in window.says("#message-text"), "no word on what cannot be taken back")
        assert (hours(), window.desk.version) == (1, 4)
