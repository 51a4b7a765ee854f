"""The files of the desk in a browser: shown beside the forms, renewed after each edit, and edited line by line, by keys alone.

Debian's chromium and chromium-driver are wanted, or all is skipped.
"""

from editlens.desk.desk import Desk
from editlens.desk.keepers import RunKeeper
from editlens.natural import read_file, read_file_at, to_file, write_file

from .desk_files import FILES, begun
from .desks import TASKS
from .windows import opened

NEEDS_BROWSER = True
TEXT = "return window.page.sides[arguments[0]].file.lines.map((it) => it.text).join('\\n')"
DRAWN = "return document.querySelectorAll(`#${arguments[0]} .file .line`).length"
CHOSEN = """
const box = document.querySelector(`#${arguments[0]} .file`);
return document.getElementById(box.getAttribute("aria-activedescendant"))?.innerText.trim() ?? null;
"""


def file_of(window, side):
    """The file of a side as the desk has it."""
    files = window.desk.keeper.files
    return write_file(to_file(files.shapes[side], window.desk.keeper.documents[side]))


def shows_file(window, side):
    """Waits until the page shows the file of a side as the desk has it."""
    window.settle()
    text = lambda: window.browser.run(TEXT, side)
    window.browser.until(lambda: text() and write_file(read_file(text())) == file_of(window, side), lambda: f"{side}: {text()}")


def choose(window, side, view="file"):
    window.settle()
    window.browser.click(f"#{side} .views [value={view}]")


def go_to(window, side, line):
    """Goes down to the line with this text, by keys."""
    window.focus(f"#{side} .file")
    window.browser.press("Home")
    for _ in range(100):
        if window.browser.run(CHOSEN, side) == line:
            return
        window.browser.press("ArrowDown")
    raise AssertionError(f"there is no line {line}")


def test_a_file_is_shown_and_renewed():
    with opened(begun()) as window:
        for side in ("left", "right"):
            choose(window, side)
            shows_file(window, side)
        assert write_file(read_file(window.browser.run(TEXT, "left"))) == write_file(read_file_at(FILES["left"]))
        assert window.desk.edit(0, "left", [{"at": ["order", [{"move": [1, 0]}]]}])["ok"]
        window.after(1)
        shows_file(window, "left")
        choose(window, "left", "document")
        assert window.browser.run("return document.querySelector('#left .file').hidden && !document.querySelector('#left .document').hidden")


def test_a_line_is_edited_by_keys():
    """A value is set, a member added, an item removed, each by one patch. What is refused is said above the file, and what is lost is asked about."""
    with opened(begun()) as window:
        page = window.browser
        choose(window, "right")
        shows_file(window, "right")
        go_to(window, "right", '"discount": 2.50,')
        page.press("Enter", *"5.10", "Enter")
        window.after(1)
        shows_file(window, "right")
        assert '"discount": 5.10,' in page.run(TEXT, "right") and page.run("return document.activeElement.className") == "file"
        go_to(window, "right", '"home": [')
        page.press("Enter", "Tab", "Tab", "Tab", *'{"number": "7"}', "Tab", "Enter")
        window.after(2)
        shows_file(window, "right")
        go_to(window, "right", '"theme": "dark"')
        page.press("Enter", *"blue", "Enter")
        page.until(lambda: "stands between quotes" in window.says("#right .refusal"), "what is no JSON is sent")
        page.press("Escape")
        go_to(window, "right", '"home": [')
        page.press("Enter", *"[]", "Enter")
        page.until(lambda: "/customers/*/phones/*/home/verified" in window.says("#right .refusal"), "nothing is asked about what goes")
        assert window.desk.version == 2
        page.click("#right .refusal button")
        window.after(3)
        shows_file(window, "right")
        assert window.desk.keeper.documents["right"]["customers"]["c-1001"]["contact"]["home"] == []
        go_to(window, "right", '"fax": "22 11 11 12",')
        page.press("Enter", *"null", "Enter")
        window.after(4)
        choose(window, "left")
        shows_file(window, "left")


def test_a_patch_by_hand_and_no_files():
    with opened(begun()) as window:
        page = window.browser
        choose(window, "left")
        page.run("const box = document.querySelector('#left .by-patch'); box.open = true; box.querySelector('textarea').value = arguments[0]",
                 '[{"op":"remove","path":"/1/fax"},{"op":"replace","path":"/0/active","value":false}]')
        page.click("#left .by-patch button")
        window.after(1)
        shows_file(window, "left")
        page.run("const box = document.querySelector('#left .by-patch'); box.querySelector('textarea').value = arguments[0]", '[{"op":"remove","path":"/9"}]')
        page.click("#left .by-patch button")
        page.until(lambda: "refused: no-edit" in window.says("#left .refusal"), "a patch of what is not there is taken")
    with opened(Desk(RunKeeper(TASKS), "tasks")) as window:
        assert window.browser.run("return [...document.querySelectorAll('.views, .file, .by-patch')].every((it) => it.hidden)")


def test_a_long_file_is_scrolled():
    """Of a file of very many lines those in sight alone are drawn."""
    keeper = RunKeeper("main keyed {name ~ title: id text}", forms={"left": {"": {"key": "id"}}})
    keeper.begin({f"k{it:05}": {"name": f"name {it}"} for it in range(5_000)})
    with opened(Desk(keeper, "many")) as window:
        page = window.browser
        choose(window, "left")
        shows_file(window, "left")
        assert 10 < page.run(DRAWN, "left") < 150
        window.focus("#left .file")
        page.press("End", "ArrowUp", "ArrowUp", "ArrowUp")
        page.until(lambda: page.run(CHOSEN, "left") == '"id": "k04999",', lambda: page.run(CHOSEN, "left"))
        assert page.run(DRAWN, "left") < 150
