"""The page in a browser: two people on the two sides, live."""

from __future__ import annotations

from typing import Any

from editlens.browser import Browser, NoBrowser

from .load import PROGRAM
from .room import Room, Skipped

SETTLED = "const it = window.page; return it ? Promise.all([it.turn, it.drawn]).then(() => it.state && it.state.version) : null"
VALUE = "return document.querySelector(arguments[0])?.value ?? null"
FOCUS = "const it = document.querySelector(arguments[0]); it?.focus(); it?.select?.(); return Boolean(it)"
PATIENCE = 200


class Window:
    """A window of a browser with the page of a pair."""

    def __init__(self, browser: Browser, handle: str, url: str) -> None:
        self.browser, self.handle = browser, handle
        browser.use(handle)
        browser.open(url)
        browser.until(lambda: browser.run("return Boolean(document.querySelector('#right [data-place]'))"), self.says, PATIENCE)

    def says(self) -> str:
        """What the page says that is wrong."""
        return self.browser.run("return document.querySelector('#message')?.innerText + ' ' + document.querySelector('.refused')?.innerText")

    def shows(self, version: int, selector: str, value: str) -> None:
        """Waits until a control shows a value, at a version."""
        self.browser.use(self.handle)
        self.browser.until(lambda: self.browser.run(SETTLED) == version and self.browser.run(VALUE, selector) == value, self.says, PATIENCE)

    def write(self, selector: str, text: str) -> None:
        """Types over what a control shows."""
        self.browser.use(self.handle)
        self.browser.until(lambda: self.browser.run(FOCUS, selector), f"there is no {selector}", PATIENCE)
        self.browser.press(*text, "Enter")


def _control(side: str, place: str) -> str:
    return f'#{side} [data-key="{place}|value"]'


def test_two_windows_live(room: Room) -> None:
    """Each window is at another worker and edits another side; each shows what the other one did, and a refusal is shown at its place."""
    name = room.name()
    room.client().make(name, PROGRAM, left={"hours": 1, "plan": [{"todo": "Paint"}]})
    urls = [f"{it.address}/pairs/{name}/desk/#token=all" for it in room.serve()]
    try:
        browser: Any = Browser()
    except NoBrowser as why:
        raise Skipped(str(why)) from None
    with browser:
        left = Window(browser, browser.window, urls[0])
        right = Window(browser, browser.new_window(), urls[1])
        right.write(_control("right", "/board/todo/0"), "Paint the door")
        left.shows(1, _control("left", "/plan/0/todo"), "Paint the door")
        left.write(_control("left", "/hours"), "9223372036854775807")
        right.shows(2, _control("left", "/hours"), "9223372036854775807")
        _by_hand(right, "left", '[{"at":["hours",[{"add":1}]]}]')
        said = browser.until(lambda: browser.run("return document.querySelector('.refused-here, .refused')?.innerText"), right.says, PATIENCE)
        assert "overflow" in said, said
        browser.use(left.handle)
        browser.click("#undo")
        right.shows(3, _control("left", "/hours"), "1")
        left.shows(3, _control("left", "/plan/0/todo"), "Paint the door")
        text = browser.run("return document.body.innerText")
        assert "this machine alone" not in text and "Paint the door" not in left.says()
        for it in (left, right):
            browser.use(it.handle)
            assert [said for said in browser.complaints() if " 422 " not in said] == []
    assert room.client().pair(name, "left").read() == ({"hours": 1, "plan": [{"todo": "Paint the door"}]}, 3)


def test_a_late_edit(room: Room) -> None:
    """An edit that was begun before the other side moved its item comes to it. One whose item is gone is refused, with what it was."""
    name = room.name()
    room.client().make(name, PROGRAM, left={"hours": 1, "plan": [{"todo": "Paint"}, {"todo": "Roof"}]})
    left, right = (room.client().pair(name, side) for side in ("left", "right"))
    script = """window.page.send(window.page.sides.right, [{at: ["board", [{at: ["todo", [{mod: [1, [{set: arguments[0]}]]}]]}]]}], {base: 0})"""
    try:
        browser: Any = Browser()
    except NoBrowser as why:
        raise Skipped(str(why)) from None
    with browser:
        window = Window(browser, browser.window, f"{room.serve()[1].address}/pairs/{name}/desk/#token=all")
        left.edit([{"at": ["plan", [{"move": [1, 0]}]]}])
        window.shows(1, _control("right", "/board/todo/0"), "Roof")
        browser.run(script, "Tiles")
        window.shows(2, _control("right", "/board/todo/0"), "Tiles")
        left.edit([{"at": ["plan", [{"move": [0, 1]}, {"del": 1}]]}])
        window.shows(3, _control("right", "/board/todo/0"), "Paint")
        browser.run(script, "Walls")
        browser.until(lambda: "refused: gone" in window.says(), window.says, PATIENCE)
        said = window.says()
        assert 'right: board, todo, item 1: set to "Walls"' in said and "another edit has deleted or replaced it" in said, said
        assert [it for it in browser.complaints() if " 412 " not in it] == []
    assert right.read() == ({"board": {"done": [], "todo": ["Paint"]}, "color": ""}, 3)


def _by_hand(window: Window, side: str, text: str) -> None:
    """Sends an edit that is written by hand."""
    window.browser.use(window.handle)
    script = "const box = document.querySelector(`#${arguments[0]} .by-hand`); box.open = true; box.querySelector('textarea').value = arguments[1]"
    window.browser.run(script, side, text)
    window.browser.click(f"#{side} .by-hand button")


def test_a_page_without_a_right(room: Room) -> None:
    """A page without a token says what is missing, and draws nothing."""
    name = room.name()
    room.client().make(name, PROGRAM)
    try:
        browser: Any = Browser()
    except NoBrowser as why:
        raise Skipped(str(why)) from None
    with browser:
        browser.open(f"{room.serve()[0].address}/pairs/{name}/desk/")
        said = browser.until(lambda: browser.run("return document.querySelector('#message-text')?.innerText"), "the page says nothing", PATIENCE)
        assert "Authorization: Bearer" in said, said
        assert not browser.run("return document.querySelector('#left [data-place]')")
