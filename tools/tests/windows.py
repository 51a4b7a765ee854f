"""The page of a desk in a browser, for tests: it is driven, and what its controls show is held against what the program says."""

import json
from contextlib import contextmanager

from editlens.browser import Browser, NoBrowser
from editlens.desk.desk import Desk
from editlens.desk.keepers import RunKeeper, state_after
from editlens.json_text import pointer

from . import Skipped
from .desks import served

ALL = """main {flag ~ on: id bool, level ~ grade: bij["low"="1", "high"="2"], count ~ number: id int, name ~ title: id text,
  tags ~ labels: each id text, costs ~ prices: keyed id int, kind ~ sort: <none ~ nothing: id unit, some ~ value: id text>,
  outline ~ toc: tree id text, left secret: text, right color: text}"""
CONTROLS = """
const keys = /\\|(value|tag|key)$/;
const found = [...document.querySelectorAll(`#${arguments[0]} .document [data-key]`)].filter((it) => keys.test(it.dataset.key));
return Object.fromEntries(found.map((it) => [it.dataset.key, it.type === "checkbox" ? it.checked : it.value]));
"""

SETTLED = """
const page = window.page;
return page ? Promise.all([page.turn, page.drawn]).then(() => page.state && page.state.version) : null;
"""
"""The version that a page shows when it has sent all that it was told to, and has drawn each answer with its focus."""
TOLD = "const { complement, version } = window.page.state; return Boolean(complement) && complement.version === version"

_open = {}
"""The browser of all tests. It is begun before their processes, which all drive it."""


def begin_browser():
    """Begins the browser of all tests, unless it is there."""
    if "browser" not in _open:
        _open["browser"] = Browser()


def end_browser():
    """Ends the browser of all tests."""
    if "browser" in _open:
        _open.pop("browser").__exit__()


def forget_browser():
    """Makes the next test that wants a browser begin another one, where a test has failed."""
    _open.clear()


def browser():
    """The browser of all tests as it is when it begins: one window without a page, and an empty log."""
    try:
        begin_browser()
    except NoBrowser as why:
        raise Skipped(str(why)) from None
    found = _open["browser"]
    found.close_others()
    found.open("about:blank")
    found.resize(1280, 800)
    found.prefer("light")
    found.complaints()
    return found


def wanted_controls(ty, value, path=()):
    """What the controls of a document show, by their keys."""
    key = pointer(path)
    if ty.kind == "record":
        found = [wanted_controls(inner, value[name], (*path, name)) for name, inner in ty.fields]
    elif ty.kind == "alternatives":
        tag = next(iter(value))
        found = [{f"{key}|tag": tag}, wanted_controls(ty.field(tag), value[tag], (*path, tag))]
    elif ty.kind == "list":
        found = [wanted_controls(ty.inner, it, (*path, number)) for number, it in enumerate(value)]
    elif ty.kind == "keyed":
        found = [{f"{pointer((*path, name))}|key": name} for name in value]
        found += [wanted_controls(ty.inner, it, (*path, name)) for name, it in value.items()]
    elif ty.kind == "tree":
        found = [wanted_controls(ty.inner, it, (*path, "items", number)) for number, it in enumerate(value["items"])]
    elif ty.kind == "unit":
        found = []
    else:
        found = [{f"{key}|value": str(value) if ty.kind == "int" else value}]
    return {name: shown for part in found for name, shown in part.items()}


class Window:
    """A page of a desk in the browser. What is done to it waits until the page is settled: until it shows the newest version as it will stay."""

    def __init__(self, desk, url):
        self.desk, self.browser = desk, browser()
        self.browser.open(url)
        self.browser.find("#right [data-place]")

    def settle(self):
        """Waits until the page has nothing on its way, and shows the version that the desk has."""
        self.browser.until(self._is_settled, lambda: f"the page is behind: {self.says('#message')}")

    def _is_settled(self):
        shown = self.browser.run(SETTLED)
        return shown is not None and (not self.desk.can_edit or shown == self.desk.version)

    def is_told(self):
        """Whether the page has the complement of the version that it shows."""
        return self.browser.run(TOLD)

    @staticmethod
    def control(side, path, role="value"):
        """The selector of a control."""
        return f"#{side} [data-key={json.dumps(pointer(path) + '|' + role)}]"

    def click(self, side, path, role):
        """Clicks on a control."""
        self.settle()
        self.browser.click(self.control(side, path, role))

    def focus(self, selector):
        """Puts the focus on a control, with what is written there selected."""
        script = "const it = document.querySelector(arguments[0]); it?.focus(); it?.select?.(); return Boolean(it)"
        self.settle()
        self.browser.until(lambda: self.browser.run(script, selector), f"there is no {selector}")

    def write(self, side, path, text, *keys, role="value"):
        """Types over what is written in a control, and presses keys."""
        self.focus(self.control(side, path, role))
        self.browser.press(*text, *keys)

    def choose(self, side, path, value, role="value"):
        """Chooses from a menu by keys: what is typed selects the option that begins so."""
        self.focus(self.control(side, path, role))
        self.browser.press(*value, "Enter")

    def ask_for(self, side, path, letter):
        """Chooses another kind by its first letter, where the page asks before it is changed: the content would go."""
        self.focus(self.control(side, path, "tag"))
        self.browser.press(letter)
        self.browser.find(self.control(side, path, "tag-change"))

    def send(self, side, text):
        """Writes an edit by hand and sends it."""
        self.settle()
        script = "const box = document.querySelector(`#${arguments[0]} .by-hand`); box.open = true; box.querySelector('textarea').value = arguments[1]"
        self.browser.run(script, side, text)
        self.browser.click(f"#{side} .by-hand button")

    def says(self, selector):
        """The text of an element."""
        return self.browser.run("return document.querySelector(arguments[0])?.innerText ?? ''", selector)

    def shows(self, wanted, version=None):
        """Waits until both documents are shown as the program says that they are."""
        types = self.desk.keeper.types if version is None else self.desk.types
        for side in ("left", "right"):
            controls = wanted_controls(types[side], wanted[side])
            found = lambda side=side: self.browser.run(CONTROLS, side)
            self.browser.until(lambda: found() == controls, lambda: f"{side}: {found()} and not {controls}")

    def after(self, count):
        """Waits until so many changes came since the desk began, and no more, and the page shows the last one."""
        said = lambda: f"change {count} did not come: {self.says('#message')} {self.says('.refused')}"
        self.browser.until(lambda: self.desk.version >= count, said)
        self.settle()
        assert self.desk.version == count, (self.desk.version, count)

    def shows_what_the_program_says(self):
        """Waits until the page shows what a run of the program over the same edits says at its end."""
        self.after(self.desk.version)
        keeper = self.desk.keeper
        self.shows(state_after(keeper.program, keeper.lines, keeper.session.path))


@contextmanager
def opened(desk):
    """A desk with its page in the browser, whose log has no fault at the end."""
    with served(desk) as server:
        window = Window(desk, server.url)
        window.url = server.url
        yield window
        assert window.browser.complaints() == []
        window.browser.open("about:blank")


@contextmanager
def started(program, left=None, right=None):
    """A session of a program in the browser."""
    keeper = RunKeeper(program)
    keeper.begin(left, right)
    with opened(Desk(keeper, "test")) as window:
        yield window
