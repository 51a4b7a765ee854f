"""The desk of a hub in a browser: the hub with one of its views beside it, which a row of buttons chooses.

Debian's chromium and chromium-driver are wanted, or all is skipped.
"""

import json
import tempfile

from editlens.desk.hub_desk import HubDesk
from editlens.desk.hub_keepers import HubRunKeeper, HubStoreKeeper
from editlens.hub_store import HubStore

from .hub_desks import example
from .hub_stores import changed, made
from .windows import CONTROLS, opened, wanted_controls

NEEDS_BROWSER = True
START = [
    '{"at":"hub","edit":[{"at":["services",[{"put":"cart"},{"put":"search"}]]}]}',
    '{"at":0,"edit":[{"at":["routes",[{"mod":["cart",[{"at":["port",[{"set":8081}]]}]]}]]}]}',
]


def begun():
    keeper = HubRunKeeper(example()[0])
    assert keeper.begin(START) == []
    return HubDesk(keeper, "hub")


def shows(window, view, documents=None):
    """Waits until the page shows the hub and a view as the program says that they are."""
    window.settle()
    documents = documents or window.desk.keeper.documents
    for side, name in (("left", "hub"), ("right", view)):
        controls = wanted_controls(window.desk.keeper.types[name], documents[name])
        found = lambda side=side: window.browser.run(CONTROLS, side)
        window.browser.until(lambda: found() == controls, lambda: f"{side}: {found()} and not {controls}")


def choose(window, view):
    window.settle()
    window.browser.click(f"#views [value='{view}']")
    window.settle()
    assert window.says("#views [aria-pressed=true] .view-name") == f"View {view}", window.says("#views")


def test_a_hub_with_one_view_at_a_time():
    """An edit of a view comes to the hub and to the other views; the buttons say which changed, and lead there."""
    with opened(begun()) as window:
        page, documents = window.browser, lambda: window.desk.keeper.documents
        window.settle()
        assert (window.says("#left-title"), window.says("#right-title")) == ("The hub", "View 0")
        left, right = (page.run("return document.getElementById(arguments[0]).getBoundingClientRect().left", it) for it in ("left", "right"))
        assert right < left, "the hub is not in the middle"
        shows(window, 0)
        window.write("right", ("routes", "cart", "port"), "9000", "Enter")
        window.after(1)
        assert documents()["hub"]["services"]["cart"]["port"] == 9000 == documents()[1]["programs"]["cart"]["listen"]
        shows(window, 0)
        assert page.run("return [...document.querySelectorAll('#views button')].map((it) => Boolean(it.querySelector('.mark')))") == [True, True, False]
        choose(window, 1)
        shows(window, 1)
        assert window.says("#right-title") == "View 1" and "view 1" in page.run("return document.querySelector('#right .document input').ariaLabel")
        window.choose("right", ("verbosity",), "DEBUG")
        window.after(2)
        assert documents()["hub"]["log"] == "debug"
        shows(window, 1)
        window.write("left", ("team",), "shopfront", "Enter")
        window.after(3)
        choose(window, 2)
        shows(window, 2)
        assert documents()[2]["title"] == "shopfront" and "translated for view 2" in window.says("#last-edit")
        page.click("#undo")
        window.after(4)
        shows(window, 2)
        assert documents()["hub"]["team"] == "" and window.desk.keeper.undone
        page.click("#redo")
        window.after(5)
        assert documents()["hub"]["team"] == "shopfront"


def test_refusals_and_ties_of_a_hub():
    """A refusal is at its place in the view that was edited. A place is marked with the one of the hub that belongs to it."""
    with opened(begun()) as window:
        page = window.browser
        choose(window, 1)
        window.write("right", ("programs", "cart", "replicas"), "many", "Enter")
        place = json.dumps("/programs/cart/replicas")
        page.until(lambda: "A whole number is wanted here" in window.says(f"#right [data-place={place}] .refused"), lambda: window.says("#right"))
        assert "sent to view 1" in window.says("#last-edit") and window.desk.version == 0
        window.send("left", '[{"at":["services",[{"drop":"none"}]]}]')
        page.until(lambda: "refused: place at /services" in window.says("#left [data-place='/services'] > .refused"), lambda: window.says("#left"))
        page.until(window.is_told, "the complement does not come")
        page.run("const side = window.page.sides.right; window.page.pointedAt(side, document.querySelector(arguments[0]))",
                 window.control("right", ("programs", "cart", "replicas")))
        tied = "return [...document.querySelectorAll('.tied')].map((it) => it.closest('.side').id + it.dataset.place).sort()"
        assert page.run(tied) == ["left/services/cart/copies", "right/programs/cart/replicas"], page.run(tied)
        choose(window, 0)
        assert page.run("return document.querySelectorAll('.refused').length") == 0
        assert page.run("return getComputedStyle(document.querySelector('#program .buttons')).display") == "none"


def test_what_is_typed_goes_to_the_view_in_which_it_was_typed():
    """A text that is left by a press on another view's button is sent to its own view, and where it is refused the view stays."""
    with opened(begun()) as window:
        page = window.browser
        window.write("right", ("routes", "cart", "port"), "7777")
        page.click("#views [value='2']")
        window.after(1)
        assert window.desk.keeper.documents["hub"]["services"]["cart"]["port"] == 7777
        shows(window, 2)
        choose(window, 0)
        window.write("right", ("routes", "cart", "port"), "x")
        page.click("#views [value='1']")
        page.until(lambda: "A whole number is wanted" in window.says("#right .refused"), "the refusal is not shown")
        window.settle()
        assert window.says("#right-title") == "View 0" and window.desk.version == 1


def test_a_stored_hub_in_a_browser():
    with tempfile.TemporaryDirectory() as folder:
        changed(made(folder))
        with opened(HubDesk(HubStoreKeeper(folder), folder)) as window:
            choose(window, 2)
            window.write("right", ("z",), "8", "Enter")
            window.after(1)
            shows(window, 2, HubStore(folder).show().documents)
            window.browser.click("#undo")
            window.after(2)
            assert window.browser.run("return document.getElementById('redo').hidden")
            shows(window, 2, HubStore(folder).show().documents)
            assert HubStore(folder).show().documents["hub"] == {"a": 3, "b": 3}
