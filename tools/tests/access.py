"""The desk's page for everybody: each action by keyboard, a name for each control, contrast, and narrow windows. A browser is wanted."""

from .desks import TASKS
from .windows import ALL, started

NEEDS_BROWSER = True

TABS = """
const name = (it) => it.getAttribute("aria-label") ?? it.innerText ?? "";
const all = [...document.querySelectorAll("a[href], button, input, select, textarea, summary, [tabindex]")];
const reached = all.filter((it) => !it.disabled && it.tabIndex >= 0 && it.checkVisibility());
const [here, there] = [reached.indexOf(document.activeElement), reached.findIndex((it) => name(it) === arguments[0])];
if (document.activeElement !== document.body && name(document.activeElement) === arguments[0]) return 0;
return there > here && here >= 0 ? there - here : 1;
"""
"""How many steps of the tabulator lead to a control with a name, if it comes behind the one with the focus. One, if that is not known."""


def tab_to(window, label):
    """Presses the tabulator until the focus is on a control with this name."""
    for _ in range(120):
        steps = window.browser.run(TABS, label)
        if steps == 0:
            return
        window.browser.press(*["Tab"] * steps)
    raise AssertionError(f"the tabulator does not lead to {label}")


BY_KEYS = [
    ("left flag", ["Space"]),
    ("left count", ["7", "Enter"]),
    ("left count: one more", ["Enter"]),
    ("left kind: which kind", ["s", "Enter"]),
    ("left level", ["h", "Enter"]),
    ("left tags: add an item", ["Enter"]),
    (None, ["x", "Enter"]),
    ("left tags: add an item", ["Enter"]),
    (None, ["y", "Tab"]),
    ("left tags item 1: move up", ["Enter"]),
    ("left tags item 0: remove", ["Enter"]),
    ("left costs: a new key", ["k", "Enter"]),
    ("left costs key k: its name", ["End", "l", "Enter"]),
    ("left costs key kl: remove", ["Space"]),
    ("left outline the root: add a child", ["Enter"]),
    ("right toc the root: add a child", ["Enter"]),
    ("right toc node 1: hang below the one before it", ["Enter"]),
    ("right toc node 0.0: move beside its parent", ["Enter"]),
    ("right toc node 1: remove with all below it", ["Enter"]),
]


def test_everything_by_keyboard():
    """Each action once, with keys alone: the tabulator leads to its control. Where there is no name, the focus is where it is wanted."""
    with started(ALL) as window:
        window.settle()
        for number, (label, keys) in enumerate(BY_KEYS, 1):
            if label:
                tab_to(window, label)
            window.browser.press(*keys)
            window.after(number)
        window.shows_what_the_program_says()
        left = window.desk.keeper.documents["left"]
        assert (left["flag"], left["count"], left["kind"], left["level"]) == (True, 8, {"some": ""}, "high"), left
        assert left["tags"] == ["x"] and left["costs"] == {} and left["outline"]["depths"] == [0, 1], left


NAMELESS = """
const controls = [...document.querySelectorAll("button, input, select, textarea, summary")].filter((it) => it.checkVisibility());
const isNamed = (it) => it.getAttribute("aria-label") || it.innerText?.trim() || it.labels?.length;
return controls.filter((it) => !isNamed(it)).map((it) => it.outerHTML);
"""
PALE = """
const parts = (text) => { const found = text.match(/[\\d.]+/g).map(Number); return found.length > 3 ? found : [...found, 1]; };
const linear = (part) => (part / 255 <= 0.04045 ? part / 255 / 12.92 : ((part / 255 + 0.055) / 1.055) ** 2.4);
const light = ([red, green, blue]) => 0.2126 * linear(red) + 0.7152 * linear(green) + 0.0722 * linear(blue);
const behind = (it) => {
  const back = it ? parts(getComputedStyle(it).backgroundColor) : [255, 255, 255, 1];
  return back[3] === 1 ? back : behind(it.parentElement);
};
const ownText = (it) => [...it.childNodes].filter((node) => node.nodeType === 3).map((node) => node.data).join("").trim();
const words = (it) => (it.matches("input, select, textarea") ? it.value : ownText(it));
const contrast = (it) => {
  const colour = parts(getComputedStyle(it).color);
  const [more, less] = [light(colour), light(behind(it))].sort((one, other) => other - one);
  return colour[3] === 0 ? 21 : (more + 0.05) / (less + 0.05);
};
const seen = [...document.querySelectorAll("body *")].filter((it) => it.checkVisibility() && !it.closest(":disabled, option") && words(it));
return seen.filter((it) => contrast(it) < 4.5).map((it) => `${contrast(it)} ${it.tagName}.${it.className} ${words(it).slice(0, 30)}`);
"""
WIDE = """
const seen = [...document.querySelectorAll("main *")].filter((it) => it.checkVisibility());
const right = (it) => it.getBoundingClientRect().right;
const wide = seen.filter((it) => right(it) > right(it.closest("section")) + 1).map((it) => it.outerHTML.slice(0, 90));
return document.documentElement.scrollWidth > innerWidth ? [...wide, "the page"] : wide;
"""


STILL = """
const { matches } = matchMedia(`(prefers-color-scheme: ${arguments[0]})`);
document.getAnimations().forEach((it) => it.finish());
return matches && innerWidth === arguments[1];
"""
"""Whether the page has the colours and the width that it was given. What still moves on it is moved to its end."""


def test_names_contrast_and_width():
    left = {"plan": [{"todo": "A longer text than others, which has to fit into its row"}, {"done": "Lock"}], "hours": 8}
    with started(TASKS, left) as window:
        page = window.browser
        window.send("left", '[{"at":["hours",[{"add":1}]]}]')
        window.after(1)
        assert window.says(".mark") == "changed", "no mark at what changed"
        window.send("left", '[{"at":["plan",[{"del":4}]]}]')
        page.find(".refused")
        window.settle()
        assert page.run(NAMELESS) == []
        for scheme in ("light", "dark"):
            page.prefer(scheme)
            for width in (1280, 800, 480):
                page.resize(width, 800)
                page.until(lambda: page.run(STILL, scheme, width), f"the page does not become {scheme} and {width} wide")
                assert page.run(PALE) == [], f"pale: {scheme}, {width}, {page.run(PALE)}"
                assert page.run(WIDE) == [], f"wide: {width}, {page.run(WIDE)}"
