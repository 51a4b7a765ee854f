"""Documents of very many records in a browser: what is drawn of them, how they are scrolled, and how long the page takes.

Debian's chromium and chromium-driver are wanted, or all is skipped.
"""

import json

from editlens.desk.desk import Desk
from editlens.desk.keepers import RunKeeper

from .windows import opened

NEEDS_BROWSER = True
PEOPLE = "main {people ~ rows: each {name ~ title: id text, phone ~ tel: id text, score ~ points: id int, left note: text}}"
MOST_DRAWN = 2 * 80
LIMIT = 2_000
"""How many milliseconds of a processor the page may use in a test. It wants a tenth of that, on a machine with nothing else to do."""
VALUE = "return document.querySelector(arguments[0])?.value"
DRAWN = "return document.querySelectorAll('#left .entry, #right .entry').length"
DRAWING = "return performance.getEntriesByName('drawing').map((it) => [it.detail.version, it.duration])"
SCROLL = """
const done = arguments[arguments.length - 1];
const [side, number] = arguments;
const root = document.querySelector(`#${side} .document`);
const begun = performance.now();
root.scrollTop = root.scrollHeight;
const look = () => {
  const box = document.querySelector(`#${side} [data-number='${number}']`)?.getBoundingClientRect();
  const sight = root.getBoundingClientRect();
  if (box && box.top >= sight.top - 1 && box.bottom <= sight.bottom + 60) setTimeout(() => done(performance.now() - begun));
  else { root.scrollTop = root.scrollHeight; requestAnimationFrame(look); }
};
requestAnimationFrame(look);
"""
UP = """
const [done] = arguments;
document.querySelector("#left .document").scrollTop -= 300;
requestAnimationFrame(() => setTimeout(done));
"""
SIGHT = """
const sight = document.querySelector(`#${arguments[0]} .document`).getBoundingClientRect();
const inSight = [...document.querySelectorAll(`#${arguments[0]} .entry`)].filter((it) => {
  const box = it.getBoundingClientRect();
  return box.bottom > sight.top + 1 && box.top < sight.bottom - 1;
});
return inSight.map((it) => Number(it.dataset.number));
"""
"""The numbers of the items of which something is in sight."""


def people(count, last=None):
    """A desk with so many records."""
    keeper = RunKeeper(PEOPLE)
    keeper.entry("left", [{"at": ["people", [{"ins": count}, {"mod": [count - 1, [{"at": ["name", [{"set": last or "the last"}]]}]]}]]}])
    return Desk(keeper, "many")


def used(page):
    """How many milliseconds of a processor the page has used. Other programs that have the processors do not count."""
    page.devtools("Performance.enable", {"timeDomain": "threadTicks"})
    return 1_000 * next(it["value"] for it in page.devtools("Performance.getMetrics", {})["metrics"] if it["name"] == "ThreadTime")


def took(name, milliseconds, processor, wanted):
    """Says how long the page took and how long it had a processor meanwhile, and fails where that is far more than it wants."""
    print(f"{name}: {milliseconds:.0f} ms, of which {processor:.0f} ms with a processor, where {wanted} ms are wanted", flush=True)
    assert processor < LIMIT, (name, milliseconds, processor)


def drawing(page, version):
    """How long the page took to draw a version, from the answer until it was painted."""
    measures = page.until(lambda: (found := page.run(DRAWING)) and found[-1][0] == version and found, f"version {version} is not measured")
    return dict(measures)[version]


def test_a_document_of_2000_records():
    """However many records there are, so few of them are drawn that an edit is painted at once."""
    with opened(people(2_000)) as window:
        page, value = window.browser, lambda side, path: window.browser.run(VALUE, window.control(side, path))
        assert 0 < page.run(DRAWN) <= MOST_DRAWN, page.run(DRAWN)
        window.click("left", ("people", 1), "fold")
        for number, text in enumerate(("Ida", "Bo"), 1):
            before = used(page)
            window.write("left", ("people", 1, "name"), text, "Enter")
            window.after(number)
            took("an edit of one of 2,000 records", drawing(page, number), used(page) - before, 200)
        window.click("right", ("rows", 1), "fold")
        assert value("right", ("rows", 1, "title")) == "Bo" and page.run(DRAWN) <= MOST_DRAWN
        window.click("right", ("rows",), "page-last")
        page.until(lambda: page.run(SIGHT, "right")[-1:] == [1999], lambda: page.run(SIGHT, "right"))
        window.click("right", ("rows", 1999), "fold")
        assert value("right", ("rows", 1999, "title")) == "the last"
        window.click("right", ("rows",), "add")
        window.after(3)
        page.find(window.control("right", ("rows", 2000, "title")))


def is_whole(seen, near):
    """Whether the items in sight are some behind one another without a hole, about where they are wanted."""
    return len(seen) > 5 and seen == list(range(seen[0], seen[-1] + 1)) and abs(seen[0] - near) < 1_000


def test_20000_records_are_scrolled():
    """The end of a list of 20,000 records is painted soon after it is scrolled to, and what is in sight on the way is drawn without holes."""
    with opened(people(20_000)) as window:
        page = window.browser
        window.settle()
        before = used(page)
        took("to the end of 20,000 records", page.wait_for(SCROLL, "left", 19_999), used(page) - before, 1_000)
        assert page.run(DRAWN) <= MOST_DRAWN
        for part in (0.5, 0.25, 0.2502, 0.2504, 0):
            page.run("const it = document.querySelector('#left .document'); it.scrollTop = arguments[0] * it.scrollHeight", part)
            page.until(lambda: is_whole(page.run(SIGHT, "left"), part * 20_000), lambda: f"{part}: in sight are {page.run(SIGHT, 'left')}")
        window.click("left", ("people", 0), "fold")
        before = used(page)
        window.write("left", ("people", 0, "name"), "Ida", "Enter")
        window.after(1)
        took("an edit of one of 20,000 records", drawing(page, 1), used(page) - before, 1_000)
        assert window.desk.keeper.documents["right"]["rows"][0]["title"] == "Ida"


def test_what_comes_into_sight_is_whole():
    """Entries that are drawn when they are scrolled to have their marks, and a control there is edited. The scroll stays where it is."""
    with opened(people(1_000)) as window:
        page = window.browser
        edit = [{"at": ["people", [{"mod": [900, [{"at": ["score", [{"set": 7}]]}]]}]]}]
        assert window.desk.edit(0, "left", edit)["ok"]
        window.after(1)
        window.click("left", ("people",), "page-last")
        for _ in range(40):
            if 900 in page.run(SIGHT, "left"):
                break
            page.wait_for(UP)
        assert 900 in page.run(SIGHT, "left"), page.run(SIGHT, "left")
        entry = f"#left [data-place={json.dumps('/people/900')}]"
        assert window.says(f"{entry} .mark") == "changed", window.says(entry)
        window.click("left", ("people", 900), "fold")
        at = page.run("return document.querySelector(arguments[0]).getBoundingClientRect().top", entry)
        window.click("left", ("people", 900, "score"), "more")
        window.after(2)
        assert abs(page.run("return document.querySelector(arguments[0]).getBoundingClientRect().top", entry) - at) < 3
        assert window.desk.keeper.documents["right"]["rows"][900]["points"] == 8
