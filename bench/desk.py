#!/usr/bin/env python3
"""Times the page of the desk in a browser: Debian's chromium and chromium-driver are wanted.

A line is for a list of so many records of four fields, in both documents. It has two times in milliseconds: from the call of the page
until both documents are painted, and from a press of + until both documents are painted with the change. Each is the middle one of five.
The second should grow slower than the records: the page draws 80 of them at once, and the state that is sent has them all.
"""

import os
import statistics
import sys
import threading

TOP = os.path.dirname(os.path.dirname(os.path.abspath(__file__)))
sys.path.insert(0, os.path.join(TOP, "tools"))
sys.dont_write_bytecode = True

from editlens.browser import Browser, NoBrowser  # noqa: E402
from editlens.desk.desk import Desk  # noqa: E402
from editlens.desk.keepers import RunKeeper  # noqa: E402
from editlens.desk.server import DeskServer  # noqa: E402

PROGRAM = "main {people ~ rows: each {name ~ title: id text, phone ~ tel: id text, score ~ points: id int, left note: text}}"
TIMES = 5
PAINTED = "return performance.getEntriesByName('painted').map((it) => it.startTime)"
OPEN = "document.querySelector(`#left [data-key='/people/1|fold'][aria-expanded=false]`)?.click()"
PRESS = "const begin = performance.now(); document.querySelector(`#left [data-key='/people/1/score|more']`).click(); return begin"


def painted(browser, count):
    """When the page was painted for the so manieth time, in milliseconds since it was called."""
    return browser.until(lambda: browser.run(PAINTED)[count - 1 :], "the page is not painted")[0]


def measure(browser, records):
    """The times of a document of so many records."""
    keeper, first, edits = RunKeeper(PROGRAM), [], []
    keeper.entry("left", [{"at": ["people", [{"ins": records}]]}])
    server = DeskServer(Desk(keeper, "measured"))
    threading.Thread(target=server.serve_forever, daemon=True).start()
    for _ in range(TIMES):
        browser.open(server.url)
        first.append(painted(browser, 1))
    browser.run(OPEN)
    for number in range(TIMES):
        begin = browser.run(PRESS)
        edits.append(painted(browser, 2 + number) - begin)
    server.shutdown()
    server.desk.close()
    return statistics.median(first), statistics.median(edits)


def main():
    try:
        with Browser() as browser:
            for records in (20, 200, 2_000):
                first, edit = measure(browser, records)
                print(f"{records:,} records: first paint {first:.0f} ms, an edit {edit:.0f} ms", flush=True)
    except NoBrowser as why:
        print(f"skipped: bench/desk.py, {why}")


main()
