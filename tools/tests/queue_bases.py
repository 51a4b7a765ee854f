"""Edits in the queue of the example that were made for an older state: they are carried, or refused, once and alike. Redis is wanted."""

import json
import os
import random
import time

from editlens.json_text import read_json
from editlens.older import MOST_CHANGES
from editlens.store import Store

from .queues import NAME, program, queue, server

HERE_FIRST = [{"at": ["orders", [{"put": "7"}, {"mod": ["7", [{"at": ["customer", [{"set": "Berg"}]]}]]}, {"put": "8"}]]}]


def left(word):
    return [{"at": ["orders", word]}]


def right(word):
    return [{"at": ["parcels", word]}]


def on_shelf(key, shelf):
    return right([{"mod": [key, [{"at": ["shelf", [{"set": shelf}]]}]]}])


def entry(side, edit):
    return {"side": side, "edit": edit}


def asked(here, base, *changes):
    """Sends changes with a base, and returns the answers, each with the line that was sent in its place."""
    seen = len(here.answers())
    here.server.send(NAME, [it if isinstance(it, str) else json.dumps(it) for it in changes], base)
    here.ends()
    return told(here)[seen:]


def told(here):
    """The answers without their numbers, each with the line in place of its edit, or None."""
    found = server.entries(here.server.queue.call("XRANGE", f"{NAME}:answers", "-", "+"))[1:]
    cut = lambda said: " ".join((said.split(" ")[0], said.split(" ", 2)[2]))
    return [(cut(it[b"answer"].decode()), read_json(it[b"line"].decode()) if b"line" in it else None) for _, it in found]


def begun(here):
    """Two orders, of which the first is called 9 then: the store has two changes."""
    assert asked(here, None, entry("left", HERE_FIRST), entry("left", left([{"rename": ["7", "9"]}])))[1][0].startswith("ok ")


def test_an_edit_lands_at_its_order():
    """The number of an order has changed meanwhile, by an edit of the other side. The answer has what was sent in place of the edit."""
    with queue([]) as here:
        begun(here)
        assert asked(here, 1, entry("right", on_shelf("7", "A1"))) == [("ok left []", entry("right", on_shelf("9", "A1")))]
        assert asked(here, 2, entry("right", on_shelf("9", "A2"))) == [("ok left []", None)]
        assert asked(here, 1, entry("left", left([{"mod": ["8", [{"at": ["count", [{"add": 2}]]}]]}])))[0][1] is None
        group = {"group": [entry("right", on_shelf("7", "B1")), entry("right", on_shelf("8", "B2"))]}
        said, line = asked(here, 1, group)[0]
        assert said.startswith("ok group ") and line == {"group": [entry("right", on_shelf("9", "B1")), entry("right", on_shelf("8", "B2"))]}, said
        parcels = here.store.show()[1]["parcels"]
        assert {key: it["shelf"] for key, it in parcels.items()} == {"8": "B2", "9": "B1"} and here.store.verify() == 6
        # Without a base an edit is for the newest state, as ever.
        assert asked(here, None, entry("right", on_shelf("7", "C1")))[0][0] == "refused no-apply 0 place"


def test_what_has_no_place_is_refused():
    with queue([]) as here:
        begun(here)
        assert asked(here, None, entry("right", right([{"drop": "8"}, {"put": "5"}])))[0][0].startswith("ok ")
        before = here.store.show()
        late = [
            (2, entry("left", left([{"put": "4"}, {"mod": ["8", [{"at": ["count", [{"set": 2}]]}]]}])), "refused not-carried 0 gone"),
            (2, entry("left", [*left([{"put": "4"}]), *left([{"mod": ["8", []]}])]), "refused not-carried 1 gone"),
            (2, entry("left", left([{"put": "5"}])), "refused not-carried 0 taken"),
            (2, {"group": [entry("left", left([{"put": "4"}])), entry("left", left([{"mod": ["8", []]}]))]}, "refused group 1 not-carried 0 gone"),
            (1, entry("left", left([{"mod": ["9", []]}])), "refused no-apply 0 place"),
            (1, {"group": [entry("left", left([{"put": "4"}])), entry("left", left([{"put": "4"}]))]}, "refused group 1 no-apply 0 present"),
            (1, {"group": [entry("left", left([])), entry("right", [])]}, "refused base"),
            (4, entry("left", []), "refused base"),
            ("one", entry("left", []), "refused base"),
            (-1, entry("left", []), "refused base"),
            (9**40, entry("left", []), "refused base"),
            (1, "[", "refused not-json"),
            (1, "x" * 1_048_577, "refused line-too-long"),
            (1, {"side": "left"}, "refused not-an-entry"),
            (1, {"group": [3]}, "refused not-an-entry"),
            (1, "", "refused not-an-entry"),
            (1, entry("left", [{"ins": 0}]), "refused not-an-edit"),
            (1, '{"side":"left","edit":[%s]}' % ('{"at":["a",[' * 900 + "]]}" * 900), None),
        ]
        for base, change, wanted in late:
            said, line = asked(here, base, change)[0]
            assert said == (wanted or said) and said.startswith("refused ") and line is None, (base, said, wanted)
        assert here.store.show() == before and here.store.verify() == 3
        # What is gone already is deleted, and that is a change with nothing in it. A group of both sides is for the newest state.
        assert asked(here, 2, entry("left", left([{"drop": "8"}])))[0] == ("ok right []", entry("left", left([])))
        assert asked(here, 4, {"group": [entry("left", left([])), entry("right", [])]})[0][0].startswith("ok group ")


def test_a_base_that_is_too_old():
    with queue([]) as here:
        add = json.dumps(entry("right", [{"at": ["printer", [{"set": "x"}]]}]))
        here.store.apply([add] * (MOST_CHANGES + 1))
        here.server.queue.call("DEL", f"{NAME}:answers")
        here.ends(["--begin", "--once"])
        change = entry("left", left([{"put": "4"}]))
        assert asked(here, 0, change) == [("refused base", None)] and asked(here, 1, change)[0][0].startswith("ok ")


def late_edits():
    """Changes, each with its base: edits of both sides for states before, refused ones among them."""
    put = lambda key: entry("left", left([{"put": key}]))
    return [
        (None, entry("left", HERE_FIRST)),
        (None, entry("left", left([{"rename": ["7", "9"]}]))),
        (1, entry("right", on_shelf("7", "A1"))),
        (2, entry("right", right([{"drop": "8"}]))),
        (2, entry("left", left([{"mod": ["8", [{"at": ["count", [{"set": 2}]]}]]}]))),
        (6, put("3")),
        (2, put("4")),
        (3, entry("right", right([{"rename": ["9", "2"]}]))),
        (4, put("4")),
        (1, {"group": [entry("right", on_shelf("7", "B1")), entry("right", right([{"put": "1"}]))]}),
        (5, entry("left", left([{"mod": ["9", [{"at": ["customer", [{"splice": [0, 0, "x"]}]]}]]}]))),
    ]


def test_answers_that_were_lost():
    """A keeper that was stopped behind any edit makes the same answers again, and the same store: what was carried is carried alike."""
    with queue([]) as here:
        for base, change in late_edits():
            here.server.send(NAME, [json.dumps(change)], base)
        here.ends()
        answers, state = told(here), here.store.show()
        assert sum(it[0].startswith("ok ") for it in answers) == 8 == here.store.verify() and sum(it[1] is not None for it in answers) == 3, answers
        found = here.server.queue.call("XRANGE", f"{NAME}:answers", "-", "+")
        for kept in range(1, len(found)):
            here.server.queue.call("DEL", f"{NAME}:answers")
            for ident, fields in found[:kept]:
                here.server.queue.call("XADD", f"{NAME}:answers", ident, *fields)
            here.ends()
            assert told(here) == answers and here.store.show() == state and here.store.verify() == 8, kept
        # A store that is lost is made anew by all edits.
        os.remove(here.store.file)
        Store.init(here.folder, program())
        here.ends()
        assert told(here) == answers and here.store.show() == state


def test_killed_at_any_moment():
    with queue([]) as here:
        for base, change in late_edits():
            here.server.send(NAME, [json.dumps(change)], base)
        for turn in range(4):
            seen, keeper = len(here.answers()), here.keep()
            here.until_answered(min(seen + 2, len(late_edits())), keeper)
            time.sleep(random.random() / 50)
            server.kill(keeper, is_group=turn % 2)
        here.ends()
        killed, state = told(here), here.store.show()
    with queue([]) as here:
        for base, change in late_edits():
            here.server.send(NAME, [json.dumps(change)], base)
        here.ends()
        assert told(here) == killed and here.store.show() == state
