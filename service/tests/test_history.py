"""The history checker finds what is planted in a history that is well."""

from __future__ import annotations

import copy
from typing import Any, Callable

from .history import History, Row, Said, Seen, faults


def _well() -> History:
    edits = [{"left": [{"add": it}], "right": [{"add": it}]} for it in range(5)]
    rows = [Row(it + 1, f"e{it}", edits[it]) for it in range(5)]
    said = [Said(f"e{it}", it, it + 0.5, it + 1, {"left": edits[it]["left"]}) for it in range(5)] + [Said("r0", 1, 2, None)]
    seen = [Seen(side, 0, [(it.number, it.entry, it.edits[side]) for it in rows], {"x": 10}) for side in ("left", "right")]
    payloads = [f"payload {it}" for it in range(5)]
    return History("p", said, seen, rows, {"left": {"x": 10}, "right": {"x": 10}}, payloads, list(payloads))


def _planted(plant: "Callable[[History], Any]") -> "list[str]":
    history = copy.deepcopy(_well())
    plant(history)
    return list(faults(history))


def test_a_history_that_is_well(room: object) -> None:
    """Nothing is wrong with it."""
    assert _planted(lambda it: None) == []


def test_an_answer_before_the_commit(room: object) -> None:
    """An entry that was answered and is not in the log."""
    found = _planted(lambda it: it.said.append(Said("e9", 9, 10, 6)))
    assert found == ["p: entry e9 was accepted as 6, and is not that record"], found


def test_a_record_twice(room: object) -> None:
    """An entry that is stored twice, and seen twice."""

    def plant(it: History) -> None:
        it.rows.append(Row(6, "e4", it.rows[4].edits))
        for seen in it.seen:
            seen.events.append((6, "e4", it.rows[4].edits[seen.side]))

    assert "p: entry e4 is record 5 and record 6" in _planted(plant)


def test_a_stream_that_skips_a_number(room: object) -> None:
    """A stream that leaves a record out."""
    found = _planted(lambda it: it.seen[0].events.pop(2))
    assert found == ["p: stream 0 of left: behind 2 came 4"], found


def test_a_stream_that_ends_early(room: object) -> None:
    """A stream that never tells the last record."""
    found = _planted(lambda it: it.seen[1].events.pop())
    assert found == ["p: stream 1 of right: it ends at 4, and the log at 5"], found


def test_a_stream_in_another_order(room: object) -> None:
    """Two streams that saw two orders."""

    def plant(it: History) -> None:
        events = it.seen[0].events
        events[1], events[2] = (2, *events[2][1:]), (3, *events[1][1:])

    assert len(_planted(plant)) == 2


def test_a_refused_edit_in_the_log(room: object) -> None:
    """An entry that was refused, and stored."""
    found = _planted(lambda it: it.said.append(Said("e2", 0, 9, None)))
    assert found == ["p: entry e2 was refused, and is in the log"], found


def test_an_order_against_time(room: object) -> None:
    """An entry that was sent after another one was answered, and is before it."""

    def plant(it: History) -> None:
        it.said[0] = Said("e0", 8, 9, 1)

    assert _planted(plant) == ["p: entry e0 was sent when record 5 was answered, and is record 1"]


def test_a_copy_that_differs(room: object) -> None:
    """A copy that is not the document, and a store that lacks a change."""

    def plant(it: History) -> None:
        it.seen[0].document = {"x": 11}
        it.stored.pop()

    assert len(_planted(plant)) == 2


def test_other_edits_than_in_the_log(room: object) -> None:
    """An answer with other edits, and a gap in the log."""

    def plant(it: History) -> None:
        it.said[1] = Said("e1", 1, 1.5, 2, {"left": [{"add": 7}]})
        it.rows.pop(3)

    found = _planted(plant)
    assert any("other edits" in it for it in found) and any("not 1, 2, 3" in it for it in found), found
