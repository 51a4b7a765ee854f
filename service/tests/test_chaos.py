"""Many clients, while workers and the database are killed; and workers with a planted fault, which has to be found."""

from __future__ import annotations

import asyncio
import os

from .chaos import Plan, Report, run
from .fleet import PYTHON
from .room import Room, made_database, program

HERE = os.path.dirname(os.path.abspath(__file__))
FOUND = {
    "early": "is not that record",
    "twice": "is record",
    "skips": "came",
}
"""The planted faults, and what is said of each."""


def _planted(fault: str, room: Room) -> Report:
    plan = Plan(seconds=min(8.0, room.seconds), pairs=5, clients=10, pause=0.1, seed=room.seed, kills=0.0, cut_each=0.01, program=None)
    plan.worker_program = [PYTHON, os.path.join(HERE, "planted.py"), fault]
    with made_database() as postgres:
        return asyncio.run(run(plan, postgres))


def _is_found(fault: str, room: Room) -> None:
    report = _planted(fault, room)
    assert any(FOUND[fault] in it for it in report.faults), (report.line(), report.faults[:5])


def test_an_answer_before_the_commit_is_found(room: Room) -> None:
    """Workers that answer first and store a moment later, and sometimes not."""
    _is_found("early", room)


def test_a_record_twice_is_found(room: Room) -> None:
    """Workers that store an entry again when it is sent again."""
    _is_found("twice", room)


def test_a_stream_that_skips_is_found(room: Room) -> None:
    """Workers whose streams leave a record out now and then."""
    _is_found("skips", room)


def test_many_clients_and_strokes_of_fate(room: Room) -> None:
    """50 pairs, 100 clients and three workers: after all that can happen, each pair is as it was answered."""
    plan = Plan(seconds=room.seconds, seed=room.seed, program=program())
    with made_database() as postgres:
        report = asyncio.run(run(plan, postgres))
    print(f"many clients: {report.line()}", flush=True)
    assert not report.faults, report.faults[:20]
    assert report.counts["accepted"] > room.seconds, report.line()
