"""Many clients of many pairs, while workers are killed and stopped, the database is killed, and connections are cut. At the end every pair is
held against its history, and its exported store against the program."""

from __future__ import annotations

import asyncio
import os
import random
import signal
import subprocess
import tempfile
import time
from dataclasses import dataclass, field

from editlens.log import Log, is_change
from editlens_client.aio import FAULTS, AsyncClient
from editlens_client.wire import Refusal

from .fleet import RoundRobin, Worker
from .history import History, faults
from .load import PROGRAM, SIDES, Actor, finish
from .postgres import Postgres


@dataclass
class Plan:
    """How large a run is, and what is done to it."""

    seconds: float = 60.0
    pairs: int = 50
    clients: int = 100
    workers: int = 3
    pause: float = 0.5
    """Seconds between two edits of a client, on the average."""
    seed: int = 7
    kills: float = 4.0
    """Seconds between two strokes of fate, on the average."""
    has_database_kills: bool = True
    cut_each: float = 0.002
    worker_program: "list[str] | None" = None
    program: "str | None" = None
    """The program that verifies the exported stores."""


@dataclass
class Report:
    """What came of a run."""

    faults: "list[str]" = field(default_factory=list)
    counts: "dict[str, int]" = field(default_factory=dict)

    def line(self) -> str:
        """The counts in one line."""
        return ", ".join(f"{count:,} {name}" for name, count in self.counts.items())


async def run(plan: Plan, postgres: Postgres) -> Report:
    """Runs a plan against a database that has the tables."""
    chance, report = random.Random(plan.seed), Report()
    words = ["--without-tokens", "--snapshot-every", "40"]
    workers = [Worker(postgres.dsn, *words, program=plan.worker_program) for _ in range(plan.workers)]
    try:
        async with RoundRobin([it.port for it in workers], chance) as proxy:
            async with AsyncClient(proxy.address, patience=120.0, seconds=20.0) as client:
                await _through(plan, postgres, workers, proxy, client, report, chance)
    finally:
        for it in workers:
            it.close()
    return report


async def _through(plan: Plan, postgres: Postgres, workers: "list[Worker]", proxy: RoundRobin, client: AsyncClient, report: Report, chance: random.Random) -> None:
    histories = [History(f"p{number}") for number in range(plan.pairs)]
    await asyncio.gather(*(client.make(it.name, PROGRAM) for it in histories))
    actors = [Actor(client, histories[it % plan.pairs], SIDES[it // plan.pairs % 2], plan.seed * 1_000 + it) for it in range(plan.clients)]
    await asyncio.gather(*(it.begin() for it in actors))
    streams = [asyncio.ensure_future(it.follow()) for it in actors]
    proxy.cut_each = plan.cut_each
    end = time.monotonic() + plan.seconds
    fate = asyncio.ensure_future(_fate(plan, postgres, workers, end, chance, report))
    await asyncio.gather(*(it.edit_until(end, plan.pause) for it in actors))
    await fate
    proxy.cut_each = 0.0
    await asyncio.gather(*(finish(client, it, [one for one in actors if one.history is it]) for it in histories))
    for it in streams:
        it.cancel()
    said = await asyncio.gather(*streams, return_exceptions=True)
    report.faults += [f"a stream ended with {it!r}" for it in said if isinstance(it, BaseException) and not isinstance(it, asyncio.CancelledError)]
    report.faults += [fault for it in actors for fault in it.faults]
    for it in histories:
        await _export(plan, client, it, report)
        report.faults += list(faults(it))
    accepted = [it for one in histories for it in one.said if it.number is not None]
    report.counts |= {
        "accepted": len(accepted),
        "refused": sum(it.number is None for one in histories for it in one.said),
        "without an answer": sum(len(it.lost) for it in actors),
        "records": sum(len(it.rows) for it in histories),
        "events": sum(len(it.events) for one in histories for it in one.seen),
        "connections cut": proxy.cut,
    }


async def _fate(plan: Plan, postgres: Postgres, workers: "list[Worker]", end: float, chance: random.Random, report: Report) -> None:
    """Strikes at random until a time. Everything runs at the end."""
    strokes = ["kill", "stop", "database"] if plan.has_database_kills else ["kill", "stop"]
    while plan.kills and time.monotonic() + plan.kills < end:
        await asyncio.sleep(chance.uniform(0.5, 1.5) * plan.kills)
        stroke, worker = strokes[report.counts.get("strokes", 0) % len(strokes)], chance.choice(workers)
        report.counts["strokes"] = report.counts.get("strokes", 0) + 1
        if stroke == "kill":
            worker.kill()
            await asyncio.sleep(chance.random())
            await asyncio.to_thread(worker.start)
        elif stroke == "stop":
            worker.signal(signal.SIGSTOP)
            await asyncio.sleep(chance.uniform(0.5, 4.0))
            worker.signal(signal.SIGCONT)
        else:
            postgres.kill()
            await asyncio.sleep(chance.random())
            await asyncio.to_thread(postgres.start)


async def _export(plan: Plan, client: AsyncClient, history: History, report: Report) -> None:
    """Exports the store of a pair, has the program verify it, and reads the changes in it."""
    for turn in range(5):
        try:
            body = await client.store(history.name)
            break
        except (Refusal, *FAULTS) as why:
            report.faults.append(f"{history.name}: no store: {why}")
            return
    with tempfile.TemporaryDirectory(prefix="editlens-chaos-") as folder:
        path = os.path.join(folder, "editlens.store")
        with open(path, "wb") as file:
            file.write(body)
        with Log(path) as log:
            history.stored = [it.decode() for it in log.payloads() if is_change(it)]
        history.payloads = _expected(history)
        if plan.program:
            ran = await asyncio.to_thread(subprocess.run, [plan.program, "verify"], cwd=folder, capture_output=True, text=True)
            if ran.stdout != f"consistent {len(history.rows)}\n":
                report.faults.append(f"{history.name}: verify says {ran.stdout!r} of {len(history.rows)} changes")
            shown = (await asyncio.to_thread(subprocess.run, [plan.program, "show"], cwd=folder, capture_output=True, text=True)).stdout
            _compare(history, shown, report)


def _expected(history: History) -> "list[str]":
    """The payloads of the changes that the store has to have, where they follow from what the clients sent; others as they are there."""
    from editlens.json_text import read_json

    own = {it.number: it.edits for it in history.rows}
    found = []
    for number, payload in enumerate(history.stored, 1):
        tree = read_json(payload)
        entries = tree["group"] if "group" in tree else [tree["entry"]]
        words = [word for it in entries for word in it["edit"]]
        is_same = number in own and own[number][entries[0]["side"]] == words
        found.append(payload if is_same else f"record {number} of the log")
    return found + [f"record {it} of the log" for it in range(len(found) + 1, len(history.rows) + 1)]


def _compare(history: History, shown: str, report: Report) -> None:
    """Holds the documents in the store against those of the service."""
    from editlens.json_text import read_json

    rows = dict(line.split(" ", 1) for line in shown.splitlines())
    for side in SIDES:
        if side not in rows or read_json(rows[side]) != history.documents[side]:
            report.faults.append(f"{history.name}: the {side} document of the store is not that of the service")
