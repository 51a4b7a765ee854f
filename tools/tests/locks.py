"""One program at a time writes to a store. The short form of these tests is run by tools/check, the long form by bench/two_writers.

A program that takes no lock on the folder of a store is not tested so.
"""

import contextlib
import json
import os
import random
import subprocess
import tempfile
import threading
import time
from unittest import mock

from editlens.answers import Accepted
from editlens.lock import StoreBusy, StoreLock, is_busy
from editlens.program import TOP
from editlens.store import Store

from . import PATIENCE, Skipped

PROGRAM = "main {count ~ number: id int, left note: text}\n"
BESIDE = (("init",), ("import",), ("pack",), ("undo", "1"))
WRITING = (("apply",), *BESIDE)


def program():
    return os.environ["EDITLENS"]


def is_locking():
    """Whether the program takes the lock: `init` ends with 7 in a folder whose lock is held."""
    with tempfile.TemporaryDirectory() as folder, StoreLock(folder):
        ran = subprocess.run([program(), "init"], input=PROGRAM, cwd=folder, stdout=subprocess.PIPE, text=True, check=False)
        return ran.returncode == 7


def need_lock():
    """Skips the test where the program takes no lock."""
    if not is_locking():
        raise Skipped("the program takes no lock on the folder of a store")


@contextlib.contextmanager
def stored():
    """A folder with a new store."""
    with tempfile.TemporaryDirectory() as folder:
        yield Store.init(folder, PROGRAM)


def entry():
    """A line that adds one to the count, and sets a note of some length, so that records are of different lengths."""
    note = "x" * random.randrange(200)
    return json.dumps({"side": "left", "edit": [{"at": ["count", [{"add": 1}]]}, {"at": ["note", [{"set": note}]]}]})


def started(store, *words):
    return subprocess.Popen([program(), *words], cwd=store.folder, stdin=subprocess.PIPE, stdout=subprocess.PIPE, bufsize=0)


def answer(running):
    """Sends an entry, and reads its answer."""
    running.stdin.write(entry().encode() + b"\n")
    return running.stdout.readline()


def content(store):
    with open(store.file, "rb") as file:
        return file.read()


def refused_at_once(store, words):
    """Runs a command that must end with 7, write nothing, and leave the file as it is."""
    before = content(store)
    ran = subprocess.run([program(), *words], cwd=store.folder, input=entry().encode(), stdout=subprocess.PIPE, check=False)
    assert (ran.returncode, ran.stdout) == (7, b""), (words, ran)
    assert content(store) == before, words


def need_state(store, accepted):
    """The store has so many changes, and each has added one on both sides."""
    left, right, _ = store.show()
    assert (store.verify(), left["count"], right) == (accepted, accepted, {"number": accepted}), (accepted, store.verify(), left["count"], right)


def two_applies(edits=10):
    """Two runs of `apply` begin at once, with pipes that stay open. One of them has the store, and the other one ends with 7."""
    with stored() as store:
        runs = [started(store, "apply") for _ in range(2)]
        deadline = time.monotonic() + PATIENCE
        while all(it.poll() is None for it in runs):
            assert time.monotonic() < deadline, "neither run has ended"
            time.sleep(0.001)
        loser = runs[0] if runs[0].poll() is not None else runs[1]
        winner = runs[1 - runs.index(loser)]
        assert (loser.returncode, loser.communicate()[0]) == (7, b"")
        for number in range(1, edits + 1):
            time.sleep(random.random() / 500)
            assert answer(winner).startswith(b"ok %d " % number)
        assert len(winner.communicate()[0].splitlines()) == 3 and winner.returncode == 0
        need_state(store, edits)


def beside_apply():
    """Each command that writes, beside an open `apply`: it ends with 7 and changes nothing, and `apply` goes on."""
    with stored() as store:
        running = started(store, "apply")
        assert answer(running).startswith(b"ok 1 ")
        for number, words in enumerate(WRITING, 2):
            refused_at_once(store, words)
            assert answer(running).startswith(b"ok %d " % number)
        running.communicate()
        need_state(store, 1 + len(WRITING))


def two_that_make(command):
    """Two commands make a store in one folder: the first one waits for its script, the second one ends with 7 at once."""
    script = PROGRAM + ('---\n{"count":0,"note":""}\n' if command == "import" else "")
    with tempfile.TemporaryDirectory() as folder:
        store = Store(folder)
        first = started(store, command)
        deadline = time.monotonic() + PATIENCE
        while not is_busy(folder):
            assert first.poll() is None, first.communicate()
            assert time.monotonic() < deadline, "no run takes the lock"
            time.sleep(0.01)
        ran = subprocess.run([program(), command], cwd=folder, input=script.encode(), stdout=subprocess.PIPE, check=False)
        assert (ran.returncode, ran.stdout, os.listdir(folder)) == (7, b"", []), ran
        assert b"left " in first.communicate(script.encode())[0] and first.returncode == 0
        assert store.show()[1] == {"number": 0}


def at_once(words):
    """`apply` of two changes, and another command that writes, begin at once on a store with one change.

    Each of them does all that it is to do, or ends with 7 and does nothing. One of them has the lock, and the other one may begin when it
    has ended. `init` and `import` find the store that is there.
    """
    with stored() as store:
        store.apply([entry()])
        runs = {it: started(store, *it) for it in random.sample([("apply",), words], 2)}
        said = {it: running.communicate((entry() + "\n" + entry()).encode() if it == ("apply",) else b"")[0] for it, running in runs.items()}
        statuses = runs["apply",].returncode, runs[words].returncode
        case = words, statuses, said
        assert statuses[0] in (0, 7) and statuses[1] in (4 if words[0] in ("init", "import") else 0, 7) and statuses != (7, 7), case
        assert all((it == b"") == (runs[command].returncode == 7) for command, it in said.items()), case
        changes = 3 if statuses[0] == 0 else 1
        count = changes - 1 if words[0] == "undo" and statuses[1] == 0 else changes
        left, right, _ = store.show()
        assert (store.verify(), left["count"], right) == (changes, count, {"number": count}), case


def killed_holder():
    """A run that is killed at some moment gives the lock back. What it has answered is there, and at most one change more."""
    with stored() as store:
        running, answered = started(store, "apply"), 0
        for _ in range(random.randrange(1, 6)):
            answered += answer(running).startswith(b"ok ")
        running.stdin.write(entry().encode() + b"\n")
        time.sleep(random.random() / 100)
        running.kill()
        running.communicate()
        found = store.verify()
        assert found - answered in (0, 1), (found, answered)
        store.left([{"at": ["count", [{"add": 1}]]}])
        need_state(store, found + 1)


def show_beside(rounds, most=5):
    """`show` and `verify` beside a run of `apply` that writes: never refused, and with each change that was answered before.

    While one of them runs, `apply` makes changes: at least one, and no more than `most`, so that the store stays short on a busy machine.
    """
    with stored() as store:
        running, answered = started(store, "apply"), 0
        for turn in range(2 * rounds):
            words, before = ("show", "verify")[turn % 2], answered
            reading = subprocess.Popen([program(), words], cwd=store.folder, stdout=subprocess.PIPE, text=True)
            while answered == before or reading.poll() is None and answered < before + most:
                assert answer(running).startswith(b"ok "), answered
                answered += 1
            said, _ = reading.communicate()
            assert reading.returncode == 0, (words, reading.returncode, said)
            counts = {int(said.removeprefix("consistent "))} if words == "verify" else counts_of(store, said)
            assert len(counts) == 1 and before <= min(counts) <= answered, (words, before, counts, answered)
        running.communicate()
        need_state(store, answered)


def counts_of(store, said):
    """The counts that both documents of a state have."""
    left, right, _ = store.state(said.splitlines())
    return {left["count"], right["number"]}


def python_clients(clients=2, edits=5):
    """Clients that each make short runs, and try again where the store is busy: all that was accepted is there."""
    with stored() as store:
        failed, deadline = [], time.monotonic() + PATIENCE

        def client():
            for _ in range(edits):
                while True:
                    try:
                        assert isinstance(Store(store.folder).apply([entry()])[0], Accepted)
                        break
                    except StoreBusy as why:
                        busy = why
                    except Exception as why:
                        # A run that ended while this one began is told from a disk that fails by another try.
                        busy = why if getattr(why, "status", None) == 7 else None
                        if not busy:
                            failed.append(why)
                            return
                    if time.monotonic() > deadline:
                        failed.append(busy)
                        return
                    time.sleep(random.random() / 50)

        threads = [threading.Thread(target=client) for _ in range(clients)]
        for it in threads:
            it.start()
        for it in threads:
            it.join()
        assert not failed, failed
        need_state(store, clients * edits)


def open_clients(clients=3, edits=5):
    """Clients that keep the store open one after another: each waits for the one before."""
    with stored() as store:
        answers = []

        def client():
            with Store.open(store.folder, wait=PATIENCE) as kept:
                answers.extend(kept.left([{"at": ["count", [{"add": 1}]]}]) for _ in range(edits))

        threads = [threading.Thread(target=client) for _ in range(clients)]
        for it in threads:
            it.start()
        for it in threads:
            it.join()
        assert len(answers) == clients * edits
        need_state(store, clients * edits)


def waiting_scripts(scripts=4):
    """Runs of ./editlens with EDITLENS_WAIT, all at once: each waits for those before it, and nothing is lost."""
    with stored() as store:
        how = {"cwd": store.folder, "stdin": subprocess.PIPE, "stdout": subprocess.PIPE, "env": {**os.environ, "EDITLENS_WAIT": str(PATIENCE)}}
        runs = [subprocess.Popen([os.path.join(TOP, "editlens"), "apply"], **how) for _ in range(scripts)]
        for it in runs:
            it.stdin.write(entry().encode() + b"\n")
            it.stdin.close()
        for it in runs:
            said = it.stdout.read()
            it.wait()
            assert (it.returncode, said[:5]) == (0, b"ok 1 "), (it.returncode, said)
        need_state(store, scripts)


def test_two_runs_of_apply():
    need_lock()
    for _ in range(3):
        two_applies()


def test_other_commands_beside_apply():
    need_lock()
    beside_apply()


def test_other_commands_and_apply_at_once():
    need_lock()
    for words in BESIDE:
        at_once(words)


def test_two_that_make_a_store():
    need_lock()
    two_that_make("init")
    two_that_make("import")


def test_a_killed_run_gives_the_lock_back():
    need_lock()
    for _ in range(3):
        killed_holder()


def test_show_beside_a_run_that_writes():
    """Reading takes no lock, so it needs none."""
    show_beside(10)


def test_clients_in_python():
    need_lock()
    python_clients()
    open_clients()


def test_scripts_that_wait():
    need_lock()
    waiting_scripts()


def test_a_lock_of_a_tool():
    with tempfile.TemporaryDirectory() as folder:
        with StoreLock(folder):
            began = time.monotonic()
            with contextlib.suppress(StoreBusy):
                StoreLock(folder, wait=0.2).take()
                raise AssertionError("the lock was taken twice")
            assert time.monotonic() - began >= 0.2 and is_busy(folder)
        with StoreLock(folder, wait=PATIENCE):
            pass
        assert not is_busy(folder)
        with given_back_later(folder), StoreLock(folder, wait=PATIENCE):
            assert is_busy(folder)


@contextlib.contextmanager
def given_back_later(folder):
    """A folder whose lock is held until a first one has found that it is, and begins to wait."""
    held = StoreLock(folder)
    held.take()
    with mock.patch("editlens.lock.time.sleep", side_effect=lambda _: held.give_back()) as waited:
        yield
    assert waited.called, "nobody has waited"
