"""A test in a process of its own, for no longer than a limit. What it leaves behind, processes and files, is taken away."""

import contextlib
import ctypes
import faulthandler
import json
import os
import random
import select
import signal
import sys
import tempfile
import time
import traceback
from typing import NamedTuple

from . import Skipped

PASSED, SKIPPED, FAILED = "passed", "skipped", "failed"
ADOPTS = 36
"""The number of prctl by which a process becomes the parent of those whose own parent has ended."""
SLOWEST = 10
"""A limit is for a machine with nothing else to do. On a busy one it is longer, at most so many times."""
GRACE = 30
"""How many seconds a test that is stopped has to say where it was."""


class Outcome(NamedTuple):
    """What came of a test: a sort, and why it was skipped or how it failed."""

    sort: str
    said: str = ""


def adopt():
    """Makes this process the parent of all that tests leave behind, so that they are found."""
    with contextlib.suppress(OSError, AttributeError):
        ctypes.CDLL(None).prctl(ADOPTS, 1, 0, 0, 0)


def run_apart(test, seed, limit):
    """Runs a test with a seed, for at most so many seconds of a machine with nothing else to do, and returns its Outcome."""
    here = children()
    with tempfile.TemporaryDirectory(ignore_cleanup_errors=True) as folder:
        ours, theirs = os.pipe()
        sys.stdout.flush()
        child = os.fork()
        if child == 0:
            try:
                _be_the_test(test, seed, folder, theirs)
            finally:
                os._exit(1)
        os.close(theirs)
        try:
            said, is_over = _read(ours, child, limit)
            where = _where(folder, child) if is_over else ""
        finally:
            os.close(ours)
            stop_all_but(here)
    if is_over:
        return Outcome(FAILED, f"{where}stopped: it took more than {limit} s\n")
    return Outcome(*json.loads(said)) if said else Outcome(FAILED, "its process ended without an outcome\n")


def _be_the_test(test, seed, folder, place):
    """Runs a test in a process that is there for it alone, and writes its Outcome to a place."""
    tempfile.tempdir = os.environ["TMPDIR"] = os.path.join(folder, "room")
    os.mkdir(tempfile.tempdir)
    with open(os.path.join(folder, "where"), "w", encoding="utf-8") as file:
        faulthandler.register(signal.SIGUSR2, file=file)
        random.seed(seed)
        try:
            test()
            outcome = Outcome(PASSED)
        except Skipped as why:
            outcome = Outcome(SKIPPED, str(why))
        except BaseException:
            outcome = Outcome(FAILED, traceback.format_exc(limit=-4))
        sys.stdout.flush()
        os.write(place, json.dumps(outcome).encode())


def _where(folder, child):
    """Where a test is, as it says itself when it is asked."""
    os.kill(child, signal.SIGUSR2)
    path, deadline = os.path.join(folder, "where"), time.monotonic() + GRACE
    while not os.path.getsize(path) and time.monotonic() < deadline:
        time.sleep(0.1)
    time.sleep(0.1)
    with open(path, encoding="utf-8") as file:
        return file.read()


def _read(place, child, limit):
    """What comes at a place until its end, and whether a process takes too long until then."""
    found, began = b"", time.monotonic()
    while True:
        if select.select([place], [], [], 1)[0]:
            piece = os.read(place, 1 << 16)
            if not piece:
                return found, False
            found += piece
        elif time.monotonic() - began > limit * slowness(child):
            return found, True


def slowness(process):
    """How many times longer than on a machine with nothing else to do a process takes, by how long it waits for a processor."""
    try:
        with open(f"/proc/{process}/schedstat", encoding="utf-8") as file:
            ran, waited, _ = map(int, file.read().split())
    except (OSError, ValueError):
        return 1
    return min(SLOWEST, 1 + waited / max(ran, 1))


def parents():
    """The processes of this machine, each with its parent."""
    found = {}
    for name in filter(str.isdigit, os.listdir("/proc")):
        # A process may end meanwhile.
        with contextlib.suppress(OSError), open(f"/proc/{name}/stat", "rb") as file:
            found[int(name)] = int(file.read().rsplit(b")", 1)[1].split()[1])
    return found


def children():
    """The processes whose parent is this one."""
    return {it for it, above in parents().items() if above == os.getpid()}


def stop_all_but(spared):
    """Stops the children of this process that are not spared, with all below them. What these leave becomes a child, and is stopped too."""
    while True:
        above = parents()
        ours = {it for it in above if above[it] == os.getpid()} - spared
        if not ours:
            return
        for it in above:
            if _is_below(it, ours, above):
                with contextlib.suppress(OSError):
                    os.kill(it, signal.SIGKILL)
        for it in ours:
            with contextlib.suppress(OSError):
                os.waitpid(it, 0)


def _is_below(process, some, above):
    while process not in some and process in above:
        process = above[process]
    return process in some
