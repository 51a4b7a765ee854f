"""A line of a few bytes may ask for any memory. Where the program may not have it, it answers with a status, and the machine goes on."""

import os
import resource
import subprocess
import tempfile

from editlens import HubStore, NoProgram, find_program
from editlens.log import write_log
from editlens.program import TOP
from editlens.store import Store

from . import Skipped

PROGRAM = "main each id int\n"
MOST = 128
"""How many MiB the program may have. It has more for a moment where its runtime looks at that from time to time, as the unproved one does."""


def many(times):
    """An edit that makes 65,536 items so many times: each is 14 bytes, and takes some MiB."""
    return "[" + ",".join(['{"ins":65536}'] * times) + "]"


def line(times):
    return f'{{"side":"left","edit":{many(times)}}}\n'


def limited(name, command, folder, given="", **more):
    """A run of ./editlens or ./edithub with a limit of memory: its status, what it writes and what it says."""
    how = {"cwd": folder, "env": {**os.environ, "EDITLENS_MEMORY": str(MOST), **more}, "capture_output": True, "text": True, "check": False}
    ran = subprocess.run([os.path.join(TOP, name), command], input=given, **how)
    assert resource.getrusage(resource.RUSAGE_CHILDREN).ru_maxrss < 3 * MOST * 1024
    assert (ran.returncode == 9) == (f"may have {MOST} MiB" in ran.stderr), ran.stderr
    return ran.returncode, ran.stdout


def test_a_line_that_asks_for_too_much_memory():
    with tempfile.TemporaryDirectory() as folder:
        store, small = Store.init(folder, PROGRAM), '{"side":"left","edit":[{"ins":3}]}\n'
        status, out = limited("editlens", "apply", folder, small + line(60))
        assert status == 9 and out.startswith("ok 1 ") and out.count("\n") == 1, (status, out[:200])
        status, out = limited("editlens", "apply", folder, small)
        assert status == 0 and out.startswith("ok 1 "), (status, out[:200])
        assert store.verify() == 2 and store.show()[0] == [0] * 6


def test_a_store_that_asks_for_too_much_memory():
    """A store by another hand has the change already. Reading it ends with the status too, and writes nothing."""
    with tempfile.TemporaryDirectory() as folder:
        store = Store(folder)
        write_log(store.file, [b'{"program":"main each id int","version":2}', f'{{"entry":{line(60)[:-1]}}}'.encode()])
        assert os.path.getsize(store.file) < 1000
        for command in ("show", "verify", "pack", "apply"):
            assert limited("editlens", command, folder) == (9, ""), command
        assert os.path.getsize(store.file) < 1000


def test_a_line_for_a_hub_that_asks_for_too_much_memory():
    try:
        program = find_program("edithub")
    except NoProgram:
        raise Skipped("there is no program edithub") from None
    with tempfile.TemporaryDirectory() as folder:
        store = HubStore.init(folder, [PROGRAM, PROGRAM])
        small, large = '{"at":"hub","edit":[{"ins":3}]}\n', f'{{"at":"hub","edit":{many(60)}}}\n'
        status, out = limited("edithub", "apply", folder, small + large, EDITHUB=program)
        assert status == 9 and out.startswith("ok 1 ") and out.count("\n") == 1, (status, out[:200])
        assert store.verify() == 1 and store.show().hub == [0] * 3
