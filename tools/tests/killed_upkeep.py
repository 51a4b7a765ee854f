"""The program `editstore` killed at any moment: the file of the store has its bytes, and the next call makes the new file."""

import os
import random
import signal
import subprocess
import tempfile
import time

from editlens.program import NoProgram, find_program
from editlens.replacement import WORK
from editlens.store import Store

from . import Skipped
from .logs import bytes_of
from .upkeep import ADD, PROGRAM

COMMANDS = (["compact"], ["copy"], ["back", "2"])


def made_by(program, folder, words):
    """A run of the program over the store of a folder, in an empty folder for the new file."""
    work = os.path.join(folder, WORK)
    if os.path.isdir(work):
        for name in os.listdir(work):
            os.remove(os.path.join(work, name))
    else:
        os.mkdir(work)
    return subprocess.Popen([program, *words], cwd=folder, stdin=subprocess.DEVNULL, stdout=subprocess.PIPE)


def killed(words, count):
    """Kills a command so many times, and then lets it end. A new file that it said to have made is the complete one, also if it was killed."""
    try:
        program = find_program("editstore")
    except NoProgram:
        raise Skipped("the program editstore is not built") from None
    with tempfile.TemporaryDirectory() as folder:
        store = Store.begin(folder, PROGRAM, {"a": 10, "hours": 1})
        store.apply([ADD] * 200)
        held, new = bytes_of(store.file), Store(os.path.join(folder, WORK), store.path)
        began = time.monotonic()
        assert made_by(program, folder, words).wait() == 0
        long, whole = time.monotonic() - began, bytes_of(new.file)
        for _ in range(count):
            child = made_by(program, folder, words)
            time.sleep(random.uniform(0, long * 1.2))
            child.kill()
            said, _ = child.communicate()
            assert child.returncode in (0, -signal.SIGKILL) and bytes_of(store.file) == held
            assert not said or bytes_of(new.file) == whole
        assert made_by(program, folder, words).wait() == 0 and bytes_of(new.file) == whole and bytes_of(store.file) == held
        state = store.show()
        os.replace(new.file, store.file)
        assert store.show() == (({"a": 10, "hours": 1}, {"b": 10, "note": ""}, state[2]) if words[0] == "back" else state)


def test_each_command_is_killed():
    for words in COMMANDS:
        killed(words, 4)
