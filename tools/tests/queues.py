"""The example of a store behind a queue, killed at several moments. Redis (Debian's redis-server) is wanted, or all is skipped."""

import json
import os
import random
import subprocess
import sys
import tempfile
import time
from contextlib import contextmanager

from editlens.lines import lines_of
from editlens.program import TOP
from editlens.store import Store

from . import PATIENCE, Skipped

HERE = os.path.join(TOP, "examples", "queue")
sys.path.insert(0, HERE)

import server  # noqa: E402

NAME = "pair"


def lines():
    with open(os.path.join(HERE, "parcels.journal"), encoding="utf-8") as file:
        return file.read().splitlines()


def program():
    with open(os.path.join(HERE, "parcels.lens"), encoding="utf-8") as file:
        return file.read()


def of_one_run(given):
    """The answers of one run over all edits, and the state at its end."""
    with tempfile.TemporaryDirectory() as folder:
        Store.init(folder, program())
        said = subprocess.run([os.environ["EDITLENS"], "apply"], cwd=folder, input="\n".join(given) + "\n", capture_output=True, text=True, check=False)
    return lines_of(said.stdout)[:-3], lines_of(said.stdout)[-3:]


class Queue:
    """A queue with edits and a store beside it, which have begun."""

    def __init__(self, running, folder, given):
        self.server, self.folder, self.given, self.store = running, folder, given, Store.init(folder, program())
        self.ends(["--begin", "--once"])
        running.send(NAME, given)

    def keep(self, *options):
        return server.keep(self.server.port, NAME, self.folder, *options)

    def until_answered(self, count, keeper):
        """Waits until so many edits are answered, by a keeper that goes on."""
        deadline = time.monotonic() + PATIENCE
        while len(self.answers()) < count:
            assert keeper.poll() is None, keeper.communicate()
            assert time.monotonic() < deadline, f"the keeper does not come to answer {count}"
            time.sleep(0.002)

    def ends(self, options=("--once",), status=0):
        """Runs a keeper to its end. Returns what it says."""
        keeper = self.keep(*options)
        said = keeper.communicate()[1].decode()
        assert keeper.returncode == status, (keeper.returncode, said)
        return said

    def answers(self):
        return [it for it, _ in self.server.answered(NAME)]

    def is_whole(self):
        """Whether the answers and the store are those of one run over all edits."""
        answers, state = of_one_run(self.given)
        shown = lines_of(subprocess.run([self.store.path, "show"], cwd=self.folder, stdout=subprocess.PIPE, text=True, check=True).stdout)
        accepted = sum(it.startswith("ok ") for it in answers)
        return self.answers() == answers and shown == state and self.store.verify() == accepted


@contextmanager
def queue(given=None, is_lasting=False):
    if not server.is_installed():
        raise Skipped("redis-server is not installed")
    with server.Server(is_lasting) as running, tempfile.TemporaryDirectory() as folder:
        yield Queue(running, folder, lines() if given is None else given)


def test_a_queue_is_answered():
    """Lines that `apply` would skip, cut or refuse are answered like all others."""
    odd = ["", " \t", "x" * 1_048_577, '{"side":"left",\n"edit":[]}', '{"group":[]}']
    with queue(lines() + odd) as here:
        here.ends()
        said = [it.split(" ", 2)[2] for it in here.answers()[-5:]]
        assert said == ["not-an-entry", "not-an-entry", "line-too-long", "right []", "group []"], said
        answers, _ = of_one_run(lines())
        assert here.answers()[:-5] == answers


def test_characters_that_end_no_line():
    """A text has characters at which Python cuts lines. The keeper answers, begins again over what it has stored, and answers more."""
    odd = "\x85\u2028\u2029"
    put = {"side": "left", "edit": [{"at": ["orders", [{"put": odd}, {"mod": [odd, [{"at": ["customer", [{"set": odd}]]}]]}]]}]}
    print_at = {"side": "right", "edit": [{"at": ["printer", [{"set": odd}]]}]}
    with queue([json.dumps(it, ensure_ascii=False) for it in (put, print_at)]) as here:
        here.ends()
        assert here.is_whole() and here.store.show()[1]["printer"] == odd
        here.given.append(lines()[0])
        here.server.send(NAME, here.given[2:])
        here.ends()
        assert here.is_whole()


def test_killed_between_the_store_and_the_answer():
    """The store has an edit whose answer was not given: at every edit, accepted and refused ones."""
    with queue([]) as here:
        for line in lines():
            here.given.append(line)
            here.server.send(NAME, [line])
            here.store.apply([line])
            here.ends()
            assert len(here.answers()) == len(here.given)
        assert here.is_whole()


def test_answers_that_the_queue_has_lost():
    """Several answers are missing, with refused ones among them."""
    with queue() as here:
        here.ends()
        found = here.server.queue.call("XRANGE", f"{NAME}:answers", "-", "+")
        here.server.queue.call("DEL", f"{NAME}:answers")
        for ident, fields in found[:4]:
            here.server.queue.call("XADD", f"{NAME}:answers", ident, *fields)
        here.ends()
        assert here.is_whole()


def test_killed_at_any_moment():
    with queue(lines() * 3) as here:
        for turn in range(8):
            seen, keeper = len(here.answers()), here.keep()
            here.until_answered(min(seen + 1, len(here.given)), keeper)
            time.sleep(random.random() / 50)
            server.kill(keeper, is_group=turn % 2)
        here.ends()
        assert here.is_whole()


def test_redis_is_killed():
    """The keeper ends with Redis, and goes on with it."""
    with queue(is_lasting=True) as here:
        for more in (3, 5):
            # (a keeper that has nothing to answer may only come to Redis after it was killed, and then stays)
            seen = len(here.answers())
            if seen == len(here.given):
                break
            keeper = here.keep()
            here.until_answered(min(seen + more, len(here.given)), keeper)
            here.server.restart()
            said = keeper.communicate(timeout=PATIENCE)[1]
            assert keeper.returncode == 1 and said.count(b"\n") == 1, said
        here.ends()
        assert here.is_whole()


def test_a_keeper_waits_for_the_run_of_another():
    """A second keeper begins when the first one and its run of `apply` are gone."""
    with queue() as here:
        first = here.keep()
        here.until_answered(1, first)
        second = here.keep("--once")
        deadline = time.monotonic() + PATIENCE
        # The second one connects before it looks at the lock: both and this test are connected then.
        while here.server.queue.call("CLIENT", "LIST").count(b"\n") < 3:
            assert second.poll() is None and time.monotonic() < deadline, "the second keeper does not come to Redis"
            time.sleep(0.01)
        assert first.poll() is None and second.poll() is None
        server.kill(first, is_group=False)
        assert second.wait(PATIENCE) == 0, second.communicate()
        second.communicate()
        assert here.is_whole()


def test_a_store_that_is_made_anew():
    """A store that is lost, or older than the answers, is brought back by the edits in the queue."""
    with queue() as here:
        here.ends()
        os.remove(here.store.file)
        Store.init(here.folder, program())
        here.store.apply(lines()[:6])
        here.server.send(NAME, ['{"group":[]}'])
        here.given = [*here.given, '{"group":[]}']
        here.ends()
        assert here.is_whole()


def test_a_store_and_a_queue_that_do_not_belong_together():
    with queue() as here:
        here.store.apply([lines()[1], '{"side":"right","edit":[{"at":["printer",[{"set":"south"}]]}]}'])
        assert "the store has changes that are not the next edits" in here.ends(status=1)
        assert here.answers() == []
        assert "ID" in here.ends(["--begin"], status=1)
    with queue() as here:
        here.store.apply(lines()[:1])
        here.store.pack()
        here.ends()
        assert here.is_whole(), "a snapshot behind the changes without an answer is no fault"
    with queue() as here:
        here.ends()
        os.remove(here.store.file)
        Store.init(here.folder, "main {a ~ b: id int}")
        assert "does not answer as it did" in here.ends(status=1)
        here.server.queue.call("DEL", f"{NAME}:answers")
        assert "was not begun" in here.ends(status=1)
