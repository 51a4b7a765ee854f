"""A Redis of its own for the time of a block, and the keeper as it is run beside it."""

import contextlib
import os
import random
import shutil
import signal
import socket
import subprocess
import sys
import tempfile
import time

from resp import Redis, RedisRefused, entries

HERE = os.path.dirname(os.path.abspath(__file__))
PROGRAM = "redis-server"
PATIENCE = 600
"""How many seconds a Redis may take to begin, or to answer, on a busy machine."""
PORTS = range(20_000, 32_000)
"""Ports that no connection gets by itself."""


def is_installed():
    """Whether there is a Redis on the PATH."""
    return shutil.which(PROGRAM) is not None


def free_port():
    """A port on which nothing listens now."""
    while True:
        port = random.SystemRandom().choice(PORTS)
        with socket.socket() as found, contextlib.suppress(OSError):
            found.bind(("127.0.0.1", port))
            return port


class Server:
    """A Redis on a free port. If `is_lasting`, each write is on its disk before the reply, as README.md asks of a real one."""

    def __init__(self, is_lasting=False):
        self.is_lasting = is_lasting

    def __enter__(self):
        self.folder = tempfile.TemporaryDirectory()
        self._start()
        return self

    def _start(self):
        deadline = time.monotonic() + PATIENCE
        while time.monotonic() < deadline:
            self.port = free_port()
            words = ["--port", str(self.port), "--bind", "127.0.0.1", "--dir", self.folder.name, "--save", ""]
            words += ["--appendonly", "yes", "--appendfsync", "always"] if self.is_lasting else ["--appendonly", "no"]
            self.child = subprocess.Popen([PROGRAM, *words], stdout=subprocess.DEVNULL, stderr=subprocess.DEVNULL)
            # Redis ends where another program has taken the port meanwhile.
            while self.child.poll() is None and time.monotonic() < deadline:
                if self._is_connected():
                    return
                time.sleep(0.02)
        self.child.kill()
        self.child.wait()
        raise OSError(f"{PROGRAM} does not answer on port {self.port}")

    def _is_connected(self):
        """Whether this Redis answers, and not another one that has the port."""
        try:
            queue = Redis(self.port, PATIENCE)
        except OSError:
            return False
        try:
            queue.call("PING")
            said = queue.call("INFO", "server")
        except (OSError, RedisRefused):
            said = b""
        if b"process_id:%d\r\n" % self.child.pid in said:
            self.queue = queue
            return True
        queue.close()
        return False

    def restart(self):
        """Stops Redis by SIGKILL, and starts it again on its files, on another port."""
        self.child.kill()
        self.child.wait()
        self.queue.close()
        self._start()

    def __exit__(self, *_):
        self.queue.close()
        self.child.terminate()
        self.child.wait()
        self.folder.cleanup()

    def send(self, name, lines, base=None):
        """Adds edits to the queue, which may all have a base."""
        for line in lines:
            self.queue.call("XADD", f"{name}:edits", "*", "line", line, *([] if base is None else ["base", base]))

    def answered(self, name):
        """The answers in the queue, and how many changes each counts, without the one that begins the queue."""
        found = entries(self.queue.call("XRANGE", f"{name}:answers", "-", "+"))
        return [(fields[b"answer"].decode(), int(fields[b"count"])) for _, fields in found[1:]]


def keep(port, name, folder, *options):
    """Starts a keeper, in a group of processes of its own."""
    words = [sys.executable, os.path.join(HERE, "keep"), str(port), name, folder, *options]
    return subprocess.Popen(words, stderr=subprocess.PIPE, start_new_session=True)


def kill(keeper, is_group):
    """Stops a keeper by SIGKILL, at once: the program alone, or with the run of `apply` that it has."""
    (os.killpg if is_group else os.kill)(keeper.pid, signal.SIGKILL)
    keeper.communicate()
