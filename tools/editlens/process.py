"""A run of the program as a co-process: a line goes in, and a line comes out."""

from __future__ import annotations

import os
import select
import subprocess
import time

from .answers import NoAnswer, RunEnded
from .lines import lines_of

PIECE = 1 << 16


class Process:
    """A run of the program with some words, in a folder.

    Where `timeout` is given, no call waits longer than so many seconds. The run is stopped then: an answer that came later would be taken
    for that of another line. RunEnded is raised where the program ends before it answers, and NoAnswer, which is one, after a timeout.
    """

    def __init__(self, words: list[str], folder: str | None = None, timeout: float | None = None) -> None:
        self.timeout = timeout
        self.child = subprocess.Popen(words, cwd=folder, stdin=subprocess.PIPE, stdout=subprocess.PIPE, bufsize=0)
        assert self.child.stdin and self.child.stdout, "both are pipes"
        self._stdin = self.child.stdin
        self._in, self._out = self._stdin.fileno(), self.child.stdout.fileno()
        os.set_blocking(self._in, False)
        self._come, self._is_ended = bytearray(), False
        self.lost: RunEnded | None = None
        """Why the run was given up, where it was: each call that waits for it is told."""

    def ask(self, line: bytes) -> str:
        """Sends a line, as bytes without its line feed, and returns the line that answers it, with its line feed."""
        if self._is_ended:
            raise RunEnded(self._status()).unsent()
        self._exchange(line + b"\n", is_line_wanted=True)
        end = self._come.find(b"\n") + 1
        if not end:
            raise RunEnded(self._status())
        answer = self._come[:end].decode()
        del self._come[:end]
        return answer

    def send(self, text: bytes) -> None:
        """Sends bytes that no line answers. Where the program ends without reading them, the next call says so."""
        self._exchange(text, is_line_wanted=False)

    def end(self) -> tuple[int, list[str]]:
        """Ends the input. Returns the status of the program, and the lines that it still wrote."""
        if not self._stdin.closed:
            self._stdin.close()
        deadline = self._deadline()
        while not self._is_ended:
            self._wait([(self._out, select.POLLIN)], deadline)
            self._read()
        status = self._status()
        return status, lines_of(self._come)

    def stop(self) -> None:
        """Stops the program at once, where it still runs."""
        self.child.kill()
        self._status()

    def _exchange(self, text, is_line_wanted):
        deadline, rest = self._deadline(), memoryview(text)
        while rest or is_line_wanted and b"\n" not in self._come:
            if self._is_ended:
                return
            places = [(self._out, select.POLLIN)] + ([(self._in, select.POLLOUT)] if rest else [])
            ready = self._wait(places, deadline)
            if self._out in ready:
                self._read()
            if self._in in ready and rest:
                rest = rest[self._write(rest) :]

    def _write(self, rest):
        try:
            return os.write(self._in, rest[:PIECE])
        except BlockingIOError:
            return 0
        except BrokenPipeError:
            # The program reads no more. What it has written is still read, to its end.
            return len(rest)

    def _read(self):
        piece = os.read(self._out, PIECE)
        self._come += piece
        self._is_ended = not piece

    def _deadline(self):
        return None if self.timeout is None else time.monotonic() + self.timeout

    def _wait(self, places, deadline):
        poll = select.poll()
        for place, event in places:
            poll.register(place, event)
        left = None if deadline is None else max(0.0, deadline - time.monotonic()) * 1000
        ready = poll.poll(left)
        if not ready:
            self.stop()
            raise NoAnswer(self.timeout)
        return {place for place, _ in ready}

    def _status(self):
        for stream in (self.child.stdin, self.child.stdout):
            if not stream.closed:
                stream.close()
        self._is_ended = True
        try:
            return self.child.wait(self.timeout)
        except subprocess.TimeoutExpired:
            self.child.kill()
            return self.child.wait()
