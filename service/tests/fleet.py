"""Workers of the service in processes of their own, and a round-robin in front of them that can cut connections."""

from __future__ import annotations

import asyncio
import os
import random
import re
import select
import signal
import subprocess
import sys
import time

SERVICE = os.path.dirname(os.path.dirname(os.path.abspath(__file__)))
PYTHON = "/usr/bin/python3" if os.path.exists("/usr/bin/python3") else sys.executable
PATIENCE = 60
SAYS_PORT = re.compile(rb"serving at \S+:(\d+)")


class Worker:
    """A worker. It may be killed, stopped, let go on, and started again on the same port."""

    def __init__(self, dsn: str, *words: str, program: "list[str] | None" = None, port: int = 0) -> None:
        self.words = [*(program or [PYTHON, os.path.join(SERVICE, "serve")]), "--database", dsn, *words]
        self.port = port
        self.start()

    def start(self) -> None:
        """Starts the process, and waits until it serves."""
        self.process = subprocess.Popen([*self.words, "--port", str(self.port)], stdout=subprocess.PIPE)
        assert self.process.stdout
        said, deadline = b"", time.monotonic() + PATIENCE
        while not SAYS_PORT.search(said):
            ready, _, _ = select.select([self.process.stdout], [], [], max(0.0, deadline - time.monotonic()))
            piece = os.read(self.process.stdout.fileno(), 4096) if ready else b""
            if not piece:
                self.process.kill()
                raise OSError(f"the worker does not serve: {said!r}")
            said += piece
        self.port = int(SAYS_PORT.search(said)[1])  # type: ignore[index]

    @property
    def address(self) -> str:
        """Where it serves."""
        return f"http://127.0.0.1:{self.port}"

    def signal(self, number: int) -> None:
        """Sends a signal."""
        self.process.send_signal(number)

    def kill(self) -> None:
        """Ends it by SIGKILL."""
        self.process.kill()
        self.process.wait()

    def close(self) -> None:
        """Ends it as an operator does."""
        if self.process.poll() is None:
            self.process.send_signal(signal.SIGCONT)
            self.process.terminate()
            try:
                self.process.wait(15)
            except subprocess.TimeoutExpired:
                self.kill()
        if self.process.stdout:
            self.process.stdout.close()

    def memory(self) -> int:
        """The bytes that it holds."""
        with open(f"/proc/{self.process.pid}/status", encoding="ascii") as file:
            return 1024 * int(next(line.split()[1] for line in file if line.startswith("VmRSS")))

    def __enter__(self) -> "Worker":
        return self

    def __exit__(self, *_: object) -> None:
        self.close()


class RoundRobin:
    """A proxy of TCP that gives each connection to the next worker, and cuts some in the middle. For `async with`."""

    def __init__(self, ports: "list[int]", chance: random.Random) -> None:
        self.ports, self.chance = ports, chance
        self.turn = 0
        self.cut = 0
        self.cut_each = 0.0
        """The chance that a piece that passes through is cut in two, with its connection."""

    async def __aenter__(self) -> "RoundRobin":
        self.server = await asyncio.start_server(self._serve, "127.0.0.1", 0)
        self.port = self.server.sockets[0].getsockname()[1]
        self.address = f"http://127.0.0.1:{self.port}"
        return self

    async def __aexit__(self, *_: object) -> None:
        self.server.close()
        await self.server.wait_closed()

    async def _serve(self, reader: asyncio.StreamReader, writer: asyncio.StreamWriter) -> None:
        for _ in self.ports:
            self.turn += 1
            try:
                there = await asyncio.open_connection("127.0.0.1", self.ports[self.turn % len(self.ports)])
                break
            except OSError:
                continue
        else:
            writer.transport.abort()
            return
        tasks = [asyncio.ensure_future(self._pass(reader, there[1])), asyncio.ensure_future(self._pass(there[0], writer))]
        await asyncio.wait(tasks, return_when=asyncio.FIRST_COMPLETED)
        for task in tasks:
            task.cancel()
        await asyncio.gather(*tasks, return_exceptions=True)
        for it in (writer, there[1]):
            it.transport.abort()

    async def _pass(self, reader: asyncio.StreamReader, writer: asyncio.StreamWriter) -> None:
        while True:
            piece = await reader.read(1 << 16)
            if not piece:
                return
            if self.chance.random() < self.cut_each:
                self.cut += 1
                writer.write(piece[: self.chance.randrange(len(piece))])
                await asyncio.sleep(0)
                return
            writer.write(piece)
            await writer.drain()
