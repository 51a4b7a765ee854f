"""The example of two browsers."""

from __future__ import annotations

import os
import re
import select
import signal
import subprocess
import time

from editlens_client import Client, Refusal

from .fleet import PYTHON, SERVICE
from .room import Room, raises

ADDRESS = re.compile(rb"the (\w+), who edits the (\w+) side: (http://\S+?)/pairs/tasks/desk/#token=(\w+)")


def test_the_example(room: Room) -> None:
    """Each person edits a side and sees the other one; what they may not do is refused; nothing is left behind."""
    process = subprocess.Popen([PYTHON, os.path.join(SERVICE, "example"), "--no-browser"], stdout=subprocess.PIPE)
    try:
        said, deadline = b"", time.monotonic() + 300
        while b"Ctrl-C" not in said:
            ready, _, _ = select.select([process.stdout], [], [], max(0.0, deadline - time.monotonic()))
            piece = os.read(process.stdout.fileno(), 4096) if ready else b""  # type: ignore[union-attr]
            assert piece, said
            said += piece
        people = {name.decode(): Client(at.decode(), token.decode()) for name, _, at, token in ADDRESS.findall(said)}
        assert set(people) == {"planner", "builder"}, said
        people["planner"].pair("tasks", "left").edit([{"at": ["plan", [{"ins": 1}, {"mod": [2, [{"stay": ["todo", [{"set": "Paint"}]]}]]}]]}])
        right = people["builder"].pair("tasks", "right")
        assert right.read()[0]["board"] == {"done": ["Lock"], "todo": ["Roof", "Paint"]}
        assert right.edit([{"at": ["color", [{"set": "green"}]]}]).number == 2
        assert raises(Refusal, people["builder"].pair("tasks", "left").edit, []).status == 403
    finally:
        process.send_signal(signal.SIGINT)
        process.wait(180)
        process.stdout.close()  # type: ignore[union-attr]
    assert process.returncode == 0
