"""The requests and the programs of README.md, as they are written there."""

from __future__ import annotations

import json
import os
import re
import shlex
import shutil
import subprocess
import tempfile
import urllib.request
from typing import Any

from .fleet import PYTHON, SERVICE
from .room import Room, Skipped

NAME = "tasks"
FORM = """
const token = "all", seen = [], form = { hours: {} };
Object.defineProperty(form.hours, "value", { set: (value) => { seen.push(value); ready(); }, get: () => "9" });
let asked = false;
function ready() {
  if (seen.at(-1) === 9) { console.log(JSON.stringify(seen)); process.exit(0); }
  if (!asked && form.hours.onchange) { asked = true; form.hours.onchange(); }
}
"""
"""A form in place of that of a browser: it is changed once, when it shows the document, and the program ends when it shows the change."""


def _blocks(kind: str) -> "list[str]":
    """The blocks of code of the page."""
    with open(os.path.join(SERVICE, "README.md"), encoding="utf-8") as file:
        return re.findall(rf"^```{kind}\n(.*?)^```", file.read(), re.DOTALL | re.MULTILINE)


def _asked(line: str, address: str) -> Any:
    """What the service answers to a line of curl. Of a stream, its first event."""
    words = iter(shlex.split(line.replace('"$A"', "'Authorization: Bearer all'").replace("$S", address))[1:])
    url, method, headers, body = "", "GET", {}, None
    for word in words:
        if word == "-X":
            method = next(words)
        elif word == "-H":
            name, _, value = next(words).partition(": ")
            headers[name] = value
        elif word == "-d":
            body = next(words).encode()
        elif word != "-N":
            url = word
    with urllib.request.urlopen(urllib.request.Request(url, body, headers, method=method), timeout=60) as said:
        if "/changes" not in url:
            return json.loads(said.read())
        return next(json.loads(line[6:]) for line in said if line.startswith(b"data: "))


def test_the_examples_of_the_page(room: Room) -> None:
    """Each request of curl is answered as the page says, and the two programs keep a document and a form in step."""
    address = room.serve()[0].address
    lines = [line for block in _blocks("") for line in block.splitlines() if line.startswith("curl")]
    made, read, edited, patched, event, late = (_asked(line, address) for line in lines)
    assert made["name"] == NAME and read == {"hours": 0, "plan": []}, (made, read)
    assert edited["number"] == 1 and edited["answers"][0]["edits"]["left"] == [{"at": ["hours", [{"set": 8}]]}], edited
    assert patched["number"] == 2 and event["number"] == 1, (patched, event)
    assert late["number"] == 3 and late["sent"][-1] == {"op": "replace", "path": "/board/todo/0", "value": "Tiles"}, late
    assert _python(address) == "3 {'hours': 8, 'plan': [{'todo': 'Tiles'}]}\n"
    assert _javascript(address) == "[8,9]\n"
    assert room.client().pair(NAME, "left").read() == ({"hours": 9, "plan": [{"todo": "Tiles"}]}, 4)


def _python(address: str) -> str:
    """The first line that the program for Python writes."""
    [block] = _blocks("python")
    text = f"token = 'all'\n{block.replace('http://127.0.0.1:8080', address)}    break\n"
    path = os.pathsep.join((os.path.join(SERVICE, "clients", "python"), os.path.join(os.path.dirname(SERVICE), "tools")))
    given = {**os.environ, "PYTHONPATH": path}
    ran = subprocess.run([PYTHON, "-c", text], env=given, capture_output=True, text=True, timeout=120, check=False)
    assert not ran.returncode, ran.stderr
    return ran.stdout


def _javascript(address: str) -> str:
    """What the form showed, of the program for JavaScript."""
    node = shutil.which("node")
    if node is None:
        raise Skipped("there is no node: its Debian package is nodejs")
    [block] = _blocks("js")
    client = os.path.join(SERVICE, "clients", "javascript", "editlens_client.js")
    text = block.replace("./editlens_client.js", client).replace("https://editlens.example.org", address)
    head, rest = text.split("\n", 1)
    with tempfile.TemporaryDirectory() as folder:
        path = os.path.join(folder, "form.mjs")
        with open(path, "w", encoding="utf-8") as file:
            file.write(f"{head}\n{FORM}\n{rest}")
        ran = subprocess.run([node, path], capture_output=True, text=True, timeout=120, check=False)
    assert not ran.returncode, ran.stderr
    return ran.stdout
