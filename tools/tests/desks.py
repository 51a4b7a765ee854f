"""The desk without a browser: its edits one after another, its server's refusals, its stream of news, and replays."""

import contextlib
import http.client
import json
import os
import signal
import socket
import subprocess
import tempfile
import threading
import time
import urllib.request
from contextlib import contextmanager
from unittest import mock

from editlens.browser import Browser
from editlens.desk.complement import remembered
from editlens.desk.desk import Desk
from editlens.desk.drawing import drawn_document
from editlens.desk.keepers import RunKeeper, StoreKeeper, state_after
from editlens.desk.loading import carried_over, fitted, judged
from editlens.desk.replay import Replay
from editlens.desk.server import DeskDied, DeskServer, MOST_BODY
from editlens.json_text import read_json
from editlens.lenses import read_lens
from editlens.load import DoesNotFit
from editlens.program import TOP, find_program
from editlens.store import Store
from editlens.types import read_type

from . import PATIENCE

TASKS = "main {plan ~ board: part <todo: text, done: text>, left hours: int, right color: text}"
DESK = os.path.join(TOP, "tools", "desk")
SMALL = "main {a ~ b: id int, left hours: int}\n"
EIGHT = [{"at": ["hours", [{"set": 8}]]}]
PAINT = [{"at": ["plan", [{"ins": 1}, {"mod": [0, [{"stay": ["todo", [{"set": "Paint"}]]}]]}]]}]


@contextmanager
def served(desk):
    """A desk with its server in a thread."""
    server = DeskServer(desk)
    thread = threading.Thread(target=server.serve_forever, kwargs={"poll_interval": 0.02}, daemon=True)
    thread.start()
    try:
        yield server
    finally:
        server.shutdown()
        server.server_close()
        desk.close()


def asked(server, method, path, body=None, **headers):
    """The status, the headers and the body of a request. A header that is None is left out."""
    connection = http.client.HTTPConnection("127.0.0.1", server.server_port, timeout=PATIENCE)
    sent = {"Host": server.hosts[0], "Origin": f"http://{server.hosts[0]}", "Content-Type": "application/json", "Content-Length": str(len(body or ""))}
    sent.update({name.replace("_", "-"): value for name, value in headers.items()})
    connection.putrequest(method, path, skip_host=True, skip_accept_encoding=True)
    for name, value in sent.items():
        if value is not None:
            connection.putheader(name, value)
    connection.endheaders((body or "").encode())
    answer = connection.getresponse()
    said = answer.status, dict(answer.getheaders()), answer.read().decode()
    connection.close()
    return said


def sent(server, name, **body):
    status, _, text = asked(server, "POST", f"/{server.token}/{name}", json.dumps(body))
    assert status == 200, text
    return json.loads(text)


def test_edits_are_taken_one_after_another():
    desk = Desk(RunKeeper(TASKS), "tasks")
    with served(desk) as server:
        assert sent(server, "edit", base=0, side="left", edit=PAINT) == {"ok": True, "version": 1}
        said = sent(server, "edit", base=0, side="right", edit=[{"at": ["board", [{"at": ["todo", [{"del": 1}]]}]]}])
        assert (said["cause"], said["sentence"]) == ("range", "a count or a place goes past what is there; it was []"), said
        assert said["since"] == ["left: plan: 1 item added at the end", 'left: plan, item 0, todo: set to "Paint"'], said
        said = sent(server, "edit", base=1, side="right", edit=[{"at": ["board", [{"at": ["todo", [{"del": 2}]]}]]}])
        assert (said["cause"], said["place"], said["allowed"]) == ("range", "/board/todo", "from 1 to 1 items, which is all that it has"), said
        said = sent(server, "edit", base=1, side="left", edit=[{"ins": 0}])
        assert said["cause"] == "not-an-edit" and "from 1 to 65536" in said["sentence"], said
        state = json.loads(asked(server, "GET", f"/{server.token}/state")[2])
        assert (state["version"], state["sides"]["right"]["document"]) == (1, [[[], ["Paint"]], ""]), state
        assert state["sides"]["right"]["changes"] == [["/board/todo/0", "new"]], state["sides"]["right"]
        assert [it["shared"] for _, it in state["sides"]["left"]["type"]["fields"]] == [False, True]


def test_two_edits_at_once():
    """Many windows send an edit of the same version at the same time: one after another is taken, each carried over those before it."""
    desk, said = Desk(RunKeeper(SMALL), "small"), []
    with served(desk) as server:
        def one():
            said.append(sent(server, "edit", base=0, side="left", edit=[{"at": ["a", [{"add": 1}]]}]))

        threads = [threading.Thread(target=one) for _ in range(8)]
        [it.start() for it in threads]
        [it.join() for it in threads]
        assert sorted(it["version"] for it in said) == list(range(1, 9)) and desk.keeper.documents["right"] == {"b": 8}, said


def test_what_the_server_refuses():
    with served(Desk(RunKeeper(SMALL), "small")) as server:
        here, edit = f"/{server.token}/", json.dumps({"base": 0, "side": "left", "edit": EIGHT})
        assert server.server_address[0] == "127.0.0.1"
        refused = [
            (403, asked(server, "GET", "/")),
            (403, asked(server, "GET", "/state")),
            (403, asked(server, "GET", f"/{server.token[:-1]}/state")),
            (403, asked(server, "POST", "/edit", edit)),
            (403, asked(server, "GET", here + "state", Host="editlens.example:80")),
            (403, asked(server, "GET", here + "state", Host=None)),
            (403, asked(server, "GET", here + "state", Host="127.0.0.1:1")),
            (403, asked(server, "GET", here + "state", Origin="http://editlens.example")),
            (403, asked(server, "POST", here + "edit", edit, Origin="null")),
            (403, asked(server, "POST", here + "edit", edit, Origin=None)),
            (403, asked(server, "POST", here + "edit", edit, Origin="http://127.0.0.1:1")),
            (403, asked(server, "POST", here + "edit", edit, oRIGIN="http://editlens.example")),
            (403, asked(server, "POST", here + "edit", edit, oRIGIN=f"http://{server.hosts[0]}")),
            (415, asked(server, "POST", here + "edit", edit, Content_Type="text/plain")),
            (413, asked(server, "POST", here + "edit", "", Content_Length=str(MOST_BODY + 1))),
            (411, asked(server, "POST", here + "edit", "", Content_Length=None)),
            (411, asked(server, "POST", here + "edit", edit, Content_Length="-1")),
            (411, asked(server, "POST", here + "edit", edit, Transfer_Encoding="chunked")),
            (400, asked(server, "POST", here + "edit", "{")),
            (400, asked(server, "POST", here + "edit", "[" * 100_000)),
            (400, asked(server, "POST", here + "edit", "[]")),
            (400, asked(server, "POST", here + "edit", '{"base":true,"side":"left","edit":[]}')),
            (400, asked(server, "POST", here + "edit", '{"base":0,"side":"up","edit":[]}')),
            (404, asked(server, "POST", here + "sell", "{}")),
            (404, asked(server, "GET", here + "../server.py")),
            (404, asked(server, "GET", here + "%2e%2e/server.py")),
            (404, asked(server, "GET", here + "/etc/passwd")),
        ]
        for number, (status, said) in enumerate(refused):
            assert said[0] == status, (number, said)
        assert server.desk.version == 0
        status, headers, page = asked(server, "GET", here, Origin=None)
        assert status == 200 and "script-src 'self'" in headers["Content-Security-Policy"] and "default-src 'none'" in headers["Content-Security-Policy"]
        assert server.token not in page and headers["Referrer-Policy"] == "no-referrer"
        assert asked(server, "GET", here + "state", Host=f"localhost:{server.server_port}", Origin=None)[0] == 200
        assert asked(server, "POST", here + "edit", edit)[0] == 200


def test_connections_are_bounded():
    """Above the most, a connection is closed at once. When another one ends, there is room again."""
    with mock.patch("editlens.desk.server._Handler.timeout", PATIENCE):
        bounded()


def bounded():
    with served(Desk(RunKeeper(SMALL), "small")) as server:
        server.free = threading.BoundedSemaphore(4)
        with contextlib.ExitStack() as held:
            first, *_ = [held.enter_context(socket.create_connection(server.server_address, PATIENCE)) for _ in range(4)]
            Browser.until(lambda: not is_free(server), "not all connections come")
            with socket.create_connection(server.server_address, PATIENCE) as more:
                assert more.recv(1) == b""
            first.close()
            Browser.until(lambda: is_free(server), "no room comes")
            assert asked(server, "GET", f"/{server.token}/state")[0] == 200


def test_a_connection_that_is_silent_at_first():
    """A busy browser opens a connection long before it asks something there, and is answered. One that stays silent is closed."""
    with served(Desk(RunKeeper(SMALL), "small")) as server:
        with socket.create_connection(server.server_address, PATIENCE) as slow:
            time.sleep(10)
            slow.sendall(f"GET /{server.token}/state HTTP/1.1\r\nHost: {server.hosts[0]}\r\n\r\n".encode())
            assert slow.recv(12) == b"HTTP/1.1 200"
        with mock.patch("editlens.desk.server._Handler.timeout", 0.5), socket.create_connection(server.server_address, PATIENCE) as silent:
            assert silent.recv(1) == b""


def is_free(server):
    """Whether one more connection may be open."""
    if not server.free.acquire(blocking=False):
        return False
    server.free.release()
    return True


def test_a_thread_that_dies_ends_the_desk():
    """The complement of each change is found by a thread. What it cannot read is no news that a window waits for."""
    desk = Desk(RunKeeper(SMALL), "small")
    server = DeskServer(desk)
    desk.keeper.reader = lambda: lambda: read_json("{")
    assert desk.edit(0, "left", EIGHT)["ok"]
    try:
        server.serve_forever(poll_interval=0.02)
        raise AssertionError("the desk goes on")
    except DeskDied as why:
        assert "NotJson" in str(why), why
    assert desk.state()["fault"], "no window says so"
    server.server_close()
    desk.close()


def test_an_answer_that_fails_ends_the_desk():
    desk = Desk(RunKeeper(SMALL), "small")
    server, ends = DeskServer(desk), []

    def serve():
        try:
            server.serve_forever(poll_interval=0.02)
        except DeskDied as why:
            ends.append(why)

    thread = threading.Thread(target=serve)
    thread.start()
    desk.state = lambda *_: 1 // 0
    try:
        asked(server, "GET", f"/{server.token}/state")
        raise AssertionError("there is an answer")
    except http.client.RemoteDisconnected:
        pass
    thread.join()
    assert "ZeroDivisionError" in str(ends), ends
    server.server_close()
    desk.close()


def test_the_command_ends_with_a_message():
    """The program that the desk asks for the complement writes what is not JSON."""
    with tempfile.TemporaryDirectory() as folder:
        Store.init(folder, SMALL)
        program = os.path.join(folder, "program")
        with open(program, "w", encoding="utf-8") as file:
            file.write('#!/bin/sh\n[ "$1" = show ] && [ -e wrong ] && echo "complement {" && exit; exec "$REAL" "$@"\n')
        os.chmod(program, 0o755)
        env = {**os.environ, "EDITLENS": program, "REAL": find_program()}
        running = subprocess.Popen([DESK, "--store", folder, "--no-browser"], env=env, stdout=subprocess.PIPE, stderr=subprocess.PIPE, text=True)
        address = running.stdout.readline().split(" ")[-1].strip()
        with open(os.path.join(folder, "wrong"), "w", encoding="utf-8"):
            pass
        headers = {"Origin": address.rsplit("/", 2)[0], "Content-Type": "application/json"}
        body = json.dumps({"base": 0, "side": "left", "edit": EIGHT}).encode()
        assert json.load(urllib.request.urlopen(urllib.request.Request(address + "edit", body, headers)))["ok"]
        said = running.communicate()[1]
        assert running.returncode == 1 and said.startswith("a part of the desk has failed: ") and said.count("\n") == 1, said
        assert Store(folder).verify() == 1


def test_deep_edits_are_refused():
    """An edit that nests deeper than Python or the program goes is an answer, and no end of the desk."""
    with served(Desk(RunKeeper(SMALL), "small")) as server:
        for depth in (60, 200, 450, 900):
            edit = '{"at":["a",[' * depth + "]]}" * depth
            status, _, text = asked(server, "POST", f"/{server.token}/edit", f'{{"base":0,"side":"left","edit":[{edit}]}}')
            assert status == 400 or not json.loads(text)["ok"], (depth, text[:200])
        assert sent(server, "edit", base=0, side="left", edit=EIGHT)["ok"]


def test_each_window_is_told():
    with served(Desk(RunKeeper(SMALL), "small")) as server:
        streams = []
        for _ in range(2):
            connection = http.client.HTTPConnection("127.0.0.1", server.server_port, timeout=PATIENCE)
            connection.request("GET", f"/{server.token}/events")
            streams.append(connection.getresponse())
        first = [it.readline() for it in streams]
        assert all(it.startswith(b"data: ") for it in first), first
        # The complement is news as well: that of the beginning is there before the edit, and that of the edit never comes.
        Browser.until(lambda: server.desk.complement, "the complement does not come")
        server.desk.keeper.reader = lambda: threading.Event().wait
        with server.desk.news:
            before = server.desk.signal
        sent(server, "edit", base=0, side="left", edit=EIGHT)
        for stream in streams:
            news = (int(it.split()[1]) for it in iter(stream.readline, b"") if it.startswith(b"data: "))
            assert any(it > before for it in news), "the stream ends before the news come"


def test_documents_that_exist():
    keeper = RunKeeper(SMALL)
    disagreements = keeper.begin({"a": 3, "hours": 4}, {"b": 5})
    assert [str(it) for it in disagreements] == ["/b: by the left document 3, here 5"]
    assert keeper.documents == {"left": {"a": 3, "hours": 4}, "right": {"b": 3}}
    assert keeper.reader()() == {"rec": [None]}
    keeper.close()
    try:
        RunKeeper(SMALL).begin({"a": "x", "hours": 4})
    except DoesNotFit as why:
        assert why.side == "left"
        return
    raise AssertionError


def test_a_store_and_undo():
    with tempfile.TemporaryDirectory() as folder:
        Store.init(folder, SMALL)
        desk = Desk(StoreKeeper(folder), "small")
        with served(desk) as server:
            assert sent(server, "edit", base=0, side="right", edit=[{"at": ["b", [{"set": 7}]]}])["ok"]
            assert sent(server, "edit", base=1, side="left", edit=EIGHT)["ok"]
            assert sent(server, "undo", base=1)["cause"] == "stale"
            assert sent(server, "undo", base=2)["ok"] and desk.keeper.documents == {"left": {"a": 7, "hours": 0}, "right": {"b": 7}}
            said = sent(server, "undo", base=3)
            assert not said["ok"] and "nothing to take back" in said["sentence"], said
            assert not sent(server, "load", base=3, program=SMALL)["ok"]
        assert Store(folder).show()[:2] == ({"a": 7, "hours": 0}, {"b": 7})


def test_another_program_is_loaded():
    desk = Desk(RunKeeper(SMALL), "small")
    desk.edit(0, "left", [{"at": ["a", [{"set": 4}]]}, *EIGHT])
    assert not desk.load(0, SMALL)["ok"] and not desk.load(1, "main id t")["ok"]
    said = desk.load(1, "main {a ~ b: id int, left hours: text, right note: text}")
    assert said["ok"] and [it.split(":")[0] for it in said["notices"]] == ["left /hours", "right /note"], said
    assert desk.keeper.documents == {"left": {"a": 4, "hours": ""}, "right": {"b": 4, "note": ""}}
    said = desk.edit(1, "left", [{"at": ["a", [{"add": 1}]]}])
    assert said["cause"] == "base" and said["since"] == ["another lens program was loaded"] and desk.edit(2, "left", [])["ok"], said
    desk.close()


def test_what_fits_is_kept():
    ty = read_type("{a: list {n: int}, b: <p: text, q: int>, c: keyed int, d: tree text}")
    tree = {"a": [{"n": 1}, {"m": 2}, 3], "b": {"q": "x"}, "c": {"k": 1, "l": 1.5}, "d": {"depths": [0, 1], "items": ["r", 5]}, "e": 0}
    kept = {"a": [{"n": 1}, {"n": 0}, {"n": 0}], "b": {"q": 0}, "c": {"k": 1, "l": 0}, "d": {"depths": [0, 1], "items": ["r", ""]}}
    assert fitted(ty, tree) == kept
    broken = {**tree, "d": {"depths": [1], "items": [""]}}
    assert fitted(ty, broken)["d"] == {"depths": [0], "items": [""]}


def test_programs_are_judged():
    assert judged("main {é_ ~ b: id int}")["from"] == 6
    said = judged('# é\nmain {id ~ b: id int}')
    assert (said["accepted"], said["from"], said["to"]) == (False, 10, 12) and 'id is a keyword: as a field it is written "id"' in said["lines"]
    assert judged("main then(id int, id text)")["from"] is None
    assert judged(SMALL) == {"accepted": True, "left": "{a: int, hours: int}", "right": "{b: int}"}


def test_a_replay():
    with open(os.path.join(TOP, "examples", "tasks.script"), encoding="utf-8") as file:
        script = file.read()
    replay = Replay(script, "tasks")
    assert len(replay.lines) == 4
    state = replay.state(3)
    with open(os.path.join(TOP, "examples", "tasks.out"), encoding="utf-8") as file:
        said = dict(line.split(" ", 1) for line in file.read().splitlines() if line.split(" ")[0] in ("left", "right", "complement"))
    for side in ("left", "right"):
        assert state["sides"][side]["document"] == drawn_document(replay.types[side], json.loads(said[side]))
    assert json.loads(state["complement"]["text"]) == json.loads(said["complement"])
    assert state["sides"]["left"]["changes"] == [["/plan/0", "moved"]] and state["sides"]["right"]["changes"] == [["/board/todo/0", "moved"]]
    refused = replay.state(4)["done"]["refused"]
    assert (refused["cause"], refused["at"], refused["place"], refused["side"]) == ("range", 0, "/plan", "left")
    assert replay.state(9)["step"] == 4 and replay.state(0)["done"] == {}
    assert replay.state(4)["sides"]["left"]["document"] == state["sides"]["left"]["document"]


def test_a_replay_of_groups_and_faults():
    lines = [
        '{"group":[{"side":"left","edit":[{"at":["hours",[{"set":2}]]}]},{"side":"right","edit":[{"at":["b",[{"add":1}]]}]}]}',
        '{"group":[{"side":"left","edit":[]},{"side":"right","edit":[{"at":["c",[]]}]}]}',
        "{",
        '{"side":"up","edit":[]}',
        '{"side":"left","edit":[{"ins":0}]}',
    ]
    replay = Replay("\n".join([SMALL + "---", *lines]), "groups")
    assert [len(replay.state(it)["done"]["entries"]) for it in range(1, 6)] == [2, 0, 0, 0, 0]
    assert replay.state(1)["sides"]["left"]["changes"] == [["/a", "set"], ["/hours", "set"]]
    assert [replay.state(it)["done"]["refused"]["cause"] for it in range(2, 6)] == ["place", "not-json", "not-an-entry", "not-an-edit"]


def test_what_is_remembered():
    lens = read_lens(TASKS)
    assert remembered(lens, {"rec": [{"tags": ["todo", "done"]}]}) == "It remembers in which order the kinds come in the list at plan: todo, done."
    assert "12 more" in remembered(lens, {"rec": [{"tags": ["todo"] * 24}]})
    assert remembered(read_lens(SMALL), {"rec": [None]}).startswith("It remembers nothing:")
    each = read_lens("main each {x ~ y: part <p: text>}")
    orders = {"list": [{"rec": [{"tags": ["p"]}]}] * 5}
    assert "item 1, x: p." in remembered(each, orders) and remembered(each, orders).endswith("2 more lists.")


def test_documents_are_drawn_by_their_types():
    ty = read_type("{__proto__: keyed int, t: tree text}")
    document = {"__proto__": {"é": 2**63 - 1, "10": 1, "9": 2}, "t": {"depths": [0, 1], "items": ["", "x"]}}
    assert drawn_document(ty, document) == [[["10", "1"], ["9", "2"], ["é", str(2**63 - 1)]], [[0, ""], [1, "x"]]]


def called(*words, **more):
    """A run of tools/desk in a folder with some files, to its end."""
    with tempfile.TemporaryDirectory() as folder:
        for name, text in {"small.lens": SMALL, "left.json": '{"a":1,"hours":2}', "wrong.json": '{"a":1}', "bad.lens": "main {id ~ b: id int}"}.items():
            with open(os.path.join(folder, name), "w", encoding="utf-8") as file:
                file.write(text)
        return subprocess.run([DESK, *words], cwd=folder, capture_output=True, text=True, timeout=PATIENCE, **more)


def test_what_the_script_refuses():
    cases = [
        (2, "", called()),
        (2, "one of PROGRAM", called("small.lens", "--store", ".")),
        (2, "missing.lens", called("missing.lens")),
        (2, "/hours: wanted a field", called("small.lens", "wrong.json")),
        (3, "id is a keyword", called("bad.lens")),
        (4, "init, import", called("--store", ".")),
    ]
    for status, wanted, ran in cases:
        assert (ran.returncode, ran.stdout) == (status, "") and wanted in ran.stderr, (status, wanted, ran)


BROWSER = """#!/bin/sh
set -C
{ echo $$; echo "$@"; stat -c %a "${1#file://}"; cat "${1#file://}"; } > "$0.part" && mv "$0.part" told
exec sleep 600
"""


def test_the_address_is_kept_from_others():
    """The browser gets a file that this user alone can read. The address, with its token, is in the file and not in the words of a command.

    The desk is there while the command of the browser runs, and ends without it.
    """
    with tempfile.TemporaryDirectory() as folder:
        browser, told = os.path.join(folder, "browser"), os.path.join(folder, "told")
        with open(browser, "w", encoding="utf-8") as file:
            file.write(BROWSER)
        os.chmod(browser, 0o755)
        with open(os.path.join(folder, "small.lens"), "w", encoding="utf-8") as file:
            file.write(SMALL)
        desk = subprocess.Popen([DESK, "small.lens"], cwd=folder, stdout=subprocess.PIPE, text=True, env={**os.environ, "BROWSER": f"{browser} %s"})
        try:
            address = desk.stdout.readline().split()[-1]
            deadline = time.monotonic() + PATIENCE
            while not os.path.exists(told):
                assert time.monotonic() < deadline and desk.poll() is None, "no browser is called"
                time.sleep(0.02)
            with open(told, encoding="utf-8") as file:
                number, words, mode, page = file.read().split("\n", 3)
            assert mode == "600" and address in page and address.split("/")[3] not in words and words.startswith("file:///"), (words, mode, page)
            with urllib.request.urlopen(address, timeout=PATIENCE) as shown:
                assert b"editlens desk" in shown.read()
            desk.send_signal(signal.SIGINT)
            assert desk.wait(PATIENCE) == 0
            os.kill(int(number), signal.SIGKILL)
        finally:
            desk.kill()
            desk.communicate()


def test_the_state_is_that_of_the_program():
    keeper = RunKeeper(TASKS)
    keeper.entry("left", PAINT)
    state = state_after(keeper.program, keeper.lines, find_program())
    assert state == {"left": keeper.documents["left"], "right": keeper.documents["right"], "complement": {"rec": [{"tags": ["todo"]}]}}
    keeper.close()
    fresh = RunKeeper(TASKS)
    assert carried_over(fresh, {side: state[side] for side in ("left", "right")}) == [] and fresh.documents["left"] == state["left"]
    fresh.close()
