"""Clients that keep a run open: a store, a session, a link; and what they say when a run is lost."""

import contextlib
import linecache
import os
import sys
import tempfile
import threading
import time

from editlens import (
    DocumentsDiffer,
    ImportRefused,
    Link,
    LinkAccepted,
    NoAnswer,
    NotAnAnswer,
    ProgramRefused,
    Refused,
    RunEnded,
    Session,
    Store,
    StoreBusy,
    StoreLock,
    StoreRefused,
)
from editlens.explain import explain_document, explain_script, explain_store
from editlens.json_text import read_json_file
from editlens.load import load_words
from editlens.parts import program_of
from editlens.program import TOP

from . import PATIENCE, raised
from .locks import given_back_later, need_lock

PROGRAM = "main {a ~ b: id int, left hours: int}\n"
ADD = [{"at": ["a", [{"add": 1}]]}]
ORDERS = os.path.join(TOP, "examples", "link")


@contextlib.contextmanager
def kept(**how):
    """A new store that is kept open."""
    with tempfile.TemporaryDirectory() as folder, Store.open(Store.init(folder, PROGRAM).folder, **how) as store:
        yield store


def test_opening_runs_the_program_twice():
    """One run keeps the store open, and one shows it. How many changes there are is counted in its file."""
    with tempfile.TemporaryDirectory() as folder:
        path, asked = os.path.join(folder, "program"), os.path.join(folder, "asked")
        with open(path, "w", encoding="utf-8") as file:
            file.write(f'#!/bin/bash\necho "$1" >> {asked}\nexec {os.environ["EDITLENS"]} "$@"\n')
        os.chmod(path, 0o755)
        store = Store.init(os.path.join(folder, "kept"), PROGRAM)
        store.left(ADD)
        store.pack()
        store.left(ADD)
        store.undo()
        count = store.verify()
        with Store.open(store.folder, path=path) as opened, open(asked, encoding="utf-8") as file:
            words = sorted(file.read().split())
            assert words == ["apply", "check", "show"], words
            assert opened.stored == count


@contextlib.contextmanager
def lost(apply, timeout=None):
    """A new store, opened by a program whose `apply` is that shell script. `$real` is the true program."""
    real = os.environ["EDITLENS"]
    with tempfile.TemporaryDirectory() as folder:
        path = os.path.join(folder, "program")
        with open(path, "w", encoding="utf-8") as file:
            file.write(f'#!/bin/bash\nreal={real}\n[ "$1" = apply ] || exec "$real" "$@"\n{apply}\n')
        os.chmod(path, 0o755)
        Store.init(os.path.join(folder, "store"), PROGRAM)
        yield Store.open(os.path.join(folder, "store"), path=path, timeout=timeout)


def test_a_store_that_is_kept_open():
    with kept() as store:
        assert (store.documents, store.stored) == ({"left": {"a": 0, "hours": 0}, "right": {"b": 0}}, 0)
        answer = store.left(ADD)
        assert (answer.number, answer.side, answer.word) == (1, "right", [{"at": ["b", [{"add": 1}]]}])
        # What was answered is on the disk: a program that reads the file now has it.
        assert store.store.show()[:2] == ({"a": 1, "hours": 0}, {"b": 1}) and store.store.verify() == 1
        why = raised(Refused, lambda: store.right([{"at": ["b", [{"set": "x"}]]}]))
        assert (why.number, why.cause, why.at) == (2, "kind", 0)
        answer = store.group(("left", [{"at": ["hours", [{"set": 7}]]}]), ("right", [{"at": ["b", [{"set": 9}]]}]))
        assert (answer.number, len(answer.words), store.stored) == (3, 2, 2)
        assert store.documents == {"left": {"a": 9, "hours": 7}, "right": {"b": 9}}
        store.compare()
        assert store.line('{"side":').cause == "not-json" and store.answer(b"\xff")[0].startswith("refused ")
        assert raised(ValueError, lambda: store.line(" ")) and raised(ValueError, lambda: store.line("{}\n{}"))


def test_undo_and_pack_of_an_open_store():
    with kept() as store:
        store.left(ADD)
        store.left([{"at": ["a", [{"set": 5}]]}])
        assert store.undo() == ([{"at": ["a", [{"set": 1}]]}], [{"at": ["b", [{"set": 1}]]}])
        assert (store.documents["right"], store.stored, store.is_open) == ({"b": 1}, 2, True)
        assert raised(StoreRefused, store.undo).reason == "nothing-to-undo"
        assert store.left(ADD).number == 3 and store.documents["right"] == {"b": 2}
        assert store.pack() == 3 and store.left(ADD).number == 4
        assert store.close() == ({"a": 3, "hours": 0}, {"b": 3}, {"rec": [None]})
        assert not store.is_open and "reopen" in str(raised(ValueError, lambda: store.left(ADD)))
        assert store.reopen() == 4 and store.left(ADD)


def test_an_open_store_has_the_lock():
    need_lock()
    with kept() as store:
        other = Store(store.store.folder)
        for call in (lambda: other.left(ADD), other.pack, other.undo, lambda: Store.open(other.folder), lambda: Store.init(other.folder, PROGRAM)):
            raised(StoreBusy, call)
        assert other.verify() == 0 and store.left(ADD)
        store.close()
        with StoreLock(other.folder):
            raised(StoreBusy, store.reopen)
            assert not store.is_open
        with given_back_later(other.folder), Store.open(other.folder, wait=PATIENCE) as again:
            assert again.stored == 1
        store.reopen()


def test_threads_share_an_open_store_and_a_session():
    with kept() as store, Session(PROGRAM) as session:
        answers, each = [], 8

        def send(client):
            answers.extend(client.left(ADD) for _ in range(each))

        threads = [threading.Thread(target=send, args=(client,)) for client in (store, session) for _ in range(3)]
        for it in threads:
            it.start()
        for it in threads:
            it.join()
        assert store.stored == 3 * each == store.documents["right"]["b"] == session.documents["right"]["b"]
        assert sorted(it.number for it in answers) == sorted([*range(1, 3 * each + 1)] * 2)


def test_a_program_that_is_lost():
    """It is killed before the change is sent: the change is not stored, and is sent again."""
    with kept() as store:
        store.left(ADD)
        store._run.child.kill()
        why = raised(RunEnded, lambda: store.left(ADD))
        assert (why.stored, why.status) == (1, -9) and "1 changes are stored for certain" in str(why) and "signal 9" in str(why)
        store.__exit__(None, None, None)
        assert not store.is_open and store.reopen() == why.stored
        assert store.left(ADD).number == 2 and store.documents["right"] == {"b": 2}


def is_waiting(thread):
    """Whether a thread waits for the lock of a client."""
    frame = sys._current_frames().get(thread.ident)
    return frame is not None and linecache.getline(frame.f_code.co_filename, frame.f_lineno).strip() in ("self.plain.acquire()", "with self.lock:")


def all_told(client, send, lose):
    """Four threads that wait for a client whose run is lost meanwhile: the RunEnded of each, and that of the call that loses it."""
    whys = []
    threads = [threading.Thread(target=lambda: whys.append(raised(RunEnded, send))) for _ in range(4)]
    with client.lock:
        for it in threads:
            it.start()
        until = time.monotonic() + PATIENCE
        while not all(map(is_waiting, threads)) and time.monotonic() < until:
            time.sleep(0.01)
        lose()
        first = raised(RunEnded, send)
        if not isinstance(client, Session):
            assert client.reopen() == first.stored
    for it in threads:
        it.join()
    return whys, first


def test_every_thread_that_waits_knows_that_the_run_is_lost():
    """Also where another thread has opened the store again: what they were to send was not sent, and is not sent later."""
    with kept() as store:
        store.left(ADD)
        whys, first = all_told(store, lambda: store.left(ADD), store._run.child.kill)
        assert first.sent and [(it.sent, it.stored, it.status) for it in whys] == [(False, 1, -9)] * 4
        assert "signal 9; this line was not sent. Open the store again" in str(whys[0])
        assert store.stored == 1 and store.left(ADD).number == 2 and store.stored == 2
    session = Session(PROGRAM)
    whys, first = all_told(session, lambda: session.left(ADD), session.process.child.kill)
    assert first.sent and [(it.sent, it.stored, it.status) for it in whys] == [(False, None, -9)] * 4
    assert str(whys[0]).endswith("signal 9; this line was not sent") and session.documents["right"] == {"b": 0}


def test_each_call_knows_that_the_run_is_lost_until_the_store_is_opened_again():
    with lost('IFS= read -r probe; echo "refused 1 not-an-entry"; IFS= read -r line; exec sleep 3600', timeout=0.5) as store:
        assert raised(NoAnswer, lambda: store.left(ADD)).sent
        for call in (lambda: store.left(ADD), lambda: store.group(("left", ADD)), store.undo, store.pack, store.compare, store.close):
            why = raised(NoAnswer, call)
            assert not why.sent and why.stored == 0 and "within 0.5 seconds, and the run was stopped; this line was not sent" in str(why)
        assert store.reopen() == 0
    with kept() as store:
        store.close()
        assert "reopen" in str(raised(ValueError, lambda: store.left(ADD)))
        store.reopen()


def test_what_stands_behind_a_wrong_answer_is_no_answer():
    with tempfile.TemporaryDirectory() as folder:
        path = os.path.join(folder, "program")
        with open(path, "w", encoding="utf-8") as file:
            said = 'printf "yes\\nok 1 right []\\n"; exec sleep 3600'
            file.write(f'#!/bin/bash\n[ "$1" = run ] || exec {os.environ["EDITLENS"]} "$@"\n{said}\n')
        os.chmod(path, 0o755)
        session = Session(PROGRAM, path)
        assert raised(NotAnAnswer, lambda: session.left(ADD)).sent
        assert not raised(RunEnded, lambda: session.left(ADD)).sent


def test_an_answer_that_is_lost():
    """The change is stored, and the program ends before it says so: the count of the store is one more."""
    with lost('IFS= read -r probe; echo "refused 1 not-an-entry"; IFS= read -r line; echo "$line" | "$real" apply >/dev/null; exit 6') as store:
        why = raised(RunEnded, lambda: store.left(ADD))
        assert (why.status, why.stored) == (6, 0)
        assert store.reopen() == why.stored + 1 and store.documents["right"] == {"b": 1}
        raised(RunEnded, lambda: store.left(ADD))


def test_no_answer_within_the_time():
    with lost('IFS= read -r probe; echo "refused 1 not-an-entry"; IFS= read -r line; exec sleep 3600', timeout=0.5) as store:
        running = store._run.child
        why = raised(NoAnswer, lambda: store.left(ADD))
        assert why.stored == 0 and "within 0.5 seconds" in str(why)
        assert running.returncode == -9 and not store.is_open
    with tempfile.TemporaryDirectory() as folder:
        path = os.path.join(folder, "program")
        with open(path, "w", encoding="utf-8") as file:
            file.write(f'#!/bin/bash\n[ "$1" = run ] || exec {os.environ["EDITLENS"]} "$@"\nexec sleep 3600\n')
        os.chmod(path, 0o755)
        session = Session(PROGRAM, path, timeout=0.5)
        assert raised(NoAnswer, lambda: session.left(ADD)).stored is None


def test_an_answer_that_is_none():
    for said in ("ok", "ok 2 right [", "ok two right []", "yes", "refused 2 group", ""):
        with lost(f'IFS= read -r probe; echo "refused 1 not-an-entry"; IFS= read -r line; echo "{said}"; exec sleep 3600') as store:
            why = raised(NotAnAnswer, lambda: store.left(ADD))
            assert why.stored == 0 and why.line == said + "\n" and not store.is_open, said


def test_documents_that_differ():
    with contextlib.ExitStack() as stack:
        store = stack.enter_context(kept())
        store.documents = {**store.documents, "right": {"b": 5}}
        raised(DocumentsDiffer, store.compare)
        raised(DocumentsDiffer, store.close)
        store.reopen()
        store.compare()


def test_long_lines():
    """A line longer than a pipe holds, and one that is too long to be read."""
    with tempfile.TemporaryDirectory() as folder, Store.open(Store.init(folder, "main id text").folder, timeout=PATIENCE) as store:
        store.left([{"set": "x" * 200_000}])
        assert len(store.documents["right"]) == 200_000
        assert raised(Refused, lambda: store.left([{"set": "x" * 1_048_577}])).cause == "line-too-long"


def test_refusals_explain_themselves():
    with kept() as store, Session(PROGRAM) as session:
        for client in (store, session):
            client.left(ADD)
            said = str(raised(Refused, lambda: client.right([{"at": ["b", [{"set": "x"}]]}])))
            assert "at /b, which is 1" in said and 'allowed here: {"set":NUMBER}, {"add":NUMBER}' in said, said
            assert "column 10" in str(client.line('{"side": ?'))
    said = str(raised(ProgramRefused, lambda: Session("main {\n  id ~ a: id int}"))).splitlines()
    assert said[:4] == ["program refused: not-a-program 9", "line 2, column 3:", "    id ~ a: id int}", "    ^^"], said
    assert said[-1] == 'id is a keyword: as a field it is written "id"', said
    with tempfile.TemporaryDirectory() as folder:
        assert str(raised(ProgramRefused, lambda: Store.init(folder, "main idd"))).splitlines()[1] == "line 1, column 6:"
        why = raised(ImportRefused, lambda: Store.begin(folder, PROGRAM, {"a": 1, "hours": "x"}))
        assert why.reason == "not-of-type" and "/hours: wanted a whole number" in str(why)
        assert "init, import or tools/load --store make a store" in str(raised(StoreRefused, lambda: Store.open(folder)))
        Store.init(folder, PROGRAM)
        assert "another one begins in a folder of its own" in str(raised(StoreRefused, lambda: Store.init(folder, PROGRAM)))


def test_texts_that_are_no_programs():
    for text, told in (
        ("\ufeffmain id int\n", "byte order mark"),
        ("main id int\n--- \n", "a line of --- alone"),
        ("// numbers\nmain id int\n", "a comment begins with #"),
    ):
        assert told in str(raised(ProgramRefused, lambda: Session(text))), text


def test_a_store_is_explained_and_stays():
    with kept() as store:
        store.left(ADD)
        lines = ['{"side":"left","edit":[{"at":["a",[{"add":1}]]}]}', '{"side":"right","edit":[{"at":["b",[{"set":true}]]}]}', "", "{"]
        said = list(explain_store(store.store.folder, lines))
        assert said[0] == "refused 2 no-apply 0 kind" and "  at /b, which is 2" in said and said[5] == "refused 3 not-json", said
        assert store.store.verify() == 1
    with tempfile.TemporaryDirectory() as folder:
        assert raised(StoreRefused, lambda: list(explain_store(folder, ["{}"]))).reason == "not-a-log"


def test_a_document_of_import_is_explained():
    assert explain_document(PROGRAM + '---\n\n{"a":1,"hours":2}\n') == []
    assert explain_document(PROGRAM + '---\n{"a":1}\n') == ["/hours: wanted a field of type int, found nothing"]
    assert "there are 2" in explain_document(PROGRAM + "---\n{\n}\n")[0] and "not JSON" in explain_document(PROGRAM + "---\n{\n")[0]


def orders():
    """The program of the example of a link, and its lines: the two documents and the events."""
    with open(os.path.join(ORDERS, "orders.lens"), encoding="utf-8") as file:
        program = file.read()
    with open(os.path.join(ORDERS, "orders.events"), encoding="utf-8") as file:
        events = file.read().splitlines()
    ship, agent = (read_json_file(os.path.join(ORDERS, name)) for name in ("ship.json", "agent.json"))
    return program_of(program), load_words(program, ship, agent).events() + events


def test_the_example_of_a_link_is_followed():
    """The answers are those beside the example, and the documents that were followed are, at the end, those of the program."""
    program, lines = orders()
    with open(os.path.join(ORDERS, "orders.answers"), encoding="utf-8") as file:
        wanted = file.read().splitlines()
    with Link(program) as link:
        for line, said in zip(lines, wanted):
            answer = link.line(line)
            words = said.split(" ")
            assert (answer.number, isinstance(answer, LinkAccepted)) == (int(words[1]), words[0] == "ok"), said
            assert answer.written == said if isinstance(answer, Refused) else answer.what == words[2], said
        assert link.numbers == {"left": 5, "right": 4}


def test_two_sites():
    with Link("main {a ~ b: id int, left c: int, right d: int}\n") as link:
        assert link.edit("left", [{"at": ["a", [{"set": 2}]]}, {"at": ["c", [{"set": 3}]]}]) == LinkAccepted(1, "draft")
        assert "at /c, which is 3" in str(raised(Refused, lambda: link.edit("left", [{"at": ["c", [{"set": "x"}]]}])))
        assert link.documents["left"] == {"a": 0, "c": 0} and link.seal("left") == LinkAccepted(3, "batch", 1, [{"at": ["b", [{"set": 2}]]}])
        assert (link.documents["left"], link.documents["right"]) == ({"a": 2, "c": 3}, {"b": 0, "d": 0})
        assert "made by the right site" in str(raised(Refused, lambda: link.seal("left")))
        assert "has made no batch yet" in str(raised(Refused, lambda: link.send("right")))
        assert "0 were sent" in str(raised(Refused, lambda: link.deliver(0)))
        assert [link.send("left").value, link.deliver(0).what, link.deliver(0).what] == [0, "taken", "stale"]
        link.edit("right", [{"at": ["d", [{"set": 9}]]}])
        assert link.restart("right").what == "restart" and link.drafts == {"left": [], "right": []}
        link.edit("right", [{"at": ["b", [{"add": 5}]]}])
        assert link.seal("right").word == [{"at": ["b", [{"add": 5}]]}] and link.documents["left"]["a"] == 2
        assert link.deliver(link.send("right").value) == LinkAccepted(15, "taken", 2) and link.documents["left"] == {"a": 7, "c": 3}
        assert link.numbers == {"left": 2, "right": 2}
    assert raised(ProgramRefused, lambda: Link("main id")).reason == "not-a-program 7"


def test_refusals_of_a_link_are_explained():
    program, lines = orders()
    said = list(explain_script("\n".join([program.rstrip("\n"), "---", *lines, '{"fly":1}', '{"edit":["left",[5]]}', "{"]) + "\n"))
    assert said[:2] == ["refused 13 not-turn 3", "  the left site has number 3: the next batch is made by the right site"], said
    assert [it for it in said if it.startswith("refused")] == ["refused 13 not-turn 3", "refused 27 not-an-event", "refused 28 not-an-edit", "refused 29 not-json"]
