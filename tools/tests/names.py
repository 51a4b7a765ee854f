"""A store's file has one name. By a second one, or behind a link, two programs would each hold a lock that the other does not see."""

import contextlib
import fcntl
import json
import os
import shutil
import stat
import subprocess
import sys
import tempfile
import threading
from unittest import mock

from editlens.answers import RunEnded
from editlens.lock import StoreBusy, StoreLock, is_busy, need_free
from editlens.log import told, write_log
from editlens.program import TOP
from editlens.replacement import WORK, NotDone
from editlens.store import NAME, Store, StoreRefused
from editlens.store_file import UnsafeFile, need_one_name
from editlens.upkeep import back, compact, drop_old, history

from . import PATIENCE, Skipped, raised
from .hub_stores import MORE, made
from .locks import answer, content, need_state, program, refused_at_once, started
from .scripts import called, files
from .upkeep import writing_calls

PROGRAM = "main {count ~ number: id int, left note: text}\n"
ADD = '{"side":"left","edit":[{"at":["count",[{"add":1}]]}]}'
WRITING = (("init",), ("import",), ("apply",), ("pack",), ("undo", "1"))
QUICK = 20
"""How many seconds a command has that must not wait for anything."""


@contextlib.contextmanager
def two_folders():
    """A store with one change, and a folder beside its own."""
    with tempfile.TemporaryDirectory() as top:
        other = os.path.join(top, "other")
        os.mkdir(other)
        store = Store.init(os.path.join(top, "store"), PROGRAM)
        store.apply([ADD])
        yield store, other


def named_twice(store, other):
    """The store in the other folder, by a symbolic link and then by a hard one."""
    for link in (os.symlink, os.link):
        link(store.file, os.path.join(other, NAME))
        yield Store(other)
        os.remove(os.path.join(other, NAME))


def test_no_command_writes_by_a_second_name():
    """By a link, nothing is written. A file that has a second name is refused by both. Reading goes on."""
    with two_folders() as (store, other):
        for second in named_twice(store, other):
            for words in WRITING:
                refused_at_once(second, words)
                if not os.path.islink(second.file):
                    refused_at_once(store, words)
            assert second.show() == store.show() and second.verify() == 1
        assert store.pack() == 1


def test_no_command_of_a_hub_writes_by_a_second_name():
    """`edithub` has the same rule for its own store, and so has a program that waits for an edit while the second name is made."""
    with tempfile.TemporaryDirectory() as top:
        store, other = made(os.path.join(top, "hub")), os.path.join(top, "other")
        os.mkdir(other)
        line, name = json.dumps({"at": "hub", "edit": []}) + "\n", os.path.basename(store.file)
        before = content(store)
        for link in (os.symlink, os.link):
            link(store.file, os.path.join(other, name))
            for words, given in ((["init"], MORE), (["apply"], line), (["pack"], ""), (["undo", "1"], ""), (["add"], MORE)):
                for folder in (other,) if link is os.symlink else (other, store.folder):
                    ran = subprocess.run([store.path, *words], cwd=folder, input=given, stdout=subprocess.PIPE, text=True, check=False)
                    assert (ran.returncode, ran.stdout, content(store)) == (7, "", before), (words, folder, ran)
            assert subprocess.run([store.path, "verify"], cwd=other, stdout=subprocess.PIPE, check=True).stdout == b"consistent 0\n"
            os.remove(os.path.join(other, name))
        with subprocess.Popen([store.path, "apply"], cwd=store.folder, stdin=subprocess.PIPE, stdout=subprocess.PIPE, bufsize=0) as running:
            running.stdin.write(line.encode())
            assert running.stdout.readline().startswith(b"ok 1 ")
            os.link(store.file, os.path.join(other, name))
            running.stdin.write(line.encode())
            assert running.stdout.readline() == b"" and running.wait(PATIENCE) == 7
        os.remove(os.path.join(other, name))
        assert store.verify() == 1


MOUNTED = """
import os, subprocess, sys
program, store, other, line = sys.argv[1:]
file = os.path.join(store, "editlens.store")
def run(folder, *words):
    ran = subprocess.run([program, *words], cwd=folder, input=line.encode() + b"\\n", stdout=subprocess.PIPE)
    return ran.returncode, ran.stdout[:5].decode()
for here, there in ((store, other), (other, store)):
    with subprocess.Popen([program, "apply"], cwd=here, stdin=subprocess.PIPE, stdout=subprocess.PIPE, bufsize=0) as running:
        running.stdin.write(line.encode() + b"\\n")
        print(running.stdout.readline()[:5].decode(), run(there, "apply"), run(there, "pack"), run(there, "verify"))
print(run(other, "apply"))
copy = file + ".copy"
with open(file, "rb") as source, open(copy, "xb") as made:
    made.write(source.read())
os.replace(copy, file)
print(run(other, "apply"), run(other, "verify"), run(store, "apply"))
"""
"""Two programs, by the folder of a store and by another one into which its file alone is mounted. Then a new file takes its place, as tools do."""


def test_a_file_that_is_mounted_into_another_folder():
    """A mount is a second name that no count of names shows: the lock on the file is what keeps two programs apart."""
    unshare = shutil.which("unshare")
    own = [unshare, "--map-root-user", "--mount"] if os.geteuid() else [unshare, "--mount"]
    if not unshare or subprocess.run([*own, "true"], stderr=subprocess.DEVNULL, check=False).returncode:
        raise Skipped("no process may have mounts of its own here")
    with two_folders() as (store, other):
        with open(os.path.join(other, NAME), "wb"):
            pass
        inside = ["sh", "-c", 'mount --bind "$1" "$2" && shift 2 && exec "$@"', "sh", store.file, os.path.join(other, NAME)]
        words = [sys.executable, "-c", MOUNTED, program(), store.folder, other, ADD]
        ran = subprocess.run([*own, *inside, *words], stdout=subprocess.PIPE, text=True, check=True)
        held = "ok 1  (7, '') (7, '') (0, 'consi')"
        assert ran.stdout.splitlines() == [held, held, "(0, 'ok 1 ')", "(7, '') (0, 'consi') (0, 'ok 1 ')"], ran.stdout
        need_state(store, 5)


def test_what_a_run_has_answered_is_not_lost_by_a_second_name():
    """A second name is made while a run is open: nobody writes by it, the run writes no more while it is there, and no answer is lost."""
    with two_folders() as (store, other):
        running = started(store, "apply")
        assert answer(running).startswith(b"ok 1 ")
        os.link(store.file, os.path.join(other, NAME))
        refused_at_once(Store(other), ("apply",))
        assert answer(running) == b"" and running.wait(PATIENCE) == 7
        running.communicate()
        os.remove(os.path.join(other, NAME))
        need_state(store, 2)


def test_a_run_writes_to_no_file_that_was_replaced():
    with two_folders() as (store, other):
        running = started(store, "apply")
        assert answer(running).startswith(b"ok 1 ")
        copy = os.path.join(store.folder, "copy")
        with open(copy, "wb") as file:
            file.write(content(store))
        os.replace(copy, store.file)
        assert answer(running) == b"" and running.wait(PATIENCE) == 7
        running.communicate()
        need_state(store, 2)


def test_no_store_is_made_behind_a_link():
    with tempfile.TemporaryDirectory() as top:
        store, goal = Store(top), os.path.join(top, "goal")
        os.symlink(goal, store.file)
        for words in (("init",), ("import",)):
            ran = subprocess.run([program(), *words], input=PROGRAM, cwd=top, stdout=subprocess.PIPE, text=True, check=False)
            assert (ran.returncode, ran.stdout, os.listdir(top)) == (7, "", [NAME]), ran


def test_a_pipe_is_no_store():
    """No command waits for the other end of a pipe."""
    with tempfile.TemporaryDirectory() as top:
        os.mkfifo(os.path.join(top, NAME))
        for words in (*WRITING, ("show",), ("verify",)):
            ran = subprocess.run([program(), *words], cwd=top, stdin=subprocess.DEVNULL, stdout=subprocess.PIPE, timeout=QUICK, check=False)
            assert (ran.returncode, ran.stdout) == (7, b""), (words, ran)
        for words in (("history",), ("check",), ("compact",), ("back", "1"), ("backup", "to"), ("compact", "--drop-old")):
            status, out, err = called(top, "store", *words)
            assert (status, out) == (1, "") and "is not a regular file" in err, (words, status, out, err)
        status, _, err = called(top, "store", "restore", NAME, os.path.join(top, "new"))
        assert status == 1 and "is not a regular file" in err, err
        assert "is not a regular file" in str(raised(UnsafeFile, Store(top).show))
        assert os.listdir(top) == [NAME], os.listdir(top)


def test_the_file_is_locked_beside_its_folder():
    """As by a program whose folder is another one, into which the file alone is mounted."""
    with two_folders() as (store, _):
        with open(store.file, "rb") as file:
            fcntl.flock(file, fcntl.LOCK_EX)
            for words in WRITING:
                refused_at_once(store, words)
            assert store.verify() == 1
            for call in (store.pack, lambda: Store.open(store.folder), lambda: compact(store.folder), lambda: drop_old(store.folder)):
                raised(StoreBusy, call)
        with StoreLock(store.folder), open(store.file, "rb") as file:
            raised(BlockingIOError, lambda: fcntl.flock(file, fcntl.LOCK_EX | fcntl.LOCK_NB))
        assert store.pack() == 1


def test_the_tools_refuse_a_second_name():
    with two_folders() as (store, other):
        for second in named_twice(store, other):
            calls = (
                second.pack,
                lambda: Store.open(other),
                lambda: StoreLock(other).take(),
                lambda: compact(other),
                lambda: back(other, 2),
                lambda: drop_old(other),
            )
            before = content(store)
            for call in calls:
                why = str(raised(UnsafeFile, call))
                assert "is a link" in why or "has 2 names" in why, why
            status, _, err = called(other, "store", "compact")
            assert status == 1 and err.count("\n") == 1 and "Traceback" not in err, err
            assert content(store) == before and len(list(history(other))) == 2 and os.listdir(other) == [NAME]


def test_a_tool_replaces_no_other_file_than_that_it_has_locked():
    with two_folders() as (store, _):
        lock = StoreLock(store.folder)
        with lock:
            lock.need_same(store.file)
            os.rename(store.file, store.file + ".moved")
            raised(UnsafeFile, lambda: lock.need_same(store.file))
            with open(store.file, "wb"):
                pass
            assert "is not the file that was locked" in str(raised(UnsafeFile, lambda: lock.need_same(store.file)))
        os.replace(store.file + ".moved", store.file)
        os.mkdir(os.path.join(store.folder, "empty"))
        lock = StoreLock(os.path.join(store.folder, "empty"))
        with lock:
            path = os.path.join(store.folder, "empty", NAME)
            lock.need_same(path)
            with open(path, "wb"):
                pass
            raised(FileExistsError, lambda: lock.need_same(path))


def test_a_look_at_the_lock_takes_none():
    """So no command that writes can fail by it."""
    with two_folders() as (store, other):
        with mock.patch("fcntl.flock", side_effect=AssertionError("a lock is taken")):
            assert not is_busy(store.folder) and not is_busy(other) and not is_busy(os.path.join(other, "none"))
            need_free(store.folder)
        for held in (store.folder, store.file):
            with open(held, "rb") if held == store.file else opened_folder(held) as file:
                fcntl.flock(file, fcntl.LOCK_EX)
                assert is_busy(store.folder) and not is_busy(other)
                raised(StoreBusy, lambda: need_free(store.folder))
            assert not is_busy(store.folder)


@contextlib.contextmanager
def opened_folder(path):
    """The descriptor of a folder."""
    held = os.open(path, os.O_RDONLY)
    yield held
    os.close(held)


def test_a_store_is_opened_when_it_is_free():
    """Also where nobody is seen who has the lock, as in another container: it is tried until the time is over."""
    with two_folders() as (store, _):
        for locks in ("/proc/locks", os.path.join(store.folder, "none")):
            with mock.patch("editlens.lock.LOCKS", locks):
                lock = StoreLock(store.folder)
                lock.take()
                raised(StoreBusy if locks == "/proc/locks" else RunEnded, lambda: Store.open(store.folder))
                timer = threading.Timer(0.5, lock.give_back)
                timer.start()
                with Store.open(store.folder, wait=PATIENCE) as kept:
                    assert kept.stored == 1
                timer.join()


def test_a_script_that_waits_finds_the_store_free():
    """It waits for who has locked the file alone, and holds no lock itself that the program wants."""
    with two_folders() as (store, _):
        with open(store.file, "rb") as file:
            fcntl.flock(file, fcntl.LOCK_EX)
            how = {"cwd": store.folder, "stdin": subprocess.DEVNULL, "stdout": subprocess.PIPE, "env": {**os.environ, "EDITLENS_WAIT": "600"}}
            waiting = subprocess.Popen([os.path.join(TOP, "editlens"), "pack"], **how)
            raised(subprocess.TimeoutExpired, lambda: waiting.wait(0.5))
        assert waiting.communicate()[0] == b"packed 1\n" and waiting.returncode == 0


def test_what_is_in_the_way_of_a_new_file_is_named():
    """By each verb that writes. What is there stays, and so does what a link leads to."""
    for kind in ("file", "link", "pipe"):
        with two_folders() as (store, other), tempfile.TemporaryDirectory() as copies:
            work, before = os.path.join(store.folder, WORK), content(store)
            if kind == "link":
                os.symlink(other, work)
            elif kind == "pipe":
                os.mkfifo(work)
            else:
                files(store.folder, **{WORK: "kept"})
            for name, call in writing_calls(store, copies).items():
                assert f"{work} is in the way" in str(raised(NotDone, call)), (kind, name)
            assert os.path.lexists(work) and os.listdir(other) == [] and content(store) == before


def test_an_option_may_stand_before_the_folder():
    with two_folders() as (store, other):
        files(other, lens="main {count ~ number: id int}\n")
        assert called(other, "store", "change-lens", "lens", "--yes", store.folder)[0] == 0
        assert store.show()[0] == {"count": 1}
        assert called(other, "store", "compact", "--drop-old", store.folder)[0] == 0
        assert called(other, "store", "change-lens", "lens", "--yes", store.folder, "more")[0] == 2
        assert called(other, "store", "history", "--at", "1", "--wrong", store.folder)[0] == 2


def test_history_shows_no_character_that_a_terminal_obeys():
    """A comment in a program reaches no store by `init`, and does by another hand."""
    entry = {"side": "left", "edit": [{"at": ["note", [{"set": "\x9b \u2028"}]]}]}
    with tempfile.TemporaryDirectory() as folder:
        records = {"program": "# \x1b]0;x\x07 \x9b31m \u2028 \u202e\n" + PROGRAM, "version": 2}, {"entry": entry}
        write_log(Store(folder).file, [json.dumps(it, ensure_ascii=False).encode() for it in records])
        for line in history(folder, is_full=True):
            assert line.isprintable(), ascii(line)
        said = called(folder, "store", "history")[1]
        assert "\\u001b]0;x\\u0007 \\u009b31m \\u2028 \\u202e" in said and '{"set":"\\u009b \\u2028"}' in said, ascii(said)
        assert told(b'{"program":"\\ud83d\\ude00\\ud800","version":1}').isprintable()


def test_a_record_that_claims_more_than_the_file_has():
    """It is refused before memory for it is asked for, also where it claims all that a length can say."""
    with two_folders() as (store, _):
        end = os.path.getsize(store.file) - 1
        for length in (1, 2**40, 2**63 - 1, 2**64 - 1):
            with open(store.file, "r+b") as file:
                file.seek(end)
                file.write(b"\x01" + length.to_bytes(8, "little"))
            for words in ("show", "verify"):
                limited = ["bash", "-c", 'ulimit -t 60; exec "$@"', "bash", program(), words]
                ran = subprocess.run(limited, cwd=store.folder, stdout=subprocess.PIPE, text=True, check=False)
                assert (ran.returncode, ran.stdout) == (4, "store refused: bad-record 3\n"), (length, ran)
            assert raised(StoreRefused, lambda: list(history(store.folder))).reason == "bad-record 3"


def test_a_record_that_a_sparse_file_has():
    """A file without blocks on the disk is as long as a length says. The program asks for memory for the record, and says that it gets none."""
    with two_folders() as (store, _):
        end, length = os.path.getsize(store.file) - 1, 2**40
        with open(store.file, "r+b") as file:
            file.seek(end)
            file.write(b"\x01" + length.to_bytes(8, "little"))
            try:
                file.truncate(end + 9 + length + 1)
            except OSError:
                raise Skipped("no file may be that long here") from None
        for words in ("show", "verify", "pack"):
            how = {"cwd": store.folder, "env": {**os.environ, "EDITLENS_MEMORY": "256"}, "stdin": subprocess.DEVNULL, "capture_output": True}
            ran = subprocess.run([os.path.join(TOP, "editlens"), words], text=True, check=False, **how)
            assert (ran.returncode, ran.stdout) == (9, "") and "may have 256 MiB" in ran.stderr, (words, ran)
        status, out, err = called(store.folder, "store", "history")
        assert status == 2 and out.count("\n") == 2 and "a record has no more than 1,073,741,824" in err and err.count("\n") == 1, (status, out, err)


def test_a_mounted_file_whose_name_leads_to_another_one():
    """A tool has put a new file in the place of the one that is mounted. What is known of such a mount is that its file has no name."""
    with two_folders() as (store, _):
        gone = os.stat_result((stat.S_IFREG, 1, 1, 0, *[0] * 6))
        with mock.patch("os.lstat", return_value=gone):
            assert "mount that one anew" in str(raised(UnsafeFile, lambda: need_one_name(store.file)))
        assert need_one_name(store.file).st_nlink == 1
