"""What a task of crates/bench_library costs, for the scripts beside this file."""

import os
import subprocess

TOP = os.path.dirname(os.path.dirname(os.path.abspath(__file__)))
CRATE = os.path.join(TOP, "crates", "bench_library")
BUILT = os.path.join(CRATE, "out", "bench_library")
RUNS = 3

# As ./editlens runs its program.
os.environ.setdefault("GLIBC_TUNABLES", "glibc.malloc.hugetlb=1")


def write_file(path, lens, values):
    """Writes the file of a task: a lens program, and texts of JSON."""
    with open(path, "w", encoding="utf-8") as file:
        file.writelines(f"{line}\n" for line in (lens, *values))


def run(program, task, path, times):
    """What came out of a task that was done so many times, the seconds of processor time, and the most MB held."""
    child = subprocess.Popen([program, task, path, str(times)], stdout=subprocess.PIPE, text=True)
    line = child.stdout.read().strip()
    _, status, used = os.wait4(child.pid, 0)
    child.returncode = os.waitstatus_to_exitcode(status)
    assert child.returncode == 0, (task, path, times, child.returncode)
    return line.removeprefix(f"{task} {path}: "), used.ru_utime + used.ru_stime, used.ru_maxrss / 1024


def shortest(program, task, path, times, wanted):
    """The shortest seconds of some runs, each of which must give what is wanted, if that is said."""
    found = []
    for _ in range(RUNS):
        came, seconds, _ = run(program, task, path, times)
        assert wanted in (None, came), (task, path, came, wanted)
        found.append(seconds)
    return min(found)


def once(program, task, path, times, wanted=None):
    """Seconds of one time: those of a run with so many times more, without those of a run with one.

    So reading the file is not counted.
    """
    return (shortest(program, task, path, times + 1, wanted) - shortest(program, task, path, 1, wanted)) / times
