"""What the entries of a journal cost, for the scripts beside this file."""

import os
import subprocess
import threading

# As ./editlens runs the program.
os.environ.setdefault('GLIBC_TUNABLES', 'glibc.malloc.hugetlb=1')


def answered(child, lines):
    """Gives a run some entries, and waits until each is answered as accepted. Returns the seconds of processor time of the run so far."""
    def give():
        child.stdin.write(''.join(lines).encode())
        child.stdin.flush()

    giver = threading.Thread(target=give)
    giver.start()
    for line in lines:
        assert child.stdout.readline().startswith(b'ok '), line
    giver.join()
    with open('/proc/%d/schedstat' % child.pid, encoding='ascii') as times:
        return int(times.read().split()[0]) / 1e9


def seconds(program, lens, before, timed, runs=5):
    """Seconds of processor time of the timed entries: from the answer to the last entry before them to the answer to their last one.

    The least of so many runs counts.
    """
    best = None
    for _ in range(runs):
        child = subprocess.Popen([program, 'run'], stdin=subprocess.PIPE, stdout=subprocess.PIPE)
        child.stdin.write((lens + '\n---\n').encode())
        start = answered(child, before)
        taken = answered(child, timed) - start
        child.communicate()
        assert child.returncode == 0, (lens, child.returncode)
        best = taken if best is None else min(best, taken)
    return best
