#!/usr/bin/env bash
# Times `editlens check` on programs that are large or hostile: bash bench/check.sh. It prints the milliseconds of each, its greatest
# memory and the first words of its output. It is run by hand.
set -eu

here=$(cd "$(dirname "${BASH_SOURCE[0]}")/.." && pwd)
[ -x "$here/crates/editlens/out/editlens" ] || { echo "run ./build first" >&2; exit 1; }

exec python3 - "$here/crates/editlens/out/editlens" <<'PYTHON'
import subprocess, sys, time

program = sys.argv[1]


def record(rows):
    return '{' + ', '.join('f%d ~ g%d: id int' % (k, k) for k in range(rows)) + '}'


def doubled(times):
    """A record that is doubled by names so many times."""
    yield 'type t0 = {x: int, y: int};\n'
    for k in range(1, times + 1):
        yield 'type t%d = {x: t%d, y: t%d};\n' % (k, k - 1, k - 1)
    yield 'main id t%d\n' % times


def named(size):
    """As many definitions as the size has room for, each of which stands for a record of 1,000 rows."""
    text = 'lens b = ' + record(1000) + ';\n'
    number = 0
    while len(text) < size - 100:
        text += 'lens l%d = each b;\n' % number
        number += 1
    return text + 'main b\n'


def descending(rows):
    """A record whose names are written in descending order."""
    return '{' + ', '.join('f%04d ~ g%04d: id int' % (rows - k, rows - k) for k in range(rows)) + '}'


def pairs(count):
    return 'main bij[' + ', '.join('"%x"="%x"' % (k, k) for k in range(count)) + ']\n'


def chained(count):
    """Definitions each of which is an alias of the one before."""
    text = 'lens l0 = each id int;\n'
    for k in range(1, count + 1):
        text += 'lens l%d = l%d;\n' % (k, k - 1)
    return text + 'main each l%d\n' % count


def short(number):
    """The name of a number, of four characters."""
    digits = '0123456789abcdefghijklmnopqrstuvwxyz'
    return 'q' + digits[number // 36 // 36] + digits[number // 36 % 36] + digits[number % 36]


def compared(count):
    """Definitions each of which compares both sides of one lens of 1,000 fields."""
    text = 'lens b=id {' + ','.join('%s:int' % short(k)[1:] for k in range(15000, 16000)) + '};\n'
    for k in range(count):
        text += 'lens %s=then(b,b);' % short(k)
    return text + 'main b\n'


def measure(name, text):
    best = None
    for _ in range(3):
        started = time.monotonic()
        ran = subprocess.run(['/usr/bin/time', '-f', '%M', program, 'check'], input=text, capture_output=True, text=True)
        elapsed = time.monotonic() - started
        best = elapsed if best is None else min(best, elapsed)
    memory = int(ran.stderr.split()[-1]) / 1024
    print('%s, %d bytes: %.0f ms, %.0f MB, %s' % (name, len(text), best * 1000, memory, ran.stdout[:30].split('\n')[0]))


measure('a record doubled 16 times by names', ''.join(doubled(16)))
measure('a record of 1,365 rows, the most that fit', 'main ' + record(1365) + '\n')
measure('a record of one row more', 'main ' + record(1366) + '\n')
measure('definitions that each stand for 1,000 rows', named(65536))
measure('a record of 1,300 rows in descending order of names', 'main ' + descending(1300) + '\n')
measure('30 nested `each` around 1,000 rows', 'main ' + 'each ' * 30 + record(1000) + '\n')
measure('4,095 pairs, the most that fit', pairs(4095))
measure('2,000 definitions, each an alias of the one before', chained(2000))
measure('2,500 definitions that compare 1,000 fields', compared(2500))
PYTHON
