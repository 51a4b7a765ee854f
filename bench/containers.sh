#!/usr/bin/env bash
# Times edits of one place of a large list and of a large keyed map, from the line that is read to the line that is written:
# bash bench/containers.sh [ENTRIES], ENTRIES being 10,000 where none is given. It is run by hand, and takes a few minutes.
#
# The records have a field that both sides know, and one of each side alone. A line has an edit and the microseconds of processor time
# of one entry, among 1,000 and among 100,000 records: what a run takes from the answer to the last entry that makes the records to the
# answer to the last of so many entries, the shortest of five. Then it has the ratio of the two, with the word `over` after one that is
# above 3. Three entries in four are of the left side. An entry that adds a record leaves it to the later ones.
set -eu

here=$(cd "$(dirname "${BASH_SOURCE[0]}")/.." && pwd)
[ -x "$here/crates/editlens/out/editlens" ] || { echo "run ./build first" >&2; exit 1; }

PYTHONPATH=$here/bench exec python3 - "$here/crates/editlens/out/editlens" "${1:-10000}" <<'PYTHON'
import random, sys

from entries import seconds

program, count = sys.argv[1], int(sys.argv[2])
SIZES = [1000, 100000]
MOST = 3
RECORD = '{name ~ label: id text, left age: int, right note: text}'
FIELDS = {'left': ('name', 'age'), 'right': ('label', 'note')}


def entry(side, primitives):
    return '{"side":"%s","edit":[%s]}\n' % (side, ','.join(primitives))


def mod(place, primitives):
    return '{"mod":[%s,[%s]]}' % (place, ','.join(primitives))


def set_field(field, value):
    return '{"at":["%s",[{"set":%s}]]}' % (field, value)


def place_of(kind, k):
    return str(k) if kind == 'list' else '"%08d"' % k


def added(kind, size):
    """The primitives that make a container of so many records."""
    if kind == 'keyed':
        return ['{"put":%s}' % place_of(kind, k) for k in range(size)]
    return ['{"ins":%d}' % min(65536, size - k) for k in range(0, size, 65536)]


def filled(kind, size, side):
    """The primitives that fill the fields of each record: from the left both that it has, from the right its own alone."""
    for k in range(size):
        name = set_field('name', '"name %d"' % k)
        own = set_field('age', k % 100) if side == 'left' else set_field('note', '"note %d"' % k)
        yield mod(place_of(kind, k), [name, own] if side == 'left' else [own])


def entries_of(side, primitives):
    """Entries of a thousand primitives each, which keep below the longest line."""
    primitives = list(primitives)
    return [entry(side, primitives[k:k + 1000]) for k in range(0, len(primitives), 1000)]


def made(kind, size):
    """The entries that make a container of so many records."""
    return entries_of('left', added(kind, size)) + entries_of('left', filled(kind, size, 'left')) + entries_of('right', filled(kind, size, 'right'))


def edits(kind, size, edit):
    """The entries that are timed, at places spread over the container."""
    random.seed(1)
    for k in range(count):
        side = 'right' if k % 4 == 3 else 'left'
        if edit == 'mod':
            field = FIELDS[side][0]
            yield entry(side, [mod(place_of(kind, random.randrange(size)), [set_field(field, '"other %d"' % k)])])
        elif kind == 'list':
            yield entry(side, ['{"ins":1}'])
        else:
            yield entry(side, ['{"put":"%08d new %d"}' % (random.randrange(size), k)])


print('%-12s %10s %10s %8s' % ('entry (µs)', '1,000', '100,000', 'ratio'))
for kind, adds in [('list', 'ins'), ('keyed', 'put')]:
    lens = 'main %s %s' % ('each' if kind == 'list' else 'keyed', RECORD)
    for edit in ['mod', adds]:
        costs = [seconds(program, lens, made(kind, size), list(edits(kind, size, edit))) / count for size in SIZES]
        ratio = costs[1] / costs[0]
        print('%-12s %10.3f %10.3f %8.2f %s' % (kind + '-' + edit, costs[0] * 1e6, costs[1] * 1e6, ratio, 'over' if ratio > MOST else ''), flush=True)
PYTHON
