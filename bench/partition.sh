#!/usr/bin/env bash
# Times edits of a mixed list that a partition keeps in step with a list for each tag: bash bench/partition.sh [N], N being the number of
# entries of a run, 10,000 where none is given. It is run by hand.
#
# A line has an edit, the microseconds of one entry at 1,000 and at 100,000 items, end to end through `editlens run`, and how many times
# longer an entry takes at 100,000 items (wanted: at most 3). Two edits are of the mixed list: `mod` adds to the content of an item, and
# `switch` gives an item the other tag. Two are of the list of one tag: `right mod` adds to the content of an item, and `right move` moves
# an item. The time of an entry is the processor time of a run from the answer to the last entry that makes the list to the answer to the
# last of the entries, divided by their number; each run is made five times, and the least counts.
set -eu

here=$(cd "$(dirname "${BASH_SOURCE[0]}")/.." && pwd)
[ -x "$here/crates/editlens/out/editlens" ] || { echo "run ./build first" >&2; exit 1; }

PYTHONPATH=$here/bench exec python3 - "$here/crates/editlens/out/editlens" "${1:-10000}" <<'PYTHON'
import json, random, sys

from entries import seconds

PROGRAM, COUNT = sys.argv[1], int(sys.argv[2])
SIZES = [1000, 100000]
TAGS = 'ab'


def entry(side, word):
    return json.dumps({'side': side, 'edit': word}, separators=(',', ':')) + '\n'


def in_parts(items, most):
    return [items[k:k + most] for k in range(0, len(items), most)]


def mixed_list(size):
    """The entries that make a list in which every other item has the second tag, and its tags."""
    made = [entry('left', [{'ins': len(part)}]) for part in in_parts(range(size), 65536)]
    switched = [{'mod': [place, [{'switch': ['a', 'b', []]}]]} for place in range(1, size, 2)]
    return made + [entry('left', part) for part in in_parts(switched, 10000)], [TAGS[place % 2] for place in range(size)]


def edits(kind, tags):
    """The entries of one kind, at places spread over the list."""
    for _ in range(COUNT):
        place = random.randrange(len(tags))
        tag, other = tags[place], TAGS[1 - TAGS.index(tags[place])]
        if kind == 'mod':
            yield entry('left', [{'mod': [place, [{'stay': [tag, [{'add': 1}]]}]]}])
        elif kind == 'switch':
            tags[place] = other
            yield entry('left', [{'mod': [place, [{'switch': [tag, other, []]}]]}])
        elif kind == 'right mod':
            yield entry('right', [{'at': [tag, [{'mod': [place // 2, [{'add': 1}]]}]]}])
        else:
            yield entry('right', [{'at': [tag, [{'move': [place // 2, random.randrange(len(tags) // 2)]}]]}])


random.seed(1)
print('%-12s %10s %10s %8s' % (('entry (µs)',) + tuple('{:,}'.format(size) for size in SIZES) + ('ratio',)))
prepared = [mixed_list(size) for size in SIZES]
for kind in ['mod', 'switch', 'right mod', 'right move']:
    times = []
    for made, tags in prepared:
        times.append(seconds(PROGRAM, 'main part <a: int, b: int>', made, list(edits(kind, list(tags)))) / COUNT)
    print('%-12s %10.2f %10.2f %8.2f' % (kind, times[0] * 1e6, times[1] * 1e6, times[1] / times[0]), flush=True)
PYTHON
