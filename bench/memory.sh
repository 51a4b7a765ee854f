#!/usr/bin/env bash
# Refuses memory one request at a time: bash bench/memory.sh [--checked [N]]. For run, init, apply, pack, undo, import, hub and link, over
# scripts of ten lines and one document, the program is run once for each request that it makes, and that one request is refused. It is to
# end as it does with ample memory, or with status 9: then with complete lines, a prefix of what it writes with ample memory, and with a
# store as docs/FORMATS.md says. It is run by hand, and needs a C compiler for what refuses.
#
# Without a word it runs the proved program. With --checked it runs the program as rt try builds it, unproved and with checks. That program
# is linked with what refuses, and kept in .unproved/. Then these are findings, too:
# - Anything on standard error, where the program itself writes nothing. AddressSanitizer reports there a read or a write of a block that
#   is freed, of a place outside a block or a variable, or of a variable of a call that has returned, and a block that is freed twice.
#   LeakSanitizer reports at the end the blocks that no pointer of the program leads to.
# - A block that is not given back. Each request and each return is counted, and at the end no block may be left. This also finds a block
#   that is still reachable, but it does not name the block.
# - A fault that the checks of rt try find, as an index out of bounds or a sum that wraps. It ends the run, which then differs.
#
# What is not seen: a read of memory that was never written; a wrong place inside the right block; a block that is kept too long and given
# back at the end; a read of a freed block when 256 MB more were freed since, which no run here does; what only the optimized code of the
# proved program does. An old pointer on the stack can hide a leak from LeakSanitizer, but not from the count.
#
# A control comes first. At ten places of a run a block is never given back, and at ten places one is given back at once. The status is 1
# if one of the three checks sees none of its ten, or if anything is found. --checked N refuses each Nth request only.
set -eu

here=$(cd "$(dirname "${BASH_SOURCE[0]}")/.." && pwd)
command -v cc >/dev/null || { echo "cc, a C compiler, is wanted" >&2; exit 1; }
program=$here/crates/editlens/out/editlens
if [ "${1-}" = --checked ]; then
    command -v rt >/dev/null || { echo "rt, the command of Rattle, is wanted" >&2; exit 1; }
    mkdir -p "$here/.unproved"
    program=$here/.unproved/refusing
elif [ ! -x "$program" ]; then
    echo "run ./build first" >&2
    exit 1
fi

exec python3 - "$program" "$here" "$@" <<'PYTHON'
import os, shlex, shutil, subprocess, sys, tempfile

program, top = sys.argv[1:3]
is_checked = len(sys.argv) > 3
step = int(sys.argv[4]) if len(sys.argv) > 4 else 1

# The number of the request that is refused comes in the environment. So does the number of the return that does nothing and of the
# request that is given back at once, for the control. The counts of all requests and of the blocks that are held go to a file, where one
# is named.
COUNTS = r"""
#define _GNU_SOURCE
#include <dlfcn.h>
#include <errno.h>
#include <fcntl.h>
#include <stdlib.h>
#include <unistd.h>

static unsigned long count, returned, held, refused, forgotten, early;
static int ready;

static unsigned long number_in(const char *name) {
    const char *at = getenv(name);
    unsigned long number = 0;
    while (at && *at >= '0' && *at <= '9') number = number * 10 + (*at++ - '0');
    return number;
}

static int is_refused(void) {
    if (!ready) {
        refused = number_in("REFUSED_REQUEST");
        forgotten = number_in("FORGOTTEN_RETURN");
        early = number_in("EARLY_RETURN");
        ready = 1;
    }
    return ++count == refused;
}

static char *put(char *at, unsigned long number) {
    if (number > 9) at = put(at, number / 10);
    *at = '0' + number % 10;
    return at + 1;
}

__attribute__((destructor)) static void tell(void) {
    const char *name = getenv("REQUESTS_FILE");
    char text[64], *at;
    if (!name) return;
    int file = open(name, O_WRONLY | O_CREAT | O_TRUNC, 0600);
    if (file < 0) return;
    at = put(text, count);
    *at++ = ' ';
    at = put(at, held);
    if (write(file, text, at - text) < 0) return;
    close(file);
}
"""

# A library that is loaded before the C library. It does not count what is held.
LOADED = COUNTS + r"""
void *malloc(size_t size) {
    static void *(*real)(size_t);
    if (!real) real = dlsym(RTLD_NEXT, "malloc");
    if (is_refused()) { errno = ENOMEM; return 0; }
    return real(size);
}

void *realloc(void *old, size_t size) {
    static void *(*real)(void *, size_t);
    if (!real) real = dlsym(RTLD_NEXT, "realloc");
    if (is_refused()) { errno = ENOMEM; return 0; }
    return real(old, size);
}

int posix_memalign(void **at, size_t align, size_t size) {
    static int (*real)(void **, size_t, size_t);
    if (!real) real = dlsym(RTLD_NEXT, "posix_memalign");
    if (is_refused()) return ENOMEM;
    return real(at, align, size);
}

void *aligned_alloc(size_t align, size_t size) {
    static void *(*real)(size_t, size_t);
    if (!real) real = dlsym(RTLD_NEXT, "aligned_alloc");
    if (is_refused()) { errno = ENOMEM; return 0; }
    return real(align, size);
}
"""

# The same, linked into the program. The linker leads its calls of malloc here.
LINKED = COUNTS + r"""
void *__real_malloc(size_t size);
void *__real_realloc(void *old, size_t size);
void __real_free(void *old);

void *__wrap_malloc(size_t size) {
    if (is_refused()) { errno = ENOMEM; return 0; }
    void *made = __real_malloc(size);
    if (made) held++;
    if (count == early) __real_free(made);
    return made;
}

void *__wrap_realloc(void *old, size_t size) {
    if (is_refused()) { errno = ENOMEM; return 0; }
    void *made = __real_realloc(old, size);
    if (made && !old) held++;
    if (count == early) __real_free(made);
    return made;
}

void __wrap_free(void *old) {
    if (!old || ++returned == forgotten) return;
    held--;
    __real_free(old);
}
"""

# The linker of the checked program.
LINKER = """#!/bin/sh
{real} "$@" --wrap=malloc --wrap=realloc --wrap=free {refuses} && cp program {kept}
"""

PROGRAM = 'main {plan ~ board: part <todo: text, done: text>, left hours: int, right color: text}\n'
LINES = [
    '{"side":"left","edit":[{"at":["plan",[{"ins":2},{"mod":[0,[{"switch":["todo","done",[{"set":"Lock"}]]}]]},{"mod":[1,[{"stay":["todo",[{"set":"Paint"}]]}]]}]]},{"at":["hours",[{"set":8}]]}]}',
    '{"side":"right","edit":[{"at":["board",[{"at":["todo",[{"ins":1},{"mod":[1,[{"set":"Roof"}]]}]]}]]},{"at":["color",[{"set":"green"}]]}]}',
    '{"side":"left","edit":[{"at":["plan",[{"move":[2,0]}]]}]}',
    '{"side":"left","edit":[{"at":["plan",[{"del":4}]]}]}',
    '{"group":[{"side":"left","edit":[{"at":["plan",[{"ins":1}]]}]},{"side":"right","edit":[{"at":["color",[{"splice":[0,5,"red"]}]]}]}]}',
    '{"group":[{"side":"left","edit":[{"at":["hours",[{"add":1}]]}]},{"side":"right","edit":[{"at":["zz",[]]}]}]}',
    '{"side":"left","edit":[{"at":["hours",[{"add":-3}]]}]}',
    '{',
    '{"side":"right","edit":[{"at":["board",[{"at":["done",[{"del":1}]]}]]}]}',
    '{"side":"left","edit":[{"at":["plan",[{"reorder":[1,0,2]}]]}]}',
]
JOURNAL = ''.join(line + '\n' for line in LINES)
DOCUMENT = '{"hours":8,"plan":[{"todo":"Paint"},{"done":"Lock"}]}\n'
HUB = """main {team ~ title: id text, maintenance ~ silent: id bool, services ~ checks: keyed {left port: int, owner ~ call: id text, right alarm: enum["mail", "phone"]}}
+++
main {left team: text, maintenance ~ closed: id bool, services ~ routes: keyed {port ~ port: id int, left owner: text, right wait: int = 500}}
"""
HUB_LINES = [
    '{"at":"hub","edit":[{"at":["services",[{"put":"pay"},{"mod":["pay",[{"at":["owner",[{"set":"ida"}]]},{"at":["port",[{"set":8090}]]}]]}]]}]}',
    '{"at":"hub","edit":[{"at":["team",[{"set":"shop"}]]}]}',
    '{"at":0,"edit":[{"at":["silent",[{"set":true}]]}]}',
    '{"at":1,"edit":[{"at":["routes",[{"rename":["pay","bill"]}]]}]}',
    '{"at":1,"edit":[{"at":["routes",[{"mod":["bill",[{"at":["wait",[{"set":5000}]]}]]}]]}]}',
    '{"at":1,"edit":[{"at":["routes",[{"put":"find"},{"mod":["find",[{"at":["port",[{"add":2}]]}]]}]]}]}',
    '{"at":0,"edit":[{"at":["zz",[]]}]}',
    '{"at":0,"edit":[{"at":["checks",[{"drop":"bill"}]]}]}',
    '{"at":2,"edit":[]}',
    '{',
]
LINK = 'main {ship ~ vessel: id text, orders ~ lines: each {item ~ article: id text, count ~ quantity: id int, left locker: text, right cents: int}}\n'
LINK_LINES = [
    '{"edit":["left",[{"at":["orders",[{"ins":1},{"mod":[0,[{"at":["item",[{"set":"rope"}]]},{"at":["count",[{"set":6}]]},{"at":["locker",[{"set":"C4"}]]}]]}]]}]]}',
    '{"seal":"left"}',
    '{"send":"left"}',
    '{"deliver":0}',
    '{"edit":["right",[{"at":["lines",[{"mod":[0,[{"at":["quantity",[{"add":2}]]}]]}]]}]]}',
    '{"restart":"right"}',
    '{"edit":["right",[{"at":["lines",[{"mod":[0,[{"at":["cents",[{"set":890}]]}]]}]]}]]}',
    '{"seal":"right"}',
    '{"send":"right"}',
    '{"deliver":1}',
]


def build_checked(room):
    """Builds the program with its checks, linked with what refuses, and keeps it, unless the one that is kept is newer than the sources."""
    sources = [os.path.join(top, name) for name in ('crates.txt', 'crates', 'bench/memory.sh')]
    others = ['(', '-name', 'out', '-o', '-name', 'must-fail', ')', '-prune', '-o', '-type', 'f', '-newer', program, '-print', '-quit']
    if os.path.exists(program) and not subprocess.run(['find', *sources, *others], capture_output=True, check=True).stdout:
        return
    print('building the checked program, which takes some minutes', flush=True)
    began, refuses = os.path.join(room, 'began'), os.path.join(room, 'refuses.o')
    with open(began, 'wb'):
        pass
    compile_c(LINKED, refuses, '-c', '-U_FORTIFY_SOURCE', '-fno-stack-protector')
    # A folder that looks like the kit, where the linker is a script. rt finds its kit from its own place, so it is copied.
    kit = os.path.dirname(subprocess.run(['rt', 'doc'], capture_output=True, text=True, check=True).stdout.strip())
    view = os.path.join(room, 'kit')
    for folder in ('', 'bin', 'toolchain', 'toolchain/bin'):
        os.makedirs(os.path.join(view, folder), exist_ok=True)
        for name in os.listdir(os.path.join(kit, folder)):
            source, copy = os.path.join(kit, folder, name), os.path.join(view, folder, name)
            if name in ('rt', 'rtlib.py'):
                shutil.copy(source, copy)
            elif os.path.join(folder, name) not in ('bin', 'toolchain', 'toolchain/bin', 'toolchain/bin/ld.lld'):
                os.symlink(source, copy)
    linker = os.path.join(view, 'toolchain', 'bin', 'ld.lld')
    with open(linker, 'w', encoding='utf-8') as out:
        words = {'real': os.path.join(kit, 'toolchain', 'bin', 'ld.lld'), 'refuses': refuses, 'kept': os.path.join(room, 'kept')}
        out.write(LINKER.format(**{name: shlex.quote(word) for name, word in words.items()}))
    os.chmod(linker, 0o755)
    tried = subprocess.run(
        [os.path.join(view, 'bin', 'rt'), 'try', '--steps', '1', '--seconds', '300', '--', 'gen', '100', '7'],
        cwd=os.path.join(top, 'crates', 'editlens'), stdin=subprocess.DEVNULL, capture_output=True, text=True, check=False,
    )
    if not os.path.exists(os.path.join(room, 'kept')):
        sys.exit('the checked program was not built:\n' + tried.stderr[-2000:])
    shutil.copyfile(os.path.join(room, 'kept'), program)
    os.chmod(program, 0o755)
    os.utime(program, (os.path.getmtime(began),) * 2)


def compile_c(text, made, *words):
    with open(made + '.c', 'w', encoding='ascii') as out:
        out.write(text)
    subprocess.run(['cc', '-fPIC', '-O1', '-o', made, made + '.c', *words], check=True)


def run(words, text, store, **numbers):
    """The status, the output and the store after a run in a folder with this store. Then standard error, the requests and the blocks held."""
    with tempfile.TemporaryDirectory() as folder:
        file, counted = os.path.join(folder, 'editlens.store'), os.path.join(folder, 'counted')
        if store is not None:
            with open(file, 'wb') as out:
                out.write(store)
        around = {'PATH': os.environ['PATH'], 'REQUESTS_FILE': counted, **{name: str(number) for name, number in numbers.items()}}
        if is_checked:
            around['ASAN_OPTIONS'] = 'detect_leaks=1:abort_on_error=0:exitcode=99:allocator_may_return_null=1:symbolize=0'
        else:
            around['LD_PRELOAD'] = library
        done = subprocess.run([program, *words], input=text.encode(), capture_output=True, cwd=folder, env=around, check=False)
        try:
            with open(file, 'rb') as kept:
                after = kept.read()
        except FileNotFoundError:
            after = None
        try:
            with open(counted, encoding='ascii') as counts:
                requests, held = map(int, counts.read().split())
        except FileNotFoundError:
            requests, held = 0, 'unknown'
        return (done.returncode, done.stdout, after), done.stderr.decode(errors='replace'), requests, held


def first_line_of(report):
    """The first line of a report that says what was found."""
    lines = [line for line in report.split('\n') if 'ERROR' in line or 'SUMMARY' in line] or report.split('\n')
    return lines[0][:200]


def is_seen(words, text, requests):
    """Whether the checks see blocks that are not given back, and blocks that are given back too early. Prints how many of each."""
    places = sorted({requests * part // 11 for part in range(1, 11)} - {0})
    forgotten = [run(words, text, None, FORGOTTEN_RETURN=place) for place in places]
    counted, leaked = sum(held == 1 for _, _, _, held in forgotten), sum('LeakSanitizer: detected' in said for _, said, _, _ in forgotten)
    early = sum('heap-use-after-free' in run(words, text, None, EARLY_RETURN=place)[1] for place in places)
    print(f'control: of {len(places)} blocks that were not given back {counted} were counted and {leaked} reported as leaks, ', end='')
    print(f'and of {len(places)} that were given back too early {early} were reported as used', flush=True)
    return counted and leaked and early


def payloads(store):
    """The payloads of a log, or None where it is none."""
    if store is None or len(store) < 9 or store[:8] != b'EDLENS1\n':
        return None
    found, at = [], 8
    while store[at] == 1:
        size = int.from_bytes(store[at + 1:at + 9], 'little')
        found.append(store[at + 9:at + 9 + size])
        at += 9 + size
    return found


def answered(output):
    return sum(line.startswith(b'ok ') for line in output.split(b'\n')[:-1])


def is_allowed(words, before, ample, refused):
    """Whether the run whose memory was refused ended as the documents say."""
    if refused == ample:
        return True
    status, output, after = refused
    whole = output == b'' or output.endswith(b'\n') and ample[1].startswith(output)
    if status != 9 or not whole:
        return False
    held, had = payloads(after), payloads(before)
    if words[0] == 'apply':
        stored = payloads(ample[2])
        return held == stored[:len(had) + answered(output)]
    if words[0] == 'init':
        return not after or held == []
    if words[0] == 'import':
        return not after or held in ([], payloads(ample[2])[:1])
    if words[0] == 'pack' or words[0] == 'undo':
        return held == had
    return after == before


with tempfile.TemporaryDirectory() as room:
    library = os.path.join(room, 'refuses.so')
    if is_checked:
        build_checked(room)
    else:
        compile_c(LOADED, library, '-shared', '-ldl')
    made = run(['init'], PROGRAM, None)[0][2]
    filled = run(['apply'], JOURNAL, made)[0][2]
    total = found = 0
    for words, text, store in (
        (['run'], PROGRAM + '---\n' + JOURNAL, None),
        (['init'], PROGRAM, None),
        (['apply'], JOURNAL, made),
        (['pack'], '', filled),
        (['undo', '3'], '', filled),
        (['import'], PROGRAM + '---\n' + DOCUMENT, None),
        (['hub'], HUB + '---\n' + ''.join(line + '\n' for line in HUB_LINES), None),
        (['link'], LINK + '---\n' + ''.join(line + '\n' for line in LINK_LINES), None),
    ):
        name = ' '.join(words)
        ample, said, requests, held = run(words, text, store)
        if ample[0] not in (0, 1) or said or held:
            sys.exit(f'{name}: status {ample[0]} with ample memory, blocks held: {held}; {ample[1][-200:]!r} {said[:2000]}')
        if is_checked and words == ['run'] and not is_seen(words, text, requests):
            sys.exit('the checks do not see what they are here for')
        wrong = reported = kept = out_of_memory = 0
        numbers = range(1, requests + 1, step)
        for number in numbers:
            refused, said, seen, held = run(words, text, store, REFUSED_REQUEST=number)
            out_of_memory += refused[0] == 9
            differs = seen < number or not is_allowed(words, store, ample, refused)
            wrong, reported, kept = wrong + differs, reported + bool(said), kept + bool(held)
            if differs or said or held:
                found += 1
                also = f', blocks held: {held}; {first_line_of(said)}' if is_checked else ''
                print(f'{name}: request {number} refused: status {refused[0]}, {refused[1][-200:]!r}{also}', flush=True)
        total += len(numbers)
        also = f', {reported} with a report, {kept} with blocks that were not given back' if is_checked else ''
        print(f'{name}: {len(numbers)} requests refused one at a time, {out_of_memory} runs out of memory, {wrong} differ{also}', flush=True)
print(f'memory: {total} requests refused, {found} findings' if is_checked else f'memory: {total} requests refused, {found} differ')
sys.exit(1 if found else 0)
PYTHON
