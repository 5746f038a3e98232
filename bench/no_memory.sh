#!/usr/bin/env bash
# Refuses each request for memory of a run of the built program in turn, first that one alone and then that one and
# every later one, up to the last. A run has to end with status 5 and a front of its lines, or as it does without a
# refusal; each file that it puts is whole or as it was, all others stay as they were, a line never stands without its
# file, and no file is put before the lines of those before it stand. It prints two rows a run, and a line on standard error where that isn't so. Needs cc.
set -eu
top=$(cd "$(dirname "${BASH_SOURCE[0]}")/.." && pwd)
work=$(mktemp -d)
trap 'rm -rf "$work"' EXIT
cd "$work"

# The first call builds the program where it isn't built yet; it answers with its one fault.
[ -n "${CLIPMAP:-}" ] || "$top/clipmap" >/dev/null || true
program=${CLIPMAP:-$top/crates/clipmap/out/clipmap}

# A library that is loaded before the C library: the request of number REFUSE is refused, and with ONWARD set every
# later one too. It says on standard error how many there were when the program ends, and that one was refused.
cat >refuse.c <<'C'
#define _GNU_SOURCE
#include <dlfcn.h>
#include <errno.h>
#include <stdatomic.h>
#include <stdlib.h>
#include <string.h>
#include <unistd.h>

static atomic_ulong requests;
static unsigned long refused;
static int onward;

__attribute__((constructor)) static void begin(void) {
    const char *number = getenv("REFUSE");
    refused = number ? strtoul(number, 0, 10) : 0;
    onward = getenv("ONWARD") != 0;
    atomic_store(&requests, 0);
}

static int is_refused(void) {
    unsigned long number = atomic_fetch_add(&requests, 1) + 1;
    if (refused == 0 || number < refused || (number > refused && !onward))
        return 0;
    if (number == refused && write(2, "refused\n", 8) < 0)
        return 1;
    errno = ENOMEM;
    return 1;
}

extern void *__libc_malloc(size_t);
extern void *__libc_calloc(size_t, size_t);
extern void *__libc_realloc(void *, size_t);
extern void *__libc_memalign(size_t, size_t);

void *malloc(size_t size) { return is_refused() ? 0 : __libc_malloc(size); }
void *calloc(size_t count, size_t size) { return is_refused() ? 0 : __libc_calloc(count, size); }
void *realloc(void *old, size_t size) { return is_refused() ? 0 : __libc_realloc(old, size); }
void *aligned_alloc(size_t align, size_t size) { return is_refused() ? 0 : __libc_memalign(align, size); }
void *memalign(size_t align, size_t size) { return is_refused() ? 0 : __libc_memalign(align, size); }
int posix_memalign(void **out, size_t align, size_t size) {
    if (is_refused())
        return ENOMEM;
    *out = __libc_memalign(align, size);
    return *out ? 0 : ENOMEM;
}
C
cc -O2 -shared -fPIC -o refuse.so refuse.c -ldl

python3 - "$program" "$work/refuse.so" <<'PY'
import os, re, shutil, subprocess, sys, tempfile
program, library = sys.argv[1:]

# A tile of 3 x 3 samples, and what the program makes of it: a store of two levels and a frame.
NINE = bytes([0, 1, 0, 2, 0, 3, 0, 4, 0, 5, 0, 6, 0, 7, 0, 8, 0, 9])
base = {'N00E000.hgt': NINE, 'N00E001.hgt': NINE, 'out.obj': b'old', 'out.gct': b'old', 'out-1.obj': b'old'}

# Scripts: three frames of one level, of which a view keeps parts of one, and one frame of two levels; and a faulty one.
PAIRS = 'claim 0\nfinish 0\n' * 9
base['one.play'] = ('size 4 1\nmove 1 1\nbegin 2\n' + PAIRS + 'publish 0\nbegin 0\nbegin 1\nmove 41 1\nclaim 3\nend 0\n'
    'see 1 0 0 -9\nendseen 1\nfinish 3\nend 2\n').encode()
base['two.play'] = ('size 4 2\n' + PAIRS + 'publish 1\n' + PAIRS + 'publish 0\nbegin 0\nend 0\n').encode()
base['one.fly'] = b'size 4 1\nmove 1 1\nsettle\nframe\nmove 5 1\nframe\nsettle\nframe\n'
base['bad.play'] = b'size 4 1\nclaim 16\n'

# Each run: its words, and which file a line of its output tells of, by a pattern with the file's number, if it has one.
RUNS = [
    ('frame 4 1 1 1 out.obj N00E000.hgt', r'frame 0 ', 'out.obj'),
    ('frame 6 3 1 1 out.obj N00E000.hgt N00E001.hgt', r'frame 0 ', 'out.obj'),
    ('frame 4 2 1 1 out.obj a.gct', r'frame 0 ', 'out.obj'),
    ('pack 2 out.gct N00E000.hgt', r'packed ', 'out.gct'),
    ('packq 2 3 out.gct a.gct', r'packed ', 'out.gct'),
    ('info N00E000.hgt N00E001.hgt', None, None),
    ('info a.gct', None, None),
    ('check a.obj', None, None),
    ('check a.gct', None, None),
    ('play one.play out N00E000.hgt', r'end(?:seen)? \d+: closed (\d+) ', 'out-%s.obj'),
    ('play two.play out a.gct', r'end \d+: closed (\d+) ', 'out-%s.obj'),
    ('play bad.play out N00E000.hgt', None, None),
    ('fly 2 one.fly out N00E000.hgt', r'end \d+: closed (\d+) ', 'out-%s.obj'),
    ('frame', None, None),
]

def files_of(folder):
    return {name: open(os.path.join(folder, name), 'rb').read() for name in sorted(os.listdir(folder))}

# Runs the words in a new folder with these files: the status, the output, whether a request was refused, and the files.
def run(words, files, number=0, onward=False):
    folder = tempfile.mkdtemp()
    for name, content in files.items():
        open(os.path.join(folder, name), 'wb').write(content)
    names = dict(os.environ)
    if number:
        names.update(LD_PRELOAD=library, REFUSE=str(number), **({'ONWARD': '1'} if onward else {}))
    done = subprocess.run([program] + words.split(), cwd=folder, env=names, capture_output=True, timeout=60)
    left = files_of(folder)
    shutil.rmtree(folder)
    return done.returncode, done.stdout, b'refused\n' in done.stderr, left

# The files of which an output tells, in the order of its lines.
def names_told(output, pattern, name):
    found = [pattern and re.match(pattern, line) for line in output.decode().splitlines()]
    return [name % one.groups() for one in found if one]

# Why this end isn't right, or None. The whole run is the same one without a refusal.
def fault(end, whole, files, pattern, name):
    status, output, _, left = end
    if status not in (5, whole[0]):
        return 'status %d' % status
    if status != 5 and (output, left) != (whole[1], whole[3]):
        return 'status %d with other files or lines' % status
    if not whole[1].startswith(output):
        return 'other lines'
    for other in set(left) | set(files):
        if left.get(other) != files.get(other) and left.get(other) != whole[3].get(other):
            return 'another %s' % other
    told, order = names_told(output, pattern, name), names_told(whole[1], pattern, name)
    for early in told:
        if left.get(early) != whole[3][early]:
            return 'a line before %s' % early
    for later in order[len(told) + 1:]:
        if left.get(later) != files.get(later):
            return 'an early %s' % later
    return None

base['a.gct'] = run('pack 2 a.gct N00E000.hgt', base)[3]['a.gct']
base['a.obj'] = run('frame 4 2 1 1 a.obj N00E000.hgt', base)[3]['a.obj']
print('| words | refused | requests | ended with 5 | of these the file was put | ended as without a refusal |')
print('|---|---|---|---|---|---|')
bad = 0
for words, pattern, name in RUNS:
    whole = run(words, base)
    for onward in (False, True):
        fives = put = same = number = 0
        while True:
            number += 1
            end = run(words, base, number, onward)
            reason = fault(end, whole, base, pattern, name)
            if reason:
                bad += 1
                print('%s, request %d: %s' % (words, number, reason), file=sys.stderr)
            if not end[2]:
                break
            fives += end[0] == 5
            put += end[0] == 5 and end[3] != base
            same += end[0] == whole[0]
        kind = 'one and all later' if onward else 'one'
        print('| `%s` | %s | %d | %d | %d | %d |' % (words, kind, number - 1, fives, put, same))
sys.exit(1 if bad else 0)
PY
