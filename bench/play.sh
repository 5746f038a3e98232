#!/usr/bin/env bash
# Times the built program on a play and on a frame over packed stores, in runs in turn with a plain Rust engine
# (bench/plain_engine, built by rustc -O, or PLAIN=PROGRAM), which has to write the same files and lines, byte for byte:
# a script of 200 moves of 8 samples with a settled frame after each, K = 6, six levels, over a store of 1201 x 1201 made
# heights; and `frame 8 12 1800 1800` over one of 3601 x 3601. It prints the medians of processor time and of time on the
# clock, their ratios, and the peaks of memory beside the sum of the store, the book, one mesh and one text.
set -eu
top=$(cd "$(dirname "${BASH_SOURCE[0]}")/.." && pwd)
runs=${RUNS:-9}
moves=${MOVES:-200}
work=$(mktemp -d)
trap 'rm -rf "$work"' EXIT
cd "$work"

# The first call builds the program where it isn't built yet; it answers with its one fault.
[ -n "${CLIPMAP:-}" ] || "$top/clipmap" >/dev/null || true
program=${CLIPMAP:-$top/crates/clipmap/out/clipmap}
plain=${PLAIN:-}
if [ -z "$plain" ]; then
    rustc --edition 2021 -O "$top/bench/plain_engine/main.rs" -o plain_engine
    plain=$work/plain_engine
fi

# Tiles of hills, as 16-bit big-endian numbers, and the script: after each move every level is filled by one pass, strip
# by strip from the coarsest level, so that each publication is of a strip that is finished.
python3 - "$moves" <<'PY'
import array, math, sys
for side, name in ((1201, 'N00E000.hgt'), (3601, 'N00E001.hgt')):
    rows = [400 * math.sin(y / 37) for y in range(side)]
    columns = [700 * math.cos(x / 53) + x % 7 for x in range(side)]
    samples = array.array('h', (int(r + c) for r in rows for c in columns))
    if sys.byteorder == 'little':
        samples.byteswap()
    open(name, 'wb').write(samples.tobytes())

K, LEVELS = 6, 6
half = 2 ** (K - 1) - 1

def window(level, x, y):
    cx, cy = (2 * (v >> (level + 1)) + 1 for v in (x, y))
    return (cx - half, cy - half, cx + half, cy + half)

# The first of the strips that a filled region lacks of its window, with the region that holds both.
def strip(filled, window):
    if filled is None:
        return window, window
    (a, b, c, d), (p, q, r, s) = filled, window
    if a > p:
        return (p, b, a - 1, d), (p, b, c, d)
    if c < r:
        return (c + 1, b, r, d), (a, b, r, d)
    if b > q:
        return (p, q, r, b - 1), (a, q, c, d)
    if d < s:
        return (p, d + 1, r, s), (a, b, c, s)
    return None, filled

def blocks(low, high):
    return (high >> 3) - (low >> 3) + 1

lines, filled = ['size %d %d' % (K, LEVELS)], [None] * LEVELS
for n in range(int(sys.argv[1])):
    x, y = (600 + 8 * abs((n + at) % 100 - 50) for at in (0, 25))
    lines.append('move %d %d' % (x, y))
    for level in reversed(range(LEVELS)):
        now = window(level, x, y)
        if filled[level] is not None:
            a, b, c, d = filled[level]
            met = (max(a, now[0]), max(b, now[1]), min(c, now[2]), min(d, now[3]))
            filled[level] = met if met[0] <= met[2] and met[1] <= met[3] else None
        piece, grown = strip(filled[level], now)
        while piece is not None:
            pieces = blocks(piece[0], piece[2]) * blocks(piece[1], piece[3])
            lines += ['claim 0', 'finish 0'] * pieces + ['publish %d' % level]
            filled[level] = grown
            piece, grown = strip(filled[level], now)
    lines += ['claim 0', 'begin 0', 'end 0']
open('flight.play', 'w').write('\n'.join(lines) + '\n')
PY
"$program" pack 6 flight.gct N00E000.hgt
"$program" pack 12 frame.gct N00E001.hgt

python3 - "$runs" "$program" "$plain" <<'PY'
import glob, os, subprocess, sys, time
runs, programs = int(sys.argv[1]), sys.argv[2:]
tests = (('200 moves' if not os.environ.get('MOVES') else os.environ['MOVES'] + ' moves', 'flight.gct', 6, 6,
          ['play', 'flight.play', 'out', 'flight.gct']),
         ('one frame', 'frame.gct', 8, 12, ['frame', '8', '12', '1800', '1800', 'out.obj', 'frame.gct']))

# Runs a command from a small process of its own, since a peak of memory counts that of the process that it was begun from, and tells
# the processor seconds, the seconds on the clock, the peak in bytes and the status.
small = """
import os, sys, time
begin = time.perf_counter()
_, status, used = os.wait4(os.posix_spawn(sys.argv[1], sys.argv[1:], os.environ), 0)
print(used.ru_utime + used.ru_stime, time.perf_counter() - begin, used.ru_maxrss * 1024, status, file=sys.stderr)
"""

# The processor seconds, the seconds on the clock and the peak of memory in bytes of a command, whose output goes to a file.
def spent(command, output):
    with open(output, 'wb') as out:
        run = subprocess.run([sys.executable, '-c', small] + command, stdout=out, stderr=subprocess.PIPE, check=True)
    processor, clock, peak, status = map(float, run.stderr.split()[-4:])
    if status:
        sys.exit('%s: status %d' % (command[0], status))
    return processor, clock, peak

def written(output):
    names = sorted(glob.glob('out*.obj'))
    parts = [open(name, 'rb').read() for name in [output] + names]
    for name in names:
        os.remove(name)
    return names, parts

middle = lambda numbers: sorted(numbers)[len(numbers) // 2]
print('| what | seconds of processor | of the plain engine | ratio | ratio on the clock | peak, MB | store + book + mesh + text, MB | peak of the plain engine |')
print('|---|---|---|---|---|---|---|---|')
for label, store, k, levels, words in tests:
    found, times = [], {program: [] for program in programs}
    for program in programs:
        spent([program] + words, 'lines')
        found.append(written('lines'))
    if found[0] != found[1]:
        sys.exit('%s: the two programs wrote different bytes' % label)
    text = max(found[0][1][1:], key=len)
    mesh = 12 * sum(line[:1] in (b'v', b'f') for line in text.split(b'\n'))
    parts = (os.path.getsize(store), levels * 4 ** k * 2, mesh, len(text))
    for _ in range(runs):
        for program in programs:
            times[program].append(spent([program] + words, 'lines'))
            written('lines')
    medians = {p: [middle([t[i] for t in times[p]]) for i in range(3)] for p in programs}
    ours, other = (medians[p] for p in programs)
    print('| %s, `%s` | %.3f | %.3f | %.2f | %.2f | %.1f | %s = %.1f | %.1f |' % (
        label, ' '.join(words), ours[0], other[0], ours[0] / other[0], ours[1] / other[1], ours[2] / 1e6,
        ' + '.join('%.1f' % (part / 1e6) for part in parts), sum(parts) / 1e6, other[2] / 1e6))
PY
