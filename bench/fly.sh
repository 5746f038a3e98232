#!/usr/bin/env bash
# Times the built program on flights, in runs in turn, and prints medians and their ratios:
# - `demo 0` beside the demo of a plain Rust engine of one thread (bench/plain_engine, built by rustc -O, or PLAIN=PROGRAM),
#   which has to write the same line;
# - a flight of MOVES moves with frames and settlings over a store of 1201 x 1201 made heights, K = 6, six levels, by 1, 2 and
#   15 workers, and for two a `play` of the same events, which has to write the same log and files;
# - `frame 8 12 1800 1800` over a store of 3601 x 3601 on one, two and four processors.
# RUNS says how many runs (9), MOVES how many moves (64).
set -eu
top=$(cd "$(dirname "${BASH_SOURCE[0]}")/.." && pwd)
runs=${RUNS:-9}
moves=${MOVES:-64}
work=$(mktemp -d)
trap 'rm -rf "$work"' EXIT
cd "$work"

# The first call builds the program where it isn't built yet; it answers with its one fault.
[ -n "${CLIPMAP:-}" ] || "$top/clipmap" >/dev/null || true
program=${CLIPMAP:-$top/crates/clipmap/out/clipmap}
plain=${PLAIN:-}
if [ -z "$plain" ]; then
    rustc --edition 2021 -O "$top/bench/plain_engine/main.rs" -o plain_engine
    plain=$work/plain_engine
fi

# Tiles of hills, as 16-bit big-endian numbers, and the script.
python3 - "$moves" <<'PY'
import array, math, random, sys
for side, name in ((1201, 'N00E000.hgt'), (3601, 'N00E001.hgt')):
    rows = [400 * math.sin(y / 37) for y in range(side)]
    columns = [700 * math.cos(x / 53) + x % 7 for x in range(side)]
    samples = array.array('h', (int(r + c) for r in rows for c in columns))
    if sys.byteorder == 'little':
        samples.byteswap()
    open(name, 'wb').write(samples.tobytes())
draw = random.Random(1)
x = y = 600
lines = ['size 6 6', 'move 600 600', 'settle', 'frame']
for _ in range(int(sys.argv[1])):
    x, y = (min(max(v + draw.randrange(-32, 33), 0), 1200) for v in (x, y))
    lines += ['move %d %d' % (x, y), 'frame', 'settle']
open('flight.fly', 'w').write('\n'.join(lines) + '\n')
PY
"$program" pack 6 flight.gct N00E000.hgt
"$program" pack 12 frame.gct N00E001.hgt

python3 - "$runs" "$program" "$plain" <<'PY'
import glob, os, shutil, subprocess, sys, time
runs, program, plain = int(sys.argv[1]), sys.argv[2], sys.argv[3]
middle = lambda numbers: sorted(numbers)[len(numbers) // 2]

# The processor seconds and the seconds on the clock of a command, whose output goes to a file.
def spent(command):
    before, begin = os.times(), time.perf_counter()
    with open('lines', 'wb') as out:
        subprocess.run(command, stdout=out, check=True)
    after = os.times()
    used = after.children_user - before.children_user + after.children_system - before.children_system
    return used, time.perf_counter() - begin

def written():
    names = sorted(glob.glob('out*.obj'))
    parts = [open(name, 'rb').read() for name in ['lines'] + names]
    for name in names:
        os.remove(name)
    return names, parts

# Runs commands in turn, and gives the medians of each, which are told beside those of the first.
def timed(title, commands, same):
    found = []
    for label, command in commands:
        spent(command)
        found.append(written())
    if same and any(one != found[0] for one in found[1:]):
        sys.exit('%s: different bytes were written' % title)
    times = {label: [] for label, _ in commands}
    for _ in range(runs):
        for label, command in commands:
            times[label].append(spent(command))
            written()
    print('\n| %s | seconds on the clock | seconds of processor | clock to the last | processor to the last |' % title)
    print('|---|---|---|---|---|')
    medians = {label: [middle([t[i] for t in times[label]]) for i in range(2)] for label, _ in commands}
    last = medians[commands[-1][0]]
    for label, _ in commands:
        used, clock = medians[label]
        print('| %s | %.3f | %.3f | %.2f | %.2f |' % (label, clock, used, clock / last[1], used / last[0]))

timed('the demo', [('`demo 0`', [program, 'demo', '0']), ('plain engine', [plain, 'demo', '0'])], True)

fly = lambda workers: [program, 'fly', str(workers), 'flight.fly', 'out', 'flight.gct']
spent(fly(2))
log = open('lines').read().splitlines()
written()
with open('flight.play', 'w') as script:
    script.write('size 6 6\n' + ''.join(line.split(':')[0] + '\n' for line in log))
timed('a flight', [('`fly 15`', fly(15)), ('`fly 1`', fly(1))], False)
timed('its events', [('`fly 2`', fly(2)), ('`play`', [program, 'play', 'flight.play', 'out', 'flight.gct'])], True)

frame = [program, 'frame', '8', '12', '1800', '1800', 'out.obj', 'frame.gct']
count = len(os.sched_getaffinity(0))
on = [number for number in (4, 2, 1) if number <= count]
if shutil.which('taskset'):
    timed('a large frame', [('%d processors' % n, ['taskset', '-c', '0-%d' % (n - 1)] + frame) for n in on], True)
PY
