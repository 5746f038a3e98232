#!/usr/bin/env bash
# Times the built program on swarms over a store of 1201 x 1201 made heights, K = 6, six levels: 1, 2 and 4 workers of CLAIMS
# claims each beside 1 and 2 renderers of FRAMES frames each. Of each it prints the seconds on the clock, the frames that were
# begun and the claims a second, and the pieces that were filled; and for as many frames those of a `fly` of as many workers.
# A `play` of what each swarm wrote has to put the same files.
# RUNS says how many runs (5), CLAIMS how many claims (2000), FRAMES how many frames (200).
set -eu
top=$(cd "$(dirname "${BASH_SOURCE[0]}")/.." && pwd)
work=$(mktemp -d)
trap 'rm -rf "$work"' EXIT
cd "$work"

# The first call builds the program where it isn't built yet; it answers with its one fault.
[ -n "${CLIPMAP:-}" ] || "$top/clipmap" >/dev/null || true
program=${CLIPMAP:-$top/crates/clipmap/out/clipmap}

# A tile of hills, as 16-bit big-endian numbers.
python3 - <<'PY'
import array, math, sys
side = 1201
rows = [400 * math.sin(y / 37) for y in range(side)]
columns = [700 * math.cos(x / 53) + x % 7 for x in range(side)]
samples = array.array('h', (int(r + c) for r in rows for c in columns))
if sys.byteorder == 'little':
    samples.byteswap()
open('N00E000.hgt', 'wb').write(samples.tobytes())
PY
"$program" pack 6 hills.gct N00E000.hgt

python3 - "${RUNS:-5}" "${CLAIMS:-2000}" "${FRAMES:-200}" "$program" <<'PY'
import filecmp, glob, os, random, subprocess, sys, time
runs, claims, frames, program = int(sys.argv[1]), int(sys.argv[2]), int(sys.argv[3]), sys.argv[4]
middle = lambda numbers: sorted(numbers)[len(numbers) // 2]

# The seconds on the clock of a command, whose output goes to a file.
def spent(command, output):
    begin = time.perf_counter()
    with open(output, 'wb') as out:
        subprocess.run(command, stdout=out, check=True)
    return time.perf_counter() - begin

draw = random.Random(1)
x = y = 600
places = []
for _ in range(16):
    x, y = (min(max(v + draw.randrange(-32, 33), 0), 1200) for v in (x, y))
    places.append((x, y))
moves = ''.join('move %d %d\n' % place for place in places)
open('swarm', 'w').write('size 6 6\nwork %d %d\n%s' % (claims, frames, moves))

print('| workers | renderers | seconds | begun a second | closed | claims a second | filled | seconds of a `fly` | frames a second |')
print('|---|---|---|---|---|---|---|---|---|')
for workers in (1, 2, 4):
    for renderers in (1, 2):
        times, flown = [], []
        many = renderers * frames
        lines = ['size 6 6', 'move 600 600', 'settle']
        for number in range(many):
            lines += (['move %d %d' % places[number % 16]] if number % 4 == 0 else []) + ['frame']
        open('flight', 'w').write('\n'.join(lines) + '\n')
        for _ in range(runs):
            for old in glob.glob('*.obj'):
                os.remove(old)
            times.append(spent([program, 'swarm', str(workers), str(renderers), 'swarm', 'out', 'hills.gct'], 'journal'))
            flown.append(spent([program, 'fly', str(workers), 'flight', 'fly', 'hills.gct'], 'log'))
        spent([program, 'play', 'journal', 'again', 'hills.gct'], 'log')
        made = sorted(glob.glob('out-*.obj'))
        assert len(made) == len(glob.glob('again-*.obj'))
        assert all(filecmp.cmp(name, name.replace('out', 'again', 1), False) for name in made)
        events = open('journal').read().split('\n')
        filled = sum(line.startswith('finish') for line in events)
        seconds, flight = middle(times), middle(flown)
        print('| %d | %d | %.2f | %.0f | %d | %.0f | %d | %.2f | %.0f |' % (workers, renderers, seconds,
              many / seconds, len(made), workers * claims / seconds, filled, flight, many / flight))
PY
