#!/usr/bin/env bash
# Times the built program on `check` of the frame of `frame 8 12 1800 1800` over a made tile of 3601 x 3601 samples, best
# of several runs, and tells the most memory that it took, in runs in turn with a plain Rust program (bench/plain_check.rs, built
# by rustc -O, or PLAIN=PROGRAM), which has to write the same line, and prints the ratio.
set -eu
top=$(cd "$(dirname "${BASH_SOURCE[0]}")/.." && pwd)
runs=${RUNS:-9}
work=$(mktemp -d)
trap 'rm -rf "$work"' EXIT
cd "$work"

# The first call builds the program where it isn't built yet; it answers with its one fault.
[ -n "${CLIPMAP:-}" ] || "$top/clipmap" >/dev/null || true
program=${CLIPMAP:-$top/crates/clipmap/out/clipmap}

# A tile of hills: the sample at column x and row y, as 16-bit big-endian numbers.
python3 - <<'PY'
import array, math, sys
side = 3601
rows = [400 * math.sin(y / 37) for y in range(side)]
columns = [700 * math.cos(x / 53) + x % 7 for x in range(side)]
samples = array.array('h', (int(r + c) for r in rows for c in columns))
if sys.byteorder == 'little':
    samples.byteswap()
open('N00E000.hgt', 'wb').write(samples.tobytes())
PY
"$program" frame 8 12 1800 1800 out.obj N00E000.hgt >/dev/null

plain=${PLAIN:-}
if [ -z "$plain" ]; then
    rustc --edition 2021 -O "$top/bench/plain_check.rs" -o plain_check
    plain=$work/plain_check
fi
"$program" check out.obj >ours
"$plain" check out.obj >theirs
cmp ours theirs

# Wall time and processor time (user and system) of each run, in turn, and the most memory of any.
python3 - "$runs" "$program" "$plain" <<'PY'
import os, subprocess, sys, time
runs, program, plain = int(sys.argv[1]), sys.argv[2], sys.argv[3]
size = os.path.getsize('out.obj')
names = [program, plain]
wall, spent, most = ({name: [] for name in names} for _ in range(3))
for _ in range(runs):
    for name in names:
        begin = time.perf_counter()
        run = subprocess.Popen([name, 'check', 'out.obj'], stdout=subprocess.DEVNULL)
        _, status, used = os.wait4(run.pid, 0)
        run.returncode = status
        if status:
            sys.exit('%s: status %d' % (name, status))
        wall[name].append(time.perf_counter() - begin)
        spent[name].append(used.ru_utime + used.ru_stime)
        most[name].append(used.ru_maxrss * 1024)
middle = lambda numbers: sorted(numbers)[len(numbers) // 2]
print('| program | best seconds | median of processor seconds | most memory over the file |')
print('|---|---|---|---|')
for name in names:
    print('| %s | %.4f | %.4f | %.1f |' % ('plain' if name == plain else 'clipmap', min(wall[name]), middle(spent[name]), max(most[name]) / size))
print('| ratio | %.2f | %.2f | %.2f |' % (min(wall[program]) / min(wall[plain]), middle(spent[program]) / middle(spent[plain]), max(most[program]) / max(most[plain])))
PY
