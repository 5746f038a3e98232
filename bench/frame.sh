#!/usr/bin/env bash
# Times the built program on frames over made tiles of 1201 and 3601 samples a side, best of several runs, beside the
# time of copying the same bytes, tiles and OBJ file, with cat: one level and twelve levels of the largest window, and
# four tiles joined into one terrain of 7201 x 7201 samples. It prints one table.
set -eu
top=$(cd "$(dirname "${BASH_SOURCE[0]}")/.." && pwd)
runs=${RUNS:-7}
work=$(mktemp -d)
trap 'rm -rf "$work"' EXIT
cd "$work"

# A tile of hills: the sample at column x and row y, as 16-bit big-endian numbers.
make_tile() {
    python3 - "$1" "$2" <<'PY'
import array, math, sys
side, name = int(sys.argv[1]), sys.argv[2]
rows = [400 * math.sin(y / 37) for y in range(side)]
columns = [700 * math.cos(x / 53) + x % 7 for x in range(side)]
samples = array.array('h', (int(r + c) for r in rows for c in columns))
if sys.byteorder == 'little':
    samples.byteswap()
open(name, 'wb').write(samples.tobytes())
PY
}

# The least time in seconds of several runs of a command.
best() {
    python3 - "$runs" "$@" <<'PY'
import subprocess, sys, time
runs, command = int(sys.argv[1]), sys.argv[2:]
least = None
for _ in range(runs):
    begin = time.perf_counter()
    subprocess.run(command, check=True, stdout=subprocess.DEVNULL)
    spent = time.perf_counter() - begin
    least = spent if least is None else min(least, spent)
print('%.4f' % least)
PY
}

# The first call builds the program where it isn't built yet; it answers with its one fault.
[ -n "${CLIPMAP:-}" ] || "$top/clipmap" >/dev/null || true
program=${CLIPMAP:-$top/crates/clipmap/out/clipmap}

# Times one frame over these tiles and prints its row: the label, K, L, X, Y, and the tiles.
row() {
    local label=$1 words=$2
    shift 2
    local line seconds copied bytes
    line=$("$program" frame $words out.obj "$@")
    seconds=$(best "$program" frame $words out.obj "$@")
    copied=$(best sh -c "cat $* out.obj > copy")
    bytes=$(stat -c %s out.obj)
    python3 -c "
label, line, s, b, c = '$label', '$line'.split(), $seconds, $bytes, $copied
print('| %s | \`frame $words\` | %s | %s | %.1f | %.4f | %.4f | %.1f |' % (label, line[3], line[5], b / 1e6, s, c, s / c))"
}

echo "| tiles | words | vertices | triangles | MB of OBJ | seconds | seconds of cat | ratio |"
echo "|---|---|---|---|---|---|---|---|"
make_tile 1201 N00E000.hgt
row "one of side 1201" "8 1 600 600" N00E000.hgt
row "one of side 1201" "6 6 600 600" N00E000.hgt
make_tile 3601 N00E000.hgt
row "one of side 3601" "8 1 600 600" N00E000.hgt
row "one of side 3601" "8 12 1800 1800" N00E000.hgt
for name in N00E001 N01E000 N01E001; do cp N00E000.hgt "$name.hgt"; done
row "four of side 3601" "4 1 3600 3600" N00E000.hgt N00E001.hgt N01E000.hgt N01E001.hgt
