#!/usr/bin/env bash
# Times the built program on `pack 12` of a made tile of 3601 x 3601 samples and on `info` of its store, in runs in turn
# with a plain Rust program (bench/plain_store.rs, built by rustc -O, or PLAIN=PROGRAM), whose store and lines have to be
# the same, byte for byte. With HGT tiles as arguments it prints how many bytes a sample their stores take instead,
# beside the HGT file and, where gdal_translate is there, beside compressed GeoTIFF files.
set -eu
top=$(cd "$(dirname "${BASH_SOURCE[0]}")/.." && pwd)
runs=${RUNS:-9}
tiles=()
for tile in "$@"; do tiles+=("$(realpath "$tile")"); done
work=$(mktemp -d)
trap 'rm -rf "$work"' EXIT
cd "$work"

# The first call builds the program where it isn't built yet; it answers with its one fault.
[ -n "${CLIPMAP:-}" ] || "$top/clipmap" >/dev/null || true
program=${CLIPMAP:-$top/crates/clipmap/out/clipmap}

# How many bytes a sample of a tile a file takes.
bytes_of() {
    python3 -c "import os; print('%.3f' % (2 * os.path.getsize('$1') / os.path.getsize('$2')))"
}

# The bytes a sample that gdal_translate takes with these options, or a dash where there is none.
tiff_of() {
    local tile=$1
    shift
    if ! command -v gdal_translate >/dev/null; then
        echo "-"
    else
        gdal_translate -q -of GTiff "$@" "$tile" out.tif
        bytes_of out.tif "$tile"
    fi
}

if [ ${#tiles[@]} -gt 0 ]; then
    echo "| tile | HGT | store | by 3 | by 7 | GeoTIFF, DEFLATE | ZSTD | LZW |"
    echo "|---|---|---|---|---|---|---|---|"
    for tile in "${tiles[@]}"; do
        # gdal_translate reads HGT files of three sides alone, so the samples are given to it as a raw grid.
        python3 - "$tile" <<'PY'
import os, sys
side = int((os.path.getsize(sys.argv[1]) // 2) ** 0.5)
open('raw.bil', 'wb').write(open(sys.argv[1], 'rb').read())
open('raw.hdr', 'w').write('NROWS %d\nNCOLS %d\nNBANDS 1\nNBITS 16\nPIXELTYPE SIGNEDINT\nBYTEORDER M\nLAYOUT BIL\n' % (side, side))
PY
        row="| $(basename "$(dirname "$tile")") | 2.000"
        "$program" pack 12 out.gct "$tile" >/dev/null
        row="$row | $(bytes_of out.gct "$tile")"
        for step in 3 7; do
            "$program" packq 12 $step out.gct "$tile" >/dev/null
            row="$row | $(bytes_of out.gct "$tile")"
        done
        for method in DEFLATE ZSTD LZW; do
            row="$row | $(tiff_of raw.bil -co COMPRESS=$method -co PREDICTOR=2)"
        done
        echo "$row |"
    done
    exit
fi

plain=${PLAIN:-}
if [ -z "$plain" ]; then
    rustc --edition 2021 -O "$top/bench/plain_store.rs" -o plain_store
    plain=$work/plain_store
fi

# A tile of hills: the sample at column x and row y, as 16-bit big-endian numbers.
python3 - <<'PY'
import array, math, sys
side = 3601
rows = [400 * math.sin(y / 37) for y in range(side)]
columns = [700 * math.cos(x / 53) + x % 7 for x in range(side)]
samples = array.array('h', (int(r + c) for r in rows for c in columns))
if sys.byteorder == 'little':
    samples.byteswap()
open('N00E000.hgt', 'wb').write(samples.tobytes())
PY

# Times words of this program and of the plain one, in alternating runs, and prints a row: the medians of their processor
# time, user and system, which other work on the machine changes less than the time on the clock.
row() {
    python3 - "$runs" "$program" "$plain" "$@" <<'PY'
import resource, statistics, subprocess, sys
runs, program, plain, words = int(sys.argv[1]), sys.argv[2], sys.argv[3], sys.argv[4:]
def used():
    usage = resource.getrusage(resource.RUSAGE_CHILDREN)
    return usage.ru_utime + usage.ru_stime
def spent(name):
    begin = used()
    subprocess.run([name] + words, check=True, stdout=subprocess.DEVNULL)
    return used() - begin
times = {}
for _ in range(runs):
    for name in (program, plain):
        times.setdefault(name, []).append(spent(name))
ours = statistics.median(times[program])
other = statistics.median(times[plain])
print('| `%s` | %.3f | %.3f | %.2f |' % (' '.join(words), ours, other, ours / other))
PY
}

"$program" pack 12 out.gct N00E000.hgt >ours.lines
"$program" info out.gct >>ours.lines
"$plain" pack 12 plain.gct N00E000.hgt >plain.lines
"$plain" info plain.gct >>plain.lines
cmp out.gct plain.gct
cmp ours.lines plain.lines
echo "| words | seconds | seconds of the plain program | ratio |"
echo "|---|---|---|---|"
row pack 12 out.gct N00E000.hgt
row info out.gct
