#!/usr/bin/env bash
# Runs the built program over folders and outputs that aren't what it hopes for, and prints a row a case: the status,
# the output, and what became of OUT. It needs root, for a full disk and a device, and runs the program as nobody, since
# permissions don't bind root.
set -eu
top=$(cd "$(dirname "${BASH_SOURCE[0]}")/.." && pwd)
[ "$(id -u)" = 0 ] || { echo "$0: run it as root: it mounts a small disk and becomes nobody" >&2; exit 1; }
work=$(mktemp -d)
trap 'umount "$work/full" 2>/dev/null || true; rm -rf "$work"' EXIT

# The first call builds the program where it isn't built yet; it answers with its one fault.
[ -n "${CLIPMAP:-}" ] || "$top/clipmap" >/dev/null || true
cp "${CLIPMAP:-$top/crates/clipmap/out/clipmap}" "$work/clipmap"
chmod 755 "$work" "$work/clipmap"
cd "$work"
mkdir full
mount -t tmpfs -o size=16k,mode=777 none full
bad=0

# The 3 x 3 tile of the heights 1 to 9.
tile() { printf '\0\1\0\2\0\3\0\4\0\5\0\6\0\7\0\10\0\11'; }

# A new folder of nobody's with a tile and an old OUT, and what a command makes of the folder; and then the case in it.
folder() {
    rm -rf "$work/case"
    mkdir "$work/case"
    cd "$work/case"
    tile >N00E000.hgt
    printf old >out.obj
    "$@"
    chown -h nobody . ./*
}

# The program as nobody; 124 would be the status of one that waits for somebody.
program() { timeout 10 setpriv --reuid=nobody --regid=nogroup --clear-groups "$work/clipmap" "$@"; }

# What stands under a name.
stands() {
    if [ -L "$1" ]; then
        if [ -e "$1" ]; then echo "a link to $(stat -Lc %s "$1") bytes"; else echo "a dangling link"; fi
    elif [ ! -e "$1" ]; then echo "nothing"
    elif [ -d "$1" ]; then echo "a folder"
    elif [ -p "$1" ]; then echo "a pipe"
    elif [ ! -f "$1" ]; then echo "a device"
    elif printf old | cmp -s - "$1"; then echo "the old file"
    else echo "$(stat -c %s "$1") bytes"; fi
}

# A row: the case, its words, the status that is wanted and the one that came, the first line of output, and what stands
# under OUT. A part that was left behind, or an error of the program's own, is told too.
row() {
    local label=$1 words=$2 want=$3 status=$4 out=$5 parts
    parts=$(find "$work/case" "$work/full" -name '*.part' | wc -l)
    [ "$parts" = 0 ] || label="$label; $parts parts are left"
    [ ! -s "$work/errors" ] || label="$label; $(head -n 1 "$work/errors")"
    [ "$status" = "$want" ] && [ "$parts" = 0 ] && [ ! -s "$work/errors" ] || { bad=1; label="$label (NOT AS WANTED: $want)"; }
    echo "| $label | \`$words\` | $status | $(head -n 1 "$work/output" | sed 's/.\{1,\}/`&`/') | $(stands "$out") |"
}

# Runs the words in the folder as it is.
try() {
    local label=$1 want=$2 out=$3 status=0
    shift 3
    program "$@" >"$work/output" 2>"$work/errors" || status=$?
    row "$label" "$*" "$want" "$status" "$out"
}

frame=(frame 4 1 1 1)
echo "| case | words | status | output | what stands under OUT |"
echo "|---|---|---|---|---|"

# What an INPUT or a FILE can be.
input() {
    local label=$1 want=$2 name=$3
    shift 3
    folder "$@"
    try "$label" "$want" out.obj "${frame[@]}" out.obj "$name"
}
input "a tile" 0 N00E000.hgt true
input "INPUT is a pipe that nobody writes" 3 N00E001.hgt mkfifo N00E001.hgt
input "INPUT is a link to a device without an end" 3 N00E001.hgt ln -s /dev/zero N00E001.hgt
device() { mknod -m 666 N00E001.hgt c 1 5; }
input "INPUT is a device without an end" 3 N00E001.hgt device
socket() { python3 -c 'import socket; socket.socket(socket.AF_UNIX).bind("N00E001.hgt")'; }
input "INPUT is a socket" 3 N00E001.hgt socket
# A terminal, which somebody holds open.
python3 -c 'import os, pty, time; a, b = pty.openpty(); os.chmod(os.ttyname(b), 0o666); print(os.ttyname(b), flush=True); time.sleep(20)' >terminal &
holder=$!
sleep 0.5
terminal=$(cat terminal)
input "INPUT is a link to a terminal" 3 N00E001.hgt ln -s "$terminal" N00E001.hgt
kill "$holder"
wait "$holder" 2>/dev/null || true
input "INPUT is a folder" 3 N00E001.hgt mkdir N00E001.hgt
input "INPUT is a dangling link" 2 N00E001.hgt ln -s nowhere N00E001.hgt
input "INPUT is a link to itself" 3 N00E001.hgt ln -s N00E001.hgt N00E001.hgt
input "INPUT is a link to a tile" 0 N00E001.hgt ln -s N00E000.hgt N00E001.hgt
input "INPUT lies behind a file" 3 out.obj/N00E000.hgt true
input "INPUT lies in no folder" 2 none/N00E000.hgt true
input "INPUT by a name with .." 0 ../case/N00E000.hgt true
unreadable() { tile >N00E001.hgt; chmod 000 N00E001.hgt; }
input "INPUT may not be read" 3 N00E001.hgt unreadable
closed() { mkdir -m 000 shut; }
input "INPUT lies in a folder that may not be entered" 3 shut/N00E000.hgt closed
empty() { : >N00E001.hgt; }
input "INPUT is empty" 2 N00E001.hgt empty
long() { truncate -s 25934403 N00E001.hgt; }
input "INPUT is one byte too long" 2 N00E001.hgt long
huge() { truncate -s 100G N00E001.hgt; }
input "INPUT says that it has 100 GB" 2 N00E001.hgt huge

# An INPUT that grows while it is read, and never ends: a writer appends to it all the while.
growing() { truncate -s 25000000 N00E001.hgt; }
folder growing
(while :; do head -c 100000 /dev/zero; done >>N00E001.hgt) &
writer=$!
sleep 0.01
try "INPUT grows while it is read" 2 out.obj "${frame[@]}" out.obj N00E001.hgt
kill "$writer"
wait "$writer" 2>/dev/null || true

# A folder, a store and a text under the other commands.
folder mkdir a.gct
try "a store is a folder" 3 out.obj info a.gct
folder ln -s /dev/zero a.gct
try "a store is a link to a device" 3 out.obj packq 2 3 out.obj a.gct
folder mkfifo a.obj
try "FILE is a pipe" 3 out.obj check a.obj
folder ln -s nowhere a.obj
try "FILE is a dangling link" 2 out.obj check a.obj
folder true
try "FILE is a device" 3 out.obj check /dev/zero
try "FILE says that it is empty and isn't" 2 out.obj check /proc/self/status

# What a script can be, and what a play does with the rest where its script is one.
playing() { printf 'size 4 1\nbegin 0\nend 0\nbegin 0\nend 0\n' >s; printf old >out-1.obj; }
script() {
    local label=$1 want=$2 out=$3 words=$4
    shift 4
    scripted() { playing; "$@"; }
    folder scripted "$@"
    # shellcheck disable=SC2086
    try "$label" "$want" "$out" $words
}
script "a play" 0 out-0.obj "play s out N00E000.hgt" true
script "SCRIPT is a pipe that nobody writes" 3 out-0.obj "play t out N00E000.hgt" mkfifo t
script "SCRIPT is a device" 3 out-0.obj "play /dev/zero out N00E000.hgt" true
script "SCRIPT is a folder" 3 out-0.obj "play t out N00E000.hgt" mkdir t
script "SCRIPT is a dangling link" 2 out-0.obj "play t out N00E000.hgt" ln -s nowhere t
script "SCRIPT is a tile" 2 out-0.obj "play N00E000.hgt out N00E000.hgt" true
script "SCRIPT is a link to a script" 0 out-0.obj "play t out N00E000.hgt" ln -s s t
long_script() { truncate -s 33554433 t; }
script "SCRIPT is one byte too long" 2 out-0.obj "play t out N00E000.hgt" long_script
bad_script() { printf 'size 4 1\nclaim 16\n' >t; mkfifo N00E001.hgt; }
script "SCRIPT has a bad line, INPUT is a pipe" 2 out-0.obj "play t out N00E001.hgt" bad_script
script "INPUT of a play is a pipe" 3 out-0.obj "play s out N00E001.hgt" mkfifo N00E001.hgt
script "the first frame's name is a folder" 3 out-0.obj "play s out N00E000.hgt" mkdir out-0.obj
second() { rm out-1.obj; mkdir out-1.obj; }
script "the second frame's name is a folder: the first one" 3 out-0.obj "play s out N00E000.hgt" second
script "the second frame's name is a folder: the second one" 3 out-1.obj "play s out N00E000.hgt" second
script "OUT of a play lies in no folder" 3 none/out-0.obj "play s none/out N00E000.hgt" true
to_output() { ln -s /dev/null out-0.obj; }
script "the first frame's name is a link to a device that takes all" 0 out-0.obj "play s out N00E000.hgt" to_output

# What OUT can be.
output() {
    local label=$1 want=$2 name=$3
    shift 3
    folder "$@"
    try "$label" "$want" "$name" "${frame[@]}" "$name" N00E000.hgt
}
output "OUT is a folder" 3 place mkdir place
output "OUT is a dangling link" 3 link ln -s nowhere link
output "OUT is a link to a file" 0 link ln -s out.obj link
output "OUT is a link to a full device" 3 link ln -s /dev/full link
output "OUT is a link to a device that takes all" 0 link ln -s /dev/null link
output "OUT by a name with .." 0 ../case/new.obj true
output "OUT lies in no folder" 3 none/new.obj true
locked() { chmod 444 out.obj; }
output "OUT may not be written, but its folder may" 0 out.obj locked
foreign() { mkdir shut; printf old >shut/out.obj; chmod 555 shut; }
output "OUT lies in a folder that takes no files" 3 shut/out.obj foreign
pipe_folder() { mkfifo pipe; }
folder pipe_folder
head -n 1 pipe >"$work/read" &
reader=$!
try "OUT is a pipe whose reader leaves early" 3 pipe frame 8 12 1 1 pipe N00E000.hgt
wait "$reader"

# OUT is standard output, a pipe of nobody's own: the text and then the line.
folder true
setpriv --reuid=nobody --regid=nogroup --clear-groups bash -c \
    '("$0" frame 4 1 1 1 /dev/stdout N00E000.hgt 2>errors; echo $? >status) | cat >text' "$work/clipmap"
tail -n 1 text >"$work/output"
mv errors "$work/errors"
row "OUT is standard output, a pipe: its last line" "frame 4 1 1 1 /dev/stdout N00E000.hgt" 0 "$(cat status)" text

# A full disk: OUT is larger than what is free, and replaces a file or not.
folder true
printf old >"$work/full/out.obj"
chown nobody "$work/full/out.obj"
try "the disk is full; OUT is there" 3 "$work/full/out.obj" frame 6 6 1 1 ../full/out.obj N00E000.hgt
try "the disk is full; OUT is new" 3 "$work/full/new.obj" frame 6 6 1 1 ../full/new.obj N00E000.hgt

# The same of a play, whose second frame is one too large.
whole_windows() {
    { printf 'size 6 1\nbegin 0\nend 0\n'; for _ in $(seq 81); do printf 'claim 0\nfinish 0\n'; done; printf 'publish 0\nbegin 0\nend 0\n'; } >large
}
folder whole_windows
rm -f "$work/full"/*
try "the disk is full: a frame of a play before" 3 "$work/full/out-0.obj" play large ../full/out N00E000.hgt
try "the disk is full: the frame of a play that doesn't fit" 3 "$work/full/out-1.obj" play large ../full/out N00E000.hgt

# What standard output can be. The output of these rows is what came through, if anything could.
stream() {
    local label=$1 want=$2 status=0 shell=$3
    folder true
    : >"$work/output"
    eval "$shell" 2>"$work/errors" || status=$?
    row "$label" "${frame[*]} out.obj N00E000.hgt" "$want" "$status" out.obj
}
words="${frame[*]} out.obj N00E000.hgt"
stream "standard output is closed" 4 "program $words >&-"
stream "standard output is a full device" 4 "program $words >/dev/full"
stream "standard output is a pipe whose reader has left" 4 '(sleep 0.2; program '"$words"'; echo $? >"$work/status") | true; sleep 0.5; (exit "$(cat "$work/status")")'
stream "standard input is closed" 0 "program $words <&- >\"\$work/output\""
# The same of a play, whose first line comes before its first file.
stream_of_play() {
    local label=$1 want=$2 status=0 shell=$3
    folder playing
    : >"$work/output"
    eval "$shell" 2>"$work/errors" || status=$?
    row "$label" "play s out N00E000.hgt" "$want" "$status" out-0.obj
}
stream_of_play "standard output of a play is closed" 4 'program play s out N00E000.hgt >&-'
stream_of_play "standard output of a play is a full device" 4 'program play s out N00E000.hgt >/dev/full'
folder true
status=0
(set +e; program info N00E000.hgt; echo $? >"$work/status") 2>"$work/errors" | head -n 1 >"$work/output"
status=$(cat "$work/status")
# The lines fit into the pipe, so it may be that nothing fails.
if [ "$status" = 0 ]; then want=0; else want=4; fi
row "standard output is read by head -n 1" "info N00E000.hgt" "$want" "$status" out.obj
exit "$bad"
