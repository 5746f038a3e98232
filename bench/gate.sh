#!/usr/bin/env bash
# Times clips that are settled by 1, 2, 4 and 8 threads, beside books that are settled by one, for K = 8 and 12 levels over a
# terrain of 1201 x 1201 samples: each of 13,068 pieces is claimed, filled from a store and given back, and what is ripe is
# published. It builds the program for that in a copy of the sources, and prints the turns a second, by the wall's clock, less
# the time that it takes to pack the terrain.
set -eu
top=$(cd "$(dirname "${BASH_SOURCE[0]}")/.." && pwd)
runs=${RUNS:-5}
clips=${CLIPS:-10}
work=$(mktemp -d)
trap 'rm -rf "$work"' EXIT
cd "$work"

(cd "$top" && find crates -name out -prune -o -type f -print | tar -cf - crates.txt HANDLES -T -) | tar -xf -
echo "gate_turns: $(sed -n 's/^clip_frames: //p' crates.txt)" >>crates.txt
mkdir -p crates/gate_turns/src crates/gate_turns/proofs/{settle,settle_book,+beside+fn-beside-mine}
touch crates/gate_turns/proofs/Lib.antt
cat >crates/gate_turns/proofs/settle/Invariants.antt <<'ANTT'
use Rattle.std.proofs.Common.{◌≡◌}
use Rattle.gate_turns.proofs.settle.Given as goal

abbrev pub invariant-turns : goal.invariant-turns
invariant-turns g l = l.pass.clip ≡ l.initial.pass.clip
ANTT
cat >crates/gate_turns/proofs/settle_book/Invariants.antt <<'ANTT'
use Rattle.std.proofs.Common.{◌≡◌}
use Rattle.gate_turns.proofs.settle_book.Given as goal

abbrev pub invariant-turns : goal.invariant-turns
invariant-turns l = l.book.land ≡ l.initial.book.land
ANTT
cat >crates/gate_turns/proofs/+beside+fn-beside-mine/Invariants.antt <<'ANTT'
use Rattle.std.proofs.Common.{◌*◌, ◌-◌}
use Rattle.gate_turns.proofs.+beside+fn-beside-mine.Given as goal

abbrev pub decreases-beside : goal.decreases-beside
decreases-beside g l = 2 * l.more

abbrev pub decreases-mine : goal.decreases-mine
decreases-mine g l = 2 * l.more - 1
ANTT
cat >crates/gate_turns/proofs/+beside+fn-beside-mine/Answers.antt <<'ANTT'
use denote.Param.Send.{IsSend, IsSync, sendable, param_send}
use contract.Lifetimes.{Lfts}
use Rattle.std.proofs.Crossing.{crosses}
use Rattle.clip_gate.proofs.Crossings.{pass_send, clip_sync}
use Rattle.terrain_store.specs.contracts.store.Store as store
use Rattle.gate_turns.specs.contracts.beside as beside
use Rattle.gate_turns.proofs.+beside+fn-beside-mine.Given as given
use Rattle.gate_turns.proofs.+beside+fn-beside-mine.Lts-beside as lts
use Rattle.gate_turns.proofs.+beside+fn-beside-mine.Goals as goal

store_sync : IsSync store.the_row
store_sync = search (sendable, crosses) depth 60 fits 100000

taken_send : (g : given.Over) (κs : Lfts 12) → IsSync (beside.R-row g.row.R) → IsSend (lts.arg-6-1 g.row.R g.R.laws g.R.Threads-dict g.R.Wait-dict κs)
taken_send g κs sync = search (sendable, crosses, pass_send, clip_sync, store_sync) depth 60 fits 20000

pub join-theirs-requires-send-F : goal.join-theirs-requires-send-F
join-theirs-requires-send-F g t c κs within =
    let sync : IsSync (beside.R-row g.row.R) = search (sendable, crosses) in
    param_send 1 (lts.arg-6-1 g.row.R g.R.laws g.R.Threads-dict g.R.Wait-dict κs) (taken_send g κs sync)
ANTT
cat >crates/gate_turns/src/main.rt <<'RT'
//! Settles clips by threads, and books.
#![tactic(auto)]

ghost use Rattle.std.specs.Prelude.{◌≡◌, ◌<◌};
ghost use Rattle.std.specs.Thread.{IsSync};
ghost use Rattle.terrain_store.specs.Stores.{land_of};
ghost use Rattle.clip_gate.specs.Calls.{IsFilledOfPass, IsJobOfPass};

use clip_book::{Book, Claimed, FilledJob, Job};
use clip_gate::{Clip, Pass};
use decode_workers::{Filler, filled_jobs_go_back};
use height_pyramid::Grid;
use std::alloc::{AllocError, AllocGlobal, Global};
use std::env;
use std::process::ExitCode;
use std::rt::Env;
use std::sync::Wait;
use std::thread::{Threads, join, yield_now};
use terrain_store::{Store, pack};

// The terrain.
fn terrain(alloc: Global) -> Result<Grid, AllocError> {
    let mut heights = Vec::new(alloc);
    heights.resize(1442401, 0i16)?;
    let mut n = 0u32;
    for height in heights.as_mut_slice() {
        *height = ((n.wrapping_mul(40503) >> 9) % 4096) as i16;
        n = n.wrapping_add(1);
    }
    Ok(Grid::new(1201, 1201, heights))
}

// A pass's job, filled by the store.
fn filled_by(store: &Store, pass: &Pass, job: Job) -> FilledJob
    requires job { IsJobOfPass pass.now job }
    requires land { pass.now.clip.land ≡ land_of store.now }
    ensures { IsFilledOfPass pass.now result }
{
    store.fill(job)
}

// A filled job is given back.
fn give(rt: &impl Wait, clip: &Clip, pass: &mut Pass, job: FilledJob)
    requires clip { pass.old.clip ≡ clip.now }
    requires job { IsFilledOfPass pass.old job }
    ensures { pass.new.clip ≡ pass.old.clip }
{
    let _given = clip.give_back(rt, pass, job);
}

// A level that is ripe is published.
fn publish(rt: &impl Wait, clip: &Clip, store: &Store, pass: &mut Pass, level: u8)
    requires clip { pass.old.clip ≡ clip.now }
    requires land { clip.now.land ≡ land_of store.now }
    ensures { pass.new.clip ≡ pass.old.clip }
{
    if level < store.shape().levels() {
        let _published = clip.publish(rt, pass, level);
    }
}

// A turn of a pass: how many pieces it filled, or none where nothing is left.
fn turn(rt: &impl Wait, clip: &Clip, store: &Store, pass: &mut Pass) -> Option<u32>
    requires clip { pass.old.clip ≡ clip.now }
    requires land { clip.now.land ≡ land_of store.now }
    ensures { pass.new.clip ≡ pass.old.clip }
{
    match clip.claim(rt, pass) {
        Ok(Claimed::Job(job)) => {
            let filled = filled_by(store, pass, job);
            give(rt, clip, pass, filled);
            Some(1)
        }
        Ok(Claimed::Ripe { level }) => {
            publish(rt, clip, store, pass, level);
            Some(0)
        }
        Ok(Claimed::Held { .. }) => {
            yield_now();
            Some(0)
        }
        _ => None,
    }
}

// All turns of a pass.
fn settle(rt: &impl Wait, clip: &Clip, store: &Store, pass: Pass) -> u32
    requires clip { pass.clip ≡ clip.now }
    requires land { clip.now.land ≡ land_of store.now }
{
    let mut pass = pass;
    let mut pieces = 0u32;
    'turns: for _ in 0..400000u32 {
        match turn(rt, clip, store, &mut pass) {
            Some(n) => pieces = pieces.saturating_add(n),
            None => return pieces,
        }
    }
    pieces
}

// One thread and so many more at once, each with a pass of its own.
fn beside<R: Threads + Wait + Sync>(
    rt: &R,
    clip: &Clip,
    store: &Store,
    pass: Pass,
    more: u8,
) -> Option<u32>
    requires clip { pass.clip ≡ clip.now }
    requires land { clip.now.land ≡ land_of store.now }
{
    if more == 0 {
        return Some(settle(rt, clip, store, pass));
    }
    let mut pass = pass;
    let other = clip.split(&mut pass).ok()?;
    let theirs = move || -> u32
        requires { IsSync R.row × (other.clip ≡ clip.now) × (clip.now.land ≡ land_of store.now) }
    { settle(rt, clip, store, other) };
    let mine = move || -> Option<u32>
        requires { IsSync R.row × (0 < more) × (pass.clip ≡ clip.now) × (clip.now.land ≡ land_of store.now) }
    { beside(rt, clip, store, pass, more - 1) };
    let (theirs, mine) = join(rt, theirs, mine);
    Some(theirs.saturating_add(mine?))
}

// A turn of a book.
fn turn_of_book(store: &Store, book: &mut Book) -> Option<u32>
    requires { book.old.land ≡ land_of store.now }
    ensures { book.new.land ≡ book.old.land }
{
    filled_jobs_go_back();
    match book.claim(0) {
        Claimed::Job(job) => {
            let filled = store.fill(job);
            let _given = book.give_back(0, filled);
            Some(1)
        }
        Claimed::Ripe { level } => {
            if level < book.levels() {
                let _published = book.publish(level);
            }
            Some(0)
        }
        _ => None,
    }
}

// All turns of a book.
fn settle_book(store: &Store, book: &mut Book) -> u32
    requires { book.old.land ≡ land_of store.now }
{
    let mut pieces = 0u32;
    'turns: for _ in 0..400000u32 {
        match turn_of_book(store, book) {
            Some(n) => pieces = pieces.saturating_add(n),
            None => return pieces,
        }
    }
    pieces
}

// How many threads beside one a word asks for.
fn more_of(word: &str) -> u8 {
    if word == "1" {
        return 0;
    }
    if word == "2" {
        return 1;
    }
    if word == "4" {
        return 3;
    }
    7
}

// A clip that is settled by threads, or a book that is settled by one: how many pieces were filled.
fn one<R: Threads + Wait + Sync>(rt: &R, alloc: Global, store: &Store, word: &str) -> Option<u32> {
    if word == "book" {
        let mut book = Book::start(alloc, store.shape(), 8).ok()?;
        return Some(settle_book(store, &mut book));
    }
    let (clip, pass) = Clip::start(alloc, store.shape(), 8).ok()?;
    beside(rt, &clip, store, pass, more_of(word))
}

fn main(rt: HostRuntime) -> ExitCode {
    let alloc = rt.alloc();
    let Ok(grid) = terrain(alloc) else {
        return ExitCode::from(1);
    };
    let Ok(store) = pack(alloc, &grid, 12) else {
        return ExitCode::from(1);
    };
    let Ok(words) = env::args(&rt) else {
        return ExitCode::from(1);
    };
    'words: for word in words.skip(1) {
        if one(&rt, alloc, &store, word.as_str()) != Some(13068) {
            return ExitCode::from(2);
        }
    }
    ExitCode::from(0)
}
RT
(cd crates/gate_turns && rt run >build.log 2>&1) || { tail -n 20 crates/gate_turns/build.log >&2; exit 1; }

python3 - "$runs" "$clips" "$PWD/crates/gate_turns/out/gate_turns" <<'PY'
import subprocess, sys, time
runs, clips, program = int(sys.argv[1]), int(sys.argv[2]), sys.argv[3]

# The seconds of a command, by the wall's clock.
def spent(words):
    start = time.monotonic()
    if subprocess.run([program] + words).returncode:
        sys.exit('%s: failed' % words[:1])
    return time.monotonic() - start

names = ['book', '1', '2', '4', '8']
times = {name: [] for name in names}
for _ in range(runs):
    for name in names:
        times[name].append(spent([name] * clips) - spent([]))
middle = lambda numbers: sorted(numbers)[len(numbers) // 2]
print('threads | turns a second: median, best')
for name in names:
    turns = 2 * 13068 * clips
    print('%7s | %10.0f %10.0f' % (name, turns / middle(times[name]), turns / min(times[name])))
PY
