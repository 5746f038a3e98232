#!/usr/bin/env bash
# Times settled books: for K = 8 and 12 levels, over a terrain of 1201 x 1201 samples, one pass claims, fills and gives
# back each of 13,068 pieces and publishes what is ripe. It builds the program for that in a copy of the sources. The
# time that it takes for no book is taken away, since it packs the terrain first. The plain Rust engine (bench/plain_engine,
# built by rustc -O, or PLAIN=PROGRAM with the words `settle COUNT`) settles as many in runs in turn, and the ratio is printed.
set -eu
top=$(cd "$(dirname "${BASH_SOURCE[0]}")/.." && pwd)
runs=${RUNS:-15}
books=${BOOKS:-100}
work=$(mktemp -d)
trap 'rm -rf "$work"' EXIT
cd "$work"

(cd "$top" && find crates -name out -prune -o -type f -print | tar -cf - crates.txt HANDLES -T -) | tar -xf -
echo "book_settle: $(sed -n 's/^grid_fills: //p' crates.txt) grid_fills" >>crates.txt
mkdir -p crates/book_settle/src crates/book_settle/proofs/settle
touch crates/book_settle/proofs/Lib.antt
cat >crates/book_settle/proofs/settle/Invariants.antt <<'ANTT'
use Rattle.std.proofs.Common.{◌≡◌}
use Rattle.book_settle.proofs.settle.Given as goal

abbrev pub invariant-turns : goal.invariant-turns
invariant-turns l = l.book.land ≡ l.initial.book.land
ANTT
cat >crates/book_settle/src/main.rt <<'RT'
//! Settles books, and reads a diagonal of a frame of each.
#![tactic(auto)]

ghost use Rattle.std.specs.Prelude.{◌≡◌, ◌<◌, ◌≤◌};
ghost use Rattle.terrain_store.specs.Shapes.{IsLand};

use clip_book::{Book, Claimed};
use grid_fills::fill_job;
use height_pyramid::Grid;
use std::alloc::{AllocError, AllocGlobal, Global};
use std::env;
use std::process::ExitCode;
use std::rt::Env;
use terrain_store::{Store, pack};

// The terrain.
fn terrain(alloc: Global) -> Result<Option<Grid>, AllocError> {
    let mut heights = Vec::with_capacity(alloc, 1442401)?;
    'made: for n in 0..1442401u32 {
        heights.push(((n.wrapping_mul(40503) >> 9) % 4096) as i16)?;
    }
    if heights.len() != 1442401 {
        return Ok(None);
    }
    Ok(Some(Grid::new(1201, 1201, heights)))
}

// The first claim, filled and given back, or published: of how many pieces, where there was one.
fn turn(grid: &Grid, book: &mut Book) -> Option<u32>
    requires terrain { book.old.land.terrain ≡ grid.now }
    requires land { IsLand book.old.land }
    ensures land { book.new.land ≡ book.old.land }
{
    match book.claim(0) {
        Claimed::Job(job) => {
            let _patch = job.patch();
            let filled = fill_job(grid, job);
            let _given = book.give_back(0, filled);
            Some(1)
        }
        Claimed::Ripe { level } => {
            if level < book.levels() {
                let _published = book.publish(level);
            }
            Some(0)
        }
        _ => None,
    }
}

// All of them.
fn settle(grid: &Grid, book: &mut Book) -> u32
    requires terrain { book.old.land.terrain ≡ grid.now }
    requires land { IsLand book.old.land }
    ensures land { book.new.land ≡ book.old.land }
{
    let mut pieces = 0u32;
    'turns: for _ in 0..20000u32 {
        match turn(grid, book) {
            Some(n) => pieces = pieces.saturating_add(n),
            None => return pieces,
        }
    }
    pieces
}

// One book.
fn one(alloc: Global, grid: &Grid, store: &Store) -> Option<u32>
    requires { store.now.terrain ≡ grid.now }
{
    let shape = store.shape();
    let _levels = shape.levels();
    let Ok(mut book) = Book::start(alloc, shape, 8) else {
        return None;
    };
    Some(settle(grid, &mut book))
}

// How many words follow the program's name.
fn word_count<R: Env + AllocGlobal>(rt: &R) -> u32 {
    let Ok(words) = env::args(rt) else {
        return 0;
    };
    let mut count = 0u32;
    'words: for _word in words.skip(1) {
        count = count.saturating_add(1);
    }
    count
}

fn main(rt: HostRuntime) -> ExitCode {
    let alloc = rt.alloc();
    let Ok(Some(grid)) = terrain(alloc) else {
        return ExitCode::from(1);
    };
    let Ok(store) = pack(alloc, &grid, 12) else {
        return ExitCode::from(1);
    };
    let mut pieces = 0u64;
    let books = word_count(&rt);
    'books: for _ in 0..books {
        match one(alloc, &grid, &store) {
            Some(n) => pieces = pieces.saturating_add(u64::from(n)),
            None => return ExitCode::from(2),
        }
    }
    if pieces == u64::from(books) * 13068 {
        return ExitCode::from(0);
    }
    ExitCode::from(3)
}
RT
(cd crates/book_settle && rt run >build.log 2>&1) || { tail -n 20 crates/book_settle/build.log >&2; exit 1; }

plain=${PLAIN:-}
if [ -z "$plain" ]; then
    rustc --edition 2021 -O "$top/bench/plain_engine/main.rs" -o plain_engine
    plain=$work/plain_engine
fi

python3 - "$runs" "$books" "$PWD/crates/book_settle/out/book_settle" "$plain" <<'PY'
import os, subprocess, sys
runs, books, program, plain = int(sys.argv[1]), int(sys.argv[2]), sys.argv[3], sys.argv[4]

# The processor seconds (user) of a command.
def spent(command):
    run = subprocess.Popen(command)
    _, status, used = os.wait4(run.pid, 0)
    run.returncode = status
    if status:
        sys.exit('%s: status %d' % (command[0], status))
    return used.ru_utime

commands = {
    'book': ([program], [program] + ['x'] * books),
    'plain': ([plain, 'settle', '0'], [plain, 'settle', str(books)]),
}
times = {name: [] for name in commands}
for _ in range(runs):
    for name, (none, all) in commands.items():
        times[name].append(spent(all) - spent(none))
middle = lambda numbers: sorted(numbers)[len(numbers) // 2]
for name in commands:
    print('%s: median %.2f ms, best %.2f ms a book' % (name, 1000 * middle(times[name]) / books, 1000 * min(times[name]) / books))
print('ratio: median %.2f, best %.2f' % (middle(times['book']) / middle(times['plain']), min(times['book']) / min(times['plain'])))
PY
