//! A plain program for packed stores: what an ordinary Rust program for the same two commands looks like, to be timed
//! beside.
//!
//!     plain_store pack L OUT TILE
//!     plain_store info STORE
//!
//! It takes one HGT tile and stores of the first version, and names no fault but that there is one. It predicts cell by
//! cell, reads words bit by bit, and tries each of the sixteen parameters.
use std::{env, fs, process};

// ---- grids and their levels

struct Grid {
    columns: usize,
    rows: usize,
    heights: Vec<i16>,
}

impl Grid {
    // The heights of every 2^level-th column and row.
    fn level(&self, level: u32) -> Grid {
        let step = 1 << level;
        let heights = (0..self.rows)
            .step_by(step)
            .flat_map(|y| self.heights[y * self.columns..][..self.columns].iter().copied().step_by(step))
            .collect();
        Grid { columns: cells_on(self.columns, level), rows: cells_on(self.rows, level), heights }
    }

    // How many blocks lie in a row of them, and how many rows there are.
    fn blocks(&self) -> (usize, usize) {
        (self.columns.div_ceil(8), self.rows.div_ceil(8))
    }

    // How many columns and rows of a block lie in the grid.
    fn inside(&self, bx: usize, by: usize) -> (usize, usize) {
        (8.min(self.columns - 8 * bx), 8.min(self.rows - 8 * by))
    }

    fn row_of_block(&self, bx: usize, j: usize, wide: usize) -> &[i16] {
        &self.heights[j * self.columns + 8 * bx..][..wide]
    }

    // The height in column a and row b, 0 outside of the grid.
    fn height(&self, a: i32, b: i32) -> i32 {
        if a < 0 || b < 0 || a as usize >= self.columns || b as usize >= self.rows {
            return 0;
        }
        self.heights[b as usize * self.columns + a as usize].into()
    }
}

fn cells_on(side: usize, level: u32) -> usize {
    ((side - 1) >> level) + 1
}

// ---- the prediction

fn weighted(a: i32, b: i32, c: i32, d: i32) -> i32 {
    9 * (b + c) - a - d
}

// What the next coarser level predicts of a cell.
fn predict(coarser: &Grid, i: usize, j: usize) -> i32 {
    let (a, b) = ((i / 2) as i32, (j / 2) as i32);
    let across = |b: i32| {
        let at = |t: i32| coarser.height(a + t, b);
        weighted(at(-1), at(0), at(1), at(2))
    };
    match (i % 2, j % 2) {
        (0, 0) => coarser.height(a, b),
        (_, 0) => (across(b) + 8) >> 4,
        (0, _) => {
            let at = |t: i32| coarser.height(a, b + t);
            (weighted(at(-1), at(0), at(1), at(2)) + 8) >> 4
        }
        _ => (weighted(across(b - 1), across(b), across(b + 1), across(b + 2)) + 128) >> 8,
    }
}

// ---- words

struct BitReader<'a> {
    bytes: &'a [u8],
    place: usize,
}

impl BitReader<'_> {
    fn bit(&mut self) -> Option<u32> {
        let byte = *self.bytes.get(self.place / 8)?;
        let bit = byte >> (7 - self.place % 8) & 1;
        self.place += 1;
        Some(bit.into())
    }

    fn take(&mut self, count: u32) -> Option<u32> {
        let mut value = 0;
        for _ in 0..count {
            value = value << 1 | self.bit()?;
        }
        Some(value)
    }

    fn ones(&mut self) -> Option<u32> {
        for ones in 0..32 {
            if self.bit()? == 0 {
                return Some(ones);
            }
        }
        Some(32)
    }

    // Only zeros up to the end of a byte are left.
    fn is_at_end(&mut self) -> bool {
        let left = 8 * self.bytes.len() - self.place;
        left < 8 && self.take(left as u32) == Some(0)
    }
}

fn read_word(bytes: &[u8], count: usize) -> Option<Vec<i32>> {
    let mut bits = BitReader { bytes, place: 0 };
    let r = bits.take(4)?;
    let mut residuals = Vec::with_capacity(count);
    for _ in 0..count {
        let ones = bits.ones()?;
        let u = if ones < 32 {
            (ones << r) | bits.take(r)?
        } else {
            let u = bits.take(18)?;
            if u >> r < 32 {
                return None;
            }
            u
        };
        if u >= 1 << 18 {
            return None;
        }
        residuals.push(if u & 1 == 0 { (u >> 1) as i32 } else { -((u >> 1) as i32) - 1 });
    }
    bits.is_at_end().then_some(residuals)
}

fn folded(residual: i32) -> u32 {
    if residual < 0 { (-1 - residual) as u32 * 2 + 1 } else { residual as u32 * 2 }
}

fn code_length(u: u32, r: u32) -> u32 {
    let ones = u >> r;
    if ones < 32 { ones + 1 + r } else { 50 }
}

struct BitWriter<'a> {
    out: &'a mut Vec<u8>,
    word: u64,
    bits: u32,
}

impl BitWriter<'_> {
    fn put(&mut self, value: u64, count: u32) {
        self.word = self.word << count | value;
        self.bits += count;
        while self.bits >= 8 {
            self.bits -= 8;
            self.out.push((self.word >> self.bits) as u8);
        }
    }

    fn finish(self) {
        if self.bits > 0 {
            self.out.push((self.word << (8 - self.bits)) as u8);
        }
    }
}

// Puts the word of fewest bits, by the least parameter on a tie.
fn write_word(out: &mut Vec<u8>, residuals: &[i32]) {
    let total = |r: u32| residuals.iter().map(|x| code_length(folded(*x), r)).sum::<u32>();
    let r = (0..16).min_by_key(|r| total(*r)).unwrap_or(0);
    let mut bits = BitWriter { out, word: 0, bits: 0 };
    bits.put(r.into(), 4);
    for residual in residuals {
        let u = folded(*residual);
        let ones = u >> r;
        if ones < 32 {
            bits.put((1 << (ones + 1)) - 2, ones + 1);
            bits.put(u64::from(u) & ((1 << r) - 1), r);
        } else {
            bits.put(0xffff_ffff, 32);
            bits.put(u.into(), 18);
        }
    }
    bits.finish();
}

// ---- stores

fn is_coded(i: usize, j: usize) -> bool {
    (i | j) & 1 == 1
}

// Puts the heights or the word of a block behind its length.
fn write_block(out: &mut Vec<u8>, level: &Grid, coarser: Option<&Grid>, bx: usize, by: usize) {
    let (wide, high) = level.inside(bx, by);
    let start = out.len();
    out.extend([0, 0]);
    match coarser {
        None => {
            for j in 0..high {
                for height in level.row_of_block(bx, 8 * by + j, wide) {
                    out.extend(height.to_be_bytes());
                }
            }
        }
        Some(coarser) => {
            let mut residuals = Vec::new();
            for j in 8 * by..8 * by + high {
                for (i, height) in (8 * bx..).zip(level.row_of_block(bx, j, wide)) {
                    if is_coded(i, j) {
                        residuals.push(i32::from(*height) - predict(coarser, i, j));
                    }
                }
            }
            write_word(out, &residuals);
        }
    }
    let length = (out.len() - start - 2) as u16;
    out[start..start + 2].copy_from_slice(&length.to_be_bytes());
}

// The store of a grid, and how many blocks it has.
fn pack(grid: &Grid, levels: u32) -> (Vec<u8>, usize) {
    let mut out = b"GCT1".to_vec();
    out.extend((grid.columns as u32).to_be_bytes());
    out.extend((grid.rows as u32).to_be_bytes());
    out.push(levels as u8);
    let mut count = 0;
    let mut coarser = None;
    for level in (0..levels).rev() {
        let cells = grid.level(level);
        let (across, down) = cells.blocks();
        for by in 0..down {
            for bx in 0..across {
                write_block(&mut out, &cells, coarser.as_ref(), bx, by);
            }
        }
        count += across * down;
        coarser = Some(cells);
    }
    (out, count)
}

// Puts the heights of a block into its level.
fn read_block(word: &[u8], level: &mut Grid, coarser: Option<&Grid>, bx: usize, by: usize) -> Option<()> {
    let (wide, high) = level.inside(bx, by);
    let Some(coarser) = coarser else {
        if word.len() != 2 * wide * high {
            return None;
        }
        for (j, row) in word.chunks_exact(2 * wide).enumerate() {
            let to = (8 * by + j) * level.columns + 8 * bx;
            for (height, pair) in level.heights[to..to + wide].iter_mut().zip(row.chunks_exact(2)) {
                *height = i16::from_be_bytes([pair[0], pair[1]]);
            }
        }
        return Some(());
    };
    let residuals = read_word(word, wide * high - wide.div_ceil(2) * high.div_ceil(2))?;
    let mut codes = residuals.into_iter();
    for j in 8 * by..8 * by + high {
        let to = j * level.columns + 8 * bx;
        for (i, height) in (8 * bx..).zip(&mut level.heights[to..to + wide]) {
            let code = if is_coded(i, j) { codes.next()? } else { 0 };
            *height = i16::try_from(predict(coarser, i, j) + code).ok()?;
        }
    }
    Some(())
}

// The grid of a store, its number of levels and its number of blocks.
fn read(bytes: &[u8]) -> Option<(Grid, u32, usize)> {
    let number = |at: usize| Some(u32::from_be_bytes(bytes.get(at..at + 4)?.try_into().ok()?) as usize);
    if bytes.get(..4)? != b"GCT1" {
        return None;
    }
    let (width, height, levels) = (number(4)?, number(8)?, u32::from(*bytes.get(12)?));
    if width == 0 || height == 0 || width.checked_mul(height)? > 1 << 26 || levels == 0 || levels > 12 {
        return None;
    }
    let (mut at, mut count) = (13, 0);
    let mut coarser: Option<Grid> = None;
    for level in (0..levels).rev() {
        let (columns, rows) = (cells_on(width, level), cells_on(height, level));
        let mut grid = Grid { columns, rows, heights: vec![0; columns * rows] };
        let (across, down) = grid.blocks();
        for by in 0..down {
            for bx in 0..across {
                let length = usize::from(u16::from_be_bytes(bytes.get(at..at + 2)?.try_into().ok()?));
                let word = bytes.get(at + 2..at + 2 + length)?;
                read_block(word, &mut grid, coarser.as_ref(), bx, by)?;
                at += 2 + length;
            }
        }
        count += across * down;
        coarser = Some(grid);
    }
    (at == bytes.len()).then_some((coarser?, levels, count))
}

// ---- commands

// The grid of an HGT tile. A void takes the nearest sample to its west in its row, else to its east, else 0.
fn tile(bytes: &[u8]) -> Option<Grid> {
    let side = (bytes.len() / 2).isqrt();
    if side < 3 || bytes.len() != 2 * side * side {
        return None;
    }
    let mut heights: Vec<i16> = bytes.chunks_exact(2).map(|pair| i16::from_be_bytes([pair[0], pair[1]])).collect();
    for row in heights.chunks_exact_mut(side) {
        let mut last = row.iter().copied().find(|height| *height != i16::MIN).unwrap_or(0);
        for height in row {
            if *height == i16::MIN {
                *height = last;
            }
            last = *height;
        }
    }
    Some(Grid { columns: side, rows: side, heights })
}

fn run(words: &[&str]) -> Option<String> {
    match words {
        ["pack", levels, out, input] => {
            let levels = levels.parse().ok().filter(|levels| (1..=12).contains(levels))?;
            let grid = tile(&fs::read(input).ok()?)?;
            let (store, blocks) = pack(&grid, levels);
            fs::write(out, &store).ok()?;
            Some(format!("packed {} bytes {blocks} blocks", store.len()))
        }
        ["info", input] => {
            let bytes = fs::read(input).ok()?;
            let (grid, levels, blocks) = read(&bytes)?;
            let (least, most) = (grid.heights.iter().min()?, grid.heights.iter().max()?);
            let size = bytes.len();
            Some(format!(
                "terrain {} {}\nheights {least} {most}\nstore version 1 levels {levels} blocks {blocks} bytes {size}",
                grid.columns, grid.rows
            ))
        }
        _ => None,
    }
}

fn main() {
    let words: Vec<String> = env::args().skip(1).collect();
    let words: Vec<&str> = words.iter().map(String::as_str).collect();
    match run(&words) {
        Some(lines) => println!("{lines}"),
        None => {
            eprintln!("fault");
            process::exit(2);
        }
    }
}
