//! A packed store of the first version.
use crate::book::Job;
use crate::words::{Patch, predicted, read_word};

pub struct StoreLevel {
    pub columns: usize,
    pub rows: usize,
    pub across: usize,
    starts: Vec<u32>,
}

pub struct Store {
    pub bytes: Vec<u8>,
    pub levels: Vec<StoreLevel>,
}

impl Store {
    fn shapes(width: usize, height: usize, levels: usize) -> Vec<StoreLevel> {
        let side = |count: usize, level: usize| ((count - 1) >> level) + 1;
        (0..levels)
            .map(|level| {
                let (columns, rows) = (side(width, level), side(height, level));
                let across = (columns - 1) / 8 + 1;
                StoreLevel { columns, rows, across, starts: Vec::new() }
            })
            .collect()
    }

    // Reads a store whole: each block is decoded once, level by level, so that none is bad later.
    pub fn read(bytes: Vec<u8>) -> Option<Store> {
        let number = |at: usize| Some(u32::from_be_bytes(bytes.get(at..at + 4)?.try_into().ok()?) as usize);
        if bytes.get(..4)? != b"GCT1" {
            return None;
        }
        let (width, height, levels) = (number(4)?, number(8)?, usize::from(*bytes.get(12)?));
        if width == 0 || height == 0 || width.checked_mul(height)? > 1 << 26 || levels == 0 || levels > 12 {
            return None;
        }
        let mut store = Store { bytes: Vec::new(), levels: Store::shapes(width, height, levels) };
        store.bytes = bytes;
        let mut at = 13;
        let mut coarser: Vec<i16> = Vec::new();
        for level in (0..levels).rev() {
            let (columns, rows, across) = {
                let shape = &store.levels[level];
                (shape.columns, shape.rows, shape.across)
            };
            let mut table = vec![0i16; columns * rows];
            let mut starts = Vec::with_capacity(across * ((rows - 1) / 8 + 1));
            for by in 0..(rows - 1) / 8 + 1 {
                for bx in 0..across {
                    starts.push(at as u32);
                    let patch = store.patch_of_table(level, &coarser, bx, by);
                    let heights = store.block(level, bx, by, at, &patch)?;
                    at += 2 + store.length_at(at)?;
                    let (wide, high) = (8.min(columns - 8 * bx), 8.min(rows - 8 * by));
                    for j in 0..high {
                        let to = (8 * by + j) * columns + 8 * bx;
                        table[to..to + wide].copy_from_slice(&heights[8 * j..8 * j + wide]);
                    }
                }
            }
            store.levels[level].starts = starts;
            coarser = table;
        }
        (at == store.bytes.len()).then_some(store)
    }

    fn length_at(&self, at: usize) -> Option<usize> {
        Some(usize::from(u16::from_be_bytes(self.bytes.get(at..at + 2)?.try_into().ok()?)))
    }

    fn patch_of_table(&self, level: usize, coarser: &[i16], bx: usize, by: usize) -> Patch {
        let mut patch = [[0; 7]; 7];
        let Some(shape) = self.levels.get(level + 1) else {
            return patch;
        };
        for (b, row) in patch.iter_mut().enumerate() {
            let Some(j) = (4 * by + b).checked_sub(1).filter(|j| *j < shape.rows) else {
                continue;
            };
            for (a, height) in row.iter_mut().enumerate() {
                if let Some(i) = (4 * bx + a).checked_sub(1).filter(|i| *i < shape.columns) {
                    *height = coarser[j * shape.columns + i];
                }
            }
        }
        patch
    }

    // The heights of a block whose length stands at a place; cells outside of the terrain are 0.
    pub fn block(&self, level: usize, bx: usize, by: usize, at: usize, patch: &Patch) -> Option<[i16; 64]> {
        let shape = &self.levels[level];
        let word = self.bytes.get(at + 2..at + 2 + self.length_at(at)?)?;
        let (wide, high) = (8.min(shape.columns - 8 * bx), 8.min(shape.rows - 8 * by));
        let mut heights = [0; 64];
        if level + 1 == self.levels.len() {
            if word.len() != 2 * wide * high {
                return None;
            }
            for j in 0..high {
                for i in 0..wide {
                    let from = 2 * (j * wide + i);
                    heights[8 * j + i] = i16::from_be_bytes([word[from], word[from + 1]]);
                }
            }
            return Some(heights);
        }
        let count = wide * high - wide.div_ceil(2) * high.div_ceil(2);
        let mut residuals = [0; 48];
        read_word(word, &mut residuals[..count])?;
        let predicted = predicted(patch);
        let mut next = 0;
        for j in 0..high {
            for i in 0..wide {
                let mut height = predicted[8 * j + i];
                if i & 1 == 1 || j & 1 == 1 {
                    height += residuals[next];
                    next += 1;
                }
                heights[8 * j + i] = i16::try_from(height).ok()?;
            }
        }
        Some(heights)
    }

    // The heights of any block of a level: 0 outside of the terrain.
    pub fn heights(&self, level: usize, bx: i32, by: i32, patch: &Patch) -> [i16; 64] {
        let shape = &self.levels[level];
        if bx < 0 || by < 0 || bx as usize >= shape.across || 8 * by as usize >= shape.rows {
            return [0; 64];
        }
        let (bx, by) = (bx as usize, by as usize);
        let at = shape.starts[by * shape.across + bx] as usize;
        self.block(level, bx, by, at, patch).expect("the store was read whole")
    }

    pub fn fill(&self, job: &Job) -> [i16; 64] {
        self.heights(job.level, job.bx, job.by, &job.patch)
    }
}
