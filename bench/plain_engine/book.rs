//! The book of pieces, passes and frames.
use crate::region::{EMPTY, Region, strip_of, window_of};
use crate::words::Patch;

#[derive(Clone, Copy)]
pub struct Job {
    pub level: usize,
    pub bx: i32,
    pub by: i32,
    pub cells: Region,
    pub plan: u64,
    pub patch: Patch,
}

#[derive(Clone)]
pub struct Frame {
    pub number: u64,
    pub x: i32,
    pub y: i32,
    pub actives: Vec<Region>,
}

pub enum Pass {
    Free,
    Job(Box<Job>),
    Frame(Frame),
}

pub struct Level {
    pub window: Region,
    pub filled: Region,
    pub strip: Option<Region>,
    finished: Vec<bool>,
    pub left: usize,
    pub first: usize,
    pub plan: u64,
    tiles: Vec<[i16; 64]>,
    holders: Vec<u8>,
    pins: Vec<u16>,
}

const NOBODY: u8 = 255;

impl Level {
    // Takes up the current strip: none of its pieces is finished.
    fn restrip(&mut self) {
        self.strip = strip_of(self.filled, self.window);
        self.left = match self.strip {
            Some(strip) => {
                (((strip.x1 >> 3) - (strip.x0 >> 3) + 1) * ((strip.y1 >> 3) - (strip.y0 >> 3) + 1)) as usize
            }
            None => 0,
        };
        self.finished.clear();
        self.finished.resize(self.left, false);
        self.first = 0;
    }

    fn piece(&self, strip: Region, number: usize) -> (i32, i32, Region) {
        let across = ((strip.x1 >> 3) - (strip.x0 >> 3) + 1) as usize;
        let bx = (strip.x0 >> 3) + (number % across) as i32;
        let by = (strip.y0 >> 3) + (number / across) as i32;
        let block = Region { x0: 8 * bx, y0: 8 * by, x1: 8 * bx + 7, y1: 8 * by + 7 };
        (bx, by, strip.meet(block))
    }
}

pub struct Book {
    pub k: u32,
    pub x: i32,
    pub y: i32,
    pub begun: u64,
    pub held: usize,
    pinned: usize,
    pub levels: Vec<Level>,
    pub passes: Vec<Pass>,
}

pub enum Claimed {
    Job,
    Idle,
    Ripe(usize),
    Busy(usize, usize, u64),
    Held(usize, usize, u8),
    HasWork,
}

impl Book {
    pub fn start(k: u32, levels: usize) -> Book {
        let tiles = 1 << (2 * (k - 3));
        let levels = (0..levels)
            .map(|level| {
                let mut made = Level {
                    window: window_of(k, level, 0, 0),
                    filled: EMPTY,
                    strip: None,
                    finished: Vec::new(),
                    left: 0,
                    first: 0,
                    plan: 0,
                    tiles: vec![[0; 64]; tiles],
                    holders: vec![NOBODY; tiles],
                    pins: vec![0; tiles],
                };
                made.restrip();
                made
            })
            .collect();
        let passes = (0..16).map(|_| Pass::Free).collect();
        Book { k, x: 0, y: 0, begun: 0, held: 0, pinned: 0, levels, passes }
    }

    fn tile_of(&self, bx: i32, by: i32) -> usize {
        let mask = (1 << (self.k - 3)) - 1;
        (((by & mask) << (self.k - 3)) | (bx & mask)) as usize
    }

    pub fn height(&self, level: usize, i: i32, j: i32) -> i32 {
        let tile = self.tile_of(i >> 3, j >> 3);
        self.levels[level].tiles[tile][(((j & 7) << 3) | (i & 7)) as usize].into()
    }

    pub fn move_to(&mut self, x: i32, y: i32) {
        (self.x, self.y) = (x, y);
        let k = self.k;
        for (number, level) in self.levels.iter_mut().enumerate() {
            let window = window_of(k, number, x, y);
            if window != level.window {
                level.window = window;
                level.filled = level.filled.meet(window);
                level.plan += 1;
                level.restrip();
            }
        }
    }

    // The first tile of a level, in tile order, that somebody holds and that a region meets.
    fn held_in(&self, level: usize, region: Region) -> Option<usize> {
        if self.held == 0 || region.is_empty() {
            return None;
        }
        let mut first = None;
        for by in region.y0 >> 3..=region.y1 >> 3 {
            for bx in region.x0 >> 3..=region.x1 >> 3 {
                let tile = self.tile_of(bx, by);
                if self.levels[level].holders[tile] != NOBODY && first.is_none_or(|least| tile < least) {
                    first = Some(tile);
                }
            }
        }
        first
    }

    fn is_claimable(&self, number: usize, tile: usize, cells: Region) -> bool {
        let level = &self.levels[number];
        level.holders[tile] == NOBODY
            && level.pins[tile] == 0
            && (number + 1 == self.levels.len() || self.held_in(number + 1, cells.need()).is_none())
    }

    fn first_claimable(&self) -> Option<(usize, i32, i32, Region)> {
        for (number, level) in self.levels.iter().enumerate().rev() {
            let Some(strip) = level.strip else { continue };
            if number + 1 < self.levels.len() && !self.levels[number + 1].filled.holds(strip.need()) {
                continue;
            }
            for at in level.first..level.finished.len() {
                if level.finished[at] {
                    continue;
                }
                let (bx, by, cells) = level.piece(strip, at);
                if self.is_claimable(number, self.tile_of(bx, by), cells) {
                    return Some((number, bx, by, cells));
                }
            }
        }
        None
    }

    fn patch_under(&self, level: usize, bx: i32, by: i32) -> Patch {
        let mut patch = [[0; 7]; 7];
        if level + 1 < self.levels.len() {
            for (b, row) in patch.iter_mut().enumerate() {
                for (a, height) in row.iter_mut().enumerate() {
                    *height = self.height(level + 1, 4 * bx - 1 + a as i32, 4 * by - 1 + b as i32) as i16;
                }
            }
        }
        patch
    }

    pub fn claim(&mut self, pass: u8) -> Claimed {
        if !matches!(self.passes[usize::from(pass)], Pass::Free) {
            return Claimed::HasWork;
        }
        if let Some((level, bx, by, cells)) = self.first_claimable() {
            let job = Job { level, bx, by, cells, plan: self.levels[level].plan, patch: self.patch_under(level, bx, by) };
            let tile = self.tile_of(bx, by);
            self.levels[level].holders[tile] = pass;
            self.held += 1;
            self.passes[usize::from(pass)] = Pass::Job(Box::new(job));
            return Claimed::Job;
        }
        let Some(number) = (0..self.levels.len()).rev().find(|n| self.levels[*n].strip.is_some()) else {
            return Claimed::Idle;
        };
        let level = &self.levels[number];
        let Some(at) = level.finished.iter().position(|done| !done) else {
            return Claimed::Ripe(number);
        };
        let (bx, by, cells) = level.piece(level.strip.expect("it isn't whole"), at);
        let tile = self.tile_of(bx, by);
        if level.holders[tile] != NOBODY {
            return Claimed::Held(number, tile, level.holders[tile]);
        }
        if level.pins[tile] != 0 {
            let frames = self.passes.iter().enumerate().filter(|(p, _)| level.pins[tile] >> p & 1 == 1);
            let least = frames.filter_map(|(_, work)| match work {
                Pass::Frame(frame) => Some(frame.number),
                _ => None,
            });
            return Claimed::Busy(number, tile, least.min().expect("a frame pins it"));
        }
        let tile = self.held_in(number + 1, cells.need()).expect("a coarser tile is held");
        Claimed::Held(number + 1, tile, self.levels[number + 1].holders[tile])
    }

    // Fills the job of a pass, and gives it back: its plan, and that of its level.
    pub fn finish(&mut self, fill: impl Fn(&Job) -> [i16; 64], pass: u8) -> Option<(u64, u64)> {
        let Pass::Job(job) = std::mem::replace(&mut self.passes[usize::from(pass)], Pass::Free) else {
            return None;
        };
        let heights = fill(&job);
        let tile = self.tile_of(job.bx, job.by);
        let level = &mut self.levels[job.level];
        let cells = job.cells;
        let (i0, wide) = ((cells.x0 & 7) as usize, cells.columns());
        for j in cells.y0..=cells.y1 {
            let at = 8 * (j & 7) as usize + i0;
            level.tiles[tile][at..at + wide].copy_from_slice(&heights[at..at + wide]);
        }
        level.holders[tile] = NOBODY;
        self.held -= 1;
        if job.plan == level.plan {
            let strip = level.strip.expect("a job of this plan has a strip");
            let across = (strip.x1 >> 3) - (strip.x0 >> 3) + 1;
            let at = ((job.by - (strip.y0 >> 3)) * across + job.bx - (strip.x0 >> 3)) as usize;
            level.finished[at] = true;
            level.left -= 1;
            while level.first < level.finished.len() && level.finished[level.first] {
                level.first += 1;
            }
        }
        Some((job.plan, level.plan))
    }

    pub fn publish(&mut self, number: usize) -> Result<Region, usize> {
        let level = &mut self.levels[number];
        let Some(strip) = level.strip else {
            return Err(0);
        };
        if level.left > 0 {
            return Err(level.left);
        }
        level.filled = level.filled.hull(strip);
        level.restrip();
        Ok(level.filled)
    }

    pub fn actives(&self) -> Vec<Region> {
        let margin = 2.max(1 << (self.k - 4) >> 0);
        let mut actives = vec![EMPTY; self.levels.len()];
        let mut coarser: Option<Region> = None;
        for (number, level) in self.levels.iter().enumerate().rev() {
            let inner = match coarser {
                None => level.filled,
                Some(r) if r.is_empty() => EMPTY,
                Some(r) => level.filled.meet(Region {
                    x0: 2 * (r.x0 + margin),
                    y0: 2 * (r.y0 + margin),
                    x1: 2 * (r.x1 - margin),
                    y1: 2 * (r.y1 - margin),
                }),
            };
            let drawn = inner.x1 - inner.x0 >= 2 && inner.y1 - inner.y0 >= 2;
            actives[number] = if drawn { inner } else { EMPTY };
            coarser = Some(actives[number]);
        }
        actives
    }

    fn pin(&mut self, actives: &[Region], pass: u8, on: bool) {
        for (number, region) in actives.iter().enumerate() {
            if region.is_empty() {
                continue;
            }
            for by in region.y0 >> 3..=region.y1 >> 3 {
                for bx in region.x0 >> 3..=region.x1 >> 3 {
                    let tile = self.tile_of(bx, by);
                    let pins = &mut self.levels[number].pins[tile];
                    if on { *pins |= 1 << pass } else { *pins &= !(1 << pass) }
                }
            }
        }
    }

    pub fn begin(&mut self, pass: u8) -> Result<u64, Option<(usize, usize, u8)>> {
        if !matches!(self.passes[usize::from(pass)], Pass::Free) {
            return Err(None);
        }
        let actives = self.actives();
        for (number, region) in actives.iter().enumerate().rev() {
            if let Some(tile) = self.held_in(number, *region) {
                return Err(Some((number, tile, self.levels[number].holders[tile])));
            }
        }
        self.pin(&actives, pass, true);
        self.pinned += 1;
        let number = self.begun;
        self.begun += 1;
        self.passes[usize::from(pass)] = Pass::Frame(Frame { number, x: self.x, y: self.y, actives });
        Ok(number)
    }

    pub fn end(&mut self, pass: u8) -> Option<Frame> {
        match std::mem::replace(&mut self.passes[usize::from(pass)], Pass::Free) {
            Pass::Frame(frame) => {
                self.pin(&frame.actives, pass, false);
                self.pinned -= 1;
                Some(frame)
            }
            other => {
                self.passes[usize::from(pass)] = other;
                None
            }
        }
    }
}
