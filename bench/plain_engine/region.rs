//! Regions of cells, both corners within.

#[derive(Clone, Copy, PartialEq, Eq, Debug)]
pub struct Region {
    pub x0: i32,
    pub y0: i32,
    pub x1: i32,
    pub y1: i32,
}

pub const EMPTY: Region = Region { x0: 0, y0: 0, x1: -1, y1: -1 };

impl Region {
    pub fn is_empty(self) -> bool {
        self.x0 > self.x1 || self.y0 > self.y1
    }

    pub fn holds(self, other: Region) -> bool {
        other.is_empty()
            || (self.x0 <= other.x0 && self.y0 <= other.y0 && other.x1 <= self.x1 && other.y1 <= self.y1)
    }

    pub fn meet(self, other: Region) -> Region {
        let met = Region {
            x0: self.x0.max(other.x0),
            y0: self.y0.max(other.y0),
            x1: self.x1.min(other.x1),
            y1: self.y1.min(other.y1),
        };
        if met.is_empty() { EMPTY } else { met }
    }

    pub fn hull(self, other: Region) -> Region {
        if self.is_empty() {
            return other;
        }
        Region {
            x0: self.x0.min(other.x0),
            y0: self.y0.min(other.y0),
            x1: self.x1.max(other.x1),
            y1: self.y1.max(other.y1),
        }
    }

    pub fn need(self) -> Region {
        Region {
            x0: (self.x0 >> 1) - 1,
            y0: (self.y0 >> 1) - 1,
            x1: ((self.x1 + 1) >> 1) + 1,
            y1: ((self.y1 + 1) >> 1) + 1,
        }
    }

    pub fn columns(self) -> usize {
        (self.x1 - self.x0 + 1) as usize
    }

    pub fn rows(self) -> usize {
        (self.y1 - self.y0 + 1) as usize
    }
}

pub fn strip_of(filled: Region, window: Region) -> Option<Region> {
    if filled.is_empty() {
        return Some(window);
    }
    let strips = [
        Region { x1: filled.x0 - 1, y0: filled.y0, y1: filled.y1, ..window },
        Region { x0: filled.x1 + 1, y0: filled.y0, y1: filled.y1, ..window },
        Region { y1: filled.y0 - 1, ..window },
        Region { y0: filled.y1 + 1, ..window },
    ];
    strips.into_iter().find(|strip| !strip.is_empty())
}

pub fn window_of(k: u32, level: usize, x: i32, y: i32) -> Region {
    let half = (1 << (k - 1)) - 1;
    let (cx, cy) = (2 * (x >> (level + 1)) + 1, 2 * (y >> (level + 1)) + 1);
    Region { x0: cx - half, y0: cy - half, x1: cx + half, y1: cy + half }
}
