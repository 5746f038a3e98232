//! Made terrain, as a grid of its samples.
use crate::book::Job;

pub struct Grid {
    side: i32,
    heights: Vec<i16>,
}

impl Grid {
    pub fn new(side: i32, heights: Vec<i16>) -> Grid {
        Grid { side, heights }
    }

    // 1201 x 1201 samples, those of bench/book.sh.
    pub fn made() -> Grid {
        let heights = (0..1201 * 1201u32).map(|n| ((n.wrapping_mul(40503) >> 9) % 4096) as i16);
        Grid { side: 1201, heights: heights.collect() }
    }

    // The heights of a job's cells, each that of its sample, and 0 outside of the terrain.
    pub fn fill(&self, job: &Job) -> [i16; 64] {
        let mut heights = [0; 64];
        let inside = |v: i32| (0..self.side).contains(&v);
        for j in job.cells.y0..=job.cells.y1 {
            let y = j << job.level;
            if !inside(y) {
                continue;
            }
            for i in job.cells.x0..=job.cells.x1 {
                let x = i << job.level;
                if inside(x) {
                    heights[(8 * (j & 7) + (i & 7)) as usize] = self.heights[(y * self.side + x) as usize];
                }
            }
        }
        heights
    }
}
