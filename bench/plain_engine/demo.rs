//! The demo: a terrain and a flight over it that are made from a seed, and one line that tells of them.
use crate::book::{Book, Claimed};
use crate::grid::Grid;
use crate::mesh::draw;
use crate::text::frame_text;

struct Generator(u64);

impl Generator {
    fn next(&mut self) -> i32 {
        self.0 = self.0.wrapping_mul(6364136223846793005).wrapping_add(1442695040888963407);
        (self.0 >> 33) as i32
    }
}

fn demo_grid(numbers: &mut Generator) -> Grid {
    let mut lattice = [[0; 26]; 26];
    for row in &mut lattice {
        for height in row {
            *height = numbers.next() % 2001 - 500;
        }
    }
    let side = 1201;
    let mut samples = Vec::with_capacity(side * side);
    for y in 0..side {
        let (b, v) = (y / 48, (y % 48) as i32);
        for x in 0..side {
            let (a, u) = (x / 48, (x % 48) as i32);
            let (east, south) = ((a + 1).min(25), (b + 1).min(25));
            let north = (48 - v) * ((48 - u) * lattice[b][a] + u * lattice[b][east]);
            let sum = north + v * ((48 - u) * lattice[south][a] + u * lattice[south][east]);
            samples.push((sum.div_euclid(2304) + numbers.next() % 7 - 3) as i16);
        }
    }
    Grid::new(side as i32, samples)
}

// The demo's flight with its numbers so far.
struct Demo {
    grid: Grid,
    book: Book,
    text: Vec<u8>,
    frames: usize,
    vertices: usize,
    triangles: usize,
    pieces: usize,
    bytes: usize,
}

impl Demo {
    // One round with two workers: claims, the frame of pass 15 where there is one, and the jobs back.
    fn round(&mut self) {
        let mut given = 0;
        while given < 2 && matches!(self.book.claim(given), Claimed::Job) {
            given += 1;
        }
        for pass in 0..given {
            if let Some((plan, now)) = self.book.finish(|job| self.grid.fill(job), pass) {
                self.pieces += usize::from(plan == now);
            }
        }
        if let Some(frame) = self.book.end(15) {
            let mesh = draw(&self.book, &frame.actives);
            frame_text(&mut self.text, &frame, &mesh);
            self.frames += 1;
            self.vertices += mesh.vertices.len();
            self.triangles += mesh.triangles.len();
            self.bytes += self.text.len();
        }
        for level in (0..self.book.levels.len()).rev() {
            if self.book.levels[level].strip.is_some() && self.book.levels[level].left == 0 {
                let _ = self.book.publish(level);
            }
        }
    }

    fn frame(&mut self) {
        let _ = self.book.begin(15);
        self.round();
    }

    fn settle(&mut self) {
        while self.book.levels.iter().any(|level| level.filled != level.window) {
            self.round();
        }
    }
}

/// Flies the demo of a seed for nobody, and writes its line.
pub fn demo(seed: u64) {
    let mut numbers = Generator(seed);
    let grid = demo_grid(&mut numbers);
    let (book, text) = (Book::start(6, 6), Vec::new());
    let mut demo = Demo { grid, book, text, frames: 0, vertices: 0, triangles: 0, pieces: 0, bytes: 0 };
    let (mut x, mut y) = (600, 600);
    demo.book.move_to(x, y);
    demo.settle();
    demo.frame();
    for _ in 0..64 {
        x = (x + numbers.next() % 65 - 32).clamp(0, 1200);
        y = (y + numbers.next() % 65 - 32).clamp(0, 1200);
        demo.book.move_to(x, y);
        demo.frame();
        demo.settle();
    }
    let Demo { frames, vertices, triangles, pieces, bytes, .. } = demo;
    println!("demo {seed} frames {frames} vertices {vertices} triangles {triangles} pieces {pieces} bytes {bytes}");
}
