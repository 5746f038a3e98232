//! The mesh of a frame.
use crate::book::Book;
use crate::region::{EMPTY, Region};

#[derive(Clone, Copy)]
pub struct Vertex {
    pub x: i32,
    pub z: i32,
    pub height: i32,
}

pub struct Mesh {
    pub vertices: Vec<Vertex>,
    pub triangles: Vec<[u32; 3]>,
}

// The places of the vertices of one level, row by row over its active region.
struct Places {
    pub region: Region,
    pub numbers: Vec<u32>,
}

impl Places {
    pub fn at(&self, i: i32, j: i32) -> u32 {
        let r = self.region;
        self.numbers[(j - r.y0) as usize * r.columns() + (i - r.x0) as usize]
    }
}

fn hole_of(actives: &[Region], level: usize) -> Region {
    match level.checked_sub(1).map(|finer| actives[finer]) {
        Some(r) if !r.is_empty() => Region { x0: r.x0 / 2, y0: r.y0 / 2, x1: r.x1 / 2, y1: r.y1 / 2 },
        _ => EMPTY,
    }
}

fn squares(triangles: &mut Vec<[u32; 3]>, places: &Places, part: Region) {
    for j in part.y0..part.y1 {
        if part.x0 >= part.x1 {
            return;
        }
        let (mut nw, mut sw) = (places.at(part.x0, j), places.at(part.x0, j + 1));
        for i in part.x0 + 1..=part.x1 {
            let (ne, se) = (places.at(i, j), places.at(i, j + 1));
            triangles.push([nw, sw, se]);
            triangles.push([nw, se, ne]);
            (nw, sw) = (ne, se);
        }
    }
}

pub fn draw(book: &Book, actives: &[Region]) -> Mesh {
    let mut mesh = Mesh { vertices: Vec::new(), triangles: Vec::new() };
    let mut places: Vec<Places> = Vec::with_capacity(actives.len());
    for level in 0..actives.len() {
        let made = list_vertices(book, actives, level, &places, &mut mesh.vertices);
        places.push(made);
    }
    for (level, places) in places.iter().enumerate() {
        let (r, hole) = (places.region, hole_of(actives, level));
        if r.is_empty() {
            continue;
        }
        let parts = if hole.is_empty() {
            vec![r]
        } else {
            vec![
                Region { y1: hole.y0, ..r },
                Region { x1: hole.x0, y0: hole.y0, y1: hole.y1, ..r },
                Region { x0: hole.x1, y0: hole.y0, y1: hole.y1, ..r },
                Region { y0: hole.y1, ..r },
            ]
        };
        for part in parts {
            squares(&mut mesh.triangles, places, part);
        }
    }
    for (level, places) in places.iter().enumerate() {
        if level + 1 < actives.len() && !places.region.is_empty() {
            stitch(&mut mesh.triangles, places);
        }
    }
    mesh
}

fn list_vertices(book: &Book, actives: &[Region], level: usize, finer: &[Places], vertices: &mut Vec<Vertex>) -> Places {
    let region = actives[level];
    if region.is_empty() {
        return Places { region, numbers: Vec::new() };
    }
    let hole = hole_of(actives, level);
    let mut numbers = Vec::with_capacity(region.columns() * region.rows());
    let blend = 1 << (book.k - 4);
    let is_coarsest = level + 1 == actives.len();
    for j in region.y0..=region.y1 {
        for i in region.x0..=region.x1 {
            if !hole.is_empty() && hole.x0 <= i && i <= hole.x1 && hole.y0 <= j && j <= hole.y1 {
                let border = i == hole.x0 || i == hole.x1 || j == hole.y0 || j == hole.y1;
                numbers.push(if border { finer[level - 1].at(2 * i, 2 * j) } else { u32::MAX });
                continue;
            }
            let h = book.height(level, i, j);
            let d = (i - region.x0).min(region.x1 - i).min(j - region.y0).min(region.y1 - j);
            let t = if is_coarsest { 0 } else { (blend - d).max(0) };
            let height = if t == 0 {
                32 * h
            } else {
                let a = book.height(level + 1, i >> 1, j >> 1);
                let b = book.height(level + 1, (i + 1) >> 1, (j + 1) >> 1);
                (blend - t) * (32 / blend) * h + t * (16 / blend) * (a + b)
            };
            numbers.push(vertices.len() as u32);
            vertices.push(Vertex { x: i << level, z: j << level, height });
        }
    }
    Places { region, numbers }
}

fn stitch(triangles: &mut Vec<[u32; 3]>, places: &Places) {
    let r = places.region;
    for i in (r.x0..r.x1).step_by(2) {
        triangles.push([places.at(i, r.y0), places.at(i + 1, r.y0), places.at(i + 2, r.y0)]);
    }
    for j in (r.y0..r.y1).step_by(2) {
        triangles.push([places.at(r.x1, j), places.at(r.x1, j + 1), places.at(r.x1, j + 2)]);
    }
    for i in (r.x0..r.x1).step_by(2).rev() {
        triangles.push([places.at(i + 2, r.y1), places.at(i + 1, r.y1), places.at(i, r.y1)]);
    }
    for j in (r.y0..r.y1).step_by(2).rev() {
        triangles.push([places.at(r.x0, j + 2), places.at(r.x0, j + 1), places.at(r.x0, j)]);
    }
}
