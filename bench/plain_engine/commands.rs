//! The commands.
use crate::book::{Book, Claimed, Job, Pass};
use crate::grid::Grid;
use crate::mesh::draw;
use crate::store::Store;
use crate::text::{frame_text, put};
use std::io::{self, Write};
use std::process;

fn claimed_text(book: &Book, pass: u8, claimed: Claimed) -> String {
    let across = 1 << (book.k - 3);
    match claimed {
        Claimed::Job => match &book.passes[usize::from(pass)] {
            Pass::Job(job) => {
                let Job { level, bx, by, cells: c, plan, .. } = **job;
                format!("job level {level} block {bx} {by} cells {} {} {} {} plan {plan}", c.x0, c.y0, c.x1, c.y1)
            }
            _ => unreachable!(),
        },
        Claimed::Idle => "idle".into(),
        Claimed::Ripe(level) => format!("ripe {level}"),
        Claimed::Busy(level, tile, frame) => {
            format!("busy level {level} tile {} {} frame {frame}", tile % across, tile / across)
        }
        Claimed::Held(level, tile, pass) => {
            format!("held level {level} tile {} {} pass {pass}", tile % across, tile / across)
        }
        Claimed::HasWork => "haswork".into(),
    }
}

fn begun_text(book: &Book, begun: Result<u64, Option<(usize, usize, u8)>>) -> String {
    let across = 1 << (book.k - 3);
    match begun {
        Ok(frame) => format!("frame {frame}"),
        Err(None) => "haswork".into(),
        Err(Some((level, tile, pass))) => {
            format!("held level {level} tile {} {} pass {pass}", tile % across, tile / across)
        }
    }
}

pub fn play(script: &str, name: &str, store: &Store) -> io::Result<()> {
    let mut lines = script.lines().filter(|line| !line.is_empty() && !line.starts_with('#'));
    let sizes = words_of(lines.next().unwrap_or(""));
    let mut book = Book::start(sizes[1] as u32, sizes[2] as usize);
    let mut out = io::stdout().lock();
    let mut text = Vec::new();
    for line in lines {
        let numbers = words_of(line);
        let number = numbers.get(1).copied().unwrap_or(0);
        let pass = number as u8;
        let answer = match line.split(' ').next().unwrap_or("") {
            "move" => {
                book.move_to(number, numbers[2]);
                "moved".into()
            }
            "claim" => {
                let claimed = book.claim(pass);
                claimed_text(&book, pass, claimed)
            }
            "finish" => match book.finish(|job| store.fill(job), pass) {
                None => "nojob".into(),
                Some((plan, now)) if plan == now => "kept".into(),
                Some((plan, now)) => format!("stale {plan} now {now}"),
            },
            "publish" => match book.publish(number as usize) {
                Ok(r) => format!("grown {} {} {} {}", r.x0, r.y0, r.x1, r.y1),
                Err(0) => "whole".into(),
                Err(left) => format!("waiting {left}"),
            },
            "begin" => {
                let begun = book.begin(pass);
                begun_text(&book, begun)
            }
            "end" => match book.end(pass) {
                None => "noframe".into(),
                Some(frame) => {
                    let mesh = draw(&book, &frame.actives);
                    frame_text(&mut text, &frame, &mesh);
                    put(&format!("{name}-{}.obj", frame.number), &text)?;
                    let (vertices, triangles) = (mesh.vertices.len(), mesh.triangles.len());
                    format!("closed {} vertices {vertices} triangles {triangles}", frame.number)
                }
            },
            _ => process::exit(2),
        };
        writeln!(out, "{line}: {answer}")?;
    }
    Ok(())
}

fn words_of(line: &str) -> Vec<i32> {
    line.split(' ').map(|word| word.parse().unwrap_or(0)).collect()
}

// Fills and publishes until nothing is left, and tells how many pieces that were.
fn settle(book: &mut Book, fill: impl Fn(&Job) -> [i16; 64]) -> u32 {
    let mut pieces = 0;
    loop {
        match book.claim(0) {
            Claimed::Job => {
                book.finish(&fill, 0);
                pieces += 1;
            }
            Claimed::Ripe(level) => {
                let _ = book.publish(level);
            }
            _ => return pieces,
        }
    }
}

pub fn frame(words: &[i32], name: &str, store: &Store) -> io::Result<()> {
    let mut book = Book::start(words[0] as u32, words[1] as usize);
    book.move_to(words[2], words[3]);
    settle(&mut book, |job| store.fill(job));
    let _ = book.begin(0);
    if let Some(frame) = book.end(0) {
        let mesh = draw(&book, &frame.actives);
        let mut text = Vec::new();
        frame_text(&mut text, &frame, &mesh);
        put(name, &text)?;
        println!("frame 0 vertices {} triangles {}", mesh.vertices.len(), mesh.triangles.len());
    }
    Ok(())
}

// Settles so many books of K = 8 with twelve levels over made terrain.
pub fn settle_books(count: u32) {
    let grid = Grid::made();
    for _ in 0..count {
        let mut book = Book::start(8, 12);
        if settle(&mut book, |job| grid.fill(job)) != 13068 {
            process::exit(3);
        }
    }
}
