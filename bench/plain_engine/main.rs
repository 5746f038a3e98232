//! A plain clipmap engine: what an ordinary Rust program for the same job looks like, to be timed beside.
//!
//!     plain_engine play SCRIPT OUT STORE
//!     plain_engine frame K L X Y OUT STORE
//!     plain_engine settle COUNT           settles so many books over made terrain, as bench/book.sh does
//!     plain_engine demo SEED              flies the demo's flight for nobody, and writes its line
//!
//! It reads stores of the first version, has one thread and one pass at a time in mind, and trusts its script.
mod book;
mod commands;
mod demo;
mod grid;
mod mesh;
mod region;
mod store;
mod text;
mod words;

use std::{env, fs, io, process};
use store::Store;

fn main() -> io::Result<()> {
    let words: Vec<String> = env::args().skip(1).collect();
    let Some(command) = words.first() else { process::exit(1) };
    let numbers: Vec<i32> = words[1..].iter().map(|word| word.parse().unwrap_or(0)).collect();
    if command == "settle" {
        commands::settle_books(numbers[0] as u32);
        return Ok(());
    }
    if command == "demo" {
        demo::demo(words.get(1).and_then(|word| word.parse().ok()).unwrap_or(0));
        return Ok(());
    }
    let Some(store) = Store::read(fs::read(&words[words.len() - 1])?) else {
        println!("fault: store");
        process::exit(2);
    };
    match command.as_str() {
        "play" => commands::play(&fs::read_to_string(&words[1])?, &words[2], &store),
        "frame" => commands::frame(&numbers, &words[5], &store),
        _ => process::exit(1),
    }
}
