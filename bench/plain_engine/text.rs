//! The text of a frame.
use crate::book::Frame;
use crate::mesh::Mesh;
use std::fmt::Write as _;
use std::{fs, io};

fn push_number(text: &mut Vec<u8>, mut number: u32) {
    let mut digits = [0u8; 10];
    let mut at = digits.len();
    loop {
        at -= 1;
        digits[at] = b'0' + (number % 10) as u8;
        number /= 10;
        if number == 0 {
            break;
        }
    }
    text.extend_from_slice(&digits[at..]);
}

fn push_signed(text: &mut Vec<u8>, number: i32) {
    if number < 0 {
        text.push(b'-');
    }
    push_number(text, number.unsigned_abs());
}

fn push_height(text: &mut Vec<u8>, height: i32) {
    if height < 0 {
        text.push(b'-');
    }
    let size = height.unsigned_abs();
    push_number(text, size / 32);
    let mut part = (size % 32) * 3125;
    let mut digits = *b".00000";
    for digit in digits[1..].iter_mut().rev() {
        *digit = b'0' + (part % 10) as u8;
        part /= 10;
    }
    text.extend_from_slice(&digits);
}

pub fn frame_text(text: &mut Vec<u8>, frame: &Frame, mesh: &Mesh) {
    text.clear();
    let mut head = format!("# clipmap frame {}\n# viewer {} {}\n", frame.number, frame.x, frame.y);
    for (level, r) in frame.actives.iter().enumerate() {
        let _ = if r.is_empty() {
            writeln!(head, "# level {level} empty")
        } else {
            writeln!(head, "# level {level} active {} {} {} {}", r.x0, r.y0, r.x1, r.y1)
        };
    }
    text.extend_from_slice(head.as_bytes());
    for vertex in &mesh.vertices {
        text.extend_from_slice(b"v ");
        push_signed(text, vertex.x);
        text.push(b' ');
        push_height(text, vertex.height);
        text.push(b' ');
        push_signed(text, vertex.z);
        text.push(b'\n');
    }
    for triangle in &mesh.triangles {
        text.push(b'f');
        for corner in triangle {
            text.push(b' ');
            push_number(text, corner + 1);
        }
        text.push(b'\n');
    }
}

pub fn put(name: &str, text: &[u8]) -> io::Result<()> {
    let beside = format!("{name}.new");
    fs::write(&beside, text)?;
    fs::rename(beside, name)
}
