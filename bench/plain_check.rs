//! A plain judge of frames: what an ordinary Rust program for `check FILE` looks like, to be timed beside.
use std::{env, fs, process};

struct Lists {
    vertices: Vec<[i32; 3]>,
    triangles: Vec<[u32; 3]>,
    border: Option<[i64; 4]>,
}

// A whole number within a limit, spelled as it is printed.
fn whole(word: &[u8], limit: i64) -> Option<i64> {
    let (minus, digits) = match word {
        [b'-', digits @ ..] => (true, digits),
        digits => (false, digits),
    };
    let value = natural(digits)? as i64;
    (value <= limit && !(minus && value == 0)).then_some(if minus { -value } else { value })
}

fn natural(word: &[u8]) -> Option<u64> {
    if word.is_empty() || word.len() > 20 || (word[0] == b'0' && word.len() > 1) {
        return None;
    }
    let mut value = 0u64;
    for digit in word {
        if !digit.is_ascii_digit() {
            return None;
        }
        value = value.checked_mul(10)?.checked_add(u64::from(digit - b'0'))?;
    }
    Some(value)
}

// A height in thirty-seconds of a metre: a sign where it is negative, metres, a point and five digits.
fn height(word: &[u8]) -> Option<i32> {
    let (minus, size) = match word {
        [b'-', size @ ..] => (true, size),
        size => (false, size),
    };
    let point = size.len().checked_sub(6).filter(|at| size[*at] == b'.')?;
    let metres = natural(&size[..point]).filter(|metres| *metres <= 32768)? as i32;
    let mut part = 0;
    for digit in &size[point + 1..] {
        if !digit.is_ascii_digit() {
            return None;
        }
        part = 10 * part + i32::from(digit - b'0');
    }
    let value = 32 * metres + part / 3125;
    let fits = part % 3125 == 0 && value <= 32768 * 32 && !(minus && value == 0);
    fits.then_some(if minus { -value } else { value })
}

// The words behind a front, as many as are wanted.
fn words<'a, const N: usize>(line: &'a [u8], front: &[u8]) -> Option<[&'a [u8]; N]> {
    let mut rest = line.strip_prefix(front)?.split(|byte| *byte == b' ');
    let mut found = [b"".as_slice(); N];
    for word in &mut found {
        *word = rest.next()?;
    }
    rest.next().is_none().then_some(found)
}

const FAR: i64 = 1 << 24;

fn level(line: &[u8], number: usize) -> Option<Option<[i64; 4]>> {
    let front = format!("# level {number} ");
    let rest = line.strip_prefix(front.as_bytes())?;
    if rest == b"empty" {
        return Some(None);
    }
    let mut corners = [0; 4];
    for (corner, word) in corners.iter_mut().zip(words::<4>(rest, b"active ")?) {
        *corner = whole(word, FAR)?;
    }
    let drawn = corners[2] - corners[0] >= 2 && corners[3] - corners[1] >= 2;
    (drawn && corners.iter().all(|corner| corner % 2 == 0)).then_some(Some(corners))
}

fn vertex(line: &[u8]) -> Option<[i32; 3]> {
    let [x, h, z] = words(line, b"v ")?;
    Some([whole(x, FAR)? as i32, height(h)?, whole(z, FAR)? as i32])
}

fn triangle(line: &[u8], count: usize) -> Option<[u32; 3]> {
    let mut places = [0; 3];
    for (place, word) in places.iter_mut().zip(words::<3>(line, b"f ")?) {
        *place = natural(word).filter(|place| (1..=count as u64).contains(place))? as u32 - 1;
    }
    let [a, b, c] = places;
    (a != b && b != c && c != a).then_some(places)
}

// The lists of a text, or its first bad line.
fn read(text: &[u8]) -> Result<Lists, usize> {
    let mut rest = text;
    let mut number = 1;
    let mut next = || -> Option<&[u8]> {
        let end = rest.iter().position(|byte| *byte == b'\n')?;
        let line = &rest[..end];
        rest = &rest[end + 1..];
        Some(line)
    };
    let line = next().ok_or(number)?;
    words::<1>(line, b"# clipmap frame ").and_then(|[word]| natural(word)).ok_or(number)?;
    number += 1;
    let line = next().ok_or(number)?;
    let [x, y] = words(line, b"# viewer ").ok_or(number)?;
    whole(x, FAR).and(whole(y, FAR)).ok_or(number)?;
    number += 1;
    let mut lists = Lists { vertices: Vec::new(), triangles: Vec::new(), border: None };
    let mut levels = 0;
    let mut line = next();
    while let Some(found) = line.filter(|_| levels < 12).and_then(|line| level(line, levels)) {
        lists.border = found;
        levels += 1;
        number += 1;
        line = next();
    }
    if levels == 0 {
        return Err(number);
    }
    lists.border = lists.border.map(|corners| corners.map(|corner| corner << (levels - 1)));
    if lists.border.is_some_and(|corners| corners.iter().any(|corner| corner.abs() > FAR)) {
        return Err(number - 1);
    }
    if let Some([kept, of]) = line.and_then(|line| words(line, b"# kept ")).map(|w: [&[u8]; 3]| [w[0], w[2]]) {
        natural(kept).and(natural(of)).ok_or(number)?;
        number += 1;
        line = next();
    }
    while let Some(found) = line.and_then(vertex) {
        lists.vertices.push(found);
        number += 1;
        line = next();
    }
    while let Some(found) = line {
        lists.triangles.push(triangle(found, lists.vertices.len()).ok_or(number)?);
        number += 1;
        line = next();
    }
    if rest.is_empty() { Ok(lists) } else { Err(number) }
}

fn on_border(lists: &Lists, a: usize, b: usize) -> bool {
    let Some([x0, y0, x1, y1]) = lists.border else { return false };
    let place = |n: usize| (i64::from(lists.vertices[n][0]), i64::from(lists.vertices[n][2]));
    let ((ax, ay), (bx, by)) = (place(a), place(b));
    let inside = |x: i64, y: i64| x0 <= x && x <= x1 && y0 <= y && y <= y1;
    let one = |a: i64, b: i64, side: i64| a == side && b == side;
    inside(ax, ay) && inside(bx, by) && (one(ax, bx, x0) || one(ax, bx, x1) || one(ay, by, y0) || one(ay, by, y1))
}

// The first edge that isn't closed, and how many triangles have it.
fn crack(lists: &Lists) -> Option<(usize, usize, usize)> {
    let mut edges = Vec::with_capacity(3 * lists.triangles.len());
    for [a, b, c] in &lists.triangles {
        for (from, to) in [(*a, *b), (*b, *c), (*c, *a)] {
            let (low, high) = (from.min(to), from.max(to));
            edges.push(u64::from(low) << 32 | u64::from(high) << 1 | u64::from(from > to));
        }
    }
    edges.sort_unstable();
    edges.chunk_by(|a, b| a >> 1 == b >> 1).find_map(|run| {
        let (a, b) = ((run[0] >> 32) as usize, ((run[0] & 0xffff_ffff) >> 1) as usize);
        let both = run.len() == 2 && run[0] != run[1];
        let closed = if on_border(lists, a, b) { run.len() == 1 } else { both };
        (!closed).then_some((a + 1, b + 1, run.len()))
    })
}

fn is_tilted(lists: &Lists, places: &[u32; 3]) -> bool {
    let [a, b, c] = places.map(|place| lists.vertices[place as usize].map(i64::from));
    let area = (b[0] - a[0]) * (c[2] - a[2]) - (b[2] - a[2]) * (c[0] - a[0]);
    let middle = |m: [i64; 3], p: [i64; 3], q: [i64; 3]| (0..3).all(|n| 2 * m[n] == p[n] + q[n]);
    area == 0 && !middle(a, b, c) && !middle(b, a, c) && !middle(c, a, b)
}

fn main() {
    let name = env::args().nth(2).expect("check FILE");
    let text = fs::read(name).expect("the file is read");
    let fault = match read(&text) {
        Err(line) => format!("bad line {line}"),
        Ok(lists) => match crack(&lists) {
            Some((a, b, count)) => format!("crack {a} {b} count {count}"),
            None => match lists.triangles.iter().position(|places| is_tilted(&lists, places)) {
                Some(face) => format!("tilted face {}", face + 1),
                None => {
                    println!("watertight {}", lists.triangles.len());
                    return;
                }
            },
        },
    };
    println!("fault: {fault}");
    process::exit(2);
}
