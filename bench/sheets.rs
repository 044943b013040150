//! Puts and reads back 2,048 rows on both sheets and on a plain `Vec` that keeps the same rules, in one run.
use std::hint::black_box;
use std::time::Instant;

unsafe extern "C" {
    safe fn flat_put(rounds: u32) -> u64;
    safe fn flat_read(rounds: u32) -> u64;
    safe fn outline_put(rounds: u32) -> u64;
    safe fn outline_read(rounds: u32) -> u64;
}

const ROWS: u32 = 2048;
const ROUNDS: u32 = 2000;
const REPEATS: usize = 15;

#[derive(Clone, Copy)]
struct Row {
    kind: u32,
    a: u32,
    b: u32,
    c: u32,
}

#[derive(Clone, Copy)]
struct Placed {
    place: u32,
    row: Row,
}

/// The sheet as one would write it with a `Vec`.
struct Plain {
    rows: Vec<Placed>,
    sealed: usize,
    last: Option<u32>,
    starts: usize,
    capacity: usize,
}

enum Refusal {
    NotForSheet,
    #[allow(dead_code)]
    NoRoom(u32),
}

impl Plain {
    fn new(capacity: usize) -> Plain {
        Plain { rows: Vec::with_capacity(capacity), sealed: 0, last: None, starts: 0, capacity }
    }

    fn put(&mut self, placed: Placed) -> Result<(), Refusal> {
        let Row { kind, a, b, c } = placed.row;
        let formed = match kind {
            1 | 2 => c == 0,
            3 => true,
            4 => b == 0 && c == 0,
            5 => a == 0 && b == 0 && c == 0,
            _ => false,
        };
        let above = self.last.is_none_or(|last| last < placed.place);
        if !formed || !above || kind == 5 && self.starts == 0 {
            return Err(Refusal::NotForSheet);
        }
        if self.rows.len() >= self.capacity {
            return Err(Refusal::NoRoom(placed.place));
        }
        match kind {
            1 => self.starts += 1,
            5 => self.starts -= 1,
            _ => {}
        }
        self.last = Some(placed.place);
        self.rows.push(placed);
        Ok(())
    }

    fn seal(&mut self) -> Result<usize, Refusal> {
        if self.starts != 0 {
            return Err(Refusal::NotForSheet);
        }
        let count = self.rows.len() - self.sealed;
        self.sealed = self.rows.len();
        self.last = None;
        Ok(count)
    }

    fn count(&self) -> usize {
        self.sealed
    }

    fn row(&self, n: usize) -> Option<Placed> {
        if n < self.sealed { self.rows.get(n).copied() } else { None }
    }
}

fn row(place: u32, kind: u32, a: u32, b: u32, c: u32) -> Placed {
    Placed { place, row: Row { kind, a, b, c } }
}

fn sample(place: u32) -> Placed {
    match place % 8 {
        0 => row(place, 1, 1, 2, 0),
        1 => row(place, 2, 3, 4, 0),
        2 => row(place, 3, 0, 5, place),
        3 => row(place, 4, place, 0, 0),
        4 => row(place, 1, 1, 6, 0),
        5 => row(place, 4, place, 0, 0),
        _ => row(place, 5, 0, 0, 0),
    }
}

#[inline(never)]
fn put_rows(sheet: &mut Plain) -> usize {
    for place in 0..ROWS {
        if sheet.put(sample(place)).is_err() {
            return 0;
        }
    }
    sheet.seal().unwrap_or(0)
}

#[inline(never)]
fn read_rows(sheet: &Plain) -> u64 {
    let mut sum: u64 = 0;
    for n in 0..sheet.count() {
        if let Some(placed) = sheet.row(n) {
            sum = sum.wrapping_add(u64::from(placed.place ^ placed.row.a));
        }
    }
    sum
}

#[inline(never)]
fn plain_put(rounds: u32) -> u64 {
    let mut sum: u64 = 0;
    for round in 0..rounds {
        let mut sheet = Plain::new(2048);
        let count = put_rows(&mut sheet) as u64;
        let place = sheet.row((round % ROWS) as usize).map_or(0, |placed| u64::from(placed.place));
        sum = sum.wrapping_add(count.wrapping_add(place));
    }
    sum
}

#[inline(never)]
fn plain_read(rounds: u32) -> u64 {
    let mut sheet = Plain::new(2048);
    let mut sum = put_rows(&mut sheet) as u64;
    for _ in 0..rounds {
        sum = sum.wrapping_add(read_rows(black_box(&sheet)));
    }
    sum
}

/// The best of several runs, in nanoseconds for a row.
fn best(call: impl Fn(u32) -> u64, expected: u64) -> f64 {
    (0..REPEATS)
        .map(|_| {
            let start = Instant::now();
            let sum = call(black_box(ROUNDS));
            assert_eq!(sum, expected);
            start.elapsed().as_nanos() as f64 / f64::from(ROUNDS) / f64::from(ROWS)
        })
        .fold(f64::INFINITY, f64::min)
}

fn main() {
    let (put, read) = (plain_put(ROUNDS), plain_read(ROUNDS));
    let rows = [
        ("plain Vec", best(plain_put, put), best(plain_read, read)),
        ("flat sheet", best(|n| flat_put(n), put), best(|n| flat_read(n), read)),
        ("outline", best(|n| outline_put(n), put), best(|n| outline_read(n), read)),
    ];
    println!("{:<12} {:>12} {:>8} {:>12} {:>8}", "2,048 rows", "put ns/row", "ratio", "read ns/row", "ratio");
    for (name, put, read) in rows {
        println!("{name:<12} {put:>12.2} {:>8.2} {read:>12.2} {:>8.2}", put / rows[0].1, read / rows[0].2);
    }
}
