//! What the tables beside the Rust share: the documents, the turns and the lines.
#![allow(dead_code)] // a benchmark uses some of it

use std::hint::black_box;
use std::time::Instant;

use android_abx::Event;

/// What is read or written in a line of the table.
#[derive(Clone, Copy, Default, PartialEq, Debug)]
pub struct Size {
    pub bytes: usize,
    pub events: usize,
    pub rows: usize,
    pub most_rows: usize,
}

impl Size {
    /// A document, of which nothing was read yet.
    pub fn of(document: &[u8]) -> Size {
        Size {
            bytes: document.len(),
            ..Size::default()
        }
    }

    /// An event of so many rows.
    pub fn add(&mut self, rows: usize) {
        self.events += 1;
        self.rows += rows;
        self.most_rows = self.most_rows.max(rows);
    }
}

/// The rows of an event.
pub fn rows(event: &Event) -> usize {
    match event {
        Event::StartTag { attributes, .. } => 1 + attributes.len(),
        _ => 1,
    }
}

/// What a reader of the Rust gives of a document.
pub fn read(document: &[u8], mut next: impl FnMut() -> Option<Event>) -> Size {
    let mut size = Size::of(document);
    while let Some(event) = next() {
        size.add(rows(black_box(&event)));
    }
    size
}

/// The table's head; `bytes` says which.
pub fn head(bytes: &str) {
    println!("| document | {bytes} | events | rows | ours ms | Rust ms | ours MB/s | Rust MB/s | ratio |");
    println!("|---|---|---|---|---|---|---|---|---|");
}

/// The documents so named, from the folder given on the command line.
pub fn each(names: &[&str], mut measure: impl FnMut(&str, &[u8])) {
    let folder = std::env::args().nth(1).expect("the documents' folder");
    for name in names {
        measure(
            name,
            &std::fs::read(format!("{folder}/{name}.abx")).unwrap(),
        );
    }
}

extern "C" {
    fn clock_gettime(clock: i32, time: *mut [i64; 2]) -> i32;
}

/// The thread's own time so far, in milliseconds: other work on the machine counts less in it.
fn time_taken() -> f64 {
    const THREAD: i32 = 3; // CLOCK_THREAD_CPUTIME_ID of Linux
    let mut time = [0; 2];
    // SAFETY: on 64 bits a timespec is two words, which are there to be written.
    assert_eq!(unsafe { clock_gettime(THREAD, &mut time) }, 0);
    time[0] as f64 * 1e3 + time[1] as f64 / 1e6
}

fn milliseconds<T>(work: impl FnOnce() -> T) -> f64 {
    let begin = time_taken();
    black_box(work());
    time_taken() - begin
}

/// The milliseconds of each. They take turns, so that noise hits all, and the best turn of each counts.
pub fn best_of<const N: usize>(turns: usize, mut works: [&mut dyn FnMut(); N]) -> [f64; N] {
    let mut best = [f64::MAX; N];
    let begin = Instant::now();
    let mut turn = 0;
    // short ones get more turns
    while turn < turns || begin.elapsed().as_secs() < 2 {
        turn += 1;
        for (work, best) in works.iter_mut().zip(&mut best) {
            *best = best.min(milliseconds(work));
        }
    }
    best
}

/// The same of two whose answers are not needed.
pub fn best<T, U>(
    turns: usize,
    mut ours: impl FnMut() -> T,
    mut rust: impl FnMut() -> U,
) -> [f64; 2] {
    let ours = &mut || drop(black_box(ours()));
    let rust = &mut || drop(black_box(rust()));
    best_of(turns, [ours, rust])
}

/// A line of the table. The two must have the same size.
pub fn line(
    name: &str,
    turns: usize,
    mut ours: impl FnMut() -> Size,
    mut rust: impl FnMut() -> Size,
) {
    let size = rust();
    assert_eq!(ours(), size, "{name}");
    let [ours, rust] = best(turns, ours, rust);
    println!(
        "| {name} | {} | {} | {} | {ours:.1} | {rust:.1} | {:.0} | {:.0} | {:.2} |",
        size.bytes,
        size.events,
        size.rows,
        size.bytes as f64 / ours / 1e3,
        size.bytes as f64 / rust / 1e3,
        rust / ours,
    );
}
