//! `equal_bytes::same_bytes` beside libc's `memcmp` and a loop over single bytes: first whether they agree, then how long each takes for
//! two names. A row's names are of one length, or of lengths at random.

use std::hint::black_box;
use std::process::ExitCode;
use std::time::Instant;

#[path = "../differential/common.rs"]
mod common;
#[allow(dead_code)] // the stored pairs
#[path = "../models/same_bytes.rs"]
mod same_bytes;

use common::Random;
use same_bytes::same_bytes as ours;

extern "C" {
    fn memcmp(a: *const u8, b: *const u8, length: usize) -> i32;
}

// Not inlined, as ours is not.
#[inline(never)]
fn by_memcmp(a: &[u8], b: &[u8]) -> bool {
    // SAFETY: both have so many bytes.
    a.len() == b.len() && unsafe { memcmp(a.as_ptr(), b.as_ptr(), a.len()) } == 0
}

#[inline(never)]
fn by_bytes(a: &[u8], b: &[u8]) -> bool {
    if a.len() != b.len() {
        return false;
    }
    for i in 0..a.len() {
        if a[i] != b[i] {
            return false;
        }
    }
    true
}

type Pair = (Vec<u8>, Vec<u8>);

fn name(random: &mut Random, length: usize) -> Vec<u8> {
    (0..length).map(|_| b'a' + random.below(26) as u8).collect()
}

/// The name, and it again with the byte at a place changed, if any.
fn pair(name: Vec<u8>, changed: Option<usize>) -> Pair {
    let mut other = name.clone();
    if let Some(at) = changed {
        other[at] ^= 1;
    }
    (name, other)
}

const COMPARISONS: [fn(&[u8], &[u8]) -> bool; 3] = [ours, by_memcmp, by_bytes];

/// A row of the table: what its names are, and the best nanoseconds a pair of each comparison.
struct Row {
    length: String,
    names: &'static str,
    pairs: Vec<Pair>,
    best: [f64; 3],
}

impl Row {
    fn new(length: String, names: &'static str, pairs: Vec<Pair>) -> Row {
        for (a, b) in &pairs {
            assert!(COMPARISONS.iter().all(|same| same(a, b) == (a == b)));
        }
        let best = [f64::MAX; 3];
        Row {
            length,
            names,
            pairs,
            best,
        }
    }

    /// The comparisons take turns, so that noise hits all.
    fn measure(&mut self) {
        let rounds = 20_000 / self.pairs.len();
        for _ in 0..10 {
            for (same, best) in COMPARISONS.iter().zip(&mut self.best) {
                let begin = Instant::now();
                for _ in 0..rounds {
                    for (a, b) in &self.pairs {
                        black_box(same(a, b));
                    }
                }
                let taken = begin.elapsed().as_nanos() as f64;
                *best = best.min(taken / (rounds * self.pairs.len()) as f64);
            }
        }
    }

    fn print(&self) {
        let (length, names, [ours, memcmp, bytes]) = (&self.length, self.names, self.best);
        println!(
            "| {length} | {names} | {ours:.1} | {memcmp:.1} | {bytes:.1} | {:.2} | {:.2} |",
            memcmp / ours,
            bytes / ours,
        );
    }
}

fn rows(random: &mut Random) -> Vec<Row> {
    let mut rows = vec![];
    for length in [1, 4, 7, 8, 15, 16, 40, 63, 64, 128] {
        for (names, changed) in [
            ("equal", None),
            ("first byte differs", Some(0)),
            ("last byte differs", Some(length - 1)),
        ] {
            let pairs = (0..200).map(|_| pair(name(random, length), changed));
            rows.push(Row::new(length.to_string(), names, pairs.collect()));
        }
    }
    for (least, most) in [(1, 7), (8, 40)] {
        let mut any_name = || {
            let length = least + random.below(most - least + 1);
            name(random, length)
        };
        let pairs = (0..2000).map(|_| pair(any_name(), None)).collect();
        rows.push(Row::new(format!("{least} to {most}"), "equal", pairs));
    }
    rows
}

fn main() -> ExitCode {
    let random = &mut Random::new(1);
    if !same_bytes::agrees(random, 1_000_000) {
        return ExitCode::FAILURE;
    }
    let mut rows = rows(random);
    // Again and again, so that a slow time of the machine decides no row.
    for _ in 0..20 {
        rows.iter_mut().for_each(Row::measure);
    }
    println!("| bytes | names | ours ns | memcmp ns | byte loop ns | by memcmp | by the loop |");
    println!("|---|---|---|---|---|---|---|");
    rows.iter().for_each(Row::print);
    ExitCode::SUCCESS
}
