//! Holds the static library against the Rust, document by document, in all parts or in those named. `compare vectors` prints the
//! documents whose answers are stored.

mod calls;
mod chunks;
mod common;
mod documents;
mod lent;
mod ours;
mod queries;
mod report;
mod rows;
mod slice;
mod stream;
mod vectors;
mod walk;
mod writer;
mod xml;

use std::process::ExitCode;

use documents::Random;
use report::Report;

const USAGE: &str = "usage: compare short|long [SEED [slice|writer|stream|queries|xml]...]
       compare vectors";

const PARTS: [&str; 5] = ["slice", "writer", "stream", "queries", "xml"];

fn main() -> ExitCode {
    let args: Vec<String> = std::env::args().skip(1).collect();
    let parts: Vec<&str> = args.iter().skip(2).map(String::as_str).collect();
    let long = match args.first().map(String::as_str) {
        _ if parts.iter().any(|part| !PARTS.contains(part)) => None,
        Some("short") => Some(false),
        Some("long") => Some(true),
        Some("vectors") => {
            for document in vectors::list() {
                println!("{}", harness::common::hex(&document));
            }
            return ExitCode::SUCCESS;
        }
        _ => None,
    };
    let Some(long) = long else {
        eprintln!("{USAGE}");
        return ExitCode::from(2);
    };
    let seed = args.get(1).map_or(1, |s| s.parse().expect("a seed"));
    println!("seed {seed}");
    let random = &mut Random::new(seed);
    let mut report = Report::default();
    let mut refusals = vec![];
    let asked = |part| parts.is_empty() || parts.contains(&part);
    if asked("slice") {
        slice::slice_reader(&mut report, long, random);
        refusals.extend((1..=11).chain([17, 19]));
    }
    if asked("writer") {
        writer::writer(&mut report, long, random);
        refusals.extend([7, 11, 14, 15, 16, 19]);
    }
    if asked("stream") {
        chunks::chunk_reader(&mut report, long, random);
        refusals.extend((1..=13).chain(17..=19));
    }
    if asked("queries") {
        queries::queries(&mut report, long, random);
        refusals.extend([10, 11, 17, 19]);
    }
    if asked("xml") {
        xml::xml(&mut report, long, random);
        refusals.extend([15, 20]);
    }
    refusals.sort();
    refusals.dedup();
    report.finish(&refusals)
}
