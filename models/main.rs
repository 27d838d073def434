//! Holds the static libraries against models that were written from the papers' words, apart from the code: `models [SEED]`.

#[path = "../differential/common.rs"]
mod common;
mod names;
mod nesting;
#[path = "../differential/ours.rs"]
#[allow(dead_code)] // the comparison with the Rust uses the rest
mod ours;
mod rows;
mod same_bytes;
mod writer;
mod xml;

use std::collections::BTreeMap;
use std::process::ExitCode;

use common::Random;

/// How often each refusal came, 0 for none.
type Seen = BTreeMap<usize, usize>;

/// Tells how a comparison went. What did not come up was not compared: each of these refusals must have come.
fn agreed(of: &str, done: Result<(), String>, seen: &Seen, refusals: &[usize]) -> bool {
    if let Err(difference) = done {
        println!("DIFFERS: {of}: {difference}");
        return false;
    }
    if let Some(number) = refusals.iter().find(|number| !seen.contains_key(number)) {
        println!("NOT TRIED: {of}: the refusal {number}");
        return false;
    }
    let calls: usize = seen.values().sum();
    let by_refusal: Vec<String> = seen
        .iter()
        .map(|(n, count)| format!("{n}: {count}"))
        .collect();
    println!(
        "{of}: {calls} calls, 0 differ; by refusal, 0 for none: {}",
        by_refusal.join(", ")
    );
    true
}

fn main() -> ExitCode {
    let seed = std::env::args()
        .nth(1)
        .map_or(1, |s| s.parse().expect("a seed"));
    let random = &mut Random::new(seed);
    let good = same_bytes::stored_agree()
        && same_bytes::agrees(random, 1_000_000)
        && names::agree(random, 1_500)
        && writer::agrees(random, 100_000)
        && xml::stored_agree()
        && xml::agrees(random, 60_000)
        && nesting::stored_agree()
        && nesting::short_agree(6)
        && nesting::agrees(random, 200_000);
    if good {
        println!("models: no difference");
        return ExitCode::SUCCESS;
    }
    ExitCode::FAILURE
}
