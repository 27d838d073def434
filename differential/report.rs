//! Counts, and the smallest input on which the two differ.

use std::process::ExitCode;
use std::time::Instant;

use harness::common::Row;

use crate::ours::Answer;

/// What a difference is, for the reader of the report.
pub type Difference = String;

pub type Compared = Result<(), Difference>;

/// What was compared, to see that nothing is left out.
#[derive(Default)]
pub struct Seen {
    pub documents: u64,
    pub events: u64,
    pub calls: u64,
    pub kinds: [u64; 16],
    pub types: [u64; 16],
    pub refusals: [u64; 21],
}

impl Seen {
    /// A row's kind, and its type where it is an attribute.
    pub fn row(&mut self, row: &Row) {
        self.kinds[usize::from(row.kind)] += 1;
        if row.kind == 15 {
            self.types[usize::from(row.ty)] += 1;
        }
    }

    /// An answer's refusal, if it is one.
    pub fn refusal(&mut self, answer: Answer) {
        if let [2, number, ..] = answer {
            self.refusals[number] += 1;
        }
    }
}

/// A reader or a writer of ours with the tables that it is lent, beside what the Rust and the paper say of it.
pub trait Tested {
    fn seen(&self) -> &Seen;

    /// All tables as they should be again, after a difference.
    fn renew(&mut self);
}

/// Takes an input, and what compares something on it.
pub type Compare<'a, T> = &'a mut dyn FnMut(&[u8], &mut dyn FnMut(&mut T) -> Compared);

#[derive(Default)]
pub struct Report {
    differences: u64,
    smallest: Option<(Vec<u8>, Difference)>,
    seen: Seen,
}

impl Report {
    /// Comparisons of one kind, with their line of the report. What they were made with comes back.
    pub fn section<T: Tested>(
        &mut self,
        name: &str,
        mut tested: T,
        run: impl FnOnce(Compare<T>),
    ) -> T {
        let begin = Instant::now();
        let before = self.differences;
        run(&mut |input, compare| {
            if let Err(difference) = compare(&mut tested) {
                self.differs(input, difference);
                tested.renew();
            }
        });
        let seen = tested.seen();
        println!(
            "{name:44} {:9} documents {:9} events {:10} calls {:5} differ {:6.1} s",
            seen.documents,
            seen.events,
            seen.calls,
            self.differences - before,
            begin.elapsed().as_secs_f64(),
        );
        self.add(seen);
        tested
    }

    pub fn differs(&mut self, document: &[u8], difference: Difference) {
        self.differences += 1;
        let smaller = match &self.smallest {
            None => true,
            Some((smallest, _)) => document.len() < smallest.len(),
        };
        if smaller {
            self.smallest = Some((document.to_vec(), difference));
        }
    }

    fn add(&mut self, seen: &Seen) {
        let all = &mut self.seen;
        all.documents += seen.documents;
        all.events += seen.events;
        all.calls += seen.calls;
        for i in 0..16 {
            all.kinds[i] += seen.kinds[i];
            all.types[i] += seen.types[i];
        }
        for i in 0..21 {
            all.refusals[i] += seen.refusals[i];
        }
    }

    /// The last lines. A kind, a type or one of these refusals that never came up is a failure: something was not compared.
    pub fn finish(self, refusals: &[usize]) -> ExitCode {
        let seen = &self.seen;
        println!("rows by kind: {}", counts(&seen.kinds));
        println!("attributes by type: {}", counts(&seen.types));
        println!("refusals by number: {}", counts(&seen.refusals));
        println!(
            "{} documents, {} events, {} calls",
            seen.documents, seen.events, seen.calls
        );
        let complete = (0..=10).chain([15]).all(|kind| seen.kinds[kind] > 0)
            && [1, 2]
                .into_iter()
                .chain(4..=13)
                .all(|of| seen.types[of] > 0)
            && refusals.iter().all(|number| seen.refusals[*number] > 0);
        if !complete {
            println!("a kind, a type or a refusal never came up");
        }
        if let Some((document, difference)) = &self.smallest {
            show(document, difference);
        }
        println!("differences {}", self.differences);
        if complete && self.differences == 0 {
            ExitCode::SUCCESS
        } else {
            ExitCode::FAILURE
        }
    }
}

fn show(document: &[u8], difference: &str) {
    let shown = document.len().min(4096);
    let hex: String = document[..shown]
        .iter()
        .map(|b| format!("{b:02x}"))
        .collect();
    println!("smallest input, {} bytes: {hex}", document.len());
    if shown < document.len() {
        let file = "target/differential/smallest.abx";
        match std::fs::write(file, document) {
            Ok(()) => println!("the whole of it is in {file}"),
            Err(error) => println!("{file}: {error}"),
        }
    }
    println!("{difference}");
}

fn counts(counts: &[u64]) -> String {
    let some: Vec<String> = (0..counts.len())
        .filter(|i| counts[*i] > 0)
        .map(|i| format!("{i}: {}", counts[i]))
        .collect();
    some.join(", ")
}
