//! List calls on pools that have names, and on names that look alike: how long each takes, beside short names of as many bytes, and beside
//! the Rust's `events_to_abx` where the list is the first. Then lists of few names that come again and again.

use std::hint::black_box;

use android_abx::{events_to_abx, Event, InternedStr};

#[path = "../rust/src/library.rs"]
mod library;
#[path = "../rust/tests/common/lists.rs"]
mod lists;
mod table;

use lists::{shapes, short_names, List, Writer, MOST_NAMES};

fn events(names: &[String]) -> Vec<Event> {
    let event = |name: &String| Event::EndTag {
        name: InternedStr::from(name.as_str()),
    };
    names.iter().map(event).collect()
}

/// A line of the first table.
struct Line<'a> {
    what: &'a str,
    names: usize,
    bytes: usize,
    ours: f64,
    /// Where the list is the first.
    rust: Option<f64>,
}

impl<'a> Line<'a> {
    /// A list, the first or after another.
    fn new(what: &'a str, before: &[String], names: &[String]) -> Line<'a> {
        let list = List::new(names);
        let events = events(names);
        let mut writer = Writer::new();
        let is_first = before.is_empty();
        if !is_first {
            writer.write(&List::new(before));
        }
        let [0, written, _, _] = writer.list(&list) else {
            panic!("{what} is refused");
        };
        let same = writer.output[..written] == events_to_abx(&events).unwrap();
        assert!(same || !is_first, "{what}");
        let rust = || is_first.then(|| events_to_abx(&events));
        let [ours, rust] = table::best(2, || writer.list(&list), rust);
        Line {
            what,
            names: names.len(),
            bytes: list.store.len(),
            ours,
            rust: is_first.then_some(rust),
        }
    }

    fn print(&self, short: &Line) {
        let rust = self.rust.map_or("-".to_owned(), |ms| format!("{ms:.1}"));
        let of_as_many_bytes = short.ours / short.bytes as f64 * self.bytes as f64;
        println!(
            "| {} | {} | {} | {:.1} | {rust} | {:.2} |",
            self.what,
            self.names,
            self.bytes,
            self.ours,
            self.ours / of_as_many_bytes
        );
    }
}

/// A line of the second table: so many rows of 20 names that the pool has.
fn few_names(rows: usize) {
    const CALLS: usize = 100;
    let names: Vec<String> = (0..20).map(|i| format!("element{i:02}")).collect();
    let mut list = List::new(&names);
    let mut writer = Writer::new();
    writer.write(&list);
    list.rows = list.rows.iter().copied().cycle().take(8 * rows).collect();
    let events: Vec<Event> = events(&names).into_iter().cycle().take(rows).collect();
    let ours = || (0..CALLS).for_each(|_| _ = black_box(writer.list(&list)));
    let rust = || (0..CALLS).for_each(|_| drop(events_to_abx(&events)));
    let [ours, rust] = table::best(15, ours, rust).map(|ms| ms * 1e6 / CALLS as f64);
    println!(
        "| {rows} | {ours:.0} | {:.1} | {rust:.0} |",
        ours / rows as f64
    );
}

fn main() {
    println!(
        "| list | names | bytes of names | ours ms | Rust ms | by short names of as many bytes |"
    );
    println!("|---|---|---|---|---|---|");
    let names = short_names(0, MOST_NAMES);
    let others = short_names(MOST_NAMES, 64_000);
    let short = Line::new("short names", &[], &names);
    short.print(&short);
    Line::new("the same list again, on the full pool", &names, &names).print(&short);
    Line::new("short names that are not in a full pool", &names, &others).print(&short);
    for (what, names) in shapes() {
        Line::new(&what, &[], &names).print(&short);
        if names.len() == MOST_NAMES {
            Line::new(&format!("{what}, again"), &names, &names).print(&short);
        }
    }
    println!();
    println!("| rows | ours ns a call | ns a row | Rust ns a call |");
    println!("|---|---|---|---|");
    for rows in [16, 64, 65, 128, 256, 512, 1_000, 4_096] {
        few_names(rows);
    }
}
