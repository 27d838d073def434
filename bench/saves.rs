//! Lists saved event by event: our `abx_write_event` beside our own list call and the Rust's `AbxWriter`. First lists of many long names,
//! each an element's, twice in a list: names alike begin with the same 35 bytes, others have letters at random. Then documents of the
//! folder given.

use android_abx::{AbxParser, AbxWriter, Event, InternedStr};

#[path = "../differential/common.rs"]
mod common;
#[path = "../rust/tests/common/lists.rs"]
mod lists;
#[allow(dead_code)] // a benchmark uses some of it
#[path = "../differential/ours.rs"]
mod ours;
mod table;

use common::Random;
use lists::{List, Writer};
use ours as library;

const START_TAG: u32 = 2;
const END_TAG: u32 = 3;

/// A list in our rows, and for the Rust.
#[derive(Default)]
struct Saved {
    list: List,
    /// How many words there are at each event's end.
    ends: Vec<usize>,
    events: Vec<Event>,
}

impl Saved {
    fn names(names: &[String]) -> Saved {
        let mut saved = Saved::default();
        for name in names.iter().chain(names) {
            let (start, length) = (saved.list.store.len() as u32, name.len() as u32);
            saved.list.store.extend_from_slice(name.as_bytes());
            for kind in [START_TAG, END_TAG] {
                saved.add(&[kind, 0, start, length, 0, 0, 0, 0]);
            }
            let name = InternedStr::from(name.as_str());
            saved.events.push(Event::StartTag {
                name: name.clone(),
                attributes: vec![],
            });
            saved.events.push(Event::EndTag { name });
        }
        saved
    }

    fn document(document: &[u8]) -> Saved {
        let mut saved = Saved {
            events: AbxParser::new(document).unwrap().collect_events().unwrap(),
            ..Saved::default()
        };
        saved.list.store = document.to_vec();
        let most_rows = saved.events.iter().map(table::rows).max().unwrap();
        let (mut pool, mut rows) = (vec![0; 131_070], vec![0; 8 * most_rows]);
        ours::read_slice(document, &mut pool, &mut rows, |rows| saved.add(rows));
        saved
    }

    /// An event.
    fn add(&mut self, rows: &[u32]) {
        self.list.rows.extend_from_slice(rows);
        self.ends.push(self.list.rows.len());
    }

    fn one_by_one(&self, writer: &mut Writer) {
        writer.create();
        let mut begin = 0;
        for &end in &self.ends {
            let answer = writer.event(&self.list.store, &self.list.rows[begin..end]);
            writer.take(answer);
            begin = end;
        }
    }

    fn at_once(&self, writer: &mut Writer) {
        writer.create();
        writer.write(&self.list);
    }
}

fn rust(events: &[Event]) -> Vec<u8> {
    let mut output = vec![];
    let mut writer = AbxWriter::new(&mut output).unwrap();
    for event in events {
        writer.write_event(event).unwrap();
    }
    output
}

/// A line of the table: nanoseconds an event.
fn measure(name: &str, saved: &Saved, turns: usize) {
    let [mut writer, mut other] = [Writer::new(), Writer::new()];
    let expected = rust(&saved.events);
    saved.at_once(&mut writer);
    assert!(writer.document() == expected, "{name} as a list");
    saved.one_by_one(&mut writer);
    assert!(writer.document() == expected, "{name} one by one");
    let [each, list, rust] = table::best_of(
        turns,
        [
            &mut || saved.one_by_one(&mut writer),
            &mut || saved.at_once(&mut other),
            &mut || drop(rust(&saved.events)),
        ],
    )
    .map(|ms| ms * 1e6 / saved.events.len() as f64);
    println!(
        "| {name} | {} | {each:.0} | {list:.0} | {rust:.0} | {:.2} |",
        saved.events.len(),
        rust / each
    );
}

fn main() {
    println!("| list | events | one by one, ns an event | as a list, ns | Rust, ns | ratio |");
    println!("|---|---|---|---|---|---|");
    let random = &mut Random::new(1);
    let mut letters = || {
        (0..40)
            .map(|_| char::from(b'a' + random.below(26) as u8))
            .collect()
    };
    let alike = |i| format!("maintenance.panel.sign.on.idle.lim.{i:05}");
    for count in [100, 341, 1000] {
        let kinds: [(&str, Vec<String>); 2] = [
            ("alike", (0..count).map(alike).collect()),
            ("at random", (0..count).map(|_| letters()).collect()),
        ];
        for (kind, names) in kinds {
            let name = format!("{count} names of 40 bytes, {kind}");
            measure(&name, &Saved::names(&names), 15);
        }
    }
    table::each(&["packages14"], |name, document| {
        measure(name, &Saved::document(document), 15);
    });
    // every event looks through up to 20,000 names
    table::each(&["names20k-once"], |name, document| {
        measure(name, &Saved::document(document), 3);
    });
}
