//! Whether a list is one nested document: `abx_nested` beside what a caller would write instead. That is a stack of names over the same rows,
//! without a check that the words form rows; the same with the check, which ours makes too; and a stack over the Rust's events in memory.

use std::hint::black_box;

use android_abx::{events_to_abx, AbxParser, Attribute, AttributeValue, Event};
use ours::abx_nested;

#[allow(dead_code)] // a benchmark uses some of it
#[path = "../differential/ours.rs"]
mod ours;
mod table;

const DEPTH: usize = 64;

/// About how many rows a list has that is no short one.
const ROWS: usize = 100_000;

// ---- the four

/// A list, and the Rust's events of it.
struct List {
    stores: [Vec<u8>; 2],
    rows: Vec<u32>,
    events: Vec<Event>,
}

impl List {
    fn by_ours(&self) -> Option<bool> {
        match abx_nested(&self.stores[0], &self.stores[1], &self.rows) {
            [0, is_nested, _, _] => Some(is_nested == 1),
            [2, 16, 0, 0] => None,
            answer => panic!("{answer:?}"),
        }
    }

    fn by_rows(&self) -> bool {
        let name = |row: &[u32]| {
            let [source, start, len] = [row[1], row[2], row[3]].map(|n| n as usize);
            &self.stores[source][start..][..len]
        };
        let count = self.rows.len() / 8;
        let mut open: Vec<&[u8]> = vec![];
        let mut has_root = false;
        for (i, row) in self.rows.chunks_exact(8).enumerate() {
            match row[0] {
                0 if i > 0 => return false,
                1 if i + 1 < count => return false,
                2 => {
                    if open.is_empty() && has_root || open.len() == DEPTH {
                        return false;
                    }
                    has_root = true;
                    open.push(name(row));
                }
                3 if open.pop() != Some(name(row)) => return false,
                4..=6 if open.is_empty() => return false,
                _ => {}
            }
        }
        has_root && open.is_empty()
    }

    fn forms(&self) -> bool {
        let span = |words: &[u32]| {
            let end = words[1] as usize + words[2] as usize;
            let store = self.stores.get(words[0] as usize);
            store.is_some_and(|store| end <= store.len())
        };
        let mut before = 0;
        let row = |row: &[u32]| {
            let in_tag = matches!(before, 2 | 15);
            before = row[0];
            let (name, of, value) = (&row[1..4], row[4], &row[5..8]);
            match row[0] {
                0 | 1 => row[1..] == [0; 7],
                2 | 3 => span(name) && row[4..] == [0; 4],
                4..=10 => name == [0; 3] && of == 2 && span(value),
                15 if in_tag && span(name) => match of {
                    2 | 4 | 5 => span(value),
                    6 | 7 | 10 => value[..2] == [0; 2],
                    8 | 9 | 11 => value[0] == 0,
                    1 | 12 | 13 => value == [0; 3],
                    _ => false,
                },
                _ => false,
            }
        };
        self.rows.len() % 8 == 0 && self.rows.chunks_exact(8).all(row)
    }

    fn by_checked_rows(&self) -> Option<bool> {
        self.forms().then(|| self.by_rows())
    }

    fn by_events(&self) -> bool {
        let count = self.events.len();
        let mut open: Vec<&str> = vec![];
        let mut has_root = false;
        for (i, event) in self.events.iter().enumerate() {
            match event {
                Event::StartDocument if i > 0 => return false,
                Event::EndDocument if i + 1 < count => return false,
                Event::StartTag { name, .. } => {
                    if open.is_empty() && has_root || open.len() == DEPTH {
                        return false;
                    }
                    has_root = true;
                    open.push(name);
                }
                Event::EndTag { name } if open.pop() != Some(name) => return false,
                Event::Text(_) | Event::CdataSection(_) | Event::EntityReference(_)
                    if open.is_empty() =>
                {
                    return false
                }
                _ => {}
            }
        }
        has_root && open.is_empty()
    }

    /// What all four say.
    fn is_nested(&self) -> bool {
        let by_events = self.by_events();
        assert_eq!(self.by_ours(), Some(by_events));
        assert_eq!(self.by_rows(), by_events);
        assert_eq!(self.by_checked_rows(), Some(by_events));
        by_events
    }
}

// ---- the lists

impl List {
    fn of(events: Vec<Event>) -> List {
        let document = events_to_abx(&events).unwrap();
        let (mut pool, mut rows) = (vec![0; 131_070], vec![0; 8 * 4096]);
        let mut all = vec![];
        let answer = ours::read_slice(&document, &mut pool, &mut rows, |rows| all.extend(rows));
        assert_eq!(answer, ours::END);
        List {
            stores: [document, vec![]],
            rows: all,
            events,
        }
    }

    /// With the end tags' names in the second store, where each is to be compared byte by byte.
    fn in_two_stores(mut self) -> List {
        self.stores[1] = self.stores[0].clone();
        for row in self.rows.chunks_exact_mut(8).filter(|row| row[0] == 3) {
            row[1] = 1;
        }
        self
    }

    /// Without its last event, which is no start tag.
    fn cut(mut self) -> List {
        self.events.pop();
        let len = self.rows.len().saturating_sub(8);
        self.rows.truncate(len);
        self
    }
}

fn start(name: &str, attributes: usize) -> Event {
    let attribute = |i: usize| Attribute {
        name: format!("attribute{i}").into(),
        value: AttributeValue::Int(i as i32),
    };
    Event::StartTag {
        name: name.into(),
        attributes: (0..attributes).map(attribute).collect(),
    }
}

fn end(name: &str) -> Event {
    Event::EndTag { name: name.into() }
}

/// An element, the i-th.
fn element(i: usize, attributes: usize) -> Vec<Event> {
    let name = format!("element{:02}", i % 20);
    vec![start(&name, attributes), end(&name)]
}

/// One inside the other, as deep as they may stand in a root.
fn chain(_: usize) -> Vec<Event> {
    let names: Vec<String> = (1..DEPTH).map(|i| format!("element{i:02}")).collect();
    let ends = names.iter().rev().map(|name| end(name));
    names
        .iter()
        .map(|name| start(name, 0))
        .chain(ends)
        .collect()
}

fn text(_: usize) -> Vec<Event> {
    vec![Event::Text("a text of 20 letters".into())]
}

/// An element of a long name, of which there are 20 that differ at their ends.
fn long_name(i: usize) -> Vec<Event> {
    let name = format!("{}{:02}", "n".repeat(298), i % 20);
    vec![start(&name, 0), end(&name)]
}

/// A root with about so many rows of these in it.
fn root(rows: usize, part: impl Fn(usize) -> Vec<Event>) -> Vec<Event> {
    let each: usize = part(0).iter().map(table::rows).sum();
    let parts = (0..rows / each).flat_map(part);
    let root = [start("root", 0)].into_iter().chain(parts);
    root.chain([end("root")]).collect()
}

/// A document of nine rows.
fn small() -> Vec<Event> {
    let mut events = vec![Event::StartDocument, start("root", 1), start("setting", 1)];
    events.extend([end("setting"), Event::Text("text".into()), end("root")]);
    events.push(Event::EndDocument);
    events
}

/// A line of the table. Short lists are asked about many times.
fn line(name: &str, list: List) {
    let rows = list.rows.len() / 8;
    assert_eq!(list.is_nested(), rows > 0, "{name}");
    let calls = ROWS / rows.clamp(2, ROWS);
    let times = calls as f64;
    let list = &list;
    let [ours, plain, checked, events] = table::best_of(
        9,
        [
            &mut || (0..calls).for_each(|_| _ = black_box(black_box(list).by_ours())),
            &mut || (0..calls).for_each(|_| _ = black_box(black_box(list).by_rows())),
            &mut || (0..calls).for_each(|_| _ = black_box(black_box(list).by_checked_rows())),
            &mut || (0..calls).for_each(|_| _ = black_box(black_box(list).by_events())),
        ],
    );
    let nanoseconds = ours * 1e6 / times;
    let a_row = match rows {
        0 => "-".to_owned(),
        _ => format!("{:.2}", nanoseconds / rows as f64),
    };
    println!(
        "| {name} | {rows} | {:.3} | {a_row} | {:.2} | {:.2} | {:.2} |",
        nanoseconds / 1e3,
        plain / ours,
        checked / ours,
        events / ours,
    );
}

fn main() {
    println!("| list | rows | ours µs a call | ns a row | by a stack over rows | by that and a check of the rows | by a stack over the Rust's events |");
    println!("|---|---|---|---|---|---|---|");
    table::each(&["packages14"], |name, document| {
        let mut parser = AbxParser::new(document).unwrap();
        line(name, List::of(parser.collect_events().unwrap()));
    });
    let lists = [
        ("siblings", root(ROWS, |i| element(i, 0))),
        ("six attributes each", root(ROWS, |i| element(i, 6))),
        ("texts", root(ROWS, text)),
        ("chains, 63 deep", root(ROWS, chain)),
        ("`<p/>`", vec![start("p", 0), end("p")]),
        ("a small document", small()),
        ("no events", vec![]),
    ];
    for (name, events) in lists {
        // all four agree also on a list that is cut: a no, but where EndDocument was the last
        List::of(events.clone()).cut().is_nested();
        line(name, List::of(events));
    }
    let names = root(ROWS, long_name);
    line("names of 300 bytes", List::of(names.clone()));
    line(
        "names of 300 bytes, in two stores",
        List::of(names).in_two_stores(),
    );
}
