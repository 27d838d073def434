//! Lists of many names, over the library's functions as they are: for the tests of stack and time, and for benchmarks. Each of them has the
//! functions as `library`.
#![allow(dead_code)] // and uses some of this

use crate::library::*;

const END_TAG: u32 = 3;

/// The most names that a pool has.
pub const MOST_NAMES: usize = 65_535;

/// Rows, and the store of their strings.
#[derive(Default)]
pub struct List {
    pub store: Vec<u8>,
    pub rows: Vec<u32>,
}

impl List {
    /// End tags, one for each name; each name stands in the store by itself.
    pub fn new(names: &[String]) -> List {
        let mut list = List::default();
        for name in names {
            let [start, length] = [list.store.len(), name.len()].map(|n| n as u32);
            list.store.extend_from_slice(name.as_bytes());
            list.rows.extend([END_TAG, 0, start, length, 0, 0, 0, 0]);
        }
        list
    }
}

/// A writer with room for all that a document and a pool can have.
pub struct Writer {
    pub output: Vec<u8>,
    pub pool: Vec<u32>,
    pub written: usize,
    pub names: usize,
}

impl Writer {
    pub fn new() -> Writer {
        let mut writer = Writer {
            output: vec![0; 16_777_216],
            pool: vec![0; 2 * MOST_NAMES],
            written: 0,
            names: 0,
        };
        writer.create();
        writer
    }

    /// Begins anew.
    pub fn create(&mut self) {
        let answer = abx_writer_create(&mut self.output, &self.pool);
        self.take(answer);
    }

    /// Goes on from what a call answered.
    pub fn take(&mut self, answer: [usize; 4]) {
        let [0, written, names, _] = answer else {
            panic!("refused: {answer:?}");
        };
        (self.written, self.names) = (written, names);
    }

    /// A list call, after which the writer stands where it stood.
    pub fn list(&mut self, list: &List) -> [usize; 4] {
        let (written, names) = (self.written, self.names);
        let (store, rows) = (&list.store, &list.rows);
        let Writer { output, pool, .. } = self;
        abx_write_events(written, names, store, &[], rows, output, pool)
    }

    /// The same of a single event.
    pub fn event(&mut self, store: &[u8], rows: &[u32]) -> [usize; 4] {
        let (written, names) = (self.written, self.names);
        let Writer { output, pool, .. } = self;
        abx_write_event(written, names, store, &[], rows, output, pool)
    }

    pub fn write(&mut self, list: &List) {
        let answer = self.list(list);
        self.take(answer);
    }

    pub fn document(&self) -> &[u8] {
        &self.output[..self.written]
    }
}

/// So many different names of eight bytes, from a number on.
pub fn short_names(from: usize, count: usize) -> Vec<String> {
    (from..from + count).map(|i| format!("n{i:07}")).collect()
}

/// Names that are hard to tell apart, each shape with what it is.
pub fn shapes() -> Vec<(String, Vec<String>)> {
    let mut shapes = vec![];
    let mut add = |what: &str, count: usize, name: &dyn Fn(usize) -> String| {
        let names = (0..count).map(name).collect();
        shapes.push((what.to_owned(), names));
    };
    add("package names", MOST_NAMES, &|i| {
        let (app, feature, activity) = (i / 64, i / 4 % 16, i % 4);
        format!("com.example.app{app:04}.feature{feature:04}.Activity{activity:04}")
    });
    add("a common beginning of 40 bytes", MOST_NAMES, &|i| {
        format!("{}{i:05}", "maintenance.panel.".repeat(3).split_at(40).0)
    });
    add("a common end of 40 bytes", MOST_NAMES, &|i| {
        format!("{i:05}{}", "maintenance.panel.".repeat(3).split_at(40).0)
    });
    let four_of_64 = |at: usize| move |i: usize| changed(64, at, &format!("{i:04x}"));
    add(
        "other in the first 4 of 64 bytes",
        MOST_NAMES,
        &four_of_64(0),
    );
    add("other in the middle 4", MOST_NAMES, &four_of_64(30));
    add("other in the last 4", MOST_NAMES, &four_of_64(60));
    for at in [8, 20, 30, 44, 59] {
        let what = format!("other in 5 of 64 bytes from {at} on");
        add(&what, 30_000, &|i| changed(64, at, &format!("{i:05}")));
    }
    // each byte in another word of eight
    add("other in 5 of 64 bytes, spread", 30_000, &|i| {
        let digits = format!("{i:05}");
        let mut name = "x".repeat(64);
        for (place, at) in [8, 20, 30, 44, 59].into_iter().enumerate() {
            name.replace_range(at..at + 1, &digits[place..place + 1]);
        }
        name
    });
    add("one letter, 1 to 4,000 times", 4_000, &|i| {
        "a".repeat(i + 1)
    });
    shapes
}

/// So many letters, some of them changed from a place on.
fn changed(length: usize, at: usize, to: &str) -> String {
    let mut name = "x".repeat(length);
    name.replace_range(at..at + to.len(), to);
    name
}
