//! Events as XML: `abx_to_xml` beside the Rust's own `render_event` on the same events, beside plain C that escapes through a table
//! (table/xml.c), and beside a copy of the text; a long text is made in parts that fit an output. Then read and printed from the document,
//! beside the Rust's `to_xml`.

use std::hint::black_box;

use android_abx::{events_to_abx, AbxParser};
use ours::{abx_slice_create, abx_slice_next, abx_to_xml};

#[allow(dead_code)] // a benchmark uses some of it
#[path = "../differential/ours.rs"]
mod ours;
mod table;

/// The Rust's file, since what it prints by is private.
#[allow(dead_code)]
mod event {
    include!(env!("EVENT_RS"));
}

use event::{render_event, Attribute, AttributeValue, Event};

extern "C" {
    fn plain_start();
    fn plain_xml(store: *const u8, rows: *const u32, count: usize, output: *mut u8) -> usize;
}

const OUTPUT: usize = 16_777_216;

/// The bytes of text in a part at most.
const PART: usize = 8_388_608;

/// Events in memory: rows and their store, where each event's rows end, and the Rust's events.
#[derive(Default)]
struct Events {
    store: Vec<u8>,
    rows: Vec<u32>,
    ends: Vec<usize>,
    events: Vec<Event>,
    /// How many events there are at each part's end.
    parts: Vec<usize>,
    text: Vec<u8>,
}

impl Events {
    fn of_document(document: &[u8]) -> Events {
        let mut events = Events {
            store: document.to_vec(),
            ..Events::default()
        };
        let (mut pool, mut rows) = (vec![0; 131_070], vec![0; 8 * 4096]);
        let answer = ours::read_slice(document, &mut pool, &mut rows, |rows| events.push(rows));
        assert_eq!(answer, ours::END);
        events.printed()
    }

    /// A text so many times.
    fn of_text(text: &str, times: usize) -> Events {
        let mut events = Events {
            store: text.as_bytes().to_vec(),
            ..Events::default()
        };
        for _ in 0..times {
            events.push(&[4, 0, 0, 0, 2, 0, 0, text.len() as u32]);
        }
        events.printed()
    }

    /// Tags with ten numbers each.
    fn of_numbers(times: u32) -> Events {
        let mut events = Events {
            store: b"setting".to_vec(),
            ..Events::default()
        };
        for i in 0..times {
            let mut rows = vec![2, 0, 0, 7, 0, 0, 0, 0];
            for k in 0..10 {
                let number = (i * 10 + k).wrapping_mul(2_654_435_761) >> (k % 3 * 10);
                rows.extend([15, 0, k % 4, 3, 6, 0, 0, number]);
            }
            events.push(&rows);
        }
        events.printed()
    }

    fn push(&mut self, rows: &[u32]) {
        self.rows.extend_from_slice(rows);
        self.ends.push(self.rows.len());
        let event = rust_event(&self.store, rows);
        self.events.push(event);
    }

    /// With the Rust's text, and the parts.
    fn printed(mut self) -> Events {
        let mut text = String::new();
        let mut start = 0;
        for (i, event) in self.events.iter().enumerate() {
            let before = text.len();
            render_event(event, &mut text);
            if text.len() - start > PART && before > start {
                self.parts.push(i);
                start = before;
            }
        }
        self.parts.push(self.events.len());
        self.text = text.into_bytes();
        self
    }

    /// The events of each part, and of each event: from and to.
    fn each(&self, singly: bool) -> Vec<(usize, usize)> {
        let ends: Vec<usize> = match singly {
            true => (1..=self.events.len()).collect(),
            false => self.parts.clone(),
        };
        let starts = [0].into_iter().chain(ends.iter().copied());
        starts.zip(ends.iter().copied()).collect()
    }

    fn rows(&self, from: usize, to: usize) -> &[u32] {
        let place = |event: usize| if event == 0 { 0 } else { self.ends[event - 1] };
        &self.rows[place(from)..place(to)]
    }

    /// Prints part by part or event by event, each to the output's first bytes, and shows each text.
    fn by_ours(&self, each: &[(usize, usize)], output: &mut [u8], mut show: impl FnMut(&[u8])) {
        for (from, to) in each {
            match abx_to_xml(&self.store, &[], self.rows(*from, *to), output) {
                [0, len, _, _] => show(&output[..len]),
                answer => panic!("{answer:?}"),
            }
        }
    }

    fn by_rust(&self, each: &[(usize, usize)], text: &mut String, mut show: impl FnMut(&[u8])) {
        for (from, to) in each {
            text.clear();
            for event in &self.events[*from..*to] {
                render_event(event, text);
            }
            show(text.as_bytes());
        }
    }

    fn by_c(&self, each: &[(usize, usize)], output: &mut [u8], mut show: impl FnMut(&[u8])) {
        for (from, to) in each {
            let rows = self.rows(*from, *to);
            // SAFETY: the rows' spans lie in the store, and the output has room for each part's text.
            let len = unsafe {
                let count = rows.len() / 8;
                plain_xml(
                    self.store.as_ptr(),
                    rows.as_ptr(),
                    count,
                    output.as_mut_ptr(),
                )
            };
            show(&output[..len]);
        }
    }

    fn by_copy(&self, lengths: &[usize], output: &mut [u8]) {
        let mut rest = &self.text[..];
        for len in lengths {
            let (part, after) = rest.split_at(*len);
            output[..*len].copy_from_slice(part);
            black_box(&mut output[..*len]);
            rest = after;
        }
    }
}

/// The document with numbers in the place of floats, which the two print in other ways.
fn without_floats(document: &[u8]) -> Vec<u8> {
    use android_abx::{AttributeValue, Event};
    let mut events = AbxParser::new(document).unwrap().collect_events().unwrap();
    for event in &mut events {
        let Event::StartTag { attributes, .. } = event else {
            continue;
        };
        for attribute in attributes {
            match attribute.value {
                AttributeValue::Float(x) => attribute.value = AttributeValue::IntHex(x.to_bits()),
                AttributeValue::Double(x) => attribute.value = AttributeValue::LongHex(x.to_bits()),
                _ => {}
            }
        }
    }
    events_to_abx(&events).unwrap()
}

/// The event of rows whose spans lie in one store.
fn rust_event(store: &[u8], rows: &[u32]) -> Event {
    let bytes = |start: u32, len: u32| store[start as usize..][..len as usize].to_vec();
    let string = |start, len| String::from_utf8(bytes(start, len)).unwrap();
    let name = |row: &[u32]| string(row[2], row[3]).as_str().into();
    let text = || string(rows[6], rows[7]);
    let attribute = |row: &[u32]| Attribute {
        name: name(row),
        value: match row[4] {
            2 => AttributeValue::String(string(row[6], row[7])),
            4 => AttributeValue::BytesHex(bytes(row[6], row[7])),
            5 => AttributeValue::BytesBase64(bytes(row[6], row[7])),
            6 => AttributeValue::Int(row[7] as i32),
            7 => AttributeValue::IntHex(row[7]),
            8 => AttributeValue::Long((u64::from(row[6]) << 32 | u64::from(row[7])) as i64),
            9 => AttributeValue::LongHex(u64::from(row[6]) << 32 | u64::from(row[7])),
            12 => AttributeValue::Boolean(true),
            13 => AttributeValue::Boolean(false),
            1 => AttributeValue::Null,
            of => panic!("type {of}"),
        },
    };
    match rows[0] {
        0 => Event::StartDocument,
        1 => Event::EndDocument,
        2 => Event::StartTag {
            name: name(rows),
            attributes: rows[8..].chunks_exact(8).map(attribute).collect(),
        },
        3 => Event::EndTag { name: name(rows) },
        4 => Event::Text(text()),
        5 => Event::CdataSection(text()),
        6 => Event::EntityReference(text()),
        7 => Event::IgnorableWhitespace(text()),
        8 => Event::ProcessingInstruction(text()),
        9 => Event::Comment(text()),
        _ => Event::DocDecl(text()),
    }
}

/// A line of the first table.
fn line(name: &str, events: &Events, singly: bool) {
    let each = events.each(singly);
    let mut output = vec![0; OUTPUT];
    let mut text = String::new();
    // all three print the same
    let (mut ours, mut rust, mut c) = (vec![], vec![], vec![]);
    let mut lengths = vec![];
    events.by_ours(&each, &mut output, |part| {
        ours.extend_from_slice(part);
        lengths.push(part.len());
    });
    events.by_rust(&each, &mut text, |part| rust.extend_from_slice(part));
    events.by_c(&each, &mut output, |part| c.extend_from_slice(part));
    assert!(
        ours == events.text && rust == events.text && c == events.text,
        "{name}"
    );
    let (mut mine, mut plain) = (vec![0; OUTPUT], vec![0; OUTPUT]);
    let show = |part: &[u8]| {
        black_box(part);
    };
    let [ours, rust, c, copy] = table::best_of(
        9,
        [
            &mut || events.by_ours(&each, &mut mine, show),
            &mut || events.by_rust(&each, &mut text, show),
            &mut || events.by_c(&each, &mut plain, show),
            &mut || events.by_copy(&lengths, &mut output),
        ],
    );
    let how = if singly { "one by one" } else { "list" };
    println!(
        "| {name} | {how} | {} | {} | {:.2} | {:.2} | {:.2} | {:.2} | {:.2} |",
        events.text.len(),
        events.events.len(),
        ours,
        events.text.len() as f64 / ours / 1e6,
        rust / ours,
        c / ours,
        copy / ours,
    );
}

/// A line of the second table: the document is read and printed event by event.
fn read_and_print(name: &str, document: &[u8]) {
    let (mut pool, mut rows) = (vec![0; 131_070], vec![0; 8 * 4096]);
    let mut output = vec![0; OUTPUT];
    let mut ours = || {
        let mut bytes = 0;
        let [0, mut at, mut names, _] = abx_slice_create(document, &pool) else {
            panic!("no reader");
        };
        while let [0, count, new_at, new_names] =
            abx_slice_next(at, names, document, &mut pool, &mut rows)
        {
            (at, names) = (new_at, new_names);
            match abx_to_xml(document, &[], &rows[..8 * count], &mut output) {
                [0, len, _, _] => bytes += black_box(&output[..len]).len(),
                answer => panic!("{answer:?}"),
            }
        }
        bytes
    };
    let rust = || AbxParser::new(document).unwrap().to_xml().unwrap();
    let bytes = ours();
    assert_eq!(rust().split_once("?>").unwrap().1.len(), bytes, "{name}");
    let [ours, rust] = table::best(9, ours, rust);
    println!(
        "| {name} | {bytes} | {ours:.1} | {rust:.1} | {:.2} | {:.2} |",
        bytes as f64 / ours / 1e6,
        rust / ours,
    );
}

fn main() {
    // SAFETY: fills its own tables, before anyone uses them.
    unsafe { plain_start() };
    println!("| events | printed | bytes of text | events | ours ms | ours GB/s | by the Rust | by plain C | by a copy |");
    println!("|---|---|---|---|---|---|---|---|---|");
    let names = ["packages14", "text60k", "text3byte"];
    table::each(&names, |name, document| {
        let events = Events::of_document(&without_floats(document));
        line(name, &events, false);
        line(name, &events, true);
    });
    let made = [
        ("60,000 letters", Events::of_text(&"x".repeat(60_000), 250)),
        ("60,000 times <", Events::of_text(&"<".repeat(60_000), 60)),
        (
            "three bytes, 20,000",
            Events::of_text(&"字".repeat(20_000), 250),
        ),
        ("four letters", Events::of_text("abcd", 200_000)),
        ("ten numbers", Events::of_numbers(30_000)),
    ];
    for (name, events) in &made {
        line(name, events, false);
        line(name, events, true);
    }
    println!();
    println!("| read and printed | bytes of text | ours ms | Rust ms | ours GB/s | ratio |");
    println!("|---|---|---|---|---|---|");
    table::each(&names, |name, document| {
        read_and_print(name, &without_floats(document))
    });
}
