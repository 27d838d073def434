//! Our chunk reader beside the Rust's `AbxStreamParser`: the settings file in chunks, and one long start tag, whose waiting bytes both
//! read again when more of it has come.

use android_abx::{events_to_abx, AbxStreamParser, Attribute, AttributeValue, Event};
use table::Size;

#[allow(dead_code)] // a benchmark uses some of it
#[path = "../differential/ours.rs"]
mod ours;
mod table;

/// The Rust reads 4 KiB at a time, and more only where a value is longer.
fn rust(document: &[u8]) -> Size {
    let mut parser = AbxStreamParser::new(document).unwrap();
    table::read(document, || parser.next_event().unwrap())
}

struct Buffers {
    window: Vec<u8>,
    pool: Vec<u32>,
    store: Vec<u8>,
    rows: Vec<u32>,
}

/// Feeds a chunk, asks for events until more is needed, and so on.
fn ours(document: &[u8], chunk: usize, lent: &mut Buffers) -> Size {
    let Buffers {
        window,
        pool,
        store,
        rows,
    } = lent;
    let mut size = Size::of(document);
    let mut state = [0; 6];
    assert_eq!(
        ours::abx_stream_create(&mut state, window, pool, store),
        [0; 4]
    );
    let mut rest = document;
    loop {
        match ours::abx_stream_next(&mut state, window, pool, store, rows) {
            [0, count, _, _] => size.add(count),
            ours::NEED_MORE if rest.is_empty() => {
                assert_eq!(
                    ours::abx_stream_finish(&mut state, window, pool, store),
                    [0; 4]
                );
            }
            ours::NEED_MORE => {
                let part = &rest[..chunk.min(rest.len())];
                let [0, taken, _, _] = ours::abx_stream_feed(&mut state, window, pool, store, part)
                else {
                    panic!("a feed was refused");
                };
                rest = &rest[taken..];
            }
            ours::END => return size,
            answer => panic!("{answer:?} after {state:?}"),
        }
    }
}

fn measure(name: &str, document: &[u8], chunk: usize, window: usize, turns: usize) {
    let mut lent = Buffers {
        window: vec![0; window],
        pool: vec![0; 131_070],
        store: vec![0; 1_048_576],
        rows: vec![0; 8 * rust(document).most_rows],
    };
    let name = format!("{name}, chunks of {} KiB", chunk / 1024);
    table::line(
        &name,
        turns,
        || ours(document, chunk, &mut lent),
        || rust(document),
    );
}

/// A document of one start tag of about so many bytes.
fn long_tag(bytes: usize) -> Vec<u8> {
    let attribute = |i: usize| Attribute {
        name: "a".into(),
        value: AttributeValue::Int(i as i32),
    };
    let tag = Event::StartTag {
        name: "p".into(),
        attributes: (0..bytes / 7).map(attribute).collect(),
    };
    events_to_abx(&[tag]).unwrap()
}

fn main() {
    table::head("bytes");
    table::each(
        &["packages14", "text60k", "names20k-x8"],
        |name, document| {
            for kib in [4, 64] {
                measure(name, document, 1024 * kib, 131_072, 15);
            }
        },
    );
    for eighths in [1, 2, 4, 8] {
        let document = long_tag(eighths * 131_072 - 64);
        let name = format!("one tag of {eighths}/8 MiB");
        measure(&name, &document, 4096, 1_048_576, 5);
    }
}
