//! Our list writer beside the Rust's `events_to_abx`, on the events of the documents of the folder given. Our rows are those
//! that the slice reader gives of the document, which is their store.

use android_abx::{events_to_abx, AbxParser};
use table::Size;

#[allow(dead_code)] // a benchmark uses some of it
#[path = "../differential/ours.rs"]
mod ours;
mod table;

/// The bytes written.
fn ours(document: &[u8], rows: &[u32], output: &mut [u8], pool: &mut [u32]) -> usize {
    let [0, written, names, _] = ours::abx_writer_create(output, pool) else {
        panic!("refused");
    };
    match ours::abx_write_events(written, names, document, &[], rows, output, pool) {
        [0, written, _, _] => written,
        answer => panic!("{answer:?}"),
    }
}

fn main() {
    table::head("bytes written");
    let names = [
        "packages14",
        "text60k",
        "text3byte",
        "names20k-once",
        "names20k-x8",
    ];
    table::each(&names, |name, document| {
        let events = AbxParser::new(document).unwrap().collect_events().unwrap();
        let mut size = Size::default();
        events.iter().for_each(|event| size.add(table::rows(event)));
        let mut output = vec![0; 16_777_216];
        let mut pool = vec![0; 131_070];
        let mut list = vec![];
        let mut rows = vec![0; 8 * size.most_rows];
        ours::read_slice(document, &mut pool, &mut rows, |rows| {
            list.extend_from_slice(rows);
        });
        let bytes = ours(document, &list, &mut output, &mut pool);
        assert!(output[..bytes] == events_to_abx(&events).unwrap(), "{name}");
        let of = |bytes| Size { bytes, ..size };
        let ours = || of(ours(document, &list, &mut output, &mut pool));
        table::line(name, 15, ours, || of(events_to_abx(&events).unwrap().len()));
    });
}
