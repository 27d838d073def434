//! Our slice reader beside the Rust's `AbxParser`: documents of the folder given, each read from its start to its end.

use android_abx::AbxParser;
use table::Size;

#[allow(dead_code)] // a benchmark uses some of it
#[path = "../differential/ours.rs"]
mod ours;
mod table;

fn rust(document: &[u8]) -> Size {
    let mut parser = AbxParser::new(document).unwrap();
    table::read(document, || parser.next_event().unwrap())
}

fn ours(document: &[u8], pool: &mut [u32], rows: &mut [u32]) -> Size {
    let mut size = Size::of(document);
    let end = ours::read_slice(document, pool, rows, |rows| size.add(rows.len() / 8));
    assert_eq!(end, ours::END);
    size
}

fn main() {
    table::head("bytes");
    let names = [
        "packages",
        "text60k",
        "text3byte",
        "names20k-once",
        "names20k-x8",
    ];
    table::each(&names, |name, document| {
        let mut pool = vec![0; 131_070];
        let mut rows = vec![0; 8 * rust(document).most_rows];
        let ours = || ours(document, &mut pool, &mut rows);
        table::line(name, 25, ours, || rust(document));
    });
}
