//! The listing, of the example, of the document that docs/FORMAT.md takes apart, and of the stored answers.

#[path = "../examples/list.rs"]
#[allow(dead_code)]
mod list;

mod common;

use std::fs;
use std::path::Path;

use common::{bytes, document, EXAMPLE};

fn listing(document: &[u8]) -> String {
    let mut out = vec![];
    list::list(document, &mut out).unwrap();
    String::from_utf8(out).unwrap()
}

#[test]
fn example() {
    let listed = "0 - - -\n2 70 - -\n15 76 6 00000003\n3 70 - -\n1 - - -\nend 4\n";
    assert_eq!(listing(&document(EXAMPLE)), listed);
}

#[test]
fn format_document() {
    let page = Path::new(env!("CARGO_MANIFEST_DIR")).join("../docs/FORMAT.md");
    let page = fs::read_to_string(page).unwrap();
    let (_, part) = page.split_once("## One document, byte by byte").unwrap();
    let (table, rest) = part.split_once("The slice reader").unwrap();
    let listed = rest.split("```").nth(1).unwrap().trim_start();
    let mut document = vec![];
    // a row has a place, the bytes there, and what they are
    for line in table.lines() {
        let cells: Vec<&str> = line.split('|').map(str::trim).collect();
        if let Some(at) = cells.get(1).and_then(|at| at.parse::<usize>().ok()) {
            assert_eq!(at, document.len(), "{line}");
            document.extend(bytes(cells[2]));
        }
    }
    assert_eq!(listing(&document), listed);
}

#[test]
fn stored_answers() {
    let folder = Path::new(env!("CARGO_MANIFEST_DIR")).join("../crates/vectors");
    let inputs = fs::read_to_string(folder.join("stdin")).unwrap();
    let answers = fs::read_to_string(folder.join("stdout")).unwrap();
    let mut left = answers.as_str();
    for input in inputs.lines() {
        let listed = listing(&bytes(input));
        // Each answer stands twice.
        for _ in 0..2 {
            left = left
                .strip_prefix(listed.as_str())
                .unwrap_or_else(|| panic!("{input} is listed as {listed}"));
        }
    }
    assert_eq!(left, "");
}
