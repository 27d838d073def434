//! Our queries beside the Rust's `AbxParser`: each from a document's start, with new readers. First through long documents, then short
//! ones in a loop: all four on a small document, and two that end with a large one's first tags.

use std::collections::HashMap;
use std::hint::black_box;

use android_abx::{AbxParser, Event};
use ours::{ask, Query, QueryKind};

#[allow(dead_code)] // a benchmark uses some of it
#[path = "../differential/ours.rs"]
mod ours;
mod table;

/// How many rows the Rust's answer has in ours.
fn rust(document: &[u8], query: &Query) -> usize {
    let mut parser = AbxParser::new(document).unwrap();
    let [element, name] = [&query.element, &query.name].map(|s| std::str::from_utf8(s).unwrap());
    match query.kind {
        QueryKind::FindAttribute => {
            let found = parser.find_attribute(element, name).unwrap();
            usize::from(black_box(found).is_some())
        }
        QueryKind::AttributesOf => {
            let found = parser.attributes_of(element).unwrap();
            black_box(found).map_or(0, |all| 1 + all.len())
        }
        QueryKind::FindAllAttributes => {
            black_box(parser.find_all_attributes(element, name).unwrap()).len()
        }
        QueryKind::AllAttributesOf => {
            let all = black_box(parser.all_attributes_of(element).unwrap());
            all.iter().map(|all| 1 + all.len()).sum()
        }
    }
}

/// Rows and events.
fn ours(document: &[u8], query: &Query, pool: &mut [u32], rows: &mut [u32]) -> (usize, usize) {
    match ask(query, [4, 0], document, pool, rows) {
        [0 | 1, _, _, events, rows, _, _] => (rows, events),
        told => panic!("{told:?}"),
    }
}

/// The events and rows of a query, and the best milliseconds of ours and the Rust's for so many of it. Beside the rows that are found
/// there is room for those of any event.
fn measure(document: &[u8], query: &Query, spare: usize, times: usize) -> (usize, usize, [f64; 2]) {
    let count = rust(document, query);
    let mut pool = vec![0; 131_070];
    let mut rows = vec![0; 8 * (count + spare)];
    let (written, events) = ours(document, query, &mut pool, &mut rows);
    assert_eq!(written, count, "{query:?}");
    let ours = || {
        for _ in 0..times {
            black_box(ours(document, black_box(query), &mut pool, &mut rows));
        }
    };
    let rust = || {
        for _ in 0..times {
            black_box(rust(document, black_box(query)));
        }
    };
    (events, count, table::best(25, ours, rust))
}

fn query(kind: QueryKind, [element, name]: &[String; 2]) -> Query {
    Query {
        kind,
        element: element.clone().into_bytes(),
        name: name.clone().into_bytes(),
    }
}

fn called(kind: QueryKind) -> &'static str {
    match kind {
        QueryKind::FindAttribute => "find_attribute",
        QueryKind::AttributesOf => "attributes_of",
        QueryKind::FindAllAttributes => "find_all_attributes",
        QueryKind::AllAttributesOf => "all_attributes_of",
    }
}

/// Of a document: the commonest element, with its commonest attribute; the first element that has attributes, and the one that first
/// comes last, each with its first attribute.
fn names_in(document: &[u8]) -> [[String; 2]; 3] {
    let mut parser = AbxParser::new(document).unwrap();
    let mut elements = HashMap::<String, usize>::new();
    let mut attributes = HashMap::<[String; 2], usize>::new();
    let mut firsts = vec![];
    while let Some(event) = parser.next_event().unwrap() {
        let Event::StartTag {
            name,
            attributes: all,
        } = event
        else {
            continue;
        };
        let count = elements.entry(name.to_string()).or_default();
        if *count == 0 && !all.is_empty() {
            firsts.push([name.to_string(), all[0].name.to_string()]);
        }
        *count += 1;
        for attribute in &all {
            let key = [name.to_string(), attribute.name.to_string()];
            *attributes.entry(key).or_default() += 1;
        }
    }
    let (common, _) = attributes
        .into_iter()
        .max_by_key(|(key, count)| (elements[&key[0]], *count, key.clone()))
        .unwrap();
    [common, firsts[0].clone(), firsts.pop().unwrap()]
}

fn head(unit: &str) {
    println!("| document | query | events | rows | ours {unit} | Rust {unit} | ratio |");
    println!("|---|---|---|---|---|---|---|");
}

/// A line of the table: milliseconds of a query that is asked once, else nanoseconds of one.
fn line(name: &str, asked: &str, document: &[u8], query: &Query, spare: usize, times: usize) {
    let (events, rows, [ours, rust]) = measure(document, query, spare, times);
    let each = |milliseconds: f64| match times {
        1 => format!("{milliseconds:.1}"),
        _ => format!("{:.0}", milliseconds * 1e6 / times as f64),
    };
    println!(
        "| {name} | {asked} | {events} | {rows} | {} | {} | {:.2} |",
        each(ours),
        each(rust),
        rust / ours
    );
}

fn long() {
    head("ms");
    let names = ["packages14", "names20k-once", "names20k-x8"];
    table::each(&names, |name, document| {
        let [common, _, late] = names_in(document);
        let mut parser = AbxParser::new(document).unwrap();
        let spare = table::read(document, || parser.next_event().unwrap()).most_rows;
        for (asked, kind, names) in [
            ("find_all_attributes", QueryKind::FindAllAttributes, &common),
            ("all_attributes_of", QueryKind::AllAttributesOf, &common),
            ("find_attribute, late", QueryKind::FindAttribute, &late),
        ] {
            line(name, asked, document, &query(kind, names), spare, 1);
        }
    });
}

/// So many queries in a loop, each with a new reader.
fn short() {
    const TIMES: usize = 1000;
    head("ns");
    let small = include_bytes!("../samples/settings.abx");
    let [common, first, _] = names_in(small);
    for (which, names) in [("first tag", &first), ("commonest tag", &common)] {
        for kind in QueryKind::ALL {
            let asked = format!("{}, {which}", called(kind));
            line("settings", &asked, small, &query(kind, names), 16, TIMES);
        }
    }
    table::each(&["packages14", "names20k-once"], |name, document| {
        let [_, first, _] = names_in(document);
        for kind in [QueryKind::FindAttribute, QueryKind::AttributesOf] {
            let asked = format!("{}, first tag", called(kind));
            line(name, &asked, document, &query(kind, &first), 64, TIMES);
        }
    });
}

fn main() {
    long();
    println!();
    short();
}
