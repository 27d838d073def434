//! The wrapper beside the Rust: owned and borrowed events of both readers, and lists of events written. Documents are those of the folder given.

use std::hint::black_box;

use table::Size;

mod table;

/// What the Rust's readers and ours have alike, for each its own types.
macro_rules! owned {
    ($name:ident, $library:ident, $reader:ident) => {
        fn $name(document: &[u8]) -> Size {
            let mut parser = $library::$reader::new(document).unwrap();
            let mut size = Size::of(document);
            while let Some(event) = parser.next_event().unwrap() {
                size.add(match black_box(&event) {
                    $library::Event::StartTag { attributes, .. } => 1 + attributes.len(),
                    _ => 1,
                });
            }
            size
        }
    };
}

owned!(rust_slice, android_abx, AbxParser);
owned!(rust_stream, android_abx, AbxStreamParser);
owned!(owned_slice, abx, AbxParser);
owned!(owned_stream, abx, AbxStreamParser);

/// Every attribute of a borrowed event is looked at: what is asked for of it is made.
macro_rules! borrowed {
    ($name:ident, $reader:ident, $asked:expr) => {
        fn $name(document: &[u8]) -> Size {
            let mut parser = abx::$reader::new(document).unwrap();
            let mut size = Size::of(document);
            while let Some(event) = parser.next_ref().unwrap() {
                let mut rows = 1;
                if let abx::EventRef::StartTag { name, attributes } = event {
                    black_box(name);
                    for attribute in attributes {
                        $asked(attribute);
                        rows += 1;
                    }
                } else {
                    black_box(event);
                }
                size.add(rows);
            }
            size
        }
    };
}

fn name(attribute: abx::AttributeRef) {
    black_box(attribute.name);
}

fn whole(attribute: abx::AttributeRef) {
    black_box(attribute);
}

borrowed!(names_slice, AbxParser, name);
borrowed!(names_stream, AbxStreamParser, name);
borrowed!(borrowed_slice, AbxParser, whole);
borrowed!(borrowed_stream, AbxStreamParser, whole);

type Read = fn(&[u8]) -> Size;

/// A line for one document, read so many times in a turn: by the Rust, and by ours as owned events, as borrowed ones of which all names are looked at,
/// and as borrowed ones of which all values are, too.
fn line(name: &str, document: &[u8], times: usize, reads: [Read; 4]) {
    let sizes = reads.map(|read| read(document));
    let size = sizes[0];
    assert_eq!(sizes, [size; 4], "{name}");
    let repeat = |read: Read| move || (0..times).for_each(|_| _ = black_box(read(document)));
    let [mut rust, mut owned, mut names, mut borrowed] = reads.map(repeat);
    let works: [&mut dyn FnMut(); 4] = [&mut rust, &mut owned, &mut names, &mut borrowed];
    let best = table::best_of(15, works).map(|time| time / times as f64);
    let shown = best.map(|time| match time < 0.1 {
        true => format!("{:.2} µs", time * 1e3),
        false => format!("{time:.1} ms"),
    });
    let [rust, owned, names, borrowed] = best;
    println!(
        "| {name} | {} | {} | {} | {:.2} | {:.2} | {:.2} |",
        size.events,
        size.rows,
        shown.join(" | "),
        rust / owned,
        rust / names,
        rust / borrowed,
    );
}

fn lists(name: &str, document: &[u8]) {
    let events = abx::AbxParser::new(document)
        .unwrap()
        .collect_events()
        .unwrap();
    let theirs = android_abx::AbxParser::new(document)
        .unwrap()
        .collect_events()
        .unwrap();
    write(name, &events, &theirs);
}

fn write(name: &str, events: &[abx::Event], theirs: &[android_abx::Event]) {
    let written = android_abx::events_to_abx(theirs).unwrap();
    assert!(abx::events_to_abx(events).unwrap() == written);
    let rows: usize = theirs.iter().map(table::rows).sum();
    let [ours, rust] = table::best(
        10,
        || abx::events_to_abx(events).unwrap(),
        || android_abx::events_to_abx(theirs).unwrap(),
    );
    println!(
        "| {name} | {} | {} | {rows} | {rust:.1} | {ours:.1} | {:.2} |",
        written.len(),
        events.len(),
        rust / ours
    );
}

fn main() {
    println!("| document | events | rows | Rust | owned | borrowed | with values | owned ratio | borrowed | with values |");
    println!("|---|---|---|---|---|---|---|---|---|---|");
    let slice: [Read; 4] = [rust_slice, owned_slice, names_slice, borrowed_slice];
    let stream: [Read; 4] = [rust_stream, owned_stream, names_stream, borrowed_stream];
    let names = [
        "packages",
        "names20k-once",
        "names20k-x8",
        "text60k",
        "text3byte",
    ];
    table::each(&names, |name, document| {
        line(&format!("{name}, slice"), document, 1, slice);
        line(&format!("{name}, stream"), document, 1, stream);
    });
    // Short documents: the settings file's first events, by which a reader's own making counts.
    table::each(&["packages"], |_, document| {
        let mut parser = android_abx::AbxParser::new(document).unwrap();
        let events: Vec<_> = std::iter::from_fn(|| parser.next_event().unwrap())
            .take(100)
            .collect();
        for count in [2, 10, 100] {
            let short = android_abx::events_to_abx(&events[..count]).unwrap();
            let name = format!("{count} events of {} bytes", short.len());
            line(&format!("{name}, slice"), &short, 1000, slice);
            line(&format!("{name}, stream"), &short, 1000, stream);
        }
    });
    println!();
    println!("| list | bytes written | events | rows | Rust ms | ours ms | ratio |");
    println!("|---|---|---|---|---|---|---|");
    table::each(
        &["packages14", "names20k-x8", "text60k", "text3byte"],
        lists,
    );
    // Each of the most names, in a tag with two attributes and its end.
    let name = |i: usize| format!("name{:05}", i % 65_535);
    let tag = |i: usize| [name(i), name(7 * i + 1), name(13 * i + 5)];
    let (mut events, mut theirs) = (vec![], vec![]);
    for [name, first, second] in (0..65_535).map(tag) {
        events.push(abx::Event::StartTag {
            name: (&*name).into(),
            attributes: [&first, &second]
                .map(|name| abx::Attribute::new(name, abx::AttributeValue::Null))
                .into(),
        });
        theirs.push(android_abx::Event::StartTag {
            name: (&*name).into(),
            attributes: [&first, &second]
                .map(|name| android_abx::Attribute {
                    name: (&**name).into(),
                    value: android_abx::AttributeValue::Null,
                })
                .into(),
        });
    }
    write("65,535 names, in 196,605 rows", &events, &theirs);
}
