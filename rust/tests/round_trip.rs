//! What is written reads back, by both readers; and what is not a document does no harm.

mod common;

use abx::{events_to_abx, AbxParser, AbxWriter, Attribute, Event};
use common::{all_values, by_chunks, by_slice, document, example, read, tag, Random, EXAMPLE};

#[test]
fn example_both_ways() {
    assert_eq!(events_to_abx(&example()).unwrap(), document(EXAMPLE));
    assert_eq!(read(&document(EXAMPLE)), (example(), None));
}

#[test]
fn every_value() {
    let attributes = all_values()
        .into_iter()
        .map(|value| Attribute::new("v", value))
        .collect();
    let events = vec![tag("v", attributes)];
    let document = events_to_abx(&events).unwrap();
    assert_eq!(read(&document), (events, None));
}

#[test]
fn lists() {
    let mut random = Random(1);
    for _ in 0..400 {
        let events = random.events();
        let document = events_to_abx(&events).unwrap();
        assert_eq!(read(&document), (events.clone(), None));
        // One by one the same bytes come out, and from a second reading as well.
        let mut writer = AbxWriter::new(vec![]).unwrap();
        for event in &events {
            writer.write_event(event).unwrap();
        }
        assert_eq!(writer.as_bytes(), document);
        assert_eq!(writer.into_inner(), document);
        let again = AbxParser::new(&document).unwrap().collect_events().unwrap();
        assert_eq!(events_to_abx(&again).unwrap(), document);
    }
}

#[test]
fn cut_and_damaged_documents() {
    let mut random = Random(2);
    for _ in 0..1500 {
        let mut document = events_to_abx(&random.events()).unwrap();
        for _ in 0..random.below(4) {
            let at = random.below(document.len());
            document[at] = random.below(256) as u8;
        }
        document.truncate(random.below(document.len() + 1));
        let read = by_slice(&document);
        let size = 1 + random.below(64);
        assert_eq!(by_chunks(&document, size, 65_536), read);
    }
}

#[test]
fn bytes_of_any_kind() {
    let mut random = Random(3);
    for _ in 0..20_000 {
        let mut document = document("");
        document.extend((0..random.below(40)).map(|_| random.below(256) as u8));
        let read = by_slice(&document);
        let size = 1 + random.below(64);
        // An event of at most 40 bytes fits the smallest window.
        assert_eq!(by_chunks(&document, size, 64), read);
        // What was read can be written.
        let again = events_to_abx(&read.0).unwrap();
        assert_eq!(by_slice(&again), (read.0, None));
    }
}

#[test]
fn long_lists_are_written_in_parts() {
    let mut events = vec![];
    for i in 0..40_000 {
        let name = format!("n{}", i % 900);
        events.push(tag(
            &name,
            vec![Attribute::new("a", abx::AttributeValue::Int(i))],
        ));
        events.push(Event::EndTag { name: name.into() });
    }
    let document = events_to_abx(&events).unwrap();
    assert_eq!(by_slice(&document), (events.clone(), None));
    assert_eq!(by_chunks(&document, 4096, 65_536), (events, None));
}

#[test]
fn names_of_a_list_that_look_alike() {
    // Of each length, with a common beginning and end, each twice; among them the empty name.
    let mut names = vec![];
    for len in 0..40 {
        for other in 0..30 {
            let mut name = "n".repeat(len);
            if len > 0 {
                let at = other % len;
                name.replace_range(at..at + 1, &(other % 10).to_string());
            }
            names.push(name);
        }
    }
    let events: Vec<Event> = names
        .iter()
        .chain(names.iter().rev())
        .map(|name| common::end_tag(name))
        .collect();
    let document = events_to_abx(&events).unwrap();
    assert_eq!(by_slice(&document), (events.clone(), None));
    let mut writer = AbxWriter::new(vec![]).unwrap();
    for event in &events {
        writer.write_event(event).unwrap();
    }
    assert_eq!(writer.into_inner(), document);
}
