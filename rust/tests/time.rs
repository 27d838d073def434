//! That no list takes far longer than short names of as many bytes, whatever its names are and whatever the pool has; and that the wrapper
//! writes long lists in a time that grows with them.

#[path = "../src/library.rs"]
mod library;
#[path = "common/lists.rs"]
mod lists;

use std::time::Instant;

use abx::{events_to_abx, Attribute, AttributeValue, Event};
use lists::{shapes, short_names, List, Writer, MOST_NAMES};

/// So many times as long as short names of as many bytes.
const MOST: f64 = 50.0;

/// The best of so many may still be slow by chance, but not that slow.
const TRIES: usize = 3;

/// The seconds a byte that a list takes after another, each time anew.
fn times<'a>(before: &[String], list: &'a List) -> impl Iterator<Item = f64> + 'a {
    let mut writer = Writer::new();
    if !before.is_empty() {
        writer.write(&List::new(before));
    }
    (0..TRIES).map(move |_| {
        let begin = Instant::now();
        let answer = writer.list(list);
        let taken = begin.elapsed().as_secs_f64();
        assert_eq!(answer[0], 0, "{answer:?}");
        taken / list.store.len() as f64
    })
}

fn holds(what: &str, before: &[String], names: &[String]) {
    let short = List::new(&short_names(0, MOST_NAMES));
    let best = times(&[], &short).fold(f64::MAX, f64::min);
    let list = List::new(names);
    let slow: Vec<f64> = times(before, &list)
        .map(|taken| taken / best)
        .take_while(|times| *times > MOST)
        .collect();
    assert!(
        slow.len() < TRIES,
        "{what}: {slow:.0?} times as long as short names of as many bytes"
    );
}

#[test]
fn names_that_look_alike() {
    for (what, names) in shapes() {
        holds(&what, &[], &names);
    }
}

#[test]
fn a_second_list_on_a_full_pool() {
    let names = short_names(0, MOST_NAMES);
    holds("the same list again", &names, &names);
    let others = short_names(MOST_NAMES, 64_000);
    holds("names that are not in the pool", &names, &others);
}

#[test]
fn a_second_list_of_names_that_look_alike() {
    for (what, names) in shapes() {
        holds(&format!("{what}, again"), &names, &names);
    }
}

/// On an idle machine each takes less than 0.1 s, built for release; here there may be neither.
const SECONDS: f64 = 3.0;

fn written(what: &str, events: &[Event], least: usize) {
    let begin = Instant::now();
    let document = events_to_abx(events).unwrap();
    let taken = begin.elapsed().as_secs_f64();
    assert!(document.len() >= least, "{what}: {} bytes", document.len());
    assert!(taken < SECONDS, "{what}: {taken} s");
}

#[test]
fn long_lists_of_the_wrapper() {
    // Each of the most names in a tag with two attributes.
    let name = |i: usize| format!("name{:05}", i % MOST_NAMES);
    let attribute = |i| Attribute::new(name(i), AttributeValue::Null);
    let tag = |i| Event::StartTag {
        name: name(i).into(),
        attributes: vec![attribute(7 * i + 1), attribute(13 * i + 5)],
    };
    let events: Vec<Event> = (0..65_536).map(tag).collect();
    written("65,535 names in 196,608 rows", &events, 1 << 20);
    let value = || AttributeValue::String("a value of some length".into());
    let tag = |i: usize| Event::StartTag {
        name: name(i % 300).into(),
        attributes: (0..4)
            .map(|j| Attribute::new(name(i % 77 + j), value()))
            .collect(),
    };
    let events: Vec<Event> = (0..160_000).map(tag).collect();
    written("16 MiB", &events, 16 << 20);
}
