//! The slice reader's queries, on their own and against the events that `next_event` gives.
#![cfg(feature = "queries")]

mod common;

use abx::{events_to_abx, AbxError, AbxParser, Attribute, AttributeValue, Event};
use common::{document, end_tag, tag, Random};

fn int(name: &str, n: i32) -> Attribute {
    Attribute::new(name, AttributeValue::Int(n))
}

fn lamps() -> Vec<u8> {
    events_to_abx(&[
        Event::StartDocument,
        tag("room", vec![int("watt", 1)]),
        tag("lamp", vec![int("size", 2)]),
        tag("lamp", vec![int("watt", 3), int("size", 4), int("watt", 5)]),
        end_tag("lamp"),
        Event::EndDocument,
        tag("lamp", vec![int("watt", 6)]),
    ])
    .unwrap()
}

#[test]
fn find_attribute() {
    let document = lamps();
    let mut parser = AbxParser::new(&document).unwrap();
    let found = parser.find_attribute("lamp", "watt").unwrap();
    assert_eq!(found, Some(AttributeValue::Int(3)));
    assert_eq!(parser.events_read(), 4);
    // The end of the document stops it, and is consumed.
    assert_eq!(parser.find_attribute("lamp", "watt").unwrap(), None);
    assert_eq!(parser.events_read(), 6);
    let found = parser.find_attribute("lamp", "watt").unwrap();
    assert_eq!(found, Some(AttributeValue::Int(6)));
    assert_eq!(parser.find_attribute("lamp", "watt").unwrap(), None);
    assert!(parser.is_empty());
    assert_eq!(parser.events_read(), 7);
}

#[test]
fn attributes_of() {
    let document = lamps();
    let mut parser = AbxParser::new(&document).unwrap();
    assert_eq!(
        parser.attributes_of("lamp").unwrap(),
        Some(vec![int("size", 2)])
    );
    assert_eq!(
        parser
            .next_event()
            .unwrap()
            .map(|event| matches!(event, Event::StartTag { .. })),
        Some(true)
    );
    assert_eq!(parser.attributes_of("lamp").unwrap(), None);
    assert_eq!(parser.attributes_of("").unwrap(), None);
    assert_eq!(parser.events_read(), 7);
}

#[test]
fn all() {
    let document = lamps();
    let mut parser = AbxParser::new(&document).unwrap();
    let watts = parser.find_all_attributes("lamp", "watt").unwrap();
    assert_eq!(watts, [3, 5, 6].map(AttributeValue::Int));
    let mut parser = AbxParser::new(&document).unwrap();
    assert_eq!(
        parser.all_attributes_of("lamp").unwrap(),
        [
            vec![int("size", 2)],
            vec![int("watt", 3), int("size", 4), int("watt", 5)],
            vec![int("watt", 6)]
        ]
    );
    assert_eq!(parser.events_read(), 7);
}

#[test]
fn a_refusal_keeps_what_was_found() {
    let document = document("32 FFFF 0001 70 CF 0000 32 0000 DF 0000 0E");
    let mut parser = AbxParser::new(&document).unwrap();
    let mut found = vec![];
    let error = parser
        .find_all_attributes_into("p", "p", &mut found)
        .unwrap_err();
    assert!(matches!(error, AbxError::UnknownCommand(14)));
    assert_eq!(found, [true, false].map(AttributeValue::Boolean));
    assert_eq!(
        (parser.events_read(), parser.position()),
        (2, document.len() - 1)
    );
    let mut found = vec![];
    let mut parser = AbxParser::new(&document).unwrap();
    assert!(parser.all_attributes_of_into("p", &mut found).is_err());
    assert_eq!(found.len(), 2);
    assert!(matches!(
        parser.find_attribute("p", "p"),
        Err(AbxError::UnknownCommand(14))
    ));
}

#[test]
fn rows_and_pool_grow() {
    let mut events = vec![];
    for i in 0..3000 {
        events.push(tag("few", vec![int("a", i), int(&format!("n{i}"), i)]));
    }
    events.push(tag("many", (0..3000).map(|i| int("a", i)).collect()));
    let document = events_to_abx(&events).unwrap();
    let values: Vec<_> = (0..3000).map(AttributeValue::Int).collect();
    for element in ["few", "many"] {
        let mut parser = AbxParser::new(&document).unwrap();
        assert_eq!(parser.find_all_attributes(element, "a").unwrap(), values);
        assert_eq!(parser.events_read(), 3001);
    }
    let mut parser = AbxParser::new(&document).unwrap();
    assert_eq!(parser.all_attributes_of("few").unwrap().len(), 3000);
    let mut parser = AbxParser::new(&document).unwrap();
    assert_eq!(parser.attributes_of("many").unwrap().unwrap().len(), 3000);
}

#[test]
fn queries_agree_with_the_events() {
    let mut random = Random(4);
    for _ in 0..2000 {
        let events = random.events();
        let document = events_to_abx(&events).unwrap();
        for element in ["", "a", "name"] {
            let of = |event: &Event| match event {
                Event::StartTag { name, attributes } if name == element => Some(attributes.clone()),
                _ => None,
            };
            let all: Vec<_> = events.iter().filter_map(of).collect();
            let mut parser = AbxParser::new(&document).unwrap();
            assert_eq!(parser.all_attributes_of(element).unwrap(), all);
            assert_eq!(parser.events_read(), events.len());

            let first = |events: &[Event]| {
                let end = events.iter().position(|event| *event == Event::EndDocument);
                let events = &events[..end.unwrap_or(events.len())];
                events.iter().find_map(of)
            };
            let mut parser = AbxParser::new(&document).unwrap();
            assert_eq!(parser.attributes_of(element).unwrap(), first(&events));

            for attr in ["", "b"] {
                let named = |a: &Attribute| (a.name == attr).then(|| a.value.clone());
                let values: Vec<_> = all.iter().flatten().filter_map(named).collect();
                let mut parser = AbxParser::new(&document).unwrap();
                assert_eq!(parser.find_all_attributes(element, attr).unwrap(), values);
            }
        }
    }
}
