//! What both readers have beside their events: XML, maps and queries. And borrowed events, and names that are shared.

mod common;

use std::fs;
use std::io;
use std::path::Path;

use abx::{
    events_to_abx, AbxError, AbxParser, AbxParserOwned, AbxStreamParser, Attribute, AttributeValue,
    Event, EventRef, ValueRef,
};
use common::{by_slice, by_slice_borrowed, by_source, document, end_tag, tag, told, Random};

fn sample() -> Vec<u8> {
    let path = Path::new(env!("CARGO_MANIFEST_DIR")).join("../samples/settings.abx");
    fs::read(path).unwrap()
}

fn lamps() -> Vec<u8> {
    let string = |name: &str, s: &str| Attribute::new(name, AttributeValue::String(s.into()));
    events_to_abx(&[
        Event::StartDocument,
        tag("room", vec![string("name", "<\"a\" & 'b'>")]),
        Event::Text("x < y".into()),
        tag(
            "lamp",
            vec![
                Attribute::new("watt", AttributeValue::Int(40)),
                Attribute::new("key", AttributeValue::BytesBase64(vec![1, 2, 3, 4])),
            ],
        ),
        Event::Text("".into()),
        end_tag("lamp"),
        Event::Comment("a < b".into()),
        end_tag("room"),
        Event::EndDocument,
        tag("lamp", vec![Attribute::new("watt", AttributeValue::Null)]),
    ])
    .unwrap()
}

const XML: &str = concat!(
    r#"<?xml version="1.0" encoding="UTF-8"?>"#,
    r#"<room name="&lt;&quot;a&quot; &amp; &apos;b&apos;&gt;">x &lt; y"#,
    r#"<lamp watt="40" key="AQIDBA=="></lamp><!--a < b--></room>"#
);

#[test]
fn xml() {
    let document = lamps();
    let mut parser = AbxParser::new(&document).unwrap();
    assert_eq!(parser.to_xml().unwrap(), XML);
    // It stops at the end of the document, and goes on from there.
    assert!(parser.to_xml().unwrap().ends_with(r#"?><lamp watt="">"#));
    let mut source = AbxStreamParser::new(&document[..]).unwrap();
    assert_eq!(source.to_xml().unwrap(), XML);
    let mut written = vec![];
    let mut parser = AbxParser::new(&document).unwrap();
    parser.write_xml(&mut written).unwrap();
    assert_eq!(String::from_utf8(written).unwrap(), XML);
    let mut written = vec![];
    let mut source = AbxStreamParser::new(&document[..]).unwrap();
    source.write_xml(&mut written).unwrap();
    assert_eq!(String::from_utf8(written).unwrap(), XML);
    // A sink that is full.
    let mut full = [0; 50];
    let mut parser = AbxParser::new(&document).unwrap();
    let error = parser.write_xml(&mut &mut full[..]).unwrap_err();
    assert!(matches!(error, AbxError::Io(e) if e.kind() == io::ErrorKind::WriteZero));
}

#[test]
fn maps() {
    let document = lamps();
    let map = AbxParser::new(&document).unwrap().into_map().unwrap();
    assert_eq!(map["lamp"].len(), 2);
    assert_eq!(map["lamp"][0]["watt"], "40");
    assert_eq!(map["lamp"][1]["watt"], "");
    assert_eq!(map["room"][0]["name"], "<\"a\" & 'b'>");
    let source = AbxStreamParser::new(&document[..]).unwrap();
    assert_eq!(source.into_map().unwrap(), map);
    let owned = AbxParserOwned::new(document).unwrap();
    assert_eq!(owned.parser().unwrap().into_map().unwrap(), map);
    assert_eq!(told(AbxParserOwned::new(vec![1]).unwrap_err()), (1, 0));
}

#[cfg(feature = "queries")]
#[test]
fn queries_of_both_readers_agree() {
    let mut random = Random(5);
    for round in 0..1500 {
        let mut document = events_to_abx(&random.events()).unwrap();
        if round % 2 == 0 {
            document.truncate(4 + random.below(document.len() - 3));
        }
        let told = |error: AbxError| (error.number(), error.detail());
        for element in ["", "a", "name"] {
            for attr in ["", "b"] {
                let mut slice = AbxParser::new(&document).unwrap();
                let mut source = AbxStreamParser::new(&document[..]).unwrap();
                // one after another, each from where the one before stopped
                assert_eq!(
                    slice.find_attribute(element, attr).map_err(told),
                    source.find_attribute(element, attr).map_err(told)
                );
                assert_eq!(
                    slice.attributes_of(element).map_err(told),
                    source.attributes_of(element).map_err(told)
                );
                assert_eq!(
                    slice.find_all_attributes(element, attr).map_err(told),
                    source.find_all_attributes(element, attr).map_err(told)
                );
                let mut slice = AbxParser::new(&document).unwrap();
                let mut source = AbxStreamParser::new(&document[..]).unwrap();
                assert_eq!(
                    slice.all_attributes_of(element).map_err(told),
                    source.all_attributes_of(element).map_err(told)
                );
            }
        }
    }
}

#[test]
fn a_real_file() {
    let sample = sample();
    let (events, refusal) = by_slice(&sample);
    assert!(refusal.is_none() && events.len() > 10);
    assert_eq!(by_source(&sample), (events.clone(), None));
    assert_eq!(by_slice_borrowed(&sample), (events.clone(), None));
    // Cut anywhere, it gives its first events, and says that it is cut where an event is.
    for len in 4..sample.len() {
        let (cut, refusal) = by_slice(&sample[..len]);
        assert_eq!(by_source(&sample[..len]), (cut.clone(), refusal));
        // A start tag may have lost attributes at its end.
        let whole = cut.len().saturating_sub(1);
        assert_eq!(cut[..whole], events[..whole]);
        assert!(refusal.is_none() || matches!(refusal, Some((3..=5, 0))));
    }
}

#[test]
fn borrowed_attributes() {
    let document = lamps();
    let mut parser = AbxParser::new(&document).unwrap();
    parser.next_ref().unwrap();
    parser.next_ref().unwrap();
    parser.next_ref().unwrap();
    let Some(event @ EventRef::StartTag { name, attributes }) = parser.next_ref().unwrap() else {
        panic!("a start tag");
    };
    assert_eq!(name, "lamp");
    assert_eq!((attributes.len(), attributes.is_empty()), (2, false));
    assert_eq!(attributes.get("watt"), Some(ValueRef::Int(40)));
    assert_eq!(attributes.get("none"), None);
    let named: Vec<_> = attributes
        .map(|a| (a.name, a.as_str().into_owned()))
        .collect();
    let key = "AQIDBA==".to_owned();
    assert_eq!(named, [("watt", "40".to_owned()), ("key", key)]);
    // It is an iterator of which a copy starts anew.
    assert_eq!(attributes.to_vec().len(), 2);
    let Event::StartTag { attributes, .. } = event.to_event() else {
        panic!("a start tag");
    };
    assert_eq!(attributes[0].as_str(), "40");
    assert_eq!(format!("{event:?}").matches("AttributeRef").count(), 2);
}

/// A tag and two attributes of one name of so many bytes, thrice.
fn one_name(len: usize) -> Vec<u8> {
    let name = "é".repeat(len / 2) + &"n".repeat(len % 2);
    let attribute = || Attribute::new(&*name, AttributeValue::Null);
    let tag = tag(&name, vec![attribute(), attribute()]);
    events_to_abx(&[tag.clone(), tag.clone(), tag]).unwrap()
}

fn addresses(events: &[Event]) -> Vec<*const u8> {
    let mut all = vec![];
    for event in events {
        let Event::StartTag { name, attributes } = event else {
            panic!("a start tag");
        };
        all.push(name.as_ptr());
        all.extend(attributes.iter().map(|attribute| attribute.name.as_ptr()));
    }
    all
}

#[test]
fn a_name_that_comes_again_is_shared() {
    for len in [0, 1, 29, 30, 31, 32, 100, 65_535] {
        let document = one_name(len);
        let events = by_slice(&document).0;
        assert_eq!(by_source(&document).0, events);
        assert_eq!(events_to_abx(&events).unwrap(), document);
        if len > 30 {
            let mut all = addresses(&events);
            all.dedup();
            assert_eq!(all.len(), 1);
            // By a source it is copied once more: where it is new it lies in the window.
            let mut all = addresses(&by_source(&document).0);
            all.dedup();
            assert_eq!(all.len(), 2);
        }
    }
}

#[test]
fn a_short_name_at_the_very_end() {
    // Fewer bytes follow it than a short name has room for.
    for hex in ["33 FFFF 0001 70", "32 FFFF 0001 70 1F 0000", "33 FFFF 0000"] {
        let document = document(hex);
        let read = by_slice(&document);
        assert_eq!(by_source(&document), read);
        assert_eq!(by_slice_borrowed(&document), read);
        assert_eq!(read.0.len(), 1);
    }
}

#[test]
fn long_strings_are_copied_whole() {
    // Characters of each length, on each side of where a copy may be cut.
    for filler in 0..4 {
        let text = "x".repeat(filler) + &"aé€😀".repeat(1000);
        let value = Attribute::new("p", AttributeValue::String(text.clone()));
        let events = [Event::Text(text), tag("p", vec![value])];
        let document = events_to_abx(&events).unwrap();
        assert_eq!(by_slice(&document).0, events);
        assert_eq!(by_slice_borrowed(&document).0, events);
    }
}
