//! Cases on each edge of the format, by every reader and in every chunk size up to 64.

mod common;

use abx::{AbxError, AbxParser, AbxPushParser, Attribute, AttributeValue, Event, Next};
use common::{bytes, document, read, tag};

#[track_caller]
fn gives(document: &[u8], events: &[Event]) {
    assert_eq!(read(document), (events.to_vec(), None));
}

#[track_caller]
fn refused(document: &[u8], number: u32, detail: usize) {
    assert_eq!(read(document), (vec![], Some((number, detail))));
}

#[test]
fn headers() {
    refused(b"", 1, 0);
    refused(b"ABX", 1, 0);
    refused(b"ABX\x01", 2, 0x4142_5801);
    refused(b"\xFF\xFF\xFF\xFF\x10", 2, 0xFFFF_FFFF);
    gives(&document(""), &[]);
    assert!(matches!(
        AbxParser::new(b"PK\x03\x04"),
        Err(AbxError::InvalidMagic {
            expected: abx::MAGIC,
            actual: [b'P', b'K', 3, 4]
        })
    ));
}

#[test]
fn texts() {
    gives(&document("04"), &[Event::Text("".into())]);
    gives(&document("24 0000"), &[Event::Text("".into())]);
    refused(&document("24"), 3, 0);
    refused(&document("24 00"), 3, 0);
    refused(&document("24 0002 41"), 4, 0);
    refused(&document("24 0003 EDA080"), 7, 0);
    refused(&document("24 0004 F4908080"), 7, 0);
    gives(
        &document("24 0004 F09F9880"),
        &[Event::Text("\u{1F600}".into())],
    );
}

#[test]
fn each_kind() {
    let s = || "a".to_owned();
    gives(
        &document("10 11 240001 61 250001 61 260001 61 270001 61 280001 61 290001 61 2A0001 61"),
        &[
            Event::StartDocument,
            Event::EndDocument,
            Event::Text(s()),
            Event::CdataSection(s()),
            Event::EntityReference(s()),
            Event::IgnorableWhitespace(s()),
            Event::ProcessingInstruction(s()),
            Event::Comment(s()),
            Event::DocDecl(s()),
        ],
    );
}

#[test]
fn commands() {
    refused(&document("0F"), 9, 15);
    for command in 11..=14 {
        refused(&document(&format!("0{command:X}")), 9, command);
    }
}

#[test]
fn names() {
    refused(&document("32 0000"), 6, 0);
    refused(&document("33 FFFE"), 6, 65_534);
    refused(&document("32 FFFF 0001 C0"), 7, 0);
    refused(&document("32 FFFF 0002 70"), 4, 0);
    refused(&document("32 FFFF"), 3, 0);
    let p = |value| tag("p", vec![Attribute::new("p", value)]);
    let on = AttributeValue::Boolean(true);
    gives(&document("32 FFFF 0001 70 CF 0000"), &[p(on)]);
    // A string that the document interned joins the pool.
    gives(
        &document("32 FFFF 0001 70 3F 0000 FFFF 0001 71 33 0001"),
        &[p(AttributeValue::String("q".into())), common::end_tag("q")],
    );
}

#[test]
fn attributes() {
    // The type is refused after the name was read.
    refused(&document("32 FFFF 0001 70 EF FFFF 0001 76"), 8, 224);
    refused(&document("32 FFFF 0001 70 EF FFFF 0001 C0"), 7, 0);
    refused(&document("32 FFFF 0001 70 0F 0000"), 8, 0);
    refused(&document("32 FFFF 0001 70 FF 0000"), 8, 240);
    refused(&document("32 FFFF 0001 70 4F 0000 0003 4142"), 5, 0);
    refused(&document("32 FFFF 0001 70 5F 0000 0001"), 5, 0);
    refused(&document("32 FFFF 0001 70 6F 0000 000000"), 3, 0);
    refused(&document("32 FFFF 0001 70 BF 0000 00000000000000"), 3, 0);
    let blob = AttributeValue::BytesHex(bytes("C0FF"));
    gives(
        &document("32 FFFF 0001 70 4F 0000 0002 C0FF"),
        &[tag("p", vec![Attribute::new("p", blob)])],
    );
}

#[test]
fn a_start_tag_ends_at_the_next_token_or_at_the_finish() {
    let mut parser = AbxPushParser::new().unwrap();
    let document = document("32 FFFF 0001 70");
    assert_eq!(parser.feed(&document).unwrap(), document.len());
    assert_eq!(parser.next_event().unwrap(), Next::NeedMore);
    assert_eq!(parser.waiting(), 6);
    assert_eq!(parser.feed(&bytes("1F 0000")).unwrap(), 3);
    assert_eq!(parser.next_event().unwrap(), Next::NeedMore);
    parser.finish().unwrap();
    let null = Attribute::new("p", AttributeValue::Null);
    assert_eq!(
        parser.next_event().unwrap(),
        Next::Event(tag("p", vec![null]))
    );
    assert_eq!(parser.next_event().unwrap(), Next::End);
    assert_eq!(parser.next_event().unwrap(), Next::End);
}

#[test]
fn events_follow_an_end_of_document() {
    gives(
        &document("11 10 11"),
        &[Event::EndDocument, Event::StartDocument, Event::EndDocument],
    );
}

#[test]
fn a_refused_event_is_refused_again_and_keeps_no_names() {
    // If the refused tag left its name at index 1, the second try would have one at index 2.
    let document = document("32 FFFF 0001 70 10 32 FFFF 0001 71 1F 0002");
    let mut parser = AbxParser::new(&document).unwrap();
    assert_eq!(parser.next_event().unwrap(), Some(tag("p", vec![])));
    assert_eq!(parser.next_event().unwrap(), Some(Event::StartDocument));
    let at = parser.position();
    for _ in 0..3 {
        let error = parser.next_event().unwrap_err();
        assert!(matches!(error, AbxError::BadInternedIndex(2)));
        assert_eq!((parser.position(), parser.events_read()), (at, 2));
    }
    // As an iterator it ends.
    assert!(parser.next().unwrap().is_err());
    assert!(parser.next().is_none());
}

#[test]
fn long_documents_are_refused() {
    let mut document = vec![0x10; abx::MAX_DOCUMENT + 1];
    document[..4].copy_from_slice(&abx::MAGIC);
    assert_eq!(AbxParser::new(&document).unwrap_err().number(), Some(17));
    document.pop();
    let mut parser = AbxParser::new(&document).unwrap();
    assert_eq!(parser.next_event().unwrap(), Some(Event::StartDocument));
}

#[test]
fn an_event_has_as_many_rows_as_fit_a_document() {
    // Attributes of three bytes each, the least that one takes.
    let mut document = document("32 FFFF 0001 70");
    let attribute = bytes("1F 0000");
    while document.len() + 3 <= 1 << 20 {
        document.extend(&attribute);
    }
    let count = (document.len() - 10) / 3;
    let mut parser = AbxParser::new(&document).unwrap();
    let Some(Event::StartTag { attributes, .. }) = parser.next_event().unwrap() else {
        panic!("a start tag");
    };
    assert_eq!(attributes.len(), count);
    assert!(parser.is_empty());
}

#[test]
fn utf8() {
    for (string, well_formed) in [
        ("", true),
        ("41", true),
        ("C0 80", false),
        ("ED 9F BF", true),
        ("ED A0 80", false),
        ("F4 8F BF BF", true),
        ("F4 90 80 80", false),
        ("E2 82", false),
    ] {
        assert_eq!(abx::is_utf8(&bytes(string)), well_formed, "{string}");
    }
}
