//! Documents, and all ways to read one.
#![allow(dead_code)]

use std::iter::from_fn;

use abx::{
    AbxError, AbxParser, AbxPushParser, AbxStreamParser, Attribute, AttributeValue, Event, Next,
};

/// The events of a document up to its end or to a refusal, which is told by number and detail.
pub type Read = (Vec<Event>, Option<(u32, usize)>);

pub fn told(error: AbxError) -> (u32, usize) {
    let number = error
        .number()
        .unwrap_or_else(|| panic!("no refusal: {error}"));
    (number, error.detail())
}

pub fn by_slice(document: &[u8]) -> Read {
    match AbxParser::new(document) {
        Err(error) => (vec![], Some(told(error))),
        Ok(parser) => gather(parser),
    }
}

pub fn by_source(document: &[u8]) -> Read {
    match AbxStreamParser::new(document) {
        Err(error) => (vec![], Some(told(error))),
        Ok(parser) => gather(parser),
    }
}

/// The same by borrowed events, each made one that owns its strings.
pub fn by_slice_borrowed(document: &[u8]) -> Read {
    match AbxParser::new(document) {
        Err(error) => (vec![], Some(told(error))),
        Ok(mut parser) => gather(from_fn(|| {
            let event = parser.next_ref().map(|event| event.map(Event::from));
            event.transpose()
        })),
    }
}

pub fn by_source_borrowed(document: &[u8]) -> Read {
    match AbxStreamParser::new(document) {
        Err(error) => (vec![], Some(told(error))),
        Ok(mut parser) => gather(from_fn(|| {
            let event = parser.next_ref().map(|event| event.map(Event::from));
            event.transpose()
        })),
    }
}

fn gather(results: impl Iterator<Item = abx::Result<Event>>) -> Read {
    let mut events = vec![];
    for result in results {
        match result {
            Ok(event) => events.push(event),
            Err(error) => return (events, Some(told(error))),
        }
    }
    (events, None)
}

/// In chunks of so many bytes, each event taken as soon as it is there.
pub fn by_chunks(document: &[u8], size: usize, window: usize) -> Read {
    let mut parser = AbxPushParser::with_window(window).unwrap();
    let mut events = vec![];
    let mut rest = document;
    loop {
        // borrowed and owned in turn
        let next = match events.len() % 2 {
            0 => parser.next_event(),
            _ => parser.next_ref().map(|next| match next {
                Next::Event(event) => Next::Event(event.to_event()),
                Next::NeedMore => Next::NeedMore,
                Next::End => Next::End,
            }),
        };
        match next {
            Ok(Next::Event(event)) => events.push(event),
            Ok(Next::End) => return (events, None),
            Ok(Next::NeedMore) if rest.is_empty() => parser.finish().unwrap(),
            Ok(Next::NeedMore) => {
                let taken = parser.feed(&rest[..size.min(rest.len())]).unwrap();
                assert!(taken > 0, "a reader that needs more takes some");
                rest = &rest[taken..];
            }
            Err(error) => return (events, Some(told(error))),
        }
    }
}

/// What every reader gives; they must agree.
pub fn read(document: &[u8]) -> Read {
    let read = by_slice(document);
    for size in 1..=64 {
        assert_eq!(by_chunks(document, size, 65_536), read, "chunks of {size}");
    }
    assert_eq!(by_source(document), read);
    assert_eq!(by_slice_borrowed(document), read);
    assert_eq!(by_source_borrowed(document), read);
    read
}

/// A header, then bytes in hex; spaces are left out.
pub fn document(hex: &str) -> Vec<u8> {
    [&abx::MAGIC[..], &bytes(hex)].concat()
}

pub fn bytes(hex: &str) -> Vec<u8> {
    let digits: Vec<u32> = hex.chars().filter_map(|c| c.to_digit(16)).collect();
    digits.chunks(2).map(|d| (d[0] * 16 + d[1]) as u8).collect()
}

pub fn tag(name: &str, attributes: Vec<Attribute>) -> Event {
    let name = name.into();
    Event::StartTag { name, attributes }
}

pub fn end_tag(name: &str) -> Event {
    let name = name.into();
    Event::EndTag { name }
}

/// The example of the listing, as events.
pub fn example() -> Vec<Event> {
    vec![
        Event::StartDocument,
        tag("p", vec![Attribute::new("v", AttributeValue::Int(3))]),
        end_tag("p"),
        Event::EndDocument,
    ]
}

/// Its bytes after the header.
pub const EXAMPLE: &str = "10 32 FFFF 0001 70 6F FFFF 0001 76 00000003 33 0000 11";

/// One attribute of each type, with values on their edges.
pub fn all_values() -> Vec<AttributeValue> {
    use AttributeValue::*;
    vec![
        Null,
        String("".into()),
        String("\u{1F600} é\0".into()),
        BytesHex(vec![]),
        BytesHex(vec![0, 0xFF, 0xC0]),
        BytesBase64(vec![]),
        BytesBase64((0..=255).collect()),
        Int(0),
        Int(i32::MIN),
        Int(-1),
        IntHex(0xCAFE_BABE),
        Long(i64::MIN),
        Long(1 << 32),
        LongHex(u64::MAX),
        LongHex(0x0123_4567_89AB_CDEF),
        Float(-0.0),
        Float(f32::from_bits(0x7F80_0001)),
        Float(f32::INFINITY),
        Double(1.5),
        Double(f64::from_bits(0xFFF0_0000_0000_0001)),
        Boolean(true),
        Boolean(false),
    ]
}

/// Numbers that look random, the same in each run.
pub struct Random(pub u64);

impl Random {
    pub fn below(&mut self, n: usize) -> usize {
        self.0 = self
            .0
            .wrapping_mul(6_364_136_223_846_793_005)
            .wrapping_add(1);
        ((self.0 >> 33) as usize) % n
    }

    fn string(&mut self) -> String {
        let letters = ["", "a", "b", "é", "€", "\u{10FFFF}", "\0", "name"];
        (0..self.below(4))
            .map(|_| letters[self.below(letters.len())])
            .collect()
    }

    /// A list of any events, nested or not.
    pub fn events(&mut self) -> Vec<Event> {
        (0..self.below(12)).map(|_| self.event()).collect()
    }

    fn event(&mut self) -> Event {
        match self.below(14) {
            0 => Event::StartDocument,
            1 => Event::EndDocument,
            2 => end_tag(&self.string()),
            3 => Event::Text(self.string()),
            4 => Event::CdataSection(self.string()),
            5 => Event::EntityReference(self.string()),
            6 => Event::IgnorableWhitespace(self.string()),
            7 => Event::ProcessingInstruction(self.string()),
            8 => Event::Comment(self.string()),
            9 => Event::DocDecl(self.string()),
            _ => {
                let values = all_values();
                let attributes = (0..self.below(5))
                    .map(|_| {
                        let value = values[self.below(values.len())].clone();
                        Attribute::new(self.string(), value)
                    })
                    .collect();
                tag(&self.string(), attributes)
            }
        }
    }
}
