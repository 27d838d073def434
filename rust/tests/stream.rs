//! The chunk reader: windows, refusals of its calls, buffers that grow, and sources.

mod common;

use std::io::{self, Read};

use abx::{
    AbxError, AbxPushParser, AbxStreamParser, Event, EventRef, Next, Sizes, MAX_NAMES, MAX_STORE,
    MAX_WINDOW, MIN_WINDOW,
};
use common::{by_chunks, by_slice, document, example, told, EXAMPLE};

/// A document of one text of so many bytes.
fn text(len: u16) -> Vec<u8> {
    let mut text = document("24");
    text.extend(len.to_be_bytes());
    text.extend(vec![b'a'; len.into()]);
    text
}

#[test]
fn windows_have_limits() {
    for len in [0, 1, MIN_WINDOW - 1, MAX_WINDOW + 1, usize::MAX] {
        assert_eq!(told(AbxPushParser::with_window(len).unwrap_err()), (17, 0));
    }
    for len in [MIN_WINDOW, MAX_WINDOW] {
        assert!(AbxPushParser::with_window(len).is_ok());
    }
}

#[test]
fn an_event_longer_than_the_window_is_refused() {
    for size in 1..=64 {
        // A text is complete at its last byte, so it may fill the window.
        for len in [0, 60, 61] {
            assert_eq!(by_chunks(&text(len), size, 64), by_slice(&text(len)));
        }
        for len in [62, 1000] {
            assert_eq!(by_chunks(&text(len), size, 64), (vec![], Some((13, 0))));
        }
    }
}

#[test]
fn a_start_tag_needs_one_byte_more() {
    // The tag's name and the fields before it take so many bytes of the window.
    let tag = |len: usize| {
        let mut tag = document("32 FFFF");
        tag.extend((len as u16 - 5).to_be_bytes());
        tag.extend(vec![b'n'; len - 5]);
        tag.push(0x11);
        tag
    };
    for size in 1..=64 {
        assert_eq!(by_chunks(&tag(63), size, 64), by_slice(&tag(63)));
        assert_eq!(by_chunks(&tag(64), size, 64), (vec![], Some((13, 0))));
        assert_eq!(by_chunks(&tag(64), size, 65), by_slice(&tag(64)));
    }
}

#[test]
fn a_full_window_stays_refused() {
    let mut parser = AbxPushParser::with_window(64).unwrap();
    let text = text(500);
    assert_eq!(parser.feed(&text).unwrap(), 64);
    // The header is passed at the first next, so there is room again.
    assert_eq!(parser.next_event().unwrap(), Next::NeedMore);
    assert_eq!(parser.feed(&text[64..]).unwrap(), 4);
    for _ in 0..2 {
        assert!(matches!(parser.next_event(), Err(AbxError::WindowFull)));
        assert_eq!(parser.feed(&text[68..]).unwrap(), 0);
    }
    // With the finish, the input ends in the string.
    parser.finish().unwrap();
    assert!(matches!(
        parser.next_event(),
        Err(AbxError::UnexpectedEof("UTF string payload"))
    ));
}

#[test]
fn nothing_is_fed_after_the_finish() {
    let mut parser = AbxPushParser::new().unwrap();
    assert!(!parser.is_finished());
    parser.feed(&document("10")).unwrap();
    parser.finish().unwrap();
    assert!(parser.is_finished());
    assert!(matches!(parser.feed(b""), Err(AbxError::AlreadyFinished)));
    assert!(matches!(parser.finish(), Err(AbxError::AlreadyFinished)));
    assert_eq!(
        parser.next_event().unwrap(),
        Next::Event(Event::StartDocument)
    );
    assert_eq!(parser.next_event().unwrap(), Next::End);
}

#[test]
fn empty_chunks_change_nothing() {
    let mut parser = AbxPushParser::new().unwrap();
    assert_eq!(parser.next_event().unwrap(), Next::NeedMore);
    assert_eq!(parser.feed(&[]).unwrap(), 0);
    assert_eq!(parser.next_event().unwrap(), Next::NeedMore);
    parser.finish().unwrap();
    assert!(matches!(
        parser.next_event(),
        Err(AbxError::UnexpectedEof("magic header"))
    ));
}

/// A document of end tags of so many new names.
fn names(count: usize, name: impl Fn(usize) -> Vec<u8>) -> Vec<u8> {
    let mut document = document("");
    for i in 0..count {
        let name = name(i);
        document.extend([0x33, 0xFF, 0xFF]);
        document.extend((name.len() as u16).to_be_bytes());
        document.extend(name);
    }
    document
}

#[test]
fn pool_and_name_store_grow() {
    // 70,000 names: those past 65,535 are read, and no index names them.
    let mut many = names(70_000, |i| format!("name{i}").into_bytes());
    many.extend([0x33, 0x00, 0x00, 0x33, 0xFF, 0xFE]);
    let (events, refusal) = by_slice(&many);
    assert_eq!((events.len(), refusal), (70_002, None));
    assert_eq!(events[70_000], common::end_tag("name0"));
    assert_eq!(
        events[70_001],
        common::end_tag(&format!("name{}", MAX_NAMES - 1))
    );
    assert_eq!(by_chunks(&many, 4096, 65_536), (events, refusal));
}

#[test]
fn the_name_store_has_a_limit() {
    // 256 names of 65,535 bytes fit, and one of 256 bytes after them; the next byte does not.
    let long = |i: usize| {
        let mut name = format!("{i:05}").into_bytes();
        name.resize(65_535, b'n');
        name
    };
    let mut full = names(256, long);
    full.extend(&names(1, |_| vec![b'm'; MAX_STORE - 256 * 65_535])[4..]);
    let (events, refusal) = by_chunks(&full, 65_536, MAX_WINDOW);
    assert_eq!((events.len(), refusal), (257, None));
    full.extend(&names(1, |_| vec![b'x'])[4..]);
    let (events, refusal) = by_chunks(&full, 65_536, MAX_WINDOW);
    assert_eq!((events.len(), refusal), (257, Some((12, 0))));
}

#[test]
fn rows_grow() {
    let mut tag = document("32 FFFF 0001 70");
    for _ in 0..20_000 {
        tag.extend([0x6F, 0, 0, 1, 2, 3, 4]);
    }
    let read = by_slice(&tag);
    assert!(
        matches!(&read.0[..], [Event::StartTag { attributes, .. }] if attributes.len() == 20_000)
    );
    assert_eq!(by_chunks(&tag, 65_536, MAX_WINDOW), read);
}

/// Gives some bytes at a time, after an interruption each; at the end an error, if one is asked for.
#[derive(Debug)]
struct Slow<'a> {
    rest: &'a [u8],
    step: usize,
    interrupted: bool,
    fails: bool,
}

impl Read for Slow<'_> {
    fn read(&mut self, buffer: &mut [u8]) -> io::Result<usize> {
        self.interrupted = !self.interrupted;
        if self.interrupted {
            return Err(io::ErrorKind::Interrupted.into());
        }
        if self.rest.is_empty() && self.fails {
            return Err(io::ErrorKind::BrokenPipe.into());
        }
        let step = self.step.min(self.rest.len()).min(buffer.len());
        let (now, rest) = self.rest.split_at(step);
        buffer[..step].copy_from_slice(now);
        self.rest = rest;
        Ok(step)
    }
}

#[test]
fn sources() {
    let document = document(EXAMPLE);
    for step in 1..=64 {
        let slow = |fails| Slow {
            rest: &document,
            step,
            interrupted: false,
            fails,
        };
        let mut reader = AbxStreamParser::new(slow(false)).unwrap();
        assert_eq!(reader.collect_events().unwrap(), example());
        assert_eq!(reader.next_event().unwrap(), None);
        assert!(reader.into_inner().rest.is_empty());

        let mut reader = AbxStreamParser::new(slow(true)).unwrap();
        let read: Vec<_> = reader.by_ref().collect();
        // The events came before the error; as an iterator it has ended.
        assert_eq!(read.len(), 5);
        assert!(matches!(read[4], Err(AbxError::Io(_))));
        assert!(reader.next().is_none());
    }
}

#[test]
fn a_small_window_behind_a_source() {
    let parser = AbxPushParser::with_window(64).unwrap();
    let many = [document("10"), vec![0x10; 100_000]].concat();
    let reader = AbxStreamParser::with_parser(&many[..], parser);
    assert_eq!(reader.filter(|event| event.is_ok()).count(), 100_001);
}

/// Says that it gave more than it was asked for.
#[derive(Debug)]
struct Boastful(usize);

impl Read for Boastful {
    fn read(&mut self, buffer: &mut [u8]) -> io::Result<usize> {
        buffer.fill(0);
        self.0 -= 1;
        Ok(if self.0 == 0 { 0 } else { usize::MAX })
    }
}

#[test]
fn a_source_that_lies_does_no_harm() {
    assert_eq!(told(AbxStreamParser::new(Boastful(3)).unwrap_err()), (2, 0));
}

#[test]
fn a_window_grows_up_to_its_limit() {
    let text = text(60_000);
    let read = by_slice(&text);
    let events = |sizes: Sizes| {
        let mut parser = sizes.stream_parser(&text[..]).unwrap();
        parser.collect_events()
    };
    for window in [64, 1000, 8192, 65_536] {
        assert_eq!(events(Sizes::new().window(window)).unwrap(), read.0);
        // The text, its token and its length.
        let enough = Sizes::new().window(window).max_window(60_003);
        assert_eq!(events(enough).unwrap(), read.0);
    }
    for window in [64, 60_002] {
        let short = Sizes::new().window(window).max_window(60_002);
        assert_eq!(told(events(short).unwrap_err()), (13, 0));
    }
    // Fed by hand, the window takes what it has room for, and more when it has grown.
    let mut parser = Sizes::new().window(64).push_parser().unwrap();
    let mut rest = &text[..];
    loop {
        let taken = parser.feed(rest).unwrap();
        rest = &rest[taken..];
        match parser.next_event().unwrap() {
            Next::NeedMore => assert!(!rest.is_empty()),
            next => {
                assert_eq!(next, Next::Event(read.0[0].clone()));
                break;
            }
        }
    }
}

#[test]
fn sizes_of_nothing_are_enough() {
    let mut many = names(300, |i| format!("name{i}").into_bytes());
    many.extend([0x32, 0, 0]);
    for i in 0..100u8 {
        many.extend([0x6F, 0, i, 1, 2, 3, 4]);
    }
    let read = by_slice(&many);
    assert_eq!((read.0.len(), read.1), (301, None));
    for sizes in [
        Sizes::new().rows(0).names(0).name_bytes(0),
        Sizes::new().rows(1).names(1).name_bytes(1),
        Sizes::new().rows(usize::MAX).names(usize::MAX),
    ] {
        let events = sizes.parser(&many).unwrap().collect_events().unwrap();
        assert_eq!(events, read.0);
        let mut parser = sizes.window(MIN_WINDOW).stream_parser(&many[..]).unwrap();
        assert_eq!(parser.collect_events().unwrap(), read.0);
    }
}

/// A settings file without an end, up to so many bytes.
struct Endless {
    element: Vec<u8>,
    at: usize,
    left: usize,
}

impl Read for Endless {
    fn read(&mut self, buffer: &mut [u8]) -> io::Result<usize> {
        let mut count = 0;
        while count < buffer.len() && self.left > 0 {
            let part = &self.element[self.at..];
            let part = &part[..part.len().min(buffer.len() - count).min(self.left)];
            buffer[count..count + part.len()].copy_from_slice(part);
            count += part.len();
            self.at = (self.at + part.len()) % self.element.len();
            self.left -= part.len();
        }
        Ok(count)
    }
}

#[test]
fn a_document_of_any_length() {
    // A tag by index with a string, and its end: 16 bytes, far more often than fits a document in memory.
    let element = common::bytes("32 0000 2F 0000 0005 68656C6C6F 33 0000");
    let head = document("33 FFFF 0001 70");
    let count = 2 * abx::MAX_DOCUMENT / element.len();
    let left = count * element.len();
    let source = head.chain(Endless {
        element,
        at: 0,
        left,
    });
    let mut parser = AbxStreamParser::new(source).unwrap();
    let (mut tags, mut ends) = (0, 0);
    while let Some(event) = parser.next_ref().unwrap() {
        match event {
            EventRef::StartTag {
                name: "p",
                attributes,
            } if attributes.get("p") == Some(abx::ValueRef::String("hello")) => tags += 1,
            EventRef::EndTag { name: "p" } => ends += 1,
            event => panic!("{event:?}"),
        }
    }
    assert_eq!((tags, ends), (count, count + 1));
}

#[test]
fn an_error_of_a_source_is_no_end() {
    // Fails once before every byte, and has no more to give only where it says so.
    struct Failing<'a>(&'a [u8], bool);

    impl Read for Failing<'_> {
        fn read(&mut self, buffer: &mut [u8]) -> io::Result<usize> {
            self.1 = !self.1;
            if self.1 {
                return Err(io::ErrorKind::WouldBlock.into());
            }
            self.0.by_ref().take(1).read(buffer)
        }
    }

    let document = document(EXAMPLE);
    // The header is read by `new`, which has no second try.
    let (header, rest) = document.split_at(4);
    let mut parser = AbxStreamParser::new(header.chain(Failing(rest, false))).unwrap();
    let (mut events, mut failures) = (vec![], 0);
    loop {
        match parser.next_event() {
            Ok(Some(event)) => events.push(event),
            Ok(None) => break,
            Err(AbxError::Io(error)) => {
                assert_eq!(error.kind(), io::ErrorKind::WouldBlock);
                failures += 1;
            }
            Err(error) => panic!("{error}"),
        }
    }
    assert_eq!(events, example());
    assert_eq!(failures, rest.len() + 1);
    let new = AbxStreamParser::new(Failing(&document, false));
    assert!(matches!(new, Err(AbxError::Io(_))));
}

#[test]
fn a_header_is_read_at_once() {
    for (header, answer) in [
        (&b""[..], (1, 0)),
        (b"ABX", (1, 0)),
        (b"PK\x03\x04", (2, 0x504B_0304)),
    ] {
        for step in 1..=4 {
            let slow = Slow {
                rest: header,
                step,
                interrupted: false,
                fails: false,
            };
            assert_eq!(told(AbxStreamParser::new(slow).unwrap_err()), answer);
        }
    }
    assert_eq!(AbxStreamParser::new(&b"ABX\0"[..]).unwrap().count(), 0);
}

#[test]
fn events_come_before_the_source_is_asked_again() {
    // The source ends the test where it is asked for more than is needed.
    struct Once<'a>(&'a [u8]);

    impl Read for Once<'_> {
        fn read(&mut self, buffer: &mut [u8]) -> io::Result<usize> {
            assert!(!self.0.is_empty(), "asked too early");
            self.0.read(buffer)
        }
    }

    let document = document(EXAMPLE);
    let mut parser = AbxStreamParser::new(Once(&document)).unwrap();
    for event in example() {
        assert_eq!(parser.next_event().unwrap(), Some(event));
    }
}
