//! The writer: its bytes, its limits, and that a refused call changes nothing.

mod common;

use std::io::{self, Write};

use abx::{
    events_to_abx, AbxError, AbxWriter, Attribute, AttributeValue, Event, MAX_NAMES, MAX_OUTPUT,
};
use common::{by_slice, by_source, bytes, document, end_tag, example, tag};

fn blob(len: usize) -> Event {
    let value = AttributeValue::BytesBase64(vec![0xC0; len]);
    tag("p", vec![Attribute::new("p", value)])
}

#[test]
fn no_events_are_the_header_alone() {
    assert_eq!(events_to_abx(&[]).unwrap(), abx::MAGIC);
    assert_eq!(AbxWriter::new(vec![]).unwrap().as_bytes(), abx::MAGIC);
}

#[test]
fn names_are_interned_and_values_are_not() {
    let value = |name: &str| Attribute::new(name, AttributeValue::String("p".into()));
    assert_eq!(
        events_to_abx(&[tag("p", vec![value("p"), value("q")]), end_tag("q")]).unwrap(),
        document("32 FFFF 0001 70 2F 0000 0001 70 2F FFFF 0001 71 0001 70 33 0001")
    );
}

#[test]
fn long_values() {
    let events = [blob(65_535)];
    let document = events_to_abx(&events).unwrap();
    assert_eq!(by_slice(&document), (events.to_vec(), None));
    let long = "s".repeat(65_536);
    for event in [
        blob(65_536),
        Event::Comment(long.clone()),
        end_tag(&long),
        tag(&long, vec![]),
        tag("p", vec![Attribute::new(&*long, AttributeValue::Null)]),
        tag(
            "p",
            vec![Attribute::new("p", AttributeValue::String(long.clone()))],
        ),
    ] {
        let error = events_to_abx(&[Event::StartDocument, event]).unwrap_err();
        assert!(matches!(
            error,
            AbxError::ValueTooLong {
                len: 65_536,
                max: 65_535
            }
        ));
        assert_eq!((error.number(), error.detail()), (Some(14), 65_536));
    }
}

#[test]
fn a_refused_call_changes_nothing() {
    let mut writer = AbxWriter::new(vec![]).unwrap();
    writer.write_events(&example()).unwrap();
    let before = writer.as_bytes().to_vec();
    // New names, then what is refused.
    assert!(writer
        .write_events(&[tag("new", vec![]), blob(65_536)])
        .is_err());
    let mut refused = tag("other", vec![]);
    if let Event::StartTag { attributes, .. } = &mut refused {
        attributes.push(Attribute::new(
            "a",
            AttributeValue::BytesHex(vec![0; 70_000]),
        ));
    }
    assert!(writer.write_event(&refused).is_err());
    assert_eq!(writer.as_bytes(), before);
    // The names of the refused events are new still.
    writer.write_event(&end_tag("new")).unwrap();
    assert_eq!(
        writer.as_bytes()[before.len()..],
        bytes("33 FFFF 0003 6E6577")
    );
}

#[test]
fn a_long_list_that_is_refused_late_changes_nothing() {
    let mut events: Vec<Event> = (0..70_000)
        .map(|i| end_tag(&format!("n{}", i % 7)))
        .collect();
    events.push(Event::Text("t".repeat(65_536)));
    let mut writer = AbxWriter::new(vec![]).unwrap();
    assert!(matches!(
        writer.write_events(&events),
        Err(AbxError::ValueTooLong { .. })
    ));
    assert_eq!(writer.as_bytes(), abx::MAGIC);
    events.pop();
    writer.write_events(&events).unwrap();
    assert_eq!(by_slice(writer.as_bytes()), (events, None));
}

#[test]
fn a_document_has_no_limit() {
    // A text of 65,533 bytes takes 65,536 with its token and length. A name comes again after more than an output has.
    let text = Event::Text("t".repeat(65_533));
    let mut events = vec![end_tag("before")];
    events.extend(vec![text; MAX_OUTPUT / 65_536 + 9]);
    events.extend([end_tag("after"), end_tag("before"), end_tag("after")]);
    let document = events_to_abx(&events).unwrap();
    assert!(document.len() > MAX_OUTPUT);
    assert!(document.ends_with(&bytes("33 FFFF 0005 6166746572 33 0000 33 0001")));
    let mut writer = AbxWriter::new(vec![]).unwrap();
    for event in &events {
        writer.write_event(event).unwrap();
    }
    assert!(writer.as_bytes() == document);
    // It is too long for a reader of memory, and not for one of a source.
    assert_eq!(by_slice(&document), (vec![], Some((17, 0))));
    assert!(by_source(&document) == (events, None));
}

#[test]
fn an_event_has_a_limit() {
    // The header, a tag's name, and blobs of 65,535 bytes with their tokens, names and lengths.
    let blobs = |count: usize, rest: usize| {
        let blob = |len| Attribute::new("p", AttributeValue::BytesHex(vec![0xC0; len]));
        let mut attributes = vec![blob(65_535); count];
        attributes.push(blob(rest));
        tag("p", attributes)
    };
    let whole = MAX_OUTPUT / 65_540;
    let left = MAX_OUTPUT - 4 - 6 - 65_540 * whole - 5;
    let document = events_to_abx(&[blobs(whole, left)]).unwrap();
    assert_eq!(document.len(), MAX_OUTPUT);
    for events in [
        vec![blobs(whole, left + 1)],
        vec![example()[0].clone(), blobs(whole, left + 1)],
    ] {
        let mut writer = AbxWriter::new(vec![]).unwrap();
        let refused = writer.write_events(&events);
        assert!(matches!(refused, Err(AbxError::OutputFull)));
        assert_eq!(writer.as_bytes(), abx::MAGIC);
        let refused = writer.write_event(events.last().unwrap());
        assert!(matches!(refused, Err(AbxError::OutputFull)));
        assert_eq!(writer.into_inner(), abx::MAGIC);
    }
}

#[test]
fn all_names_together_have_a_limit() {
    let name = |i: usize| format!("{i:05}{}", "n".repeat(65_530));
    let mut writer = AbxWriter::new(vec![]).unwrap();
    // The header and a new name's mark and length count, too, until the names alone are left.
    for i in 0..256 {
        writer.write_event(&end_tag(&name(i))).unwrap();
    }
    let len = writer.as_bytes().len();
    let refused = writer.write_event(&end_tag(&name(256)));
    assert!(matches!(refused, Err(AbxError::OutputFull)));
    assert_eq!(writer.as_bytes().len(), len);
    // Known names and short events are written still.
    writer.write_event(&end_tag(&name(7))).unwrap();
    assert!(writer.as_bytes().ends_with(&bytes("33 0007")));
}

#[test]
fn a_name_without_a_place_in_the_pool_is_written_each_time() {
    let mut events: Vec<Event> = (0..MAX_NAMES).map(|i| end_tag(&format!("{i}"))).collect();
    let names = events_to_abx(&events).unwrap().len();
    let long = end_tag(&"n".repeat(2000));
    events.extend(vec![long.clone(); 3000]);
    let document = events_to_abx(&events).unwrap();
    assert_eq!(document.len(), names + 3000 * 2005);
    assert!(by_slice(&document) == (events.clone(), None));
    // In one list, too, on a pool that was full before.
    let mut writer = AbxWriter::new(vec![]).unwrap();
    let (before, after) = events.split_at(MAX_NAMES);
    writer.write_events(before).unwrap();
    writer.write_events(after).unwrap();
    assert!(writer.as_bytes() == document);
    writer.write_events(&vec![long; 9000]).unwrap();
    assert_eq!(writer.as_bytes().len(), names + 12_000 * 2005);
}

/// Takes a few bytes at a time, after an interruption each, and fails after so many.
struct Narrow {
    taken: Vec<u8>,
    room: usize,
    interrupted: bool,
}

impl Write for Narrow {
    fn write(&mut self, bytes: &[u8]) -> io::Result<usize> {
        self.interrupted = !self.interrupted;
        if self.interrupted {
            return Err(io::ErrorKind::Interrupted.into());
        }
        if self.room == 0 {
            return Err(io::ErrorKind::BrokenPipe.into());
        }
        let count = bytes.len().min(3).min(self.room);
        self.taken.extend(&bytes[..count]);
        self.room -= count;
        Ok(count)
    }

    fn flush(&mut self) -> io::Result<()> {
        Ok(())
    }
}

#[test]
fn sinks_that_fail() {
    let whole = events_to_abx(&example()).unwrap();
    for room in 0..=whole.len() {
        let narrow = || Narrow {
            taken: vec![],
            room,
            interrupted: false,
        };
        let Ok(mut writer) = AbxWriter::new(narrow()) else {
            assert!(room < 4);
            continue;
        };
        let mut done = Ok(());
        for event in &example() {
            done = writer.write_event(event);
            if done.is_err() {
                break;
            }
        }
        assert_eq!(done.is_ok(), room == whole.len());
        if let Err(error) = done {
            assert!(matches!(&error, AbxError::Io(e) if e.kind() == io::ErrorKind::BrokenPipe));
        }
        // Just what it had room for, in order.
        assert_eq!(writer.into_inner().taken, whole[..room]);

        let mut writer = AbxWriter::new(narrow()).unwrap();
        let done = writer.write_events(&example());
        assert_eq!(done.is_ok(), room == whole.len());
        assert_eq!(writer.into_inner().taken, whole[..room]);
    }
}

#[test]
fn an_event_that_the_sink_failed_on_can_be_written_again() {
    // Room for the header alone, then more: what was refused as a whole is as if it had not been.
    let mut writer = AbxWriter::new(Narrow {
        taken: vec![],
        room: 4,
        interrupted: false,
    })
    .unwrap();
    assert!(writer.write_event(&tag("p", vec![])).is_err());
    assert!(writer.write_events(&[tag("p", vec![])]).is_err());
    writer.get_mut().room = 1000;
    writer.write_event(&tag("p", vec![])).unwrap();
    writer.write_events(&[end_tag("p")]).unwrap();
    assert_eq!(
        writer.into_inner().taken,
        document("32 FFFF 0001 70 33 0000")
    );
}

#[test]
fn the_pool_keeps_65535_names() {
    let mut events: Vec<Event> = (0..=MAX_NAMES).map(|i| end_tag(&format!("{i}"))).collect();
    // The last that the pool has, and the first that it has not.
    events.push(end_tag(&format!("{}", MAX_NAMES - 1)));
    events.push(end_tag(&format!("{MAX_NAMES}")));
    let document = events_to_abx(&events).unwrap();
    assert!(document.ends_with(&bytes("33 FFFE 33 FFFF 0005 3635353335")));
    assert_eq!(by_slice(&document), (events, None));
}

#[test]
fn any_thread_of_the_usual_stack_writes() {
    let written = std::thread::spawn(|| events_to_abx(&example()).unwrap());
    assert_eq!(written.join().unwrap(), document(common::EXAMPLE));
}

#[test]
fn readers_and_writers_go_to_other_threads() {
    fn goes<T: Send + Sync>() {}
    goes::<AbxWriter<Vec<u8>>>();
    goes::<abx::AbxParser>();
    goes::<abx::AbxPushParser>();
    goes::<abx::AbxStreamParser<std::fs::File>>();
    goes::<abx::EventRef>();
    goes::<Event>();
    goes::<AbxError>();
}
