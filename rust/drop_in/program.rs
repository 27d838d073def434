//! A program that was written for android-abx: `run` compiles it against that crate, and against this one with the name changed, and compares what
//! the two print of the same documents. It prints what every public name gives; of an error its variant and values, and not its words.

use std::borrow::Cow;
use std::collections::{BTreeMap, HashMap};
use std::error::Error;
use std::io::{self, Read, Write};

use android_abx::{
    events_to_abx, AbxError, AbxParser, AbxParserOwned, AbxStreamParser, AbxWriter, Attribute,
    AttributeValue, Event, InternedStr, Result, MAGIC,
};

fn error(error: &AbxError) -> String {
    match error {
        AbxError::InvalidMagic { expected, actual } => format!("magic {expected:?} {actual:?}"),
        AbxError::UnexpectedEof(what) => format!("end in {what}"),
        AbxError::BadInternedIndex(index) => format!("index {index}"),
        AbxError::InvalidUtf8 => "utf8".to_owned(),
        AbxError::UnknownAttributeType(of) => format!("type {of}"),
        AbxError::UnknownCommand(command) => format!("command {command}"),
        AbxError::ValueTooLong { len, max } => format!("long {len} {max}"),
        AbxError::Io(error) => format!("io {:?}", error.kind()),
        AbxError::Nom(_) | AbxError::Deserialization(_) | AbxError::Xml(_) => "other".to_owned(),
        #[allow(unreachable_patterns)]
        _ => "another".to_owned(),
    }
}

fn shown<T: std::fmt::Debug>(result: Result<T>) -> String {
    match result {
        Ok(value) => format!("{value:?}"),
        Err(e) => error(&e),
    }
}

/// Gives a few bytes at a time, and fails after so many.
struct Slow<'a>(&'a [u8], usize, usize);

impl Read for Slow<'_> {
    fn read(&mut self, buffer: &mut [u8]) -> io::Result<usize> {
        if self.2 == 0 {
            return Err(io::Error::new(io::ErrorKind::TimedOut, "too slow"));
        }
        let step = self.1.min(self.2).min(self.0.len()).min(buffer.len());
        let (now, rest) = self.0.split_at(step);
        buffer[..step].copy_from_slice(now);
        (self.0, self.2) = (rest, self.2 - step);
        Ok(step)
    }
}

/// Takes so many bytes.
#[derive(Debug)]
struct Full(Vec<u8>, usize);

impl Write for Full {
    fn write(&mut self, bytes: &[u8]) -> io::Result<usize> {
        let count = bytes.len().min(self.1 - self.0.len());
        self.0.extend_from_slice(&bytes[..count]);
        Ok(count)
    }

    fn flush(&mut self) -> io::Result<()> {
        Ok(())
    }
}

fn accessors(value: &AttributeValue) -> String {
    let text: Cow<'_, str> = value.as_str();
    let of = (
        value.as_string(),
        value.as_int(),
        value.as_int_hex(),
        value.as_long(),
        value.as_long_hex(),
    );
    let more = (
        value.as_float().map(f32::to_bits),
        value.as_double().map(f64::to_bits),
        value.as_bool(),
        value.as_bytes(),
    );
    format!("{text} {of:?} {more:?}")
}

fn name(name: &InternedStr) -> String {
    let copied: InternedStr = name.clone();
    assert!(copied == *name && copied == name.as_str() && *name == *copied.as_str());
    let owned: String = copied.into();
    let again = InternedStr::from(owned.clone());
    assert_eq!(&again, name);
    format!("{name}/{}/{}", owned.len(), name.starts_with("p"))
}

fn event(event: &Event) {
    match event {
        Event::StartDocument => println!("start"),
        Event::EndDocument => println!("end"),
        Event::StartTag {
            name: n,
            attributes,
        } => {
            println!("tag {}", name(n));
            for attribute in attributes {
                let Attribute { name: n, value } = attribute;
                println!("  {} {} {}", name(n), attribute.as_str(), accessors(value));
            }
        }
        Event::EndTag { name: n } => println!("end tag {}", name(n)),
        Event::Text(s) => println!("text {s:?}"),
        Event::CdataSection(s) => println!("cdata {s:?}"),
        Event::Comment(s) => println!("comment {s:?}"),
        Event::ProcessingInstruction(s) => println!("instruction {s:?}"),
        Event::EntityReference(s) => println!("entity {s:?}"),
        Event::IgnorableWhitespace(s) => println!("space {s:?}"),
        Event::DocDecl(s) => println!("declaration {s:?}"),
    }
}

fn sorted(map: HashMap<String, Vec<HashMap<String, String>>>) -> impl std::fmt::Debug {
    let inner = |map: HashMap<String, String>| map.into_iter().collect::<BTreeMap<_, _>>();
    map.into_iter()
        .map(|(name, all)| (name, all.into_iter().map(inner).collect::<Vec<_>>()))
        .collect::<BTreeMap<_, _>>()
}

fn by_slice(document: &[u8]) -> Result<()> {
    let mut parser: AbxParser<'_> = AbxParser::new(document)?;
    let mut events: Vec<Event> = vec![];
    let end = loop {
        match parser.next_event() {
            Ok(Some(next)) => events.push(next),
            Ok(None) => break "end".to_owned(),
            Err(e) => break error(&e),
        }
    };
    events.iter().for_each(event);
    println!("{end} {} {}", parser.is_empty(), shown(parser.next_event()));
    println!("{}", shown(AbxParser::new(document)?.collect_events()));
    println!("{}", shown(AbxParser::new(document)?.to_xml()));
    let mut xml = Vec::new();
    println!("{}", shown(AbxParser::new(document)?.write_xml(&mut xml)));
    println!("{}", String::from_utf8_lossy(&xml));
    println!(
        "{}",
        shown(AbxParser::new(document)?.into_map().map(sorted))
    );
    for element in ["p", "name", ""] {
        let mut parser = AbxParser::new(document)?;
        println!("{}", shown(parser.find_attribute(element, "v")));
        println!("{}", shown(parser.attributes_of(element)));
        println!("{}", shown(parser.find_attribute(element, "")));
        println!("{}", shown(parser.find_all_attributes(element, "v")));
        let mut parser = AbxParser::new(document)?;
        println!("{}", shown(parser.find_all_attributes(element, "v")));
        println!(
            "{}",
            shown(AbxParser::new(document)?.all_attributes_of(element))
        );
    }
    let owned = AbxParserOwned::new(document.to_vec())?;
    println!("{}", shown(owned.parser()?.next_event()));
    // What was read can be written.
    let again = events_to_abx(&events)?;
    assert!(again.starts_with(&MAGIC));
    println!("{again:02x?}");
    let mut writer = AbxWriter::new(Vec::new())?;
    events
        .iter()
        .try_for_each(|event| writer.write_event(event))?;
    assert_eq!(writer.into_inner(), again);
    for room in [0, 4, 7] {
        let written = AbxWriter::new(Full(vec![], room)).and_then(|mut writer| {
            events
                .iter()
                .try_for_each(|event| writer.write_event(event))?;
            Ok(writer.into_inner())
        });
        println!("{}", shown(written));
    }
    Ok(())
}

fn by_source(document: &[u8], step: usize, most: usize) -> Result<()> {
    let source = || Slow(document, step, most);
    let mut count = 0;
    for next in AbxStreamParser::new(source())? {
        match next {
            Ok(next) => event(&next),
            Err(e) => {
                println!("{}", error(&e));
                break;
            }
        }
        count += 1;
    }
    println!("{count}");
    let mut parser: AbxStreamParser<Slow> = AbxStreamParser::new(source())?;
    println!("{}", shown(parser.collect_events()));
    println!("{}", shown(parser.next_event()));
    let _: Slow = parser.into_inner();
    println!("{}", shown(AbxStreamParser::new(source())?.to_xml()));
    let mut xml = Vec::new();
    println!(
        "{}",
        shown(AbxStreamParser::new(source())?.write_xml(&mut xml))
    );
    println!("{}", String::from_utf8_lossy(&xml));
    println!(
        "{}",
        shown(AbxStreamParser::new(source())?.into_map().map(sorted))
    );
    for element in ["p", "name", ""] {
        let mut parser = AbxStreamParser::new(source())?;
        println!("{}", shown(parser.find_attribute(element, "v")));
        println!("{}", shown(parser.attributes_of(element)));
        println!("{}", shown(parser.find_all_attributes(element, "v")));
        println!(
            "{}",
            shown(AbxStreamParser::new(source())?.all_attributes_of(element))
        );
    }
    Ok(())
}

fn too_long() {
    for event in [
        Event::Text("t".repeat(65_536)),
        Event::EndTag {
            name: "n".repeat(70_000).into(),
        },
        Event::StartTag {
            name: "p".into(),
            attributes: vec![Attribute {
                name: "v".into(),
                value: AttributeValue::BytesHex(vec![0; 65_537]),
            }],
        },
    ] {
        println!("{}", shown(events_to_abx(&[event])));
    }
}

/// A document for each line of hex digits on standard input.
fn main() -> std::result::Result<(), Box<dyn Error>> {
    too_long();
    for line in io::read_to_string(io::stdin())?.lines() {
        let byte = |at| u8::from_str_radix(&line[at..at + 2], 16);
        let document = (0..line.len())
            .step_by(2)
            .map(byte)
            .collect::<std::result::Result<Vec<_>, _>>()?;
        println!("document {line}");
        println!("{}", shown(by_slice(&document)));
        for step in [1, 3, 4096] {
            for most in [document.len() / 2, usize::MAX] {
                println!("{}", shown(by_source(&document, step, most)));
            }
        }
    }
    let broken = AbxError::from(io::Error::from(io::ErrorKind::BrokenPipe));
    println!("{} {}", error(&broken), broken.source().is_some());
    Ok(())
}
