//! A list of events as XML, by our text writer and by the Rust's `to_xml`, which prints each event by `render_event` and escapes by
//! `xml_escape`. Floats are left out: the paper prints their bits. A character that XML does not allow the Rust prints, and the paper refuses.

use android_abx::{events_to_abx, AbxParser, Attribute, AttributeValue, Event};

use crate::documents::{self, Random, Visit};
use crate::lent::{unwritten_byte, Lent};
use crate::ours::{self, refused, Answer};
use crate::report::{Compared, Report, Seen, Tested};
use crate::rows;
use crate::slice::same;
use crate::writer::{events_of, List, Stored};

// ---- what the Rust says

/// What stands before the events in a text of the Rust's.
const DECLARATION: &str = r#"<?xml version="1.0" encoding="UTF-8"?>"#;

/// The Rust's text of these events: it ends at each EndDocument, and goes on from there when it is called again.
fn by_rust(events: &[Event]) -> String {
    let document = events_to_abx(events).expect("short strings");
    let mut parser = AbxParser::new(&document).expect("a header");
    let ends = |event: &&Event| matches!(event, Event::EndDocument);
    let mut all = String::new();
    for _ in 0..=events.iter().filter(ends).count() {
        let xml = parser.to_xml().expect("events");
        all.push_str(xml.strip_prefix(DECLARATION).expect("a declaration"));
    }
    all
}

fn is_legal(s: &str) -> bool {
    s.chars().all(|c| {
        matches!(c, '\t' | '\n' | '\r' | ' '..='\u{D7FF}' | '\u{E000}'..='\u{FFFD}' | '\u{10000}'..)
    })
}

// ---- the comparison

pub struct Printer {
    output: Lent<u8>,
    seen: Seen,
}

impl Tested for Printer {
    fn seen(&self) -> &Seen {
        &self.seen
    }

    fn renew(&mut self) {
        self.output.renew();
    }
}

impl Printer {
    fn new() -> Printer {
        Printer {
            output: Lent::new(256, unwritten_byte),
            seen: Seen::default(),
        }
    }

    /// The text of a list: whole, with a byte too few, event by event, and each event row by row.
    fn list(&mut self, events: &[Event]) -> Compared {
        self.seen.documents += 1;
        self.seen.events += events.len() as u64;
        for event in events {
            rows::of(event).iter().for_each(|row| self.seen.row(row));
        }
        let stored = Stored::new(events);
        let whole = by_rust(events);
        self.output.grow(whole.len() + 9);
        let all = stored.part(0, events.len());
        let is_good = self.prints(all, &whole)?;
        if is_good && !whole.is_empty() {
            self.call(all, whole.len() - 1, "", refused(15, 0))?;
        }
        let mut joined = String::new();
        for (i, event) in events.iter().enumerate() {
            let text = by_rust(std::slice::from_ref(event));
            let part = stored.part(i, i + 1);
            if self.prints(part, &text)? {
                self.rows(part, &text)?;
            }
            joined.push_str(&text);
        }
        match joined == whole {
            true => Ok(()),
            false => Err("the Rust prints a list other than its events".into()),
        }
    }

    /// Whether the text may be printed. It has every string in it, and nothing else that is not allowed.
    fn prints(&mut self, list: List, text: &str) -> Result<bool, String> {
        let is_good = is_legal(text);
        // on every other call there is nothing to spare
        let room = match self.seen.calls % 2 {
            0 => self.output.len(),
            _ => text.len(),
        };
        match is_good {
            true => self.call(list, room, text, [0, text.len(), 0, 0])?,
            false => self.call(list, self.output.len(), "", refused(20, 0))?,
        }
        Ok(is_good)
    }

    fn call(&mut self, list: List, room: usize, text: &str, expected: Answer) -> Compared {
        self.seen.calls += 1;
        self.seen.refusal(expected);
        self.output.expect(0, text.as_bytes());
        let output = &mut self.output.now[..room];
        let answer = ours::abx_to_xml(list.first, list.second, list.rows, output);
        same("to_xml", answer, expected)?;
        let holds = self.output.holds(0, text.len());
        self.output.clear(text.len());
        match holds {
            true => Ok(()),
            false => Err(format!("the output of a text that should be {text:?}")),
        }
    }

    /// An event's text, row by row.
    fn rows(&mut self, list: List, text: &str) -> Compared {
        let mut joined = vec![];
        for row in 0..list.rows.len() / 8 {
            self.seen.calls += 1;
            let output = &mut self.output.now[..];
            let answer = ours::abx_row_to_xml(row, list.first, list.second, list.rows, output);
            let [0, len, 0, 0] = answer else {
                return Err(format!("row {row} answered {answer:?}"));
            };
            joined.extend_from_slice(&output[..len]);
            self.output.clear(len);
        }
        match joined == text.as_bytes() {
            true => Ok(()),
            false => Err(format!("the rows' texts, which should join to {text:?}")),
        }
    }
}

// ---- sections

/// The same event with other strings, and without floats.
fn with_strings(event: &Event, change: &mut dyn FnMut(&str) -> String) -> Event {
    match event {
        Event::StartTag { name, attributes } => Event::StartTag {
            name: change(name).into(),
            attributes: attributes
                .iter()
                .filter(|attribute| {
                    !matches!(
                        attribute.value,
                        AttributeValue::Float(_) | AttributeValue::Double(_)
                    )
                })
                .map(|attribute| Attribute {
                    name: change(&attribute.name).into(),
                    value: match &attribute.value {
                        AttributeValue::String(s) => AttributeValue::String(change(s)),
                        value => value.clone(),
                    },
                })
                .collect(),
        },
        Event::EndTag { name } => Event::EndTag {
            name: change(name).into(),
        },
        Event::Text(s) => Event::Text(change(s)),
        Event::CdataSection(s) => Event::CdataSection(change(s)),
        Event::Comment(s) => Event::Comment(change(s)),
        Event::ProcessingInstruction(s) => Event::ProcessingInstruction(change(s)),
        Event::EntityReference(s) => Event::EntityReference(change(s)),
        Event::IgnorableWhitespace(s) => Event::IgnorableWhitespace(change(s)),
        Event::DocDecl(s) => Event::DocDecl(change(s)),
        Event::StartDocument => Event::StartDocument,
        Event::EndDocument => Event::EndDocument,
    }
}

/// The documents' strings as they are, which have U+0000 and U+FFFF among them; or these replaced by what is escaped.
fn events_for(document: &[u8], random: &mut Random) -> Vec<Event> {
    let as_they_are = random.once_in(4);
    let mut change = |s: &str| -> String {
        if as_they_are {
            return s.to_owned();
        }
        let other = |c| match c {
            '\0' | '\u{FFFF}' => random.of(&["<", ">", "&", "\"", "'"]).to_owned(),
            c => c.to_string(),
        };
        s.chars().map(other).collect()
    };
    let events = events_of(document);
    events
        .iter()
        .map(|event| with_strings(event, &mut change))
        .collect()
}

fn print(
    report: &mut Report,
    name: &str,
    random: &mut Random,
    documents: impl FnOnce(&mut Random, Visit),
) {
    let changes = &mut Random::new(random.0);
    report.section(name, Printer::new(), |compare| {
        documents(random, &mut |document| {
            compare(document, &mut |printer| {
                printer.list(&events_for(document, changes))
            });
        });
    });
}

pub fn xml(report: &mut Report, long: bool, random: &mut Random) {
    let most = if long { 3 } else { 2 };
    print(report, "xml: events in a row", random, |_, visit| {
        (0..=most).for_each(|count| documents::events(count, visit));
    });
    let rounds = if long { 600_000 } else { 30_000 };
    print(report, "xml: seeded", random, |random, visit| {
        (0..rounds).for_each(|i| visit(&documents::some(random, 1 + i % 12, 0).0));
    });
    let size = if long { 1_000_000 } else { 200_000 };
    print(report, "xml: long lists", random, |random, visit| {
        visit(&documents::sized(random, size));
        visit(&documents::long_tag(random, size));
    });
    report.section("xml: long strings", Printer::new(), |compare| {
        let strings = ["x", "<", "'é", "\u{FFFD}", "a&b€😀"];
        for (string, len) in strings.into_iter().flat_map(|s| [(s, 1000), (s, 65_535)]) {
            let text = string.repeat(len / string.len());
            for events in documents::lists_with(&text) {
                let shown = format!("{events:?}").into_bytes();
                compare(&shown, &mut |printer| printer.list(&events));
            }
        }
    });
}
