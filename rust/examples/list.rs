//! Lists an ABX file, or standard input: a line for each row with its kind, name, type and value, then how it ended.
//!
//!     cargo run --example list FILE

use std::fmt::Write as _;
use std::fs::File;
use std::io::{self, Read, Write};

use abx::{AbxError, AbxStreamParser, AttributeRef, EventRef, ValueRef};

fn main() -> io::Result<()> {
    let mut out = io::BufWriter::new(io::stdout().lock());
    match std::env::args_os().nth(1) {
        Some(path) => list(File::open(path)?, &mut out)?,
        None => list(io::stdin().lock(), &mut out)?,
    }
    out.flush()
}

/// Lists what a source holds.
pub fn list(source: impl Read, mut out: impl Write) -> io::Result<()> {
    let mut count = 0;
    let refusal = match AbxStreamParser::new(source) {
        Err(refusal) => refusal,
        Ok(mut parser) => loop {
            match parser.next_ref() {
                Ok(Some(event)) => print(event, &mut out)?,
                Ok(None) => return writeln!(out, "end {count}"),
                Err(refusal) => break refusal,
            }
            count += 1;
        },
    };
    match (refusal.number(), refusal) {
        (Some(number), refusal) => writeln!(out, "refused {number} {}", refusal.detail()),
        (None, AbxError::Io(error)) => Err(error),
        (None, error) => Err(io::Error::other(error)),
    }
}

fn print(event: EventRef, out: &mut impl Write) -> io::Result<()> {
    let (kind, name, text) = match event {
        EventRef::StartDocument => (0, None, None),
        EventRef::EndDocument => (1, None, None),
        EventRef::StartTag { name, .. } => (2, Some(name), None),
        EventRef::EndTag { name } => (3, Some(name), None),
        EventRef::Text(s) => (4, None, Some(s)),
        EventRef::CdataSection(s) => (5, None, Some(s)),
        EventRef::EntityReference(s) => (6, None, Some(s)),
        EventRef::IgnorableWhitespace(s) => (7, None, Some(s)),
        EventRef::ProcessingInstruction(s) => (8, None, Some(s)),
        EventRef::Comment(s) => (9, None, Some(s)),
        EventRef::DocDecl(s) => (10, None, Some(s)),
    };
    let shown = |s: Option<&str>| s.map_or("-".to_owned(), |s| hex(s.as_bytes()));
    writeln!(out, "{kind} {} - {}", shown(name), shown(text))?;
    if let EventRef::StartTag { attributes, .. } = event {
        for AttributeRef { name, value } in attributes {
            let (of, value) = typed(value);
            writeln!(out, "15 {} {of} {value}", hex(name.as_bytes()))?;
        }
    }
    Ok(())
}

fn typed(value: ValueRef) -> (u32, String) {
    match value {
        ValueRef::Null => (1, "-".to_owned()),
        ValueRef::String(s) => (2, hex(s.as_bytes())),
        ValueRef::BytesHex(bytes) => (4, hex(bytes)),
        ValueRef::BytesBase64(bytes) => (5, hex(bytes)),
        ValueRef::Int(n) => (6, format!("{n:08x}")),
        ValueRef::IntHex(n) => (7, format!("{n:08x}")),
        ValueRef::Long(n) => (8, format!("{n:016x}")),
        ValueRef::LongHex(n) => (9, format!("{n:016x}")),
        ValueRef::Float(x) => (10, format!("{:08x}", x.to_bits())),
        ValueRef::Double(x) => (11, format!("{:016x}", x.to_bits())),
        ValueRef::Boolean(true) => (12, "-".to_owned()),
        ValueRef::Boolean(false) => (13, "-".to_owned()),
    }
}

fn hex(bytes: &[u8]) -> String {
    if bytes.is_empty() {
        return "=".to_owned();
    }
    let mut digits = String::with_capacity(2 * bytes.len());
    for byte in bytes {
        let _ = write!(digits, "{byte:02x}");
    }
    digits
}
