//! Rows of eight words: kind, name (source, start, length), type, and value (source, a, b). A span names bytes of one of two stores. Here are the
//! numbers of kinds and types, and events as rows; `cursor.rs` has rows as events.

use crate::buffers::ROW;
use crate::{AbxError, Attribute, AttributeValue, Event, Result};

pub(crate) const START_DOCUMENT: u32 = 0;
pub(crate) const END_DOCUMENT: u32 = 1;
pub(crate) const START_TAG: u32 = 2;
pub(crate) const END_TAG: u32 = 3;
pub(crate) const TEXT: u32 = 4;
pub(crate) const CDATA: u32 = 5;
pub(crate) const ENTITY_REF: u32 = 6;
pub(crate) const IGNORABLE_WHITESPACE: u32 = 7;
pub(crate) const PROCESSING_INSTRUCTION: u32 = 8;
pub(crate) const COMMENT: u32 = 9;
pub(crate) const DOC_DECL: u32 = 10;
pub(crate) const ATTRIBUTE: u32 = 15;

pub(crate) const NULL: u32 = 1;
pub(crate) const STRING: u32 = 2;
pub(crate) const BYTES_HEX: u32 = 4;
pub(crate) const BYTES_BASE64: u32 = 5;
pub(crate) const INT: u32 = 6;
pub(crate) const INT_HEX: u32 = 7;
pub(crate) const LONG: u32 = 8;
pub(crate) const LONG_HEX: u32 = 9;
pub(crate) const FLOAT: u32 = 10;
pub(crate) const DOUBLE: u32 = 11;
pub(crate) const TRUE: u32 = 12;
pub(crate) const FALSE: u32 = 13;

/// Events as rows, with the store of their spans.
#[derive(Debug, Clone, Default)]
pub(crate) struct List {
    pub(crate) words: Vec<u32>,
    pub(crate) store: Vec<u8>,
    /// Where names were put, each by its hash or in one of the next places: a name that is found there is not put again. A length of 0 is none. The number
    /// of places is a power of two, or none where no name is expected to come again.
    seen: Vec<[u32; 2]>,
}

/// The most places.
const SEEN: usize = 65_536;

/// In how many places a name is looked for.
const TRIES: usize = 4;

const NOTHING: [u32; 3] = [0; 3];

impl List {
    pub(crate) fn rows(&self) -> usize {
        self.words.len() / ROW
    }

    /// Nothing, and room for so many events.
    pub(crate) fn clear(&mut self, events: usize) {
        self.words.clear();
        self.store.clear();
        self.seen.clear();
        if events > 1 {
            let places = (4 * events).next_power_of_two().min(SEEN);
            self.seen.resize(places, [0; 2]);
        }
    }

    pub(crate) fn push(&mut self, event: &Event) -> Result<()> {
        self.add::<true>(event)
    }

    /// One row, with the kind and a tag's name: attributes are left out, and a text is empty.
    pub(crate) fn push_outline(&mut self, event: &Event) -> Result<()> {
        self.add::<false>(event)
    }

    /// The whole event, or its outline: the compiler decides, so that `push` does not pay for it.
    #[inline]
    fn add<const WHOLE: bool>(&mut self, event: &Event) -> Result<()> {
        match event {
            Event::StartDocument => self.row(START_DOCUMENT, NOTHING, 0, NOTHING),
            Event::EndDocument => self.row(END_DOCUMENT, NOTHING, 0, NOTHING),
            Event::StartTag { name, attributes } => {
                let name = self.name(name)?;
                self.row(START_TAG, name, 0, NOTHING);
                if WHOLE {
                    for attribute in attributes {
                        self.attribute(attribute)?;
                    }
                }
            }
            Event::EndTag { name } => {
                let name = self.name(name)?;
                self.row(END_TAG, name, 0, NOTHING);
            }
            Event::Text(s) => self.text::<WHOLE>(TEXT, s)?,
            Event::CdataSection(s) => self.text::<WHOLE>(CDATA, s)?,
            Event::EntityReference(s) => self.text::<WHOLE>(ENTITY_REF, s)?,
            Event::IgnorableWhitespace(s) => self.text::<WHOLE>(IGNORABLE_WHITESPACE, s)?,
            Event::ProcessingInstruction(s) => self.text::<WHOLE>(PROCESSING_INSTRUCTION, s)?,
            Event::Comment(s) => self.text::<WHOLE>(COMMENT, s)?,
            Event::DocDecl(s) => self.text::<WHOLE>(DOC_DECL, s)?,
        }
        Ok(())
    }

    fn row(&mut self, kind: u32, name: [u32; 3], of: u32, value: [u32; 3]) {
        let [source, start, len] = name;
        let [value_source, a, b] = value;
        let row = [kind, source, start, len, of, value_source, a, b];
        self.words.extend_from_slice(&row);
    }

    // A start is one word. Where the strings of one event come to 4 GiB it has none, and the event no room in any output.
    fn span(&mut self, bytes: &[u8]) -> Result<[u32; 3]> {
        let Ok(len) = u32::try_from(bytes.len()) else {
            return Err(AbxError::value_too_long(bytes.len()));
        };
        let Ok(start) = u32::try_from(self.store.len()) else {
            return Err(AbxError::OutputFull);
        };
        self.store.extend_from_slice(bytes);
        Ok([0, start, len])
    }

    // The library is quicker with a name, too, that starts where it did before.
    #[inline]
    fn name(&mut self, name: &str) -> Result<[u32; 3]> {
        let name = name.as_bytes();
        let Some(last) = self.seen.len().checked_sub(1) else {
            return self.span(name);
        };
        let first = hash(name) as usize & last;
        for place in (first..).map(|place| place & last).take(TRIES) {
            let Some(&[start, len]) = self.seen.get(place) else {
                break;
            };
            if len == 0 {
                let span = self.span(name)?;
                self.seen[place] = [span[1], span[2]];
                return Ok(span);
            }
            let there = start as usize..start as usize + len as usize;
            if len as usize == name.len() && self.store.get(there) == Some(name) {
                return Ok([0, start, len]);
            }
        }
        self.span(name)
    }

    fn text<const WHOLE: bool>(&mut self, kind: u32, s: &str) -> Result<()> {
        let value = if WHOLE {
            self.span(s.as_bytes())?
        } else {
            NOTHING
        };
        self.row(kind, NOTHING, STRING, value);
        Ok(())
    }

    fn attribute(&mut self, attribute: &Attribute) -> Result<()> {
        let name = self.name(&attribute.name)?;
        let word = |word| [0, 0, word];
        let pair = |pair: u64| [0, (pair >> 32) as u32, pair as u32];
        let (of, value) = match &attribute.value {
            AttributeValue::Null => (NULL, NOTHING),
            AttributeValue::String(s) => (STRING, self.span(s.as_bytes())?),
            AttributeValue::BytesHex(bytes) => (BYTES_HEX, self.span(bytes)?),
            AttributeValue::BytesBase64(bytes) => (BYTES_BASE64, self.span(bytes)?),
            AttributeValue::Int(n) => (INT, word(*n as u32)),
            AttributeValue::IntHex(n) => (INT_HEX, word(*n)),
            AttributeValue::Long(n) => (LONG, pair(*n as u64)),
            AttributeValue::LongHex(n) => (LONG_HEX, pair(*n)),
            AttributeValue::Float(x) => (FLOAT, word(x.to_bits())),
            AttributeValue::Double(x) => (DOUBLE, pair(x.to_bits())),
            AttributeValue::Boolean(true) => (TRUE, NOTHING),
            AttributeValue::Boolean(false) => (FALSE, NOTHING),
        };
        self.row(ATTRIBUTE, name, of, value);
        Ok(())
    }
}

/// By a name's length, beginning and end.
#[inline]
fn hash(name: &[u8]) -> u64 {
    let [first, last] = match (name.first_chunk(), name.last_chunk()) {
        (Some(first), Some(last)) => [*first, *last].map(u64::from_ne_bytes),
        _ => {
            let whole = |all, byte: &u8| all << 8 | u64::from(*byte);
            [name.iter().fold(0, whole), name.len() as u64]
        }
    };
    // Both halves of a product have a part in each bit.
    let first = u128::from(first ^ 0x9E37_79B9_7F4A_7C15);
    let last = u128::from(last.wrapping_add(name.len() as u64) ^ 0xD1B5_4A32_D192_ED03);
    let product = first * last;
    (product >> 64) as u64 ^ product as u64
}
