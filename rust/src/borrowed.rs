//! Events that borrow from their reader.

use std::borrow::Cow;
use std::fmt;

use crate::cursor::Rows;
use crate::{text, Attribute, AttributeValue, Event};

/// A string of its own. A long one is copied by pieces: at once, the C library's copy takes ten times as long on some processors where the last twelve
/// bits of the two places are nearly alike, and a window and a string often are.
#[inline]
pub(crate) fn copy(s: &str) -> String {
    if s.len() <= PIECE {
        s.to_owned()
    } else {
        copy_by_pieces(s)
    }
}

const PIECE: usize = 1024;

fn copy_by_pieces(s: &str) -> String {
    let mut copy = String::with_capacity(s.len());
    let mut rest = s;
    while !rest.is_empty() {
        let mut end = rest.len().min(PIECE);
        while !rest.is_char_boundary(end) {
            end -= 1;
        }
        let (piece, after) = rest.split_at(end);
        copy.push_str(piece);
        rest = after;
    }
    copy
}

/// One event, as [`Event`], whose strings and bytes lie in the reader until its next call. Strings are not escaped.
#[derive(Debug, Clone, Copy, PartialEq, Eq)]
pub enum EventRef<'a> {
    /// The document starts.
    StartDocument,
    /// The document ends; more events may follow.
    EndDocument,
    /// An element starts.
    StartTag {
        /// The element's name.
        name: &'a str,
        /// Its attributes, in the document's order; a name may come more than once.
        attributes: Attributes<'a>,
    },
    /// An element ends. Whether it is the innermost open one is not checked.
    EndTag {
        /// The element's name.
        name: &'a str,
    },
    /// A text.
    Text(&'a str),
    /// A CDATA section's text.
    CdataSection(&'a str),
    /// A comment's text.
    Comment(&'a str),
    /// A processing instruction's text.
    ProcessingInstruction(&'a str),
    /// An entity's name.
    EntityReference(&'a str),
    /// White space that may be ignored.
    IgnorableWhitespace(&'a str),
    /// A document type declaration's text.
    DocDecl(&'a str),
}

impl EventRef<'_> {
    /// The same event with strings of its own.
    #[inline]
    pub fn to_event(&self) -> Event {
        match *self {
            EventRef::StartDocument => Event::StartDocument,
            EventRef::EndDocument => Event::EndDocument,
            EventRef::StartTag { name, attributes } => Event::StartTag {
                name: name.into(),
                attributes: attributes.to_vec(),
            },
            EventRef::EndTag { name } => Event::EndTag { name: name.into() },
            EventRef::Text(s) => Event::Text(copy(s)),
            EventRef::CdataSection(s) => Event::CdataSection(copy(s)),
            EventRef::Comment(s) => Event::Comment(copy(s)),
            EventRef::ProcessingInstruction(s) => Event::ProcessingInstruction(copy(s)),
            EventRef::EntityReference(s) => Event::EntityReference(copy(s)),
            EventRef::IgnorableWhitespace(s) => Event::IgnorableWhitespace(copy(s)),
            EventRef::DocDecl(s) => Event::DocDecl(copy(s)),
        }
    }
}

impl From<EventRef<'_>> for Event {
    fn from(event: EventRef<'_>) -> Event {
        event.to_event()
    }
}

/// The attributes of a start tag, each made of its row when it is asked for. It is its own iterator, and a copy of it starts anew.
///
/// ```
/// use abx::{AbxParser, EventRef, ValueRef};
///
/// let document = b"ABX\0\x32\xFF\xFF\0\x04lamp\x6F\xFF\xFF\0\x04watt\0\0\0\x28\xCF\xFF\xFF\0\x02on";
/// let mut parser = AbxParser::new(document)?;
/// let Some(EventRef::StartTag { name, attributes }) = parser.next_ref()? else {
///     panic!("a start tag");
/// };
/// assert_eq!((name, attributes.len()), ("lamp", 2));
/// assert_eq!(attributes.get("watt"), Some(ValueRef::Int(40)));
/// for attribute in attributes {
///     println!("{}: {}", attribute.name, attribute.as_str());
/// }
/// # Ok::<(), abx::AbxError>(())
/// ```
#[derive(Clone, Copy)]
pub struct Attributes<'a>(pub(crate) Rows<'a>);

impl<'a> Attributes<'a> {
    /// How many there are.
    #[inline]
    pub fn len(&self) -> usize {
        self.0.len()
    }

    /// Whether there are none.
    pub fn is_empty(&self) -> bool {
        self.len() == 0
    }

    /// The value of the first attribute of this name.
    pub fn get(mut self, name: &str) -> Option<ValueRef<'a>> {
        self.find(|attribute| attribute.name == name)
            .map(|attribute| attribute.value)
    }

    /// The same attributes with strings of their own.
    pub fn to_vec(self) -> Vec<Attribute> {
        self.map(|attribute| attribute.to_attribute()).collect()
    }
}

impl<'a> Iterator for Attributes<'a> {
    type Item = AttributeRef<'a>;

    #[inline]
    fn next(&mut self) -> Option<AttributeRef<'a>> {
        self.0.next_attribute()
    }

    fn size_hint(&self) -> (usize, Option<usize>) {
        (self.len(), Some(self.len()))
    }
}

impl ExactSizeIterator for Attributes<'_> {
    fn len(&self) -> usize {
        self.0.len()
    }
}

impl fmt::Debug for Attributes<'_> {
    fn fmt(&self, f: &mut fmt::Formatter<'_>) -> fmt::Result {
        f.debug_list().entries(*self).finish()
    }
}

impl PartialEq for Attributes<'_> {
    fn eq(&self, other: &Attributes<'_>) -> bool {
        Iterator::eq(*self, *other)
    }
}

impl Eq for Attributes<'_> {}

/// A name and a value, as [`Attribute`].
#[derive(Debug, Clone, Copy, PartialEq, Eq)]
pub struct AttributeRef<'a> {
    /// The name.
    pub name: &'a str,
    /// The value.
    pub value: ValueRef<'a>,
}

impl<'a> AttributeRef<'a> {
    /// The value as text. See [`AttributeValue::as_str`].
    pub fn as_str(&self) -> Cow<'a, str> {
        self.value.as_str()
    }

    /// The same attribute with strings of its own.
    pub fn to_attribute(&self) -> Attribute {
        Attribute::new(self.name, self.value.to_value())
    }
}

/// An attribute's value, as [`AttributeValue`], and equal as that is.
#[derive(Debug, Clone, Copy)]
pub enum ValueRef<'a> {
    /// No value.
    Null,
    /// A string. One that the document interned is a string, too.
    String(&'a str),
    /// Bytes that stand for hex digits.
    BytesHex(&'a [u8]),
    /// Bytes that stand for base64.
    BytesBase64(&'a [u8]),
    /// A number of 32 bits.
    Int(i32),
    /// A number of 32 bits that stands for hex digits.
    IntHex(u32),
    /// A number of 64 bits.
    Long(i64),
    /// A number of 64 bits that stands for hex digits.
    LongHex(u64),
    /// A float of 32 bits.
    Float(f32),
    /// A float of 64 bits.
    Double(f64),
    /// True or false.
    Boolean(bool),
}

impl<'a> ValueRef<'a> {
    /// The value as text. See [`AttributeValue::as_str`].
    pub fn as_str(&self) -> Cow<'a, str> {
        text::value(*self)
    }

    /// The same value with a string or bytes of its own.
    #[inline]
    pub fn to_value(&self) -> AttributeValue {
        match *self {
            ValueRef::Null => AttributeValue::Null,
            ValueRef::String(s) => AttributeValue::String(copy(s)),
            ValueRef::BytesHex(bytes) => AttributeValue::BytesHex(bytes.to_vec()),
            ValueRef::BytesBase64(bytes) => AttributeValue::BytesBase64(bytes.to_vec()),
            ValueRef::Int(n) => AttributeValue::Int(n),
            ValueRef::IntHex(n) => AttributeValue::IntHex(n),
            ValueRef::Long(n) => AttributeValue::Long(n),
            ValueRef::LongHex(n) => AttributeValue::LongHex(n),
            ValueRef::Float(x) => AttributeValue::Float(x),
            ValueRef::Double(x) => AttributeValue::Double(x),
            ValueRef::Boolean(b) => AttributeValue::Boolean(b),
        }
    }
}

impl<'a> From<&'a AttributeValue> for ValueRef<'a> {
    fn from(value: &'a AttributeValue) -> ValueRef<'a> {
        match value {
            AttributeValue::Null => ValueRef::Null,
            AttributeValue::String(s) => ValueRef::String(s),
            AttributeValue::BytesHex(bytes) => ValueRef::BytesHex(bytes),
            AttributeValue::BytesBase64(bytes) => ValueRef::BytesBase64(bytes),
            AttributeValue::Int(n) => ValueRef::Int(*n),
            AttributeValue::IntHex(n) => ValueRef::IntHex(*n),
            AttributeValue::Long(n) => ValueRef::Long(*n),
            AttributeValue::LongHex(n) => ValueRef::LongHex(*n),
            AttributeValue::Float(x) => ValueRef::Float(*x),
            AttributeValue::Double(x) => ValueRef::Double(*x),
            AttributeValue::Boolean(b) => ValueRef::Boolean(*b),
        }
    }
}

impl PartialEq for ValueRef<'_> {
    fn eq(&self, other: &ValueRef<'_>) -> bool {
        use ValueRef::*;
        match (self, other) {
            (Null, Null) => true,
            (String(a), String(b)) => a == b,
            (BytesHex(a), BytesHex(b)) | (BytesBase64(a), BytesBase64(b)) => a == b,
            (Int(a), Int(b)) => a == b,
            (IntHex(a), IntHex(b)) => a == b,
            (Long(a), Long(b)) => a == b,
            (LongHex(a), LongHex(b)) => a == b,
            (Float(a), Float(b)) => a.to_bits() == b.to_bits(),
            (Double(a), Double(b)) => a.to_bits() == b.to_bits(),
            (Boolean(a), Boolean(b)) => a == b,
            _ => false,
        }
    }
}

impl Eq for ValueRef<'_> {}
