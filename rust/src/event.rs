//! What a document consists of.

use std::borrow::Cow;

use crate::{InternedStr, ValueRef};

/// One event of a document. Strings are not escaped.
#[derive(Debug, Clone, PartialEq, Eq)]
pub enum Event {
    /// The document starts.
    StartDocument,
    /// The document ends; more events may follow.
    EndDocument,
    /// An element starts.
    StartTag {
        /// The element's name.
        name: InternedStr,
        /// Its attributes, in the document's order; a name may come more than once.
        attributes: Vec<Attribute>,
    },
    /// An element ends. Whether it is the innermost open one is not checked.
    EndTag {
        /// The element's name.
        name: InternedStr,
    },
    /// A text.
    Text(String),
    /// A CDATA section's text.
    CdataSection(String),
    /// An entity's name.
    EntityReference(String),
    /// White space that may be ignored.
    IgnorableWhitespace(String),
    /// A processing instruction's text.
    ProcessingInstruction(String),
    /// A comment's text.
    Comment(String),
    /// A document type declaration's text.
    DocDecl(String),
}

/// A name and a value.
#[derive(Debug, Clone, PartialEq, Eq)]
pub struct Attribute {
    /// The name.
    pub name: InternedStr,
    /// The value.
    pub value: AttributeValue,
}

impl Attribute {
    /// An attribute of this name and value.
    pub fn new(name: impl Into<InternedStr>, value: AttributeValue) -> Attribute {
        Attribute {
            name: name.into(),
            value,
        }
    }

    /// The value as text. See [`AttributeValue::as_str`].
    pub fn as_str(&self) -> Cow<'_, str> {
        self.value.as_str()
    }
}

/// An attribute's value, with the type that the document gives it.
///
/// Two values are equal when their types and their bytes or bits are: a NaN equals a NaN of the same bits, and 0.0 is not -0.0.
#[derive(Debug, Clone)]
pub enum AttributeValue {
    /// No value.
    Null,
    /// A string. One that the document interned is a string, too.
    String(String),
    /// Bytes that stand for hex digits.
    BytesHex(Vec<u8>),
    /// Bytes that stand for base64.
    BytesBase64(Vec<u8>),
    /// A number of 32 bits.
    Int(i32),
    /// A number of 32 bits that stands for hex digits.
    IntHex(u32),
    /// A number of 64 bits.
    Long(i64),
    /// A number of 64 bits that stands for hex digits.
    LongHex(u64),
    /// A float of 32 bits.
    Float(f32),
    /// A float of 64 bits.
    Double(f64),
    /// True or false.
    Boolean(bool),
}

impl PartialEq for AttributeValue {
    fn eq(&self, other: &AttributeValue) -> bool {
        ValueRef::from(self) == ValueRef::from(other)
    }
}

impl Eq for AttributeValue {}

macro_rules! accessors {
    ($($(#[$says:meta])* $name:ident($case:ident) -> $result:ty = |$value:ident| $read:expr;)*) => {
        impl AttributeValue {
            $(
                $(#[$says])*
                pub fn $name(&self) -> Option<$result> {
                    match self {
                        AttributeValue::$case($value) => Some($read),
                        _ => None,
                    }
                }
            )*
        }
    };
}

accessors! {
    /// The string of a [`String`](Self::String).
    as_string(String) -> &str = |s| s;
    /// The number of an [`Int`](Self::Int).
    as_int(Int) -> i32 = |n| *n;
    /// The number of an [`IntHex`](Self::IntHex).
    as_int_hex(IntHex) -> u32 = |n| *n;
    /// The number of a [`Long`](Self::Long).
    as_long(Long) -> i64 = |n| *n;
    /// The number of a [`LongHex`](Self::LongHex).
    as_long_hex(LongHex) -> u64 = |n| *n;
    /// The float of a [`Float`](Self::Float).
    as_float(Float) -> f32 = |x| *x;
    /// The float of a [`Double`](Self::Double).
    as_double(Double) -> f64 = |x| *x;
    /// What a [`Boolean`](Self::Boolean) says.
    as_bool(Boolean) -> bool = |b| *b;
}

impl AttributeValue {
    /// The value as text, not escaped, as Android renders it.
    ///
    /// Null is the empty string. Bytes are hex digits in lower case, or base64 that is filled up. Numbers that stand for hex have a
    /// sign, as in Java: `IntHex(0xFFFF_FFFF)` is `-1`. A whole float ends in `.0`.
    ///
    /// ```
    /// use abx::AttributeValue;
    ///
    /// assert_eq!(AttributeValue::LongHex(0x2A).as_str(), "2a");
    /// assert_eq!(AttributeValue::Float(-2.0).as_str(), "-2.0");
    /// assert_eq!(AttributeValue::BytesBase64(vec![0; 2]).as_str(), "AAA=");
    /// ```
    pub fn as_str(&self) -> Cow<'_, str> {
        ValueRef::from(self).as_str()
    }

    /// The bytes of a [`BytesHex`](Self::BytesHex) or [`BytesBase64`](Self::BytesBase64).
    pub fn as_bytes(&self) -> Option<&[u8]> {
        match self {
            AttributeValue::BytesHex(bytes) | AttributeValue::BytesBase64(bytes) => Some(bytes),
            _ => None,
        }
    }
}
