//! Why a call did not do what it was asked.

use std::{fmt, io};

use crate::MAGIC;

/// A [`Result`](std::result::Result) with an [`AbxError`].
pub type Result<T> = std::result::Result<T, AbxError>;

/// Why a call did not do what it was asked: what is wrong with a document or a value, an error of a source or a sink, or a limit.
///
/// What the library refuses has a [`number`](Self::number) from 1 to 20. Where a reader or a writer owns the buffer that a refusal is
/// about, it makes it longer and tries again: `RowsFull`, `PoolFull` and `NamesFull` are seen only at the library's own limits, `NotRows` and
/// `BadState` not at all.
///
/// `Nom`, `Deserialization` and `Xml` are no errors of this crate: they are there so that a `match` that was written for android-abx compiles.
#[derive(Debug)]
#[non_exhaustive]
pub enum AbxError {
    /// 2: the header is other bytes than [`MAGIC`].
    InvalidMagic {
        /// [`MAGIC`].
        expected: [u8; 4],
        /// The bytes that are there.
        actual: [u8; 4],
    },
    /// The input ends inside something, which the string names: `magic header` (1), `primitive`, which is a token, a length, an index or
    /// a number (3), `UTF string payload` (4) or `bytes payload` (5).
    UnexpectedEof(&'static str),
    /// 6: no entry of the pool has this index.
    BadInternedIndex(u16),
    /// 7: a string breaks RFC 3629.
    InvalidUtf8,
    /// 8: an attribute has type 0, 14 or 15; told times 16.
    UnknownAttributeType(u8),
    /// 9: a command from 11 to 14, or an attribute (15) outside a start tag.
    UnknownCommand(u8),
    /// 10: an event has more rows than a document can have.
    RowsFull,
    /// 11: there are more names than the pool table takes.
    PoolFull,
    /// 12: the names have more bytes than [`MAX_STORE`](crate::MAX_STORE), or those that [`nested`](crate::nested) is asked about come to 4 GiB.
    NamesFull,
    /// 13: an event is longer than the window may get.
    WindowFull,
    /// 14: a string or blob is too long.
    ValueTooLong {
        /// How many bytes it has.
        len: usize,
        /// How many it may have: 65,535.
        max: usize,
    },
    /// 15: an event and all names before it, or an attribute, name or text as XML, have more bytes than [`MAX_OUTPUT`](crate::MAX_OUTPUT).
    OutputFull,
    /// 16: words that form no rows.
    NotRows,
    /// 17: a document or a window of a length that the library does not take.
    BadSize,
    /// 18: a feed or finish after a finish.
    AlreadyFinished,
    /// 19: a count or place outside its buffer.
    BadState,
    /// 20: a character that XML 1.0 does not allow, such as U+0000 or U+FFFE, in a string that is to be XML.
    IllegalChar,
    /// A source could not be read, or a sink not be written.
    Io(io::Error),
    /// The library's answer is none that it can give. The library that is linked is not the one that this crate was made for.
    BadAnswer(&'static str),
    /// Not given.
    Nom(String),
    /// Not given.
    Deserialization(String),
    /// Not given.
    Xml(String),
}

/// What an input ends in, as android-abx names it.
const HEADER: &str = "magic header";
const PRIMITIVE: &str = "primitive";
const STRING: &str = "UTF string payload";
const BYTES: &str = "bytes payload";

impl AbxError {
    /// A refusal by the two words of an answer.
    pub(crate) fn refused(number: usize, detail: usize) -> AbxError {
        let refusal = match number {
            1 => AbxError::UnexpectedEof(HEADER),
            2 => AbxError::InvalidMagic {
                expected: MAGIC,
                actual: (detail as u32).to_be_bytes(),
            },
            3 => AbxError::UnexpectedEof(PRIMITIVE),
            4 => AbxError::UnexpectedEof(STRING),
            5 => AbxError::UnexpectedEof(BYTES),
            6 => AbxError::BadInternedIndex(detail as u16),
            7 => AbxError::InvalidUtf8,
            8 => AbxError::UnknownAttributeType(detail as u8),
            9 => AbxError::UnknownCommand(detail as u8),
            10 => AbxError::RowsFull,
            11 => AbxError::PoolFull,
            12 => AbxError::NamesFull,
            13 => AbxError::WindowFull,
            14 => AbxError::value_too_long(detail),
            15 => AbxError::OutputFull,
            16 => AbxError::NotRows,
            17 => AbxError::BadSize,
            18 => AbxError::AlreadyFinished,
            19 => AbxError::BadState,
            20 => AbxError::IllegalChar,
            // 21 to 30 have a name in `abx.h`, and no call gives them yet.
            _ => return AbxError::BadAnswer("a refusal of no known number"),
        };
        // What a cast above cut off, or a detail where none is named.
        if refusal.detail() != detail {
            return AbxError::BadAnswer("a refusal's detail is out of range");
        }
        refusal
    }

    pub(crate) fn value_too_long(len: usize) -> AbxError {
        let max = u16::MAX.into();
        AbxError::ValueTooLong { len, max }
    }

    /// The refusal's number, from 1 to 20. None for an error that is no refusal.
    pub fn number(&self) -> Option<u32> {
        Some(match self {
            AbxError::UnexpectedEof(what) => match *what {
                HEADER => 1,
                PRIMITIVE => 3,
                STRING => 4,
                BYTES => 5,
                _ => return None,
            },
            AbxError::InvalidMagic { .. } => 2,
            AbxError::BadInternedIndex(_) => 6,
            AbxError::InvalidUtf8 => 7,
            AbxError::UnknownAttributeType(_) => 8,
            AbxError::UnknownCommand(_) => 9,
            AbxError::RowsFull => 10,
            AbxError::PoolFull => 11,
            AbxError::NamesFull => 12,
            AbxError::WindowFull => 13,
            AbxError::ValueTooLong { .. } => 14,
            AbxError::OutputFull => 15,
            AbxError::NotRows => 16,
            AbxError::BadSize => 17,
            AbxError::AlreadyFinished => 18,
            AbxError::BadState => 19,
            AbxError::IllegalChar => 20,
            AbxError::Io(_)
            | AbxError::BadAnswer(_)
            | AbxError::Nom(_)
            | AbxError::Deserialization(_)
            | AbxError::Xml(_) => return None,
        })
    }

    /// The refusal's detail as a number; 0 where it has none.
    pub fn detail(&self) -> usize {
        match self {
            AbxError::InvalidMagic { actual, .. } => u32::from_be_bytes(*actual) as usize,
            AbxError::BadInternedIndex(index) => usize::from(*index),
            AbxError::UnknownAttributeType(byte) | AbxError::UnknownCommand(byte) => {
                usize::from(*byte)
            }
            AbxError::ValueTooLong { len, .. } => *len,
            _ => 0,
        }
    }
}

impl fmt::Display for AbxError {
    fn fmt(&self, f: &mut fmt::Formatter<'_>) -> fmt::Result {
        match self {
            AbxError::InvalidMagic { expected, actual } => write!(
                f,
                "this is no ABX document: it begins with {actual:02x?} in place of {expected:02x?}"
            ),
            AbxError::UnexpectedEof(HEADER) => write!(f, "the input ends inside the header"),
            AbxError::UnexpectedEof(PRIMITIVE) => {
                write!(f, "the input ends inside a token, length, index or number")
            }
            AbxError::UnexpectedEof(STRING) => write!(f, "the input ends inside a string"),
            AbxError::UnexpectedEof(BYTES) => write!(f, "the input ends inside a blob"),
            AbxError::UnexpectedEof(what) => write!(f, "the input ends inside this: {what}"),
            AbxError::BadInternedIndex(index) => write!(f, "no name has the index {index}"),
            AbxError::InvalidUtf8 => write!(f, "a string is not UTF-8"),
            AbxError::UnknownAttributeType(byte) => {
                write!(f, "an attribute has the type {}, which is none", byte >> 4)
            }
            AbxError::UnknownCommand(15) => write!(f, "an attribute stands outside a start tag"),
            AbxError::UnknownCommand(command) => {
                write!(f, "a token has the command {command}, which is none")
            }
            AbxError::RowsFull => write!(f, "an event has more attributes than are taken"),
            AbxError::PoolFull => write!(f, "there are more names than are taken"),
            AbxError::NamesFull => write!(f, "all names together are longer than is taken"),
            AbxError::WindowFull => write!(f, "an event is longer than the window may get"),
            AbxError::ValueTooLong { len, max } => {
                write!(f, "a string or blob has {len} bytes, and may have {max}")
            }
            AbxError::OutputFull => write!(f, "an event is too long to be written"),
            AbxError::NotRows => write!(f, "words that form no rows"),
            AbxError::BadSize => write!(f, "a document or window of a length that is not taken"),
            AbxError::AlreadyFinished => write!(f, "the input was finished before"),
            AbxError::BadState => write!(f, "a count or place outside its buffer"),
            AbxError::IllegalChar => write!(f, "a string has a character that XML does not allow"),
            AbxError::Io(error) => write!(
                f,
                "the input could not be read, or the output not be written: {error}"
            ),
            AbxError::BadAnswer(what) => write!(f, "the library's answer is wrong: {what}"),
            AbxError::Nom(what) | AbxError::Deserialization(what) | AbxError::Xml(what) => {
                write!(f, "{what}")
            }
        }
    }
}

impl std::error::Error for AbxError {
    fn source(&self) -> Option<&(dyn std::error::Error + 'static)> {
        match self {
            AbxError::Io(error) => Some(error),
            _ => None,
        }
    }
}

impl From<io::Error> for AbxError {
    fn from(error: io::Error) -> AbxError {
        AbxError::Io(error)
    }
}

#[cfg(test)]
mod tests {
    use super::AbxError;
    use std::error::Error;
    use std::io;

    #[test]
    fn every_number_has_its_name() {
        for number in 1..=20 {
            let refusal = AbxError::refused(number, 0);
            assert_eq!(refusal.number(), Some(number as u32));
            assert_eq!(refusal.detail(), 0);
            assert!(refusal.to_string().len() > 10);
            assert!(refusal.source().is_none());
        }
        for number in [0, 21, 30, usize::MAX] {
            assert_eq!(AbxError::refused(number, 0).number(), None);
        }
        assert_eq!(AbxError::UnexpectedEof("elsewhere").number(), None);
    }

    #[test]
    fn details_are_in_range() {
        for (number, most) in [(2, 0xFFFF_FFFF), (6, 0xFFFF), (8, 0xFF), (9, 0xFF)] {
            assert_eq!(AbxError::refused(number, most).detail(), most);
            assert_eq!(AbxError::refused(number, most + 1).number(), None);
        }
        assert_eq!(AbxError::refused(14, 65_536).detail(), 65_536);
        assert_eq!(AbxError::refused(3, 1).number(), None);
    }

    #[test]
    fn a_source_is_told() {
        let error = AbxError::from(io::Error::from(io::ErrorKind::BrokenPipe));
        let source = error.source().and_then(|source| source.downcast_ref());
        assert_eq!(source.map(io::Error::kind), Some(io::ErrorKind::BrokenPipe));
        assert!(error.to_string().contains("broken pipe"));
    }
}
