//! Reads and writes ABX, Android's binary XML.
//!
//! The codec itself is a static library whose code is proved; this crate lends it buffers, grows them, and turns its rows
//! into events. [`AbxParser`] reads a document in memory, [`AbxStreamParser`] reads one from any [`Read`](std::io::Read),
//! [`AbxPushParser`] is fed by hand, and [`AbxWriter`] writes one to any [`Write`](std::io::Write). Readers give events that own their
//! strings ([`Event`]), or, several times as fast, events that borrow them ([`EventRef`]).
//!
//! ```
//! use abx::{events_to_abx, AbxParser, Attribute, AttributeValue, Event};
//!
//! let tag = Event::StartTag {
//!     name: "lamp".into(),
//!     attributes: vec![Attribute::new("watt", AttributeValue::Int(40))],
//! };
//! let document = events_to_abx(&[tag.clone(), Event::EndTag { name: "lamp".into() }])?;
//!
//! let mut parser = AbxParser::new(&document)?;
//! assert_eq!(parser.next_event()?, Some(tag));
//! # Ok::<(), abx::AbxError>(())
//! ```

#![deny(unsafe_code)]

mod borrowed;
mod buffers;
mod checked;
#[allow(unsafe_code)]
mod cursor;
mod error;
mod event;
#[allow(unsafe_code)]
mod library;
#[allow(unsafe_code)]
mod name;
mod nesting;
mod reading;
mod rows;
mod slice;
mod stream;
mod text;
mod writer;
mod xml;

pub use borrowed::{AttributeRef, Attributes, EventRef, ValueRef};
pub use buffers::{Sizes, MAX_DOCUMENT, MAX_NAMES, MAX_OUTPUT, MAX_STORE, MAX_WINDOW, MIN_WINDOW};
pub use error::{AbxError, Result};
pub use event::{Attribute, AttributeValue, Event};
pub use name::InternedStr;
pub use nesting::nested;
pub use slice::{AbxParser, AbxParserOwned};
pub use stream::{AbxPushParser, AbxStreamParser, Next};
pub use writer::{events_to_abx, AbxWriter};
pub use xml::events_to_xml;

// The README's examples are compiled and run with the tests.
#[cfg(doctest)]
#[doc = include_str!("../README.md")]
struct Readme;

/// The four bytes that every document begins with.
pub const MAGIC: [u8; 4] = *b"ABX\0";

/// Whether these bytes are well-formed UTF-8 by RFC 3629, as the library checks it.
pub fn is_utf8(bytes: &[u8]) -> bool {
    library::abx_is_utf8(bytes)
}
