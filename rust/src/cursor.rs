//! The library's two readers, each with the buffers that it lends, and the rows of the event that it read last.
//!
//! Here alone bytes become strings without being checked as UTF-8 (beside a name's own bytes, `name.rs`). Why that is sound. A reader of the
//! library is proved to give what the grammar reads (docs/SPECIFICATION.md), and of the grammar a string is read only where its bytes are
//! well-formed UTF-8, else the event is refused 7 (`utf8` in `crates/grammar/specs/Grammar.antt`). A name by index is one that was read so
//! before: a pool pair spans its bytes, in the document or in the name store, where the reader itself put them. That holds here because pool, name
//! store, window and rows belong to the cursor, only the library writes to them, and they start out with no name; a document is borrowed for as
//! long as its cursor lives. Rows are looked at through a borrow of the cursor, so no call comes between, and `count` says how many of
//! them the last call left: none after a feed, which moves the window's bytes.
//!
//! A span that ended outside its store would be empty, so that not even a wrong library could make a reader look elsewhere.

use std::mem;

use crate::borrowed::{copy, AttributeRef, Attributes, EventRef, ValueRef};
use crate::buffers::{Buffers, Sizes, ROW};
use crate::checked::{self, Place, State, Stepped};
use crate::name::{Known, SHORT};
use crate::rows::*;
use crate::{AbxError, Attribute, AttributeValue, Event, InternedStr, Result};

// ---- rows

type Row = [u32; ROW];

/// Rows that a reader has left, with the stores of their spans: a document alone, or a window and a name store.
#[derive(Clone, Copy)]
pub(crate) struct Rows<'a> {
    words: &'a [u32],
    first: &'a [u8],
    second: &'a [u8],
}

impl<'a> Rows<'a> {
    /// The first rows, those that a call has written. A slice reader's name store is empty.
    fn written(buffers: &'a Buffers, count: usize, first: &'a [u8]) -> Rows<'a> {
        Rows {
            words: buffers.rows.get(..ROW * count).unwrap_or_default(),
            first,
            second: &buffers.store,
        }
    }

    /// That it is one event: a row, and, of a start tag, those of its attributes.
    fn checked(self) -> Result<()> {
        let right = match self.words.first() {
            None => false,
            Some(&START_TAG) => true,
            Some(kind) => *kind <= DOC_DECL && self.words.len() == ROW,
        };
        if right {
            Ok(())
        } else {
            Err(AbxError::BadAnswer("rows that are no event"))
        }
    }

    fn each(self) -> impl ExactSizeIterator<Item = &'a Row> {
        // A chunk has just so many words.
        let whole = |row: &'a [u32]| row.first_chunk().unwrap_or(&[0; ROW]);
        self.words.chunks_exact(ROW).map(whole)
    }

    #[inline]
    fn store(self, source: u32) -> &'a [u8] {
        if source == 0 {
            self.first
        } else {
            self.second
        }
    }

    // A reader's spans lie inside; one that did not would be empty.
    #[inline]
    fn bytes(self, source: u32, start: u32, len: u32) -> &'a [u8] {
        let end = start as usize + len as usize;
        self.store(source)
            .get(start as usize..end)
            .unwrap_or_default()
    }

    #[inline]
    fn string(self, source: u32, start: u32, len: u32) -> &'a str {
        // SAFETY: the bytes are a string's that the library's reader handed out, of the stores that it did so for (see above).
        unsafe { std::str::from_utf8_unchecked(self.bytes(source, start, len)) }
    }

    #[inline]
    fn name(self, row: &Row) -> &'a str {
        self.string(row[1], row[2], row[3])
    }

    #[inline]
    fn text(self, row: &Row) -> &'a str {
        self.string(row[5], row[6], row[7])
    }

    #[inline]
    fn value(self, row: &Row) -> ValueRef<'a> {
        let bytes = || self.bytes(row[5], row[6], row[7]);
        let (word, pair) = (row[7], u64::from(row[6]) << 32 | u64::from(row[7]));
        match row[4] {
            STRING => ValueRef::String(self.text(row)),
            BYTES_HEX => ValueRef::BytesHex(bytes()),
            BYTES_BASE64 => ValueRef::BytesBase64(bytes()),
            INT => ValueRef::Int(word as i32),
            INT_HEX => ValueRef::IntHex(word),
            LONG => ValueRef::Long(pair as i64),
            LONG_HEX => ValueRef::LongHex(pair),
            FLOAT => ValueRef::Float(f32::from_bits(word)),
            DOUBLE => ValueRef::Double(f64::from_bits(pair)),
            TRUE => ValueRef::Boolean(true),
            FALSE => ValueRef::Boolean(false),
            _ => ValueRef::Null,
        }
    }

    #[inline]
    fn attribute(self, row: &Row) -> AttributeRef<'a> {
        AttributeRef {
            name: self.name(row),
            value: self.value(row),
        }
    }

    #[inline]
    pub(crate) fn len(self) -> usize {
        self.words.len() / ROW
    }

    /// The rows after the first.
    #[inline]
    fn rest(self) -> Rows<'a> {
        let words = self.words.get(ROW..).unwrap_or(&[]);
        Rows { words, ..self }
    }

    #[cfg(feature = "queries")]
    fn split_at(self, count: usize) -> (Rows<'a>, Rows<'a>) {
        let (words, rest) = self.words.split_at(ROW * count);
        (
            Rows { words, ..self },
            Rows {
                words: rest,
                ..self
            },
        )
    }

    /// The first row's attribute; the rows after it are left.
    #[inline]
    pub(crate) fn next_attribute(&mut self) -> Option<AttributeRef<'a>> {
        let (row, rest) = self.words.split_first_chunk()?;
        self.words = rest;
        Some(self.attribute(row))
    }

    /// The event that these rows say; none where there are none.
    #[inline(always)]
    fn event(self) -> Option<EventRef<'a>> {
        let row = self.words.first_chunk()?;
        Some(match row[0] {
            START_DOCUMENT => EventRef::StartDocument,
            END_DOCUMENT => EventRef::EndDocument,
            START_TAG => EventRef::StartTag {
                name: self.name(row),
                attributes: Attributes(self.rest()),
            },
            END_TAG => EventRef::EndTag {
                name: self.name(row),
            },
            TEXT => EventRef::Text(self.text(row)),
            CDATA => EventRef::CdataSection(self.text(row)),
            ENTITY_REF => EventRef::EntityReference(self.text(row)),
            IGNORABLE_WHITESPACE => EventRef::IgnorableWhitespace(self.text(row)),
            PROCESSING_INSTRUCTION => EventRef::ProcessingInstruction(self.text(row)),
            COMMENT => EventRef::Comment(self.text(row)),
            _ => EventRef::DocDecl(self.text(row)),
        })
    }
}

/// Puts it there without a look at what was there, which is empty and owns nothing.
#[inline]
fn set<T>(put: &mut T, new: T) {
    mem::forget(mem::replace(put, new));
}

/// Rows as what a caller owns. Names that start in the store that keeps them are known when they come again.
///
/// Names and values are put where they stay: to make one elsewhere and move it costs more than to make it, since a move reads at once what was
/// just written in smaller pieces.
struct Owner<'a, 'k> {
    rows: Rows<'a>,
    kept: u32,
    known: &'k mut Known,
}

impl Owner<'_, '_> {
    #[inline(always)]
    fn name(&mut self, row: &Row, put: &mut InternedStr) {
        let name = self.rows.name(row);
        if name.len() <= SHORT {
            let store = self.rows.store(row[1]);
            let rest = store.get(row[2] as usize..).unwrap_or_default();
            if let Some(room) = rest.first_chunk() {
                // SAFETY: the rest begins with the name, which is as long.
                return set(put, unsafe { InternedStr::short(room, name.len()) });
            }
        }
        let name = if row[1] == self.kept {
            self.known.name(row[2], name)
        } else {
            name.into()
        };
        set(put, name);
    }

    #[inline(always)]
    fn value(&self, row: &Row, put: &mut AttributeValue) {
        match self.rows.value(row) {
            ValueRef::Null => {}
            ValueRef::String(s) => set(put, AttributeValue::String(copy(s))),
            ValueRef::BytesHex(bytes) => set(put, AttributeValue::BytesHex(bytes.to_vec())),
            ValueRef::BytesBase64(bytes) => set(put, AttributeValue::BytesBase64(bytes.to_vec())),
            ValueRef::Int(n) => set(put, AttributeValue::Int(n)),
            ValueRef::IntHex(n) => set(put, AttributeValue::IntHex(n)),
            ValueRef::Long(n) => set(put, AttributeValue::Long(n)),
            ValueRef::LongHex(n) => set(put, AttributeValue::LongHex(n)),
            ValueRef::Float(x) => set(put, AttributeValue::Float(x)),
            ValueRef::Double(x) => set(put, AttributeValue::Double(x)),
            ValueRef::Boolean(b) => set(put, AttributeValue::Boolean(b)),
        }
    }

    /// Of rows of attributes.
    #[inline]
    fn attributes(&mut self, rows: Rows) -> Vec<Attribute> {
        let empty = || Attribute {
            name: InternedStr::EMPTY,
            value: AttributeValue::Null,
        };
        let mut attributes = Vec::new();
        attributes.resize_with(rows.len(), empty);
        for (row, put) in rows.each().zip(&mut attributes) {
            self.name(row, &mut put.name);
            self.value(row, &mut put.value);
        }
        attributes
    }

    /// The event that these rows say; none where there are none.
    #[inline(always)]
    fn event(&mut self) -> Result<Option<Event>> {
        let Some(row) = self.rows.words.first_chunk() else {
            return Ok(None);
        };
        let name = InternedStr::EMPTY;
        let mut event = Ok(Some(match row[0] {
            START_TAG => {
                let attributes = self.attributes(self.rows.rest());
                Event::StartTag { name, attributes }
            }
            END_TAG => Event::EndTag { name },
            _ => return Ok(self.rows.event().map(Event::from)),
        }));
        if let Ok(Some(Event::StartTag { name, .. } | Event::EndTag { name })) = &mut event {
            self.name(row, name);
        }
        event
    }
}

// ---- the slice reader

/// Where names are kept: in the document, the first store.
const IN_DOCUMENT: u32 = 0;

/// The slice reader.
#[derive(Debug, Clone)]
pub(crate) struct SliceCursor<'d> {
    document: &'d [u8],
    place: Place,
    events: usize,
    buffers: Buffers,
    count: usize,
    known: Known,
}

impl<'d> SliceCursor<'d> {
    pub(crate) fn new(document: &'d [u8], sizes: Sizes) -> Result<SliceCursor<'d>> {
        let buffers = Buffers::new(sizes);
        Ok(SliceCursor {
            document,
            place: checked::slice_create(document, &buffers.pool)?,
            events: 0,
            buffers,
            count: 0,
            known: Known::default(),
        })
    }

    pub(crate) fn at(&self) -> usize {
        self.place.at
    }

    pub(crate) fn events(&self) -> usize {
        self.events
    }

    pub(crate) fn document(&self) -> &'d [u8] {
        self.document
    }

    /// Reads an event; false at the end.
    pub(crate) fn advance(&mut self) -> Result<bool> {
        self.count = 0;
        loop {
            let Buffers { pool, rows, .. } = &mut self.buffers;
            match checked::slice_next(self.place, self.document, pool, rows) {
                Ok(None) => return Ok(false),
                Ok(Some((count, place))) => {
                    Rows::written(&self.buffers, count, self.document).checked()?;
                    self.place = place;
                    self.events += 1;
                    self.count = count;
                    return Ok(true);
                }
                Err(refusal) => self.buffers.grow_for(refusal)?,
            }
        }
    }

    /// The event that was read last.
    #[inline]
    pub(crate) fn event(&self) -> Option<EventRef<'_>> {
        Rows::written(&self.buffers, self.count, self.document).event()
    }

    /// The same, as what a caller owns.
    #[inline]
    pub(crate) fn owned(&mut self) -> Result<Option<Event>> {
        let mut owner = Owner {
            rows: Rows::written(&self.buffers, self.count, self.document),
            kept: IN_DOCUMENT,
            known: &mut self.known,
        };
        owner.event()
    }

    // A refused query keeps its rows and its place, so it goes on from there when a buffer was too short.
    #[cfg(feature = "queries")]
    fn ask(&mut self, query: checked::Query, mut found: impl FnMut(&mut Owner)) -> Result<()> {
        self.count = 0;
        loop {
            let Buffers { pool, rows, .. } = &mut self.buffers;
            let reached = checked::query(query, self.place, self.document, pool, rows)?;
            found(&mut Owner {
                rows: Rows::written(&self.buffers, reached.rows, self.document),
                kept: IN_DOCUMENT,
                known: &mut self.known,
            });
            self.place = reached.place;
            self.events += reached.events;
            match reached.ended {
                Ok(_) => return Ok(()),
                // The rows are free again.
                Err(AbxError::RowsFull) if reached.rows > 0 => {}
                Err(refusal) => self.buffers.grow_for(refusal)?,
            }
        }
    }

    /// The values of the attributes that a query finds.
    #[cfg(feature = "queries")]
    pub(crate) fn values(
        &mut self,
        query: checked::Query,
        found: &mut Vec<AttributeValue>,
    ) -> Result<()> {
        self.ask(query, |owner| {
            let rows = owner.rows;
            found.extend(rows.each().map(|row| rows.value(row).to_value()));
        })
    }

    /// The attributes of each tag that a query finds.
    #[cfg(feature = "queries")]
    pub(crate) fn tags(
        &mut self,
        query: checked::Query,
        found: &mut Vec<Vec<Attribute>>,
    ) -> Result<()> {
        self.ask(query, |owner| {
            let mut rows = owner.rows;
            // A tag's row, and those of its attributes up to the next tag.
            while !rows.words.is_empty() {
                let attributes = rows.rest();
                let count = attributes
                    .each()
                    .take_while(|row| row[0] == ATTRIBUTE)
                    .count();
                let (attributes, rest) = attributes.split_at(count);
                found.push(owner.attributes(attributes));
                rows = rest;
            }
        })
    }
}

// ---- the chunk reader

/// Where names are kept: in the name store, the second store. A new name is in the window once, and is there no more after the next feed.
const IN_STORE: u32 = 1;

/// The chunk reader.
#[derive(Debug, Clone)]
pub(crate) struct ChunkCursor {
    state: State,
    window: Vec<u8>,
    sizes: Sizes,
    buffers: Buffers,
    count: usize,
    known: Known,
}

impl ChunkCursor {
    pub(crate) fn new(sizes: Sizes) -> Result<ChunkCursor> {
        let window = sizes.new_window();
        let buffers = Buffers::with_store(sizes);
        Ok(ChunkCursor {
            state: checked::stream_create(&window, &buffers.pool, &buffers.store)?,
            window,
            sizes,
            buffers,
            count: 0,
            known: Known::default(),
        })
    }

    pub(crate) fn waiting(&self) -> usize {
        self.state.waiting()
    }

    pub(crate) fn is_finished(&self) -> bool {
        self.state.is_finished()
    }

    pub(crate) fn feed(&mut self, chunk: &[u8]) -> Result<usize> {
        self.count = 0;
        let Buffers { pool, store, .. } = &self.buffers;
        checked::stream_feed(&mut self.state, &mut self.window, pool, store, chunk)
    }

    pub(crate) fn finish(&mut self) -> Result<()> {
        let Buffers { pool, store, .. } = &self.buffers;
        checked::stream_finish(&mut self.state, &self.window, pool, store)
    }

    /// Reads an event, or says why there is none.
    pub(crate) fn advance(&mut self) -> Result<Stepped> {
        self.count = 0;
        loop {
            let Buffers { pool, rows, store } = &mut self.buffers;
            match checked::stream_next(&mut self.state, &self.window, pool, store, rows) {
                Ok(Stepped::Event(count)) => {
                    Rows::written(&self.buffers, count, &self.window).checked()?;
                    self.count = count;
                    return Ok(Stepped::Event(count));
                }
                Ok(stepped) => return Ok(stepped),
                Err(AbxError::WindowFull) if self.sizes.grow_window(&mut self.window) => {}
                Err(refusal) => self.buffers.grow_for(refusal)?,
            }
        }
    }

    /// The event that was read last, if there was no call since.
    #[inline]
    pub(crate) fn event(&self) -> Option<EventRef<'_>> {
        Rows::written(&self.buffers, self.count, &self.window).event()
    }

    /// The same, as what a caller owns.
    #[inline]
    pub(crate) fn owned(&mut self) -> Result<Option<Event>> {
        let mut owner = Owner {
            rows: Rows::written(&self.buffers, self.count, &self.window),
            kept: IN_STORE,
            known: &mut self.known,
        };
        owner.event()
    }
}
