//! The buffers that a reader lends: how long they are at first, how they grow, and how long the library takes them.

use std::io::Read;

use crate::{AbxError, AbxParser, AbxPushParser, AbxStreamParser, Result};

/// The longest document of an [`AbxParser`], in bytes.
pub const MAX_DOCUMENT: usize = 16_777_216;

/// The most bytes that one event of an [`AbxWriter`](crate::AbxWriter) and all distinct names have together.
pub const MAX_OUTPUT: usize = 16_777_216;

/// The most bytes of distinct names that an [`AbxPushParser`] or an [`AbxStreamParser`] keeps.
pub const MAX_STORE: usize = 16_777_216;

/// The shortest window of an [`AbxPushParser`], in bytes.
pub const MIN_WINDOW: usize = 64;

/// The longest window of an [`AbxPushParser`] or an [`AbxStreamParser`], in bytes.
pub const MAX_WINDOW: usize = 1_048_576;

/// The most names that a pool keeps: those that an index can name.
pub const MAX_NAMES: usize = 65_535;

/// The words of a row.
pub(crate) const ROW: usize = 8;

/// A row takes three bytes of a document at least, but for the one of a text or a document event.
const MAX_ROWS: usize = MAX_DOCUMENT / 3 + 2;

/// How long a reader's buffers are at first, and how long its window may get.
///
/// Nobody has to choose: each buffer grows when an event needs more. Who knows the documents can spare the growing, or bound the window.
///
/// ```
/// use abx::{Event, Sizes};
///
/// let sizes = Sizes::new().names(1000).window(4096);
/// let mut parser = sizes.stream_parser(&b"ABX\0\x10"[..])?;
/// assert_eq!(parser.next_event()?, Some(Event::StartDocument));
/// # Ok::<(), abx::AbxError>(())
/// ```
#[derive(Debug, Clone, Copy, PartialEq, Eq)]
#[must_use]
pub struct Sizes {
    rows: usize,
    names: usize,
    name_bytes: usize,
    window: usize,
    max_window: usize,
}

impl Default for Sizes {
    fn default() -> Sizes {
        Sizes {
            rows: 16,
            names: 32,
            name_bytes: 512,
            window: 8192,
            max_window: MAX_WINDOW,
        }
    }
}

impl Sizes {
    /// What the readers have that are made without: a few hundred bytes, and a window of 8 KiB that grows up to [`MAX_WINDOW`].
    pub fn new() -> Sizes {
        Sizes::default()
    }

    /// Room for events of so many rows: one for a tag, and one for each of its attributes.
    pub fn rows(mut self, rows: usize) -> Sizes {
        self.rows = rows.min(MAX_ROWS);
        self
    }

    /// Room for so many distinct names, at most [`MAX_NAMES`].
    pub fn names(mut self, names: usize) -> Sizes {
        self.names = names.min(MAX_NAMES);
        self
    }

    /// Room for so many bytes of distinct names, at most [`MAX_STORE`]. An [`AbxParser`] has no use for it.
    pub fn name_bytes(mut self, bytes: usize) -> Sizes {
        self.name_bytes = bytes.min(MAX_STORE);
        self
    }

    /// A window of so many bytes, in which the bytes of an event wait. An [`AbxParser`] has none.
    pub fn window(mut self, bytes: usize) -> Sizes {
        self.window = bytes;
        self
    }

    /// A window that grows up to so many bytes. A longer event, a start tag with the token after it, is refused `WindowFull`.
    pub fn max_window(mut self, bytes: usize) -> Sizes {
        self.max_window = bytes;
        self
    }

    /// A reader of a document in memory. See [`AbxParser::new`].
    ///
    /// # Errors
    ///
    /// Those of [`AbxParser::new`].
    pub fn parser(self, document: &[u8]) -> Result<AbxParser<'_>> {
        AbxParser::with_sizes(document, self)
    }

    /// A reader of a source. See [`AbxStreamParser::new`].
    ///
    /// # Errors
    ///
    /// Those of [`AbxStreamParser::new`], and `BadSize` for a window that the library does not take.
    pub fn stream_parser<R: Read>(self, reader: R) -> Result<AbxStreamParser<R>> {
        AbxStreamParser::with_sizes(reader, self)
    }

    /// A reader that is fed by hand. See [`AbxPushParser::new`].
    ///
    /// # Errors
    ///
    /// `BadSize` for a window under [`MIN_WINDOW`] or over [`MAX_WINDOW`].
    pub fn push_parser(self) -> Result<AbxPushParser> {
        AbxPushParser::with_sizes(self)
    }

    pub(crate) fn new_window(&self) -> Vec<u8> {
        // One byte over the limit is refused like any more, which need not be there.
        vec![0; self.window.min(MAX_WINDOW + 1)]
    }

    pub(crate) fn grow_window(&self, window: &mut Vec<u8>) -> bool {
        grow(window, self.max_window.min(MAX_WINDOW))
    }
}

/// A pool table of pairs, and rows. A chunk reader keeps its names' bytes in the store.
#[derive(Debug, Clone)]
pub(crate) struct Buffers {
    pub(crate) pool: Vec<u32>,
    pub(crate) rows: Vec<u32>,
    pub(crate) store: Vec<u8>,
}

impl Buffers {
    /// Without a name store.
    pub(crate) fn new(sizes: Sizes) -> Buffers {
        Buffers {
            pool: vec![0; 2 * sizes.names],
            rows: vec![0; ROW * sizes.rows],
            store: vec![],
        }
    }

    pub(crate) fn with_store(sizes: Sizes) -> Buffers {
        Buffers {
            store: vec![0; sizes.name_bytes],
            ..Buffers::new(sizes)
        }
    }

    /// Makes the buffer longer that a refusal says is too short. A refused call changes nothing, so the same call is made again after this.
    ///
    /// # Errors
    ///
    /// The refusal, where it is another one, or the buffer has its full length.
    pub(crate) fn grow_for(&mut self, refusal: AbxError) -> Result<()> {
        let grown = match refusal {
            AbxError::RowsFull => grow(&mut self.rows, ROW * MAX_ROWS),
            AbxError::PoolFull => grow(&mut self.pool, 2 * MAX_NAMES),
            AbxError::NamesFull => grow(&mut self.store, MAX_STORE),
            _ => false,
        };
        if grown {
            Ok(())
        } else {
            Err(refusal)
        }
    }
}

/// Twice as long, up to a limit; false where the limit was reached before.
fn grow<T: Copy + Default>(buffer: &mut Vec<T>, limit: usize) -> bool {
    // Rows and pairs stay whole: 16 elements, where there were none, are two rows or eight pairs.
    let longer = (2 * buffer.len()).max(16).min(limit);
    let grows = buffer.len() < longer;
    at_least(buffer, longer);
    grows
}

/// So long, or longer if it was.
pub(crate) fn at_least<T: Copy + Default>(buffer: &mut Vec<T>, len: usize) {
    if buffer.len() < len {
        // Memory that comes zeroed need not be written.
        let mut longer = vec![T::default(); len];
        longer[..buffer.len()].copy_from_slice(buffer);
        *buffer = longer;
    }
}
