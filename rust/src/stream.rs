//! The readers of a document that comes in chunks: one is fed by hand, the other reads a source.

use std::io::{self, Read};

use crate::checked::Stepped;
use crate::cursor::ChunkCursor;
use crate::reading::{reading_methods, until_error, Reading};
use crate::{AbxError, Attribute, AttributeValue, Event, EventRef, Result, Sizes, MAGIC};

/// What a reader that is fed answers.
#[derive(Debug, Clone, Copy, PartialEq, Eq)]
pub enum Next<E = Event> {
    /// An event.
    Event(E),
    /// No whole event waits: feed more, or finish.
    NeedMore,
    /// The input was finished, and all of it read.
    End,
}

/// Reads the events of a document that it is fed in chunks of any length.
///
/// Bytes wait in a window until their event is complete. A start tag is complete when the token after it is there, or at the
/// finish, since more attributes might follow.
///
/// ```
/// use abx::{AbxPushParser, Event, Next};
///
/// let mut parser = AbxPushParser::new()?;
/// assert_eq!(parser.feed(b"ABX")?, 3);
/// assert_eq!(parser.next_event()?, Next::NeedMore);
/// assert_eq!(parser.feed(b"\0\x10")?, 2);
/// parser.finish()?;
/// assert_eq!(parser.next_event()?, Next::Event(Event::StartDocument));
/// assert_eq!(parser.next_event()?, Next::End);
/// # Ok::<(), abx::AbxError>(())
/// ```
#[derive(Debug, Clone)]
pub struct AbxPushParser {
    cursor: ChunkCursor,
}

impl AbxPushParser {
    /// A reader whose window grows up to [`MAX_WINDOW`](crate::MAX_WINDOW), when an event does not fit. It takes every event that any
    /// window takes.
    ///
    /// # Errors
    ///
    /// None that the library gives for these buffers.
    pub fn new() -> Result<AbxPushParser> {
        AbxPushParser::with_sizes(Sizes::new())
    }

    /// A reader with a window of so many bytes, which stays. It takes events that fit the window, a start tag together with the token
    /// after it; a longer one is refused `WindowFull`.
    ///
    /// # Errors
    ///
    /// `BadSize` for a window under [`MIN_WINDOW`](crate::MIN_WINDOW) or over [`MAX_WINDOW`](crate::MAX_WINDOW).
    pub fn with_window(len: usize) -> Result<AbxPushParser> {
        AbxPushParser::with_sizes(Sizes::new().window(len).max_window(len))
    }

    pub(crate) fn with_sizes(sizes: Sizes) -> Result<AbxPushParser> {
        let cursor = ChunkCursor::new(sizes)?;
        Ok(AbxPushParser { cursor })
    }

    /// Appends the first bytes of a chunk to those that wait, as many as the window has room for, and says how many. None are taken
    /// only where the window is full: ask for the next event then.
    ///
    /// # Errors
    ///
    /// `AlreadyFinished` after a finish.
    pub fn feed(&mut self, chunk: &[u8]) -> Result<usize> {
        self.cursor.feed(chunk)
    }

    /// Says that no more bytes will come.
    ///
    /// # Errors
    ///
    /// `AlreadyFinished` after a finish.
    pub fn finish(&mut self) -> Result<()> {
        self.cursor.finish()
    }

    /// The next event, or why there is none.
    ///
    /// # Errors
    ///
    /// What is wrong with the header or the event. The reader stays before it, and gives the same error again.
    pub fn next_event(&mut self) -> Result<Next> {
        let stepped = self.cursor.advance()?;
        Ok(answer(stepped, self.cursor.owned()?))
    }

    /// The same event, borrowed from the reader until its next call: no string is copied.
    ///
    /// # Errors
    ///
    /// Those of [`next_event`](Self::next_event).
    pub fn next_ref(&mut self) -> Result<Next<EventRef<'_>>> {
        let stepped = self.cursor.advance()?;
        Ok(answer(stepped, self.cursor.event()))
    }

    /// How many bytes wait in the window.
    pub fn waiting(&self) -> usize {
        self.cursor.waiting()
    }

    /// Whether the input was finished.
    pub fn is_finished(&self) -> bool {
        self.cursor.is_finished()
    }
}

fn answer<E>(stepped: Stepped, event: Option<E>) -> Next<E> {
    match (stepped, event) {
        (_, Some(event)) => Next::Event(event),
        (Stepped::NeedMore, None) => Next::NeedMore,
        (_, None) => Next::End,
    }
}

/// Reads the events of a document of any length from a source, by an [`AbxPushParser`].
///
/// As an iterator it gives each event, and ends after the first error; [`next_event`](Self::next_event) may be called again, where the
/// source may give more after an error of its own.
///
/// A source is asked for 4 to 64 KiB at a time, and needs no buffer of its own. An event is given as soon as it is read, without
/// waiting for more.
///
/// ```
/// use abx::{AbxStreamParser, Event};
///
/// let mut parser = AbxStreamParser::new(&b"ABX\0\x10"[..])?;
/// assert_eq!(parser.next_event()?, Some(Event::StartDocument));
/// assert_eq!(parser.next_event()?, None);
/// # Ok::<(), abx::AbxError>(())
/// ```
#[derive(Debug)]
pub struct AbxStreamParser<R: Read> {
    reader: R,
    parser: AbxPushParser,
    chunk: Vec<u8>,
    /// What of the chunk was read and not fed yet.
    from: usize,
    to: usize,
    failed: bool,
}

/// How many bytes a source is asked for at once: at first, and where it has given as many each time.
const CHUNK: usize = 4096;
const LONG_CHUNK: usize = 65_536;

impl<R: Read> AbxStreamParser<R> {
    /// A reader of this source, from which it reads the header, and what comes with it.
    ///
    /// # Errors
    ///
    /// [`AbxError::Io`] where the source can't be read, [`AbxError::UnexpectedEof`] where it has under 4 bytes, or
    /// [`AbxError::InvalidMagic`].
    pub fn new(reader: R) -> Result<AbxStreamParser<R>> {
        AbxStreamParser::with_sizes(reader, Sizes::new())
    }

    pub(crate) fn with_sizes(reader: R, sizes: Sizes) -> Result<AbxStreamParser<R>> {
        let parser = AbxPushParser::with_sizes(sizes)?;
        let mut parser = AbxStreamParser::with_parser(reader, parser);
        parser.read_header()?;
        Ok(parser)
    }

    /// A reader of this source that goes on with a parser that was made before, and may have been fed. Nothing is read yet: what is wrong with
    /// the header, the first event's call tells.
    pub fn with_parser(reader: R, parser: AbxPushParser) -> AbxStreamParser<R> {
        AbxStreamParser {
            reader,
            parser,
            chunk: vec![0; CHUNK],
            from: 0,
            to: 0,
            failed: false,
        }
    }

    reading_methods!();

    /// The source. Bytes that were read and are not part of an event yet are lost.
    pub fn into_inner(self) -> R {
        self.reader
    }

    /// The header alone is fed first, so that it is looked at, and no event is read.
    fn read_header(&mut self) -> Result<()> {
        while self.to < MAGIC.len() {
            let count = self.read()?;
            if count == 0 {
                break;
            }
        }
        let header = self.chunk.get(..self.to.min(MAGIC.len()));
        self.from = self.parser.feed(header.unwrap_or(&[]))?;
        if self.to < MAGIC.len() {
            self.parser.finish()?;
        }
        match self.parser.cursor.advance()? {
            Stepped::NeedMore => Ok(()),
            _ => Err(AbxError::BadAnswer("an event of a header alone")),
        }
    }

    fn refill(&mut self) -> Result<()> {
        if self.from == self.to {
            if self.to == self.chunk.len() && self.to < LONG_CHUNK {
                self.chunk = vec![0; 2 * self.to];
            }
            (self.from, self.to) = (0, 0);
            if self.read()? == 0 {
                return self.parser.finish();
            }
        }
        let chunk = self.chunk.get(self.from..self.to).unwrap_or(&[]);
        let taken = self.parser.feed(chunk)?;
        // More is needed only where the window is not full.
        if taken == 0 {
            return Err(AbxError::BadAnswer("a window with room takes nothing"));
        }
        self.from += taken;
        Ok(())
    }

    /// Appends to the chunk, and says how many bytes.
    fn read(&mut self) -> Result<usize> {
        let room = self.chunk.get_mut(self.to..).unwrap_or(&mut []);
        loop {
            match self.reader.read(room) {
                Err(error) if error.kind() == io::ErrorKind::Interrupted => {}
                read => {
                    // A source may say more than it was asked for.
                    let count = read?.min(room.len());
                    self.to += count;
                    return Ok(count);
                }
            }
        }
    }
}

impl<R: Read> Reading for AbxStreamParser<R> {
    #[inline]
    fn advance(&mut self) -> Result<bool> {
        loop {
            match self.parser.cursor.advance()? {
                Stepped::Event(_) => return Ok(true),
                Stepped::End => return Ok(false),
                Stepped::NeedMore => self.refill()?,
            }
        }
    }

    #[inline]
    fn event(&self) -> Option<EventRef<'_>> {
        self.parser.cursor.event()
    }

    #[inline]
    fn owned(&mut self) -> Result<Option<Event>> {
        self.parser.cursor.owned()
    }
}

/// Queries. Each goes on from where the reader stands, and consumes the events that it looks at.
impl<R: Read> AbxStreamParser<R> {
    /// The value of the first attribute of this name, on the next such element that has it. None where an `EndDocument` or the end of
    /// the input comes first.
    ///
    /// # Errors
    ///
    /// The first error. The events before it were consumed.
    pub fn find_attribute(&mut self, element: &str, attr: &str) -> Result<Option<AttributeValue>> {
        while self.advance()? {
            match self.event() {
                Some(EventRef::StartTag { name, attributes }) if name == element => {
                    if let Some(value) = attributes.get(attr) {
                        return Ok(Some(value.to_value()));
                    }
                }
                Some(EventRef::EndDocument) => break,
                _ => {}
            }
        }
        Ok(None)
    }

    /// The attributes of the next such element. None where an `EndDocument` or the end of the input comes first.
    ///
    /// # Errors
    ///
    /// The first error. The events before it were consumed.
    pub fn attributes_of(&mut self, element: &str) -> Result<Option<Vec<Attribute>>> {
        while self.advance()? {
            if let Some(attributes) = self.attributes_if(element) {
                return Ok(Some(attributes));
            }
            if self.event() == Some(EventRef::EndDocument) {
                break;
            }
        }
        Ok(None)
    }

    /// The values of all attributes of this name on all such elements that are left, past every `EndDocument`.
    ///
    /// # Errors
    ///
    /// The first error. The events before it were consumed, and what was found in them is lost.
    pub fn find_all_attributes(
        &mut self,
        element: &str,
        attr: &str,
    ) -> Result<Vec<AttributeValue>> {
        let mut found = vec![];
        while self.advance()? {
            match self.event() {
                Some(EventRef::StartTag { name, attributes }) if name == element => {
                    let named = attributes.filter(|attribute| attribute.name == attr);
                    found.extend(named.map(|attribute| attribute.value.to_value()));
                }
                _ => {}
            }
        }
        Ok(found)
    }

    /// The attributes of each such element that is left, past every `EndDocument`.
    ///
    /// # Errors
    ///
    /// The first error. The events before it were consumed, and what was found in them is lost.
    pub fn all_attributes_of(&mut self, element: &str) -> Result<Vec<Vec<Attribute>>> {
        let mut found = vec![];
        while self.advance()? {
            found.extend(self.attributes_if(element));
        }
        Ok(found)
    }

    /// The attributes of the tag that was read last, if it has this name.
    fn attributes_if(&mut self, element: &str) -> Option<Vec<Attribute>> {
        match self.event() {
            Some(EventRef::StartTag { name, .. }) if name == element => {}
            _ => return None,
        }
        match self.owned() {
            Ok(Some(Event::StartTag { attributes, .. })) => Some(attributes),
            _ => None,
        }
    }
}

impl<R: Read> Iterator for AbxStreamParser<R> {
    type Item = Result<Event>;

    fn next(&mut self) -> Option<Result<Event>> {
        until_error(self, |reader| &mut reader.failed)
    }
}
