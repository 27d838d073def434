//! The reader of a document in memory.

#[cfg(feature = "queries")]
use crate::checked::Query;
use crate::cursor::SliceCursor;
use crate::reading::{reading_methods, until_error, Reading};
#[cfg(doc)]
use crate::AbxError;
#[cfg(feature = "queries")]
use crate::{Attribute, AttributeValue};
use crate::{Event, EventRef, Result, Sizes};

/// Reads the events of a document in memory.
///
/// As an iterator it gives each event, and ends after the first error. [`next_event`](Self::next_event) stays where it is on an
/// error, and gives it again. A query takes up to 0.6 MB of stack.
///
/// ```
/// use abx::{AbxParser, Event};
///
/// let mut parser = AbxParser::new(b"ABX\0\x10\x11")?;
/// assert_eq!(parser.next_event()?, Some(Event::StartDocument));
/// assert_eq!(parser.next_event()?, Some(Event::EndDocument));
/// assert_eq!(parser.next_event()?, None);
/// # Ok::<(), abx::AbxError>(())
/// ```
#[derive(Debug, Clone)]
pub struct AbxParser<'a> {
    cursor: SliceCursor<'a>,
    failed: bool,
}

impl<'a> AbxParser<'a> {
    /// A reader at the document's first event.
    ///
    /// # Errors
    ///
    /// `BadSize` for a document over [`MAX_DOCUMENT`](crate::MAX_DOCUMENT), else [`AbxError::UnexpectedEof`] under 4 bytes, or
    /// [`AbxError::InvalidMagic`].
    pub fn new(document: &'a [u8]) -> Result<AbxParser<'a>> {
        AbxParser::with_sizes(document, Sizes::new())
    }

    pub(crate) fn with_sizes(document: &'a [u8], sizes: Sizes) -> Result<AbxParser<'a>> {
        Ok(AbxParser {
            cursor: SliceCursor::new(document, sizes)?,
            failed: false,
        })
    }

    /// Whether all of the document was read.
    pub fn is_empty(&self) -> bool {
        self.position() == self.cursor.document().len()
    }

    /// How many bytes of the document were read, those of the header included.
    pub fn position(&self) -> usize {
        self.cursor.at()
    }

    /// How many events were read, by this reader's queries too.
    pub fn events_read(&self) -> usize {
        self.cursor.events()
    }

    reading_methods!();
}

impl Reading for AbxParser<'_> {
    #[inline]
    fn advance(&mut self) -> Result<bool> {
        self.cursor.advance()
    }

    #[inline]
    fn event(&self) -> Option<EventRef<'_>> {
        self.cursor.event()
    }

    #[inline]
    fn owned(&mut self) -> Result<Option<Event>> {
        self.cursor.owned()
    }
}

/// Queries. Each goes on from where the reader stands, and consumes the events that it looks at ([`events_read`](Self::events_read)).
#[cfg(feature = "queries")]
impl AbxParser<'_> {
    /// The value of the first attribute of this name, on the next such element that has it. None where an `EndDocument` or the end of
    /// the input comes first.
    ///
    /// # Errors
    ///
    /// What is wrong with an event before. The reader stays before that event.
    pub fn find_attribute(&mut self, element: &str, attr: &str) -> Result<Option<AttributeValue>> {
        let mut found = vec![];
        let query = Query::FindAttribute(element.as_bytes(), attr.as_bytes());
        self.cursor.values(query, &mut found)?;
        Ok(found.pop())
    }

    /// The attributes of the next such element. None where an `EndDocument` or the end of the input comes first.
    ///
    /// # Errors
    ///
    /// What is wrong with an event before. The reader stays before that event.
    pub fn attributes_of(&mut self, element: &str) -> Result<Option<Vec<Attribute>>> {
        let mut found = vec![];
        let query = Query::AttributesOf(element.as_bytes());
        self.cursor.tags(query, &mut found)?;
        Ok(found.pop())
    }

    /// The values of all attributes of this name on all such elements that are left, past every `EndDocument`.
    ///
    /// # Errors
    ///
    /// What is wrong with an event. [`find_all_attributes_into`](Self::find_all_attributes_into) keeps what was found before it.
    pub fn find_all_attributes(
        &mut self,
        element: &str,
        attr: &str,
    ) -> Result<Vec<AttributeValue>> {
        let mut found = vec![];
        self.find_all_attributes_into(element, attr, &mut found)?;
        Ok(found)
    }

    /// As [`find_all_attributes`](Self::find_all_attributes), appended to `found`, where it stays on an error.
    ///
    /// # Errors
    ///
    /// What is wrong with an event. The reader stays before that event.
    pub fn find_all_attributes_into(
        &mut self,
        element: &str,
        attr: &str,
        found: &mut Vec<AttributeValue>,
    ) -> Result<()> {
        let query = Query::FindAllAttributes(element.as_bytes(), attr.as_bytes());
        self.cursor.values(query, found)
    }

    /// The attributes of each such element that is left, past every `EndDocument`.
    ///
    /// # Errors
    ///
    /// What is wrong with an event. [`all_attributes_of_into`](Self::all_attributes_of_into) keeps what was found before it.
    pub fn all_attributes_of(&mut self, element: &str) -> Result<Vec<Vec<Attribute>>> {
        let mut found = vec![];
        self.all_attributes_of_into(element, &mut found)?;
        Ok(found)
    }

    /// As [`all_attributes_of`](Self::all_attributes_of), appended to `found`, where it stays on an error.
    ///
    /// # Errors
    ///
    /// What is wrong with an event. The reader stays before that event.
    pub fn all_attributes_of_into(
        &mut self,
        element: &str,
        found: &mut Vec<Vec<Attribute>>,
    ) -> Result<()> {
        let query = Query::AllAttributesOf(element.as_bytes());
        self.cursor.tags(query, found)
    }
}

impl Iterator for AbxParser<'_> {
    type Item = Result<Event>;

    fn next(&mut self) -> Option<Result<Event>> {
        until_error(self, |reader| &mut reader.failed)
    }
}

/// A document that owns its bytes, and gives readers of them.
///
/// ```
/// use abx::{AbxParserOwned, Event};
///
/// let document = AbxParserOwned::new(b"ABX\0\x10".to_vec())?;
/// assert_eq!(document.parser()?.next_event()?, Some(Event::StartDocument));
/// # Ok::<(), abx::AbxError>(())
/// ```
#[derive(Debug, Clone)]
pub struct AbxParserOwned {
    document: Vec<u8>,
}

impl AbxParserOwned {
    /// A document whose header is right.
    ///
    /// # Errors
    ///
    /// Those of [`AbxParser::new`].
    pub fn new(document: Vec<u8>) -> Result<AbxParserOwned> {
        AbxParser::new(&document)?;
        Ok(AbxParserOwned { document })
    }

    /// A reader at the document's first event.
    ///
    /// # Errors
    ///
    /// None: the header was looked at before.
    pub fn parser(&self) -> Result<AbxParser<'_>> {
        AbxParser::new(&self.document)
    }
}
