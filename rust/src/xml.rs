//! Events as XML, by the library.

use crate::buffers::{at_least, MAX_OUTPUT, ROW};
use crate::checked;
use crate::rows::{List, BYTES_BASE64, BYTES_HEX, STRING};
use crate::{AbxError, Event, Result};

/// The XML text of these events, one after the other, with nothing between them.
///
/// It is the library's text, whose definition is proved: no declaration, and floats as their bits in hex. A reader's own
/// [`to_xml`](crate::AbxParser::to_xml) is the original's: it has a declaration and decimal floats, ends at an `EndDocument`, and takes every
/// character. Texts and the strings of attributes are escaped, nothing else is: a name, a comment or a CDATA section that holds what XML
/// does not allow there makes XML that does not read back.
///
/// ```
/// use abx::{events_to_xml, Attribute, AttributeValue, Event};
///
/// let tag = Event::StartTag {
///     name: "lamp".into(),
///     attributes: vec![Attribute::new("size", AttributeValue::Float(1.0))],
/// };
/// let events = [tag, Event::Text("a < b".into()), Event::EndTag { name: "lamp".into() }];
/// assert_eq!(events_to_xml(&events)?, r#"<lamp size="3f800000">a &lt; b</lamp>"#);
/// # Ok::<(), abx::AbxError>(())
/// ```
///
/// # Errors
///
/// [`AbxError::IllegalChar`] where a name, a text or an attribute's string has a character that XML 1.0 does not allow. `OutputFull` where the text of one
/// attribute, of a tag's name or of one text has more than [`MAX_OUTPUT`] bytes; all together may have any number. The first event that has any is told.
pub fn events_to_xml(events: &[Event]) -> Result<String> {
    let mut printer = Printer::default();
    let mut rest = events;
    let mut most = rest.len();
    while !rest.is_empty() {
        let count = printer.fill(&rest[..most.min(rest.len())])?;
        match printer.print_list() {
            Err(AbxError::OutputFull) if count > 1 => most = count / 2,
            Err(AbxError::OutputFull) => {
                printer.print_rows()?;
                rest = &rest[1..];
            }
            printed => {
                printed?;
                rest = &rest[count..];
            }
        }
    }
    printer.into_text()
}

impl Event {
    /// The event as XML: the text of [`events_to_xml`] for it alone. A document event's is empty.
    ///
    /// ```
    /// use abx::Event;
    ///
    /// assert_eq!(Event::Comment("a".into()).to_xml()?, "<!--a-->");
    /// assert_eq!(Event::Text("\u{1}".into()).to_xml().unwrap_err().number(), Some(20));
    /// # Ok::<(), abx::AbxError>(())
    /// ```
    ///
    /// # Errors
    ///
    /// Those of [`events_to_xml`].
    pub fn to_xml(&self) -> Result<String> {
        events_to_xml(std::slice::from_ref(self))
    }
}

/// A list is given to the library in parts of about so many rows and bytes, which stay in the processor's caches.
const PART_ROWS: usize = 65_536;
const PART_BYTES: usize = 2_097_152;

/// What a row's text has beside its strings at most: a number of 20 digits with its sign, and what stands around it.
const AROUND: usize = 32;

/// The rows of a part, and the text so far.
#[derive(Default)]
struct Printer {
    list: List,
    /// The text, and zeros after it.
    buffer: Vec<u8>,
    len: usize,
}

impl Printer {
    /// Makes a list of the first events, and says of how many.
    fn fill(&mut self, events: &[Event]) -> Result<usize> {
        let list = &mut self.list;
        list.clear(events.len());
        for (count, event) in events.iter().enumerate() {
            if list.rows() >= PART_ROWS || list.store.len() >= PART_BYTES {
                return Ok(count);
            }
            // Strings of 4 GiB have no span, and their text has no room in any output.
            list.push(event).map_err(|_| AbxError::OutputFull)?;
        }
        Ok(events.len())
    }

    /// Appends the list's text.
    fn print_list(&mut self) -> Result<()> {
        let room = self.list.words.chunks_exact(ROW).map(text_len).sum();
        self.append(room, |list, output| {
            checked::to_xml(&list.store, &list.words, output)
        })
    }

    /// Appends it row by row: a row's text may fit where its event's does not.
    fn print_rows(&mut self) -> Result<()> {
        for row in 0..self.list.rows() {
            let words = self.list.words.get(ROW * row..).unwrap_or_default();
            self.append(text_len(words), |list, output| {
                checked::row_to_xml(row, &list.store, &list.words, output)
            })?;
        }
        Ok(())
    }

    /// Appends what a call prints. It is lent so many bytes at first, and more while they are too few.
    fn append(
        &mut self,
        room: usize,
        print: impl Fn(&List, &mut [u8]) -> Result<usize>,
    ) -> Result<()> {
        let mut room = room.min(MAX_OUTPUT);
        loop {
            if self.buffer.len() - self.len < room {
                let longer = (self.len + room).max(2 * self.len);
                at_least(&mut self.buffer, longer);
            }
            let rest = self.buffer.get_mut(self.len..).unwrap_or_default();
            let output = match rest.get_mut(..MAX_OUTPUT) {
                Some(most) => most,
                None => rest,
            };
            let lent = output.len();
            match print(&self.list, output) {
                Err(AbxError::OutputFull) if lent < MAX_OUTPUT => {
                    room = (2 * lent).clamp(AROUND, MAX_OUTPUT);
                }
                printed => {
                    self.len += printed?;
                    return Ok(());
                }
            }
        }
    }

    fn into_text(mut self) -> Result<String> {
        self.buffer.truncate(self.len);
        String::from_utf8(self.buffer).map_err(|_| AbxError::BadAnswer("a text that is no UTF-8"))
    }
}

/// As long as a row's text is, or longer, where nothing is escaped.
fn text_len(row: &[u32]) -> usize {
    let [_, _, _, name, of, _, _, value, ..] = *row else {
        return 0;
    };
    let (name, value) = (name as usize, value as usize);
    let value = match of {
        STRING => value,
        BYTES_HEX => 2 * value,
        BYTES_BASE64 => value.div_ceil(3) * 4,
        _ => 0,
    };
    AROUND + name + value
}
