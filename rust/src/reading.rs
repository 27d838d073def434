//! What a reader of a document in memory and one of a source have alike.

use std::collections::HashMap;
use std::io::Write;

use crate::{text, Event, EventRef, Result};
#[cfg(doc)]
use crate::{AbxError, AbxParser, AbxStreamParser};

/// A tag's name, and the attributes of each such tag by their names.
pub(crate) type Map = HashMap<String, Vec<HashMap<String, String>>>;

/// A reader that goes on event by event.
pub(crate) trait Reading {
    /// Reads an event; false at the end.
    fn advance(&mut self) -> Result<bool>;

    /// The event that was read last.
    fn event(&self) -> Option<EventRef<'_>>;

    /// The same, as what a caller owns.
    fn owned(&mut self) -> Result<Option<Event>>;

    #[inline]
    fn next_event(&mut self) -> Result<Option<Event>> {
        if self.advance()? {
            self.owned()
        } else {
            Ok(None)
        }
    }

    #[inline]
    fn next_ref(&mut self) -> Result<Option<EventRef<'_>>> {
        Ok(if self.advance()? { self.event() } else { None })
    }

    fn collect_events(&mut self) -> Result<Vec<Event>> {
        let mut events = vec![];
        while let Some(event) = self.next_event()? {
            events.push(event);
        }
        Ok(events)
    }

    fn write_xml(&mut self, writer: &mut impl Write) -> Result<()> {
        let mut xml = text::DECLARATION.to_owned();
        loop {
            writer.write_all(xml.as_bytes())?;
            xml.clear();
            match self.next_ref()? {
                None | Some(EventRef::EndDocument) => return Ok(()),
                Some(event) => text::push_event(&mut xml, event),
            }
        }
    }

    fn to_xml(&mut self) -> Result<String> {
        let mut xml = text::DECLARATION.to_owned();
        while let Some(event) = self.next_ref()? {
            if event == EventRef::EndDocument {
                break;
            }
            text::push_event(&mut xml, event);
        }
        Ok(xml)
    }

    fn to_map(&mut self) -> Result<Map> {
        let mut map = Map::new();
        while let Some(event) = self.next_ref()? {
            let EventRef::StartTag { name, attributes } = event else {
                continue;
            };
            let attributes = attributes
                .map(|attribute| (attribute.name.to_owned(), attribute.as_str().into_owned()))
                .collect();
            map.entry(name.to_owned()).or_default().push(attributes);
        }
        Ok(map)
    }
}

/// The public methods of a [`Reading`].
macro_rules! reading_methods {
    () => {
        /// The next event, or None at the end of the input. An `EndDocument` is an event, and more may follow it.
        ///
        /// # Errors
        ///
        /// What is wrong with the event, or [`AbxError::Io`] of a source. The reader stays before the event, and the event's new names
        /// are not kept.
        pub fn next_event(&mut self) -> Result<Option<Event>> {
            Reading::next_event(self)
        }

        /// The same event, borrowed from the reader until its next call: no string is copied.
        ///
        /// # Errors
        ///
        /// Those of [`next_event`](Self::next_event).
        #[inline]
        pub fn next_ref(&mut self) -> Result<Option<EventRef<'_>>> {
            Reading::next_ref(self)
        }

        /// All events that are left.
        ///
        /// # Errors
        ///
        /// The first error. The events before it were consumed.
        pub fn collect_events(&mut self) -> Result<Vec<Event>> {
            Reading::collect_events(self)
        }

        /// The events up to an `EndDocument` or the end of the input, as XML after a declaration.
        ///
        /// Texts and the strings of attributes are escaped, nothing else is: a name, a comment or a CDATA section that holds what XML
        /// does not allow there makes XML that does not read back.
        ///
        /// # Errors
        ///
        /// The first error. The events before it were consumed.
        pub fn to_xml(&mut self) -> Result<String> {
            Reading::to_xml(self)
        }

        /// The same XML as [`to_xml`](Self::to_xml), written event by event.
        ///
        /// # Errors
        ///
        /// The first error, or [`AbxError::Io`] where it can't be written. The events before were consumed.
        pub fn write_xml(&mut self, writer: &mut impl std::io::Write) -> Result<()> {
            Reading::write_xml(self, writer)
        }

        /// The attributes of every tag that is left, as text, by the tag's name. Of attributes of one name on a tag the last counts.
        ///
        /// # Errors
        ///
        /// The first error.
        pub fn into_map(
            mut self,
        ) -> Result<
            std::collections::HashMap<String, Vec<std::collections::HashMap<String, String>>>,
        > {
            self.to_map()
        }
    };
}

pub(crate) use reading_methods;

/// What a reader gives as an iterator: its next event, and nothing after an error.
pub(crate) fn until_error<R: Reading>(
    reader: &mut R,
    failed: fn(&mut R) -> &mut bool,
) -> Option<Result<Event>> {
    if *failed(reader) {
        return None;
    }
    let next = reader.next_event();
    *failed(reader) = next.is_err();
    next.transpose()
}
