//! The writer.

use std::io::Write;

use crate::buffers::{at_least, MAX_NAMES, MAX_OUTPUT};
use crate::checked::{self, Written};
use crate::rows::List;
use crate::{AbxError, Event, Result};

/// Writes events to a sink, as a document of any length.
///
/// Names are interned, values are not. Events are written as they come: whether tags are closed is for [`nested`](crate::nested) to say. What is
/// written goes to the sink at once, so wrap a file in a [`BufWriter`](std::io::BufWriter) where events are written one by one. A refused call
/// writes nothing. One event takes 64 KB of stack, more up to 1.6 MB (the README says when).
///
/// ```
/// use abx::{AbxWriter, Event};
///
/// let mut writer = AbxWriter::new(Vec::new())?;
/// writer.write_event(&Event::StartDocument)?;
/// writer.write_event(&Event::EndDocument)?;
/// assert_eq!(writer.into_inner(), b"ABX\0\x10\x11");
/// # Ok::<(), abx::AbxError>(())
/// ```
#[derive(Debug, Clone)]
pub struct AbxWriter<W: Write> {
    writer: W,
    encoder: Encoder,
}

impl<W: Write> AbxWriter<W> {
    /// A writer that has written the header.
    ///
    /// # Errors
    ///
    /// [`AbxError::Io`] where the header can't be written.
    pub fn new(mut writer: W) -> Result<AbxWriter<W>> {
        let encoder = Encoder::new()?;
        writer.write_all(encoder.header())?;
        Ok(AbxWriter { writer, encoder })
    }

    /// Writes one event.
    ///
    /// # Errors
    ///
    /// [`AbxError::ValueTooLong`] for a string or blob over 65,535 bytes, else `OutputFull` where the event and all names before it have more
    /// than [`MAX_OUTPUT`] bytes; then nothing was written. [`AbxError::Io`] where the sink fails, which may have a part of the
    /// event then; a later call writes as if this one had not been.
    pub fn write_event(&mut self, event: &Event) -> Result<()> {
        let encoder = &mut self.encoder;
        encoder.list.clear(1);
        encoder.list.push(event)?;
        let written = encoder.write(checked::write_event)?;
        self.writer.write_all(encoder.new_bytes(written)?)?;
        encoder.keep(written)
    }

    /// Writes all events of a list, or none where one of them is refused. For many events it is faster than one by one.
    ///
    /// # Errors
    ///
    /// Those of [`write_event`](Self::write_event), of the first event that has any.
    pub fn write_events(&mut self, events: &[Event]) -> Result<()> {
        let before = self.encoder.kept;
        let done = self.write_parts(events);
        if done.is_err() {
            self.encoder.kept = before;
        }
        done
    }

    fn write_parts(&mut self, events: &[Event]) -> Result<()> {
        let mut parts = vec![];
        self.encoder.write_parts(events, &mut parts)?;
        Ok(self.writer.write_all(&parts)?)
    }

    /// The sink.
    pub fn get_ref(&self) -> &W {
        &self.writer
    }

    /// The same, to be changed. What is written to it becomes part of the document.
    pub fn get_mut(&mut self) -> &mut W {
        &mut self.writer
    }

    /// The sink, which is not flushed.
    pub fn into_inner(self) -> W {
        self.writer
    }
}

impl<W: Write + AsRef<[u8]>> AbxWriter<W> {
    /// What the sink has, where that can be seen: of a `Vec`, the document as it is now.
    pub fn as_bytes(&self) -> &[u8] {
        self.writer.as_ref()
    }
}

/// The document of these events.
///
/// # Errors
///
/// Those of [`AbxWriter::write_events`].
pub fn events_to_abx(events: &[Event]) -> Result<Vec<u8>> {
    let mut encoder = Encoder::new()?;
    if encoder.fill(events)? == events.len() {
        match encoder.write(checked::write_events) {
            Err(AbxError::OutputFull) => {}
            written => {
                // Nothing of the document was dropped yet.
                encoder.output.truncate(written?.bytes);
                return Ok(encoder.output);
            }
        }
    }
    let mut document = encoder.header().to_vec();
    encoder.write_parts(events, &mut document)?;
    Ok(document)
}

/// A list is given to the library in parts of about so many rows and bytes, which stay in the processor's caches. A call looks up names by a table
/// that it makes anew of those that the pool has: so a part has at least so many rows for each of them.
const PART_ROWS: usize = 65_536;
const PART_BYTES: usize = 2_097_152;
const ROWS_A_NAME: usize = 16;

/// What a row takes beside its strings at most: a token, a new name's mark and length, and a number of 64 bits.
const ROW_BYTES: usize = 1 + 4 + 8;

/// The library's writer with its buffers. Of what it has written it keeps the names alone, one after the other at the output's beginning, where the
/// pool's pairs find them: so a document may be longer than an output.
#[derive(Debug, Clone)]
struct Encoder {
    /// The bytes that are kept, the header first, and the names.
    kept: Written,
    output: Vec<u8>,
    pool: Vec<u32>,
    list: List,
}

impl Encoder {
    fn new() -> Result<Encoder> {
        let mut output = vec![0; 1024];
        let pool = vec![0; 2 * 64];
        Ok(Encoder {
            kept: checked::writer_create(&mut output, &pool)?,
            output,
            pool,
            list: List::default(),
        })
    }

    fn header(&self) -> &[u8] {
        self.output.get(..4).unwrap_or(&[])
    }

    /// Makes a list of the first events, and says of how many.
    fn fill(&mut self, events: &[Event]) -> Result<usize> {
        let rows = PART_ROWS.max(ROWS_A_NAME * self.kept.names);
        let bytes = PART_BYTES / PART_ROWS * rows;
        let list = &mut self.list;
        list.clear(events.len());
        for (count, event) in events.iter().enumerate() {
            if list.rows() >= rows || list.store.len() >= bytes {
                return Ok(count);
            }
            list.push(event)?;
        }
        Ok(events.len())
    }

    /// Writes the list after what is kept.
    fn write(&mut self, write: checked::Write) -> Result<Written> {
        self.make_room();
        loop {
            let Encoder {
                output, pool, list, ..
            } = self;
            let written = write(self.kept, &list.store, &list.words, output, pool);
            match written {
                Err(AbxError::OutputFull) if output.len() < MAX_OUTPUT => {
                    let longer = (2 * output.len()).min(MAX_OUTPUT);
                    at_least(output, longer);
                }
                written => return written,
            }
        }
    }

    /// What was written after what is kept.
    fn new_bytes(&self, written: Written) -> Result<&[u8]> {
        let bytes = self.output.get(self.kept.bytes..written.bytes);
        bytes.ok_or(AbxError::BadAnswer("a writer that goes back"))
    }

    /// Keeps the names of what was written, and nothing else of it.
    fn keep(&mut self, written: Written) -> Result<()> {
        let mut end = self.kept.bytes;
        let pairs = self.pool.get_mut(2 * self.kept.names..2 * written.names);
        for pair in pairs.unwrap_or(&mut []).chunks_exact_mut(2) {
            let [start, len] = [pair[0] as usize, pair[1] as usize];
            // The names stand in the order of their pairs, each behind the place that it moves to.
            if start < end || written.bytes < start + len {
                return Err(AbxError::BadAnswer("a name outside the output"));
            }
            self.output.copy_within(start..start + len, end);
            pair[0] = end as u32;
            end += len;
        }
        self.kept = Written {
            bytes: end,
            names: written.names,
        };
        Ok(())
    }

    /// Writes a list, in parts where it does not fit, each of which is appended.
    fn write_parts(&mut self, events: &[Event], parts: &mut Vec<u8>) -> Result<()> {
        let mut rest = events;
        let mut most = rest.len();
        while !rest.is_empty() {
            let part = &rest[..most.min(rest.len())];
            let count = self.fill(part)?;
            match self.write(checked::write_events) {
                // One event alone is refused for good.
                Err(AbxError::OutputFull) if count > 1 => most = count / 2,
                written => {
                    let written = written?;
                    parts.extend_from_slice(self.new_bytes(written)?);
                    self.keep(written)?;
                    rest = &rest[count..];
                }
            }
        }
        Ok(())
    }

    // As much as the list can take, so that it is not measured twice, but where a name comes again that the pool has no place for. Up to the library's
    // limits, at which its refusal stands.
    fn make_room(&mut self) {
        let (rows, bytes) = (self.list.rows(), self.list.store.len());
        let bytes = self.kept.bytes + ROW_BYTES * rows + bytes;
        if self.output.len() < bytes {
            let len = bytes.max(2 * self.output.len()).min(MAX_OUTPUT);
            at_least(&mut self.output, len);
        }
        let names = self.kept.names + rows;
        if self.pool.len() / 2 < names {
            let len = names.max(self.pool.len()).min(MAX_NAMES);
            at_least(&mut self.pool, 2 * len);
        }
    }
}
