//! The library's answers as Rust values.
//!
//! Counts and places come back as words. They are proved to lie in range, and are looked at here again, so that safe code can rely on them
//! whatever library is linked: what is out of range is [`AbxError::BadAnswer`].

use crate::buffers::ROW;
use crate::{library, AbxError, Result};

// ---- answers

/// One of the words below, and three more that depend on it. A query's answer has seven words, of which the first is FOUND, END or REFUSED.
type Answer = [usize; 4];

const DONE: usize = 0;
#[cfg(feature = "queries")]
const FOUND: usize = 0;
const END: usize = 1;
const REFUSED: usize = 2;
const NEED_MORE: usize = 3;

const UNKNOWN: AbxError = AbxError::BadAnswer("an answer of no known kind");

/// Why a call did not do what was asked, or it is an answer that this call can't give.
fn refusal(answer: Answer) -> AbxError {
    match answer {
        [REFUSED, number, detail, _] => AbxError::refused(number, detail),
        _ => UNKNOWN,
    }
}

#[inline]
fn in_range(holds: bool) -> Result<()> {
    if holds {
        Ok(())
    } else {
        Err(AbxError::BadAnswer("a count or place is out of range"))
    }
}

// ---- the slice reader

/// Where a slice reader stands, and how many names its pool has.
#[derive(Debug, Clone, Copy, PartialEq, Eq)]
pub(crate) struct Place {
    pub(crate) at: usize,
    pub(crate) names: usize,
}

impl Place {
    #[inline]
    fn checked(self, document: &[u8], pool: &[u32]) -> Result<Place> {
        in_range(self.at <= document.len() && self.names <= pool.len() / 2)?;
        Ok(self)
    }
}

pub(crate) fn slice_create(document: &[u8], pool: &[u32]) -> Result<Place> {
    match library::abx_slice_create(document, pool) {
        [DONE, at, names, _] => Place { at, names }.checked(document, pool),
        answer => Err(refusal(answer)),
    }
}

/// How many rows were written, and the place after the event; none at the end.
#[inline]
pub(crate) fn slice_next(
    place: Place,
    document: &[u8],
    pool: &mut [u32],
    rows: &mut [u32],
) -> Result<Option<(usize, Place)>> {
    match library::abx_slice_next(place.at, place.names, document, pool, rows) {
        [DONE, count, at, names] => {
            // An event takes a byte at least, so that reading ends.
            in_range(count <= rows.len() / ROW && place.at < at)?;
            Ok(Some((count, Place { at, names }.checked(document, pool)?)))
        }
        [END, ..] => Ok(None),
        answer => Err(refusal(answer)),
    }
}

// ---- the slice reader's queries

/// What is asked for, of which element.
#[cfg(feature = "queries")]
#[derive(Clone, Copy)]
pub(crate) enum Query<'q> {
    FindAttribute(&'q [u8], &'q [u8]),
    AttributesOf(&'q [u8]),
    FindAllAttributes(&'q [u8], &'q [u8]),
    AllAttributesOf(&'q [u8]),
}

/// How far a query came, and how it ended: whether it was found, or a refusal. What came before a refusal counts.
#[cfg(feature = "queries")]
pub(crate) struct Reached {
    pub(crate) place: Place,
    pub(crate) events: usize,
    pub(crate) rows: usize,
    pub(crate) ended: Result<bool>,
}

#[cfg(feature = "queries")]
pub(crate) fn query(
    query: Query,
    place: Place,
    document: &[u8],
    pool: &mut [u32],
    rows: &mut [u32],
) -> Result<Reached> {
    use library::*;
    let Place { at, names } = place;
    let [what, at, names, events, count, number, detail] = match query {
        Query::FindAttribute(element, name) => {
            abx_find_attribute(at, names, document, pool, rows, element, name)
        }
        Query::AttributesOf(element) => abx_attributes_of(at, names, document, pool, rows, element),
        Query::FindAllAttributes(element, name) => {
            abx_find_all_attributes(at, names, document, pool, rows, element, name)
        }
        Query::AllAttributesOf(element) => {
            abx_all_attributes_of(at, names, document, pool, rows, element)
        }
    };
    let ended = match what {
        FOUND => Ok(true),
        END => Ok(false),
        REFUSED => Err(AbxError::refused(number, detail)),
        _ => return Err(UNKNOWN),
    };
    // A refused place comes back as it was given, which is in range: safe code has no other. An event takes a byte at least, and rows
    // come from events.
    in_range(place.at <= at && events <= at - place.at)?;
    in_range(count <= rows.len() / ROW && (count == 0 || events > 0))?;
    Ok(Reached {
        place: Place { at, names }.checked(document, pool)?,
        events,
        rows: count,
        ended,
    })
}

// ---- the chunk reader

/// Start, end, names, bytes, and 0 or 1 for a header passed and for a finish.
#[derive(Debug, Clone, Copy, PartialEq, Eq)]
pub(crate) struct State([usize; 6]);

impl State {
    /// How many bytes of the window wait.
    #[inline]
    pub(crate) fn waiting(&self) -> usize {
        self.0[1].saturating_sub(self.0[0])
    }

    pub(crate) fn is_finished(&self) -> bool {
        self.0[5] == 1
    }

    #[inline]
    fn is_right(&self, window: &[u8], pool: &[u32], store: &[u8]) -> bool {
        let [start, end, names, bytes, header, finished] = self.0;
        start <= end
            && end <= window.len()
            && names <= pool.len() / 2
            && bytes <= store.len()
            && header <= 1
            && finished <= 1
    }
}

pub(crate) fn stream_create(window: &[u8], pool: &[u32], store: &[u8]) -> Result<State> {
    // Words that no reader has, so that a state that was not written is seen.
    let mut state = State([usize::MAX; 6]);
    match library::abx_stream_create(&mut state.0, window, pool, store) {
        [DONE, _, _, _] => {
            in_range(state.is_right(window, pool, store))?;
            Ok(state)
        }
        answer => Err(refusal(answer)),
    }
}

/// How many bytes of the chunk were taken. Here and below a new state that is not in range is an error, and the library itself refuses it from then on.
pub(crate) fn stream_feed(
    state: &mut State,
    window: &mut [u8],
    pool: &[u32],
    store: &[u8],
    chunk: &[u8],
) -> Result<usize> {
    match library::abx_stream_feed(&mut state.0, window, pool, store, chunk) {
        [DONE, taken, _, _] => {
            in_range(taken <= chunk.len() && state.is_right(window, pool, store))?;
            Ok(taken)
        }
        answer => Err(refusal(answer)),
    }
}

pub(crate) fn stream_finish(
    state: &mut State,
    window: &[u8],
    pool: &[u32],
    store: &[u8],
) -> Result<()> {
    match library::abx_stream_finish(&mut state.0, window, pool, store) {
        [DONE, _, _, _] => in_range(state.is_finished() && state.is_right(window, pool, store)),
        answer => Err(refusal(answer)),
    }
}

/// What a chunk reader answers, with the number of an event's rows.
pub(crate) enum Stepped {
    Event(usize),
    NeedMore,
    End,
}

#[inline]
pub(crate) fn stream_next(
    state: &mut State,
    window: &[u8],
    pool: &mut [u32],
    store: &mut [u8],
    rows: &mut [u32],
) -> Result<Stepped> {
    let waiting = state.waiting();
    let (stepped, right) = match library::abx_stream_next(&mut state.0, window, pool, store, rows) {
        [DONE, count, _, _] => {
            // An event takes a byte at least, so that reading ends.
            let right = count <= rows.len() / ROW && state.waiting() < waiting;
            (Stepped::Event(count), right)
        }
        [NEED_MORE, ..] => (Stepped::NeedMore, !state.is_finished()),
        [END, ..] => {
            let right = state.is_finished() && state.waiting() == 0;
            (Stepped::End, right)
        }
        answer => return Err(refusal(answer)),
    };
    in_range(right && state.is_right(window, pool, store))?;
    Ok(stepped)
}

// ---- the writer

/// How many bytes of the output are written, and how many names its pool has.
#[derive(Debug, Clone, Copy, PartialEq, Eq)]
pub(crate) struct Written {
    pub(crate) bytes: usize,
    pub(crate) names: usize,
}

impl Written {
    fn checked(answer: Answer, output: &[u8], pool: &[u32]) -> Result<Written> {
        match answer {
            [DONE, bytes, names, _] => {
                in_range(bytes <= output.len() && names <= pool.len() / 2)?;
                Ok(Written { bytes, names })
            }
            _ => Err(refusal(answer)),
        }
    }
}

pub(crate) fn writer_create(output: &mut [u8], pool: &[u32]) -> Result<Written> {
    let answer = library::abx_writer_create(output, pool);
    Written::checked(answer, output, pool)
}

/// A call of the writer.
pub(crate) type Write =
    fn(Written, store: &[u8], rows: &[u32], output: &mut [u8], pool: &mut [u32]) -> Result<Written>;

/// Writes exactly one event.
pub(crate) fn write_event(
    written: Written,
    store: &[u8],
    rows: &[u32],
    output: &mut [u8],
    pool: &mut [u32],
) -> Result<Written> {
    let Written { bytes, names } = written;
    let answer = library::abx_write_event(bytes, names, store, &[], rows, output, pool);
    Written::checked(answer, output, pool)
}

/// Writes a list.
pub(crate) fn write_events(
    written: Written,
    store: &[u8],
    rows: &[u32],
    output: &mut [u8],
    pool: &mut [u32],
) -> Result<Written> {
    let Written { bytes, names } = written;
    let answer = library::abx_write_events(bytes, names, store, &[], rows, output, pool);
    Written::checked(answer, output, pool)
}

// ---- XML text

fn text_len(answer: Answer, output: &[u8]) -> Result<usize> {
    match answer {
        [DONE, len, _, _] => {
            in_range(len <= output.len())?;
            Ok(len)
        }
        _ => Err(refusal(answer)),
    }
}

/// Prints a list, and says how many bytes its text has.
pub(crate) fn to_xml(store: &[u8], rows: &[u32], output: &mut [u8]) -> Result<usize> {
    let answer = library::abx_to_xml(store, &[], rows, output);
    text_len(answer, output)
}

/// The same of one row of a list, counted from 0.
pub(crate) fn row_to_xml(
    row: usize,
    store: &[u8],
    rows: &[u32],
    output: &mut [u8],
) -> Result<usize> {
    let answer = library::abx_row_to_xml(row, store, &[], rows, output);
    text_len(answer, output)
}

// ---- nesting

/// Whether a list is one nested document.
pub(crate) fn nested(store: &[u8], rows: &[u32]) -> Result<bool> {
    match library::abx_nested(store, &[], rows) {
        [DONE, 0, _, _] => Ok(false),
        [DONE, 1, _, _] => Ok(true),
        answer => Err(refusal(answer)),
    }
}
