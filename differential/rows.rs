//! The rows that the Rust's events have, and what ours say.

use android_abx::Event;
use harness::common::{self, Row, Val};

use crate::report::Seen;

pub fn count(event: &Event) -> usize {
    match event {
        Event::StartTag { attributes, .. } => 1 + attributes.len(),
        _ => 1,
    }
}

/// The rows of an event that the Rust gave.
pub fn of(event: &Event) -> Vec<Row> {
    let mut rows = vec![];
    common::rows(event, &mut rows);
    rows
}

/// Whether a name or a value of the event is this.
pub fn has(event: &Event, text: &str) -> bool {
    let text = text.as_bytes();
    of(event).iter().any(|row| {
        row.name.as_deref() == Some(text) || matches!(&row.val, Val::Bytes(bytes) if bytes == text)
    })
}

/// The bytes that source, start and length name. The slice reader has one store, a chunk reader two.
pub fn span<'a>(stores: &[&'a [u8]], words: &[u32]) -> Option<&'a [u8]> {
    let [source, start, len] = [words[0], words[1], words[2]].map(|word| word as usize);
    stores.get(source)?.get(start..start + len)
}

/// What a row's words say, with the bytes that their spans name. None if a span ends outside, or a word that is not used is not 0.
fn row(stores: &[&[u8]], words: &[u32]) -> Option<Row> {
    let bytes = |words| span(stores, words).map(<[u8]>::to_vec);
    let name = match (words[0], &words[1..4]) {
        (2 | 3 | 15, name) => Some(bytes(name)?),
        (_, [0, 0, 0]) => None,
        _ => return None,
    };
    let val = match (words[4], &words[5..]) {
        (2 | 4 | 5, value) => Val::Bytes(bytes(value)?),
        (6 | 7 | 10, [0, 0, word]) => Val::B32(*word),
        (8 | 9 | 11, [0, high, low]) => Val::B64(u64::from(*high) << 32 | u64::from(*low)),
        (_, [0, 0, 0]) => Val::None,
        _ => return None,
    };
    Some(Row {
        kind: words[0].try_into().ok()?,
        name,
        ty: words[4].try_into().ok()?,
        val,
    })
}

pub fn read(stores: &[&[u8]], words: &[u32]) -> Option<Vec<Row>> {
    words
        .chunks_exact(8)
        .map(|words| row(stores, words))
        .collect()
}

/// Whether the words say these rows.
pub fn say(stores: &[&[u8]], words: &[u32], rows: &[Row], seen: &mut Seen) -> bool {
    rows.iter().for_each(|row| seen.row(row));
    words.len() == 8 * rows.len()
        && words
            .chunks_exact(8)
            .zip(rows)
            .all(|(words, expected)| row(stores, words).as_ref() == Some(expected))
}
