//! The static library's functions (rust/src/library.rs), and what they answer.

#[path = "../rust/src/library.rs"]
mod library;

pub(crate) use library::*;

/// Whether it went well (0), ended (1), was refused (2) or needs more (3), and three words that depend on it.
pub type Answer = [usize; 4];

pub const END: Answer = [1, 0, 0, 0];

pub const NEED_MORE: Answer = [3, 0, 0, 0];

pub fn refused(number: u32, detail: u64) -> Answer {
    [2, number as usize, detail as usize, 0]
}

/// Reads a document by the slice reader and hands each event's rows to the visitor. The answer that is no event.
pub fn read_slice(
    document: &[u8],
    pool: &mut [u32],
    rows: &mut [u32],
    mut visit: impl FnMut(&[u32]),
) -> Answer {
    let mut answer = abx_slice_create(document, pool);
    let [0, mut at, mut names, _] = answer else {
        return answer;
    };
    loop {
        answer = abx_slice_next(at, names, document, pool, rows);
        let [0, count, new_at, new_names] = answer else {
            return answer;
        };
        visit(&rows[..8 * count]);
        (at, names) = (new_at, new_names);
    }
}

// ---- queries

#[derive(Clone, Copy, PartialEq, Debug)]
pub enum QueryKind {
    FindAttribute,
    AttributesOf,
    FindAllAttributes,
    AllAttributesOf,
}

impl QueryKind {
    pub const ALL: [QueryKind; 4] = [
        QueryKind::FindAttribute,
        QueryKind::AttributesOf,
        QueryKind::FindAllAttributes,
        QueryKind::AllAttributesOf,
    ];
}

/// What is asked for. Two of the four do not look at the attribute's name.
#[derive(Clone, Debug)]
pub struct Query {
    pub kind: QueryKind,
    pub element: Vec<u8>,
    pub name: Vec<u8>,
}

/// Found (0), at the end (1) or refused (2); place and names; events and rows; a refusal's number and detail.
pub type Told = [usize; 7];

/// An answer of so many words; all but seven are for a test.
pub fn ask<const WORDS: usize>(
    query: &Query,
    [at, names]: [usize; 2],
    document: &[u8],
    pool: &mut [u32],
    rows: &mut [u32],
) -> [usize; WORDS] {
    let (element, name) = (&query.element, &query.name);
    match query.kind {
        QueryKind::FindAttribute => {
            abx_find_attribute(at, names, document, pool, rows, element, name)
        }
        QueryKind::AttributesOf => abx_attributes_of(at, names, document, pool, rows, element),
        QueryKind::FindAllAttributes => {
            abx_find_all_attributes(at, names, document, pool, rows, element, name)
        }
        QueryKind::AllAttributesOf => {
            abx_all_attributes_of(at, names, document, pool, rows, element)
        }
    }
}
