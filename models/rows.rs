//! Two stores and words, and which rows they form: what the models of the calls over event lists share.

use crate::common::{hex, Random};

/// Two stores, and words that may form rows.
pub struct List<'a> {
    pub stores: [&'a [u8]; 2],
    pub words: &'a [u32],
}

/// A refusal's number; the detail is 0.
pub type Refusal = u32;

pub enum Value<'a> {
    Nothing,
    String(&'a [u8]),
    Blob(&'a [u8]),
    Bits(u64),
}

pub struct Row<'a> {
    pub kind: u32,
    pub name: Option<&'a [u8]>,
    pub of: u32,
    pub value: Value<'a>,
}

impl<'a> List<'a> {
    /// The bytes of a span, if it ends in its store.
    fn span(&self, words: &[u32]) -> Option<&'a [u8]> {
        let (start, length) = (words[1] as usize, words[2] as usize);
        let store = self.stores.get(words[0] as usize)?;
        store.get(start..start + length)
    }

    pub fn whole_rows(&self) -> usize {
        self.words.len() / 8
    }

    /// The row of a number, if it forms one there: an attribute follows a start tag or an attribute.
    pub fn row(&self, number: usize) -> Option<Row<'a>> {
        if number >= self.whole_rows() {
            return None;
        }
        let words = &self.words[8 * number..][..8];
        let [kind, of] = [words[0], words[4]];
        let before = match number {
            0 => None,
            _ => Some(self.words[8 * number - 8]),
        };
        let has_name = match (kind, of) {
            (0 | 1, 0) | (4..=10, 2) => false,
            (2 | 3, 0) => true,
            (15, 1 | 2 | 4..=13) if matches!(before, Some(2 | 15)) => true,
            _ => return None,
        };
        let name = match (has_name, &words[1..4]) {
            (true, name) => Some(self.span(name)?),
            (false, [0, 0, 0]) => None,
            _ => return None,
        };
        let value = &words[5..8];
        let value = match (of, value) {
            (2, _) => Value::String(self.span(value)?),
            (4 | 5, _) => Value::Blob(self.span(value)?),
            (6 | 7 | 10, [0, 0, n]) => Value::Bits((*n).into()),
            (8 | 9 | 11, [0, high, low]) => Value::Bits(u64::from(*high) << 32 | u64::from(*low)),
            (0 | 1 | 12 | 13, [0, 0, 0]) => Value::Nothing,
            _ => return None,
        };
        Some(Row {
            kind,
            name,
            of,
            value,
        })
    }

    pub fn rows(&self) -> Option<Vec<Row<'a>>> {
        if self.words.len() % 8 != 0 {
            return None;
        }
        (0..self.whole_rows()).map(|n| self.row(n)).collect()
    }
}

/// A list of its own.
pub struct Made {
    pub stores: [Vec<u8>; 2],
    pub words: Vec<u32>,
}

impl Made {
    pub fn new() -> Made {
        Made {
            stores: [vec![], vec![]],
            words: vec![],
        }
    }

    /// From the columns of a stored list.
    pub fn stored(first: &str, second: &str, words: &str) -> Made {
        let words = words.split(',').filter_map(|word| word.parse().ok());
        Made {
            stores: [bytes(first), bytes(second)],
            words: words.collect(),
        }
    }

    pub fn list(&self) -> List<'_> {
        List {
            stores: [&self.stores[0], &self.stores[1]],
            words: &self.words,
        }
    }

    /// Puts bytes into one of the stores, some others before them.
    pub fn span(&mut self, random: &mut Random, bytes: &[u8]) -> [u32; 3] {
        let source = random.below(2);
        let store = &mut self.stores[source];
        store.extend(b"<\0\xFF".iter().take(random.below(4)));
        let start = store.len();
        store.extend(bytes);
        [source, start, bytes.len()].map(|n| n as u32)
    }
}

/// Bytes in hex; `=` for none, and `65*9` for nine of one.
pub fn bytes(column: &str) -> Vec<u8> {
    match column.split_once('*') {
        None => hex(column),
        Some((byte, times)) => hex(byte).repeat(times.parse().expect("a number")),
    }
}

/// A wrong word, or one too few or too many. What comes of it may be rows all the same, or a string that is cut.
pub fn damage(random: &mut Random, words: &mut Vec<u32>) {
    if words.is_empty() {
        return words.push(15);
    }
    let at = random.below(words.len());
    match random.below(8) {
        0 => words.push([0, 15][random.below(2)]),
        1 => words.truncate(at),
        2 => words.drain(..at / 8 * 8).for_each(drop),
        3 => words[at] = words[at].wrapping_add(1),
        4 => words[at] = words[at].wrapping_sub(1),
        5 => words[at / 8 * 8] = random.below(17) as u32,
        6 => words[at / 8 * 8 + 4] = random.below(17) as u32,
        _ => words[at] = [0, 1, 2, 3, 4, 11, 14, 15, 16, u32::MAX][random.below(10)],
    }
}
