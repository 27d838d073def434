//! Where the spans of an event lie, and which words a call that reads it writes.

use crate::lent::Lent;

/// Names that a pool keeps.
pub const POOL_LIMIT: usize = 65_535;

/// Walks the fields of an event that the Rust took, and notes each word that the call should write. The Rust has no spans:
/// these are from the paper.
pub struct Walk<'a> {
    pub document: &'a [u8],
    pub at: usize,
    pub names: usize,
    pub pool: &'a mut Lent<u32>,
    pub rows: &'a mut Lent<u32>,
    pub written: usize,
    /// Where a chunk reader copies new names, and how many bytes of them there are.
    pub store: Option<(&'a mut Lent<u8>, usize)>,
}

impl Walk<'_> {
    pub fn event(&mut self) {
        let (command, of) = self.token();
        match command {
            0 | 1 => self.row([command, 0, 0, 0, 0, 0, 0, 0]),
            2 | 3 => {
                let name = self.name();
                self.row([command, name[0], name[1], name[2], 0, 0, 0, 0]);
                while command == 2 && self.attribute_follows() {
                    self.attribute();
                }
            }
            _ => {
                let text = if of == 2 { self.bytes() } else { [0; 3] };
                self.row([command, 0, 0, 0, 2, text[0], text[1], text[2]]);
            }
        }
    }

    fn attribute(&mut self) {
        let (_, of) = self.token();
        let name = self.name();
        let value = match of {
            2 | 4 | 5 => self.bytes(),
            3 => self.name(),
            6 | 7 | 10 => [0, 0, self.number(4)],
            8 | 9 | 11 => [0, self.number(4), self.number(4)],
            _ => [0; 3],
        };
        let of = if of == 3 { 2 } else { of };
        self.row([
            15, name[0], name[1], name[2], of, value[0], value[1], value[2],
        ]);
    }

    fn attribute_follows(&self) -> bool {
        self.document.get(self.at).is_some_and(|t| t % 16 == 15)
    }

    fn number(&mut self, bytes: usize) -> u32 {
        let number = self.document[self.at..self.at + bytes]
            .iter()
            .fold(0, |n, b| n << 8 | u32::from(*b));
        self.at += bytes;
        number
    }

    fn token(&mut self) -> (u32, u32) {
        let token = self.number(1);
        (token % 16, token / 16)
    }

    /// Source, start and length.
    fn bytes(&mut self) -> [u32; 3] {
        let len = self.number(2);
        let start = self.at as u32;
        self.at += len as usize;
        [0, start, len]
    }

    fn name(&mut self) -> [u32; 3] {
        let index = self.number(2) as usize;
        if index != 65_535 {
            let source = u32::from(self.store.is_some());
            let [start, len] = [2 * index, 2 * index + 1].map(|i| self.pool.expected(i));
            return [source, start, len];
        }
        let [source, start, len] = self.bytes();
        if self.names < POOL_LIMIT {
            let mut kept = start;
            if let Some((store, used)) = &mut self.store {
                kept = *used as u32;
                store.expect(*used, &self.document[start as usize..self.at]);
                *used += len as usize;
            }
            self.pool.expect(2 * self.names, &[kept, len]);
            self.names += 1;
        }
        [source, start, len]
    }

    fn row(&mut self, words: [u32; 8]) {
        self.rows.expect(self.written, &words);
        self.written += 8;
    }
}
