//! Lent words or bytes, beside what they should hold.

pub struct Lent<T> {
    pub now: Vec<T>,
    expected: Vec<T>,
    unwritten: fn(usize) -> T,
}

/// Up to this length all is compared after every call; else what is near the words that the call may write, and all at the
/// end of a document. A wrong word stays wrong till then, so none is missed.
const SMALL: usize = 2048;

/// A word that was not written: no start, length, kind or type.
pub fn unwritten_word(i: usize) -> u32 {
    0xA500_0000 | (i as u32).wrapping_mul(0x9E37) & 0x00FF_FFFF
}

pub fn unwritten_byte(i: usize) -> u8 {
    0xA5 ^ i as u8
}

impl<T: Copy + PartialEq> Lent<T> {
    pub fn new(len: usize, unwritten: fn(usize) -> T) -> Lent<T> {
        let now: Vec<T> = (0..len).map(unwritten).collect();
        Lent {
            expected: now.clone(),
            now,
            unwritten,
        }
    }

    /// All as unwritten again.
    pub fn renew(&mut self) {
        *self = Lent::new(self.len(), self.unwritten);
    }

    pub fn len(&self) -> usize {
        self.now.len()
    }

    /// At least so many, the new ones unwritten.
    pub fn grow(&mut self, len: usize) {
        let new = self.len()..len.max(self.len());
        self.now.extend(new.clone().map(self.unwritten));
        self.expected.extend(new.map(self.unwritten));
    }

    /// Those from 0 to `len` as unwritten again.
    pub fn clear(&mut self, len: usize) {
        for i in 0..len.min(self.len()) {
            self.now[i] = (self.unwritten)(i);
            self.expected[i] = (self.unwritten)(i);
        }
    }

    /// What the next call should write.
    pub fn expect(&mut self, at: usize, values: &[T]) {
        self.expected[at..at + values.len()].copy_from_slice(values);
    }

    /// That the next call should move those of a range to the front.
    pub fn expect_moved(&mut self, range: std::ops::Range<usize>) {
        self.expected.copy_within(range, 0);
    }

    pub fn expected(&self, at: usize) -> T {
        self.expected[at]
    }

    /// What the caller puts there.
    pub fn put(&mut self, at: usize, values: &[T]) {
        self.now[at..at + values.len()].copy_from_slice(values);
        self.expect(at, values);
    }

    /// Whether all near `from..to` is as it should be.
    pub fn holds(&self, from: usize, to: usize) -> bool {
        if self.len() <= SMALL {
            return self.holds_all();
        }
        let to = to.min(self.len());
        let near = from.min(to).saturating_sub(16)..(to + 16).min(self.len());
        self.now[near.clone()] == self.expected[near]
    }

    pub fn holds_all(&self) -> bool {
        self.now == self.expected
    }
}
