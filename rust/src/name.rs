//! Names of tags and attributes, which come again and again.

use std::borrow::{Borrow, Cow};
use std::convert::Infallible;
use std::ops::Deref;
use std::str::FromStr;
use std::sync::Arc;
use std::{cmp, fmt, hash};

/// A tag's or an attribute's name: a string that is cheap to clone.
///
/// Up to 30 bytes are held in the value itself, longer names are shared. It is used as a `&str` is, compares with one, and is made of one by
/// `into`.
///
/// ```
/// use abx::InternedStr;
///
/// let name: InternedStr = "lamp".into();
/// assert_eq!(name, "lamp");
/// assert_eq!(name.len(), 4);
/// assert_eq!(String::from(name), "lamp");
/// ```
#[derive(Clone)]
pub struct InternedStr(Held);

/// The longest name that is held in the value: with its length and the enum's mark it takes 32 bytes.
pub(crate) const SHORT: usize = 30;

#[derive(Clone)]
enum Held {
    Short(Short),
    Long(Arc<str>),
}

#[derive(Clone, Copy)]
struct Short {
    len: u8,
    /// The first `len` of these are a `str`'s bytes; what follows is anything.
    bytes: [u8; SHORT],
}

impl Short {
    fn new(s: &str) -> Option<Short> {
        let mut bytes = [0; SHORT];
        bytes.get_mut(..s.len())?.copy_from_slice(s.as_bytes());
        let len = s.len() as u8;
        Some(Short { len, bytes })
    }

    fn as_str(&self) -> &str {
        let bytes = self.bytes.get(..self.len.into()).unwrap_or_default();
        // SAFETY: of a `Short` the first `len` bytes are a `str`'s where it is made, and nothing changes one.
        unsafe { std::str::from_utf8_unchecked(bytes) }
    }
}

impl InternedStr {
    /// This name.
    pub fn new(name: impl AsRef<str>) -> InternedStr {
        InternedStr::from(name.as_ref())
    }

    pub(crate) const EMPTY: InternedStr = InternedStr(Held::Short(Short {
        len: 0,
        bytes: [0; SHORT],
    }));

    /// A short name with what stands behind it: that is copied at once, whatever the name's length is.
    ///
    /// # Safety
    ///
    /// The first `len` bytes, of which there are at most `SHORT`, are well-formed UTF-8.
    #[inline(always)]
    pub(crate) unsafe fn short(bytes: &[u8; SHORT], len: usize) -> InternedStr {
        InternedStr(Held::Short(Short {
            len: len as u8,
            bytes: *bytes,
        }))
    }

    /// The name as a string.
    #[inline]
    pub fn as_str(&self) -> &str {
        match &self.0 {
            Held::Short(short) => short.as_str(),
            Held::Long(long) => long,
        }
    }
}

impl Deref for InternedStr {
    type Target = str;

    #[inline]
    fn deref(&self) -> &str {
        self.as_str()
    }
}

impl AsRef<str> for InternedStr {
    fn as_ref(&self) -> &str {
        self
    }
}

impl Borrow<str> for InternedStr {
    fn borrow(&self) -> &str {
        self
    }
}

impl Default for InternedStr {
    fn default() -> InternedStr {
        InternedStr::EMPTY
    }
}

impl fmt::Debug for InternedStr {
    fn fmt(&self, f: &mut fmt::Formatter<'_>) -> fmt::Result {
        fmt::Debug::fmt(self.as_str(), f)
    }
}

impl fmt::Display for InternedStr {
    fn fmt(&self, f: &mut fmt::Formatter<'_>) -> fmt::Result {
        fmt::Display::fmt(self.as_str(), f)
    }
}

// ---- compared as strings are, and hashed as them, so that a map of names can be asked with a `str`

impl PartialEq for InternedStr {
    fn eq(&self, other: &InternedStr) -> bool {
        self.as_str() == other.as_str()
    }
}

impl Eq for InternedStr {}

impl PartialOrd for InternedStr {
    fn partial_cmp(&self, other: &InternedStr) -> Option<cmp::Ordering> {
        Some(self.cmp(other))
    }
}

impl Ord for InternedStr {
    fn cmp(&self, other: &InternedStr) -> cmp::Ordering {
        self.as_str().cmp(other)
    }
}

impl hash::Hash for InternedStr {
    fn hash<H: hash::Hasher>(&self, state: &mut H) {
        self.as_str().hash(state);
    }
}

macro_rules! compared {
    ($($other:ty),*) => {$(
        impl PartialEq<$other> for InternedStr {
            fn eq(&self, other: &$other) -> bool {
                let other: &str = other;
                self.as_str() == other
            }
        }

        impl PartialEq<InternedStr> for $other {
            fn eq(&self, other: &InternedStr) -> bool {
                other == self
            }
        }
    )*};
}

compared!(str, &str, String, &String);

// ---- made of strings, and made into them

impl From<&str> for InternedStr {
    fn from(name: &str) -> InternedStr {
        InternedStr(match Short::new(name) {
            Some(short) => Held::Short(short),
            None => Held::Long(name.into()),
        })
    }
}

impl From<Arc<str>> for InternedStr {
    fn from(name: Arc<str>) -> InternedStr {
        InternedStr(match Short::new(&name) {
            Some(short) => Held::Short(short),
            None => Held::Long(name),
        })
    }
}

impl From<char> for InternedStr {
    fn from(name: char) -> InternedStr {
        InternedStr::from(&*name.encode_utf8(&mut [0; 4]))
    }
}

macro_rules! made_of {
    ($($other:ty),*) => {$(
        impl From<$other> for InternedStr {
            fn from(name: $other) -> InternedStr {
                let name: &str = &name;
                InternedStr::from(name)
            }
        }
    )*};
}

made_of!(&mut str, String, &String, Box<str>, Cow<'_, str>);

impl FromStr for InternedStr {
    type Err = Infallible;

    fn from_str(name: &str) -> Result<InternedStr, Infallible> {
        Ok(name.into())
    }
}

impl FromIterator<char> for InternedStr {
    fn from_iter<I: IntoIterator<Item = char>>(chars: I) -> InternedStr {
        String::from_iter(chars).into()
    }
}

impl From<InternedStr> for String {
    fn from(name: InternedStr) -> String {
        name.as_str().to_owned()
    }
}

impl From<InternedStr> for Arc<str> {
    fn from(name: InternedStr) -> Arc<str> {
        match name.0 {
            Held::Short(short) => short.as_str().into(),
            Held::Long(long) => long,
        }
    }
}

// ---- names that were handed out before

/// The long names that a reader has handed out, by where they start in the store that keeps them: one that comes again is shared. No two of them
/// start as near as a slot is long.
#[derive(Debug, Clone, Default)]
pub(crate) struct Known {
    slots: Vec<Option<Arc<str>>>,
}

const SLOT: usize = SHORT + 1;

impl Known {
    /// The name that starts there.
    pub(crate) fn name(&mut self, start: u32, name: &str) -> InternedStr {
        if let Some(short) = Short::new(name) {
            return InternedStr(Held::Short(short));
        }
        let at = start as usize / SLOT;
        if self.slots.len() <= at {
            self.slots.resize((at + 1).max(2 * self.slots.len()), None);
        }
        let shared = match self.slots.get_mut(at) {
            Some(Some(shared)) if **shared == *name => shared.clone(),
            Some(slot) => slot.insert(name.into()).clone(),
            None => name.into(),
        };
        InternedStr(Held::Long(shared))
    }
}

#[cfg(test)]
mod tests {
    use super::*;
    use std::collections::HashMap;
    use std::mem::size_of;

    #[test]
    fn lengths_around_the_limit() {
        assert_eq!(size_of::<InternedStr>(), 32);
        for len in 0..64 {
            let name: String = "é€a".chars().cycle().take(len).collect();
            let held = InternedStr::from(&name);
            assert_eq!(held, name);
            assert_eq!(name, held);
            assert_eq!(held.clone().as_str(), name);
            assert_eq!(held.to_string(), name);
            assert_eq!(format!("{held:?}"), format!("{name:?}"));
            assert_eq!(InternedStr::from(Arc::<str>::from(&*name)), held);
            assert_eq!(&*Arc::<str>::from(held.clone()), &name);
            assert_eq!(String::from(held), name);
        }
    }

    #[test]
    fn a_map_is_asked_with_a_str() {
        let long = "a name that is held apart, as it is long";
        let map: HashMap<InternedStr, u8> = [("a".into(), 1), (long.into(), 2)].into();
        assert_eq!((map.get("a"), map.get(long)), (Some(&1), Some(&2)));
        let mut names: Vec<InternedStr> = ["b".into(), long.into(), "a".into()].into();
        names.sort();
        assert_eq!(names, ["a", long, "b"]);
        assert_eq!("ab".parse::<InternedStr>().unwrap(), "ab");
        assert_eq!(InternedStr::default(), "");
    }

    #[test]
    fn long_names_are_shared() {
        let mut known = Known::default();
        let long = "n".repeat(SHORT + 1);
        let address = |name: &InternedStr| name.as_ptr();
        let first = known.name(100, &long);
        assert_eq!(address(&first), address(&known.name(100, &long)));
        let other = known.name(100 + long.len() as u32, &long);
        assert_ne!(address(&first), address(&other));
        assert_eq!(other, first);
        assert_eq!(known.name(0, "short"), "short");
        // Another name there is not taken for the first.
        let changed = "m".repeat(SHORT + 1);
        assert_eq!(known.name(100, &changed), changed);
    }
}
