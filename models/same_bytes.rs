//! `equal_bytes::same_bytes` beside Rust's `==`.

use crate::common::{hex, Random};

mod library {
    #[link(name = "same_bytes", kind = "static")]
    extern "C" {
        pub fn same_bytes(a: *const u8, a_length: usize, b: *const u8, b_length: usize) -> bool;
    }
}

pub fn same_bytes(a: &[u8], b: &[u8]) -> bool {
    // SAFETY: both are slices, and are only read.
    unsafe { library::same_bytes(a.as_ptr(), a.len(), b.as_ptr(), b.len()) }
}

/// The pairs of names of same_bytes.txt.
pub fn stored_agree() -> bool {
    let mut good = true;
    let mut count = 0;
    for line in include_str!("same_bytes.txt").lines() {
        let line = line.split('#').next().unwrap_or_default();
        let [a, b, same] = line.split_whitespace().collect::<Vec<_>>()[..] else {
            continue;
        };
        count += 1;
        if same_bytes(&hex(a), &hex(b)) != (same == "yes") {
            println!("DIFFERS: {a} {b}, {same} was stored");
            good = false;
        }
    }
    println!("{count} stored pairs of names compared");
    good && count > 0
}

/// A name's bytes, any at all, with other bytes before it, so that words start at any place in memory.
fn name(random: &mut Random, length: usize) -> (Vec<u8>, usize) {
    let before = random.below(9);
    let bytes = (0..before + length).map(|_| random.below(256) as u8);
    (bytes.collect(), before)
}

/// So many pairs of names of up to 140 bytes: equal, with one byte or some bytes changed, two of them swapped, or one name longer.
pub fn agrees(random: &mut Random, pairs: usize) -> bool {
    for _ in 0..pairs {
        let most = [8, 17, 65, 140][random.below(4)];
        let length = random.below(most + 1);
        let (a, before_a) = name(random, length);
        let a = &a[before_a..];
        let (mut b, before_b) = name(random, 0);
        b.extend_from_slice(a);
        match random.below(5) {
            0 => {}
            1 => b.push(random.below(2) as u8),
            2 if length > 0 => b.truncate(before_b + random.below(length)),
            3 if length > 1 => {
                let at = before_b + random.below(length - 1);
                b.swap(at, at + 1);
            }
            _ if length > 0 => {
                for _ in 0..=random.below(3) {
                    b[before_b + random.below(length)] ^= 1 << random.below(8);
                }
            }
            _ => {}
        }
        let b = &b[before_b..];
        if same_bytes(a, b) != (a == b) || same_bytes(b, a) != (a == b) {
            println!("DIFFERS: same_bytes of {a:02x?} and {b:02x?}");
            return false;
        }
    }
    println!("{pairs} pairs of names compared, 0 differ");
    true
}
