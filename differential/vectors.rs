//! The documents whose answers are stored: small ones, for each refusal, kind and type and each edge of the paper.

use crate::documents::{self, hex, Random, HEADER};

/// Documents whose header is not whole or not the header.
const HEADERS: [&str; 9] = [
    "",
    "41",
    "4142",
    "414258",
    "41425801",
    "00584241",
    "FFFFFFFF",
    "4142570010",
    "61627800",
];

/// Bodies: those of the paper first, then what they leave out.
const BODIES: [&str; 68] = [
    "",
    "04",
    "240000",
    "2400",
    "24000241",
    "0F",
    "320000",
    "32FFFF000170EFFFFF000176",
    "32FFFF0001C0",
    "32FFFF000170CF0000",
    "32FFFF000170",
    "240003EDA080",
    "240004F4908080",
    "240004F09F9880",
    "1032FFFF0001706FFFFF00017600000003330000",
    "1032FFFF0001706FFFFF0001760000000333000011",
    // the end of input in a token's fields
    "24",
    "240001",
    "32",
    "3200",
    "32FF",
    "32FFFF",
    "32FFFF00",
    "32FFFF0001",
    "33",
    "33FFFF000270",
    "32FFFF0001706F",
    "32FFFF0001706F00",
    "32FFFF0001706F0000",
    "32FFFF0001706F0000000000",
    "32FFFF0001708F000000000000000000",
    "32FFFF0001702F00000002",
    "32FFFF0001704F00000002FF",
    "32FFFF0001705F00000001",
    "32FFFF0001703F0000",
    "32FFFF0001703F0000FFFF000161",
    // indexes
    "330000",
    "33FFFE",
    "32FFFF000170330001",
    "32FFFF000170CFFFFF000161DF0001",
    "32FFFF000170CF0001",
    "33FFFF00017033FFFF000170330001330000",
    "32FFFF0001703F00000000",
    "32FFFF0001703F00000001",
    // a refused event adds no names; the types of unknown attributes after the name
    "33FFFF00016132FFFF0001620F0000330001",
    "32FFFF0001700F",
    "32FFFF0001700F0000",
    "32FFFF000170EF0001",
    "32FFFF000170FF0000",
    "32FFFF000170EFFFFF000180",
    // commands, whose type nibble says nothing
    "0B",
    "2C",
    "FD",
    "0E",
    "FF",
    "00",
    "F0",
    "01",
    "F1",
    "02FFFF000161",
    "F2FFFF000161F30000",
    "1100",
    // strings
    "240001FF",
    "240002C080",
    "240003E4B8AD",
    "25000161260001622700012028000161290001002A000178",
    "32FFFF000002FFFF0001000300000300012F",
    "32FFFF0001701F00002F000000013F3F0000FFFF0001624F00000001805F000000006F000080000000",
];

/// The list, without repeats.
pub fn list() -> Vec<Vec<u8>> {
    let mut list: Vec<Vec<u8>> = HEADERS.iter().map(|s| hex(s)).collect();
    let mut add = |document: &[u8]| {
        if document.len() <= 120 && !list.iter().any(|known| known == document) {
            list.push(document.to_vec());
        }
    };
    for body in BODIES {
        add(&[&HEADER[..], &hex(body)].concat());
    }
    // a start tag with one attribute of every type, whole and cut
    for of in 0..16 {
        let tag = [&HEADER[..], &hex("32FFFF000170"), &[16 * of + 15]].concat();
        let rest = hex("FFFF000176000401020304FFFF000162");
        for len in [4, 5, 6, 7, 9, 10, 11, 13, 14, 16] {
            add(&[&tag[..], &rest[..len]].concat());
        }
    }
    // every command with the types that matter
    for token in 0..=255 {
        if [0, 2, 3, 15].contains(&(token / 16)) {
            add(&[&HEADER[..], &[token], &hex("000133")].concat());
        }
    }
    let random = &mut Random::new(1);
    for i in 0..160 {
        let (document, edges) = documents::some(random, 1 + i % 5, [0, 12, 25][i % 3]);
        add(&document);
        add(&document[..edges[edges.len() / 2]]);
    }
    list
}
