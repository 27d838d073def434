//! The documents that are compared: all short ones, and seeded ones with damage. Each is handed to a visitor.

pub use crate::common::{hex, Random};

pub const HEADER: [u8; 4] = [0x41, 0x42, 0x58, 0x00];

/// For calls that are refused whatever the document holds.
pub const TINY: [&[u8]; 5] = [&HEADER, b"", b"ABX\0\x10", b"ABX\0\x2F", b"AB"];

pub type Visit<'a> = &'a mut dyn FnMut(&[u8]);

/// `start` with each string of these pieces after it, in every order, `count` at a time.
fn strings(start: &mut Vec<u8>, pieces: &[Vec<u8>], count: u32, visit: Visit) {
    if count == 0 {
        return visit(start);
    }
    let len = start.len();
    for piece in pieces {
        start.extend_from_slice(piece);
        strings(start, pieces, count - 1, visit);
        start.truncate(len);
    }
}

// ---- all of a kind

/// All strings of up to two bytes, and those of three and four whose bytes are near the header's; some with an event
/// after them.
pub fn headers(visit: Visit) {
    let bytes: Vec<Vec<u8>> = (0..=255).map(|b| vec![b]).collect();
    for count in 0..=2 {
        strings(&mut vec![], &bytes, count, visit);
    }
    let near: Vec<Vec<u8>> = [
        0x00, 0x01, 0x40, 0x41, 0x42, 0x43, 0x57, 0x58, 0x59, 0x61, 0x80, 0xFF,
    ]
    .map(|b| vec![b])
    .into();
    for count in 3..=4 {
        strings(&mut vec![], &near, count, &mut |header| {
            visit(header);
            visit(&[header, &[0x10]].concat());
        });
    }
    for place in 0..4 {
        for byte in 0..=255 {
            let mut header = HEADER;
            header[place] = byte;
            visit(&header);
            visit(&[&header[..], &[0x10, 0x11]].concat());
        }
    }
}

/// All bodies that begin so and go on with `count` bytes.
pub fn bodies(start: &str, count: usize, visit: Visit) {
    let mut document = [&HEADER[..], &hex(start), &vec![0; count]].concat();
    let from = document.len() - count;
    for n in 0..1u64 << (8 * count) {
        document[from..].copy_from_slice(&n.to_be_bytes()[8 - count..]);
        visit(&document);
    }
}

/// A start tag, then every token, with a name and a value that complete it, or not, and something after it: whole, and
/// cut at every length.
pub fn attributes(visit: Visit) {
    let names = [
        "0000",
        "0001",
        "FFFE",
        "FFFF0000",
        "FFFF000176",
        "FFFF0001C0",
        "FFFF0002C3A9",
    ];
    let values = [
        "",
        "0000",
        "0001",
        "000161",
        "000180",
        "0003E4B8AD",
        "0003EDA080",
        "0004F09F9880",
        "FFFF0000",
        "FFFF000177",
        "FFFF0001FF",
        "00000003",
        "FFC00001",
        "0102030405060708",
        "7FF0000000000001",
    ];
    let rest = ["", "11", "04", "330000", "330002", "CF0001", "EF0000"];
    for token in 0..=255 {
        for name in names {
            for value in values {
                for rest in rest {
                    let mut document = [&HEADER[..], &hex("32FFFF000170"), &[token]].concat();
                    let from = document.len();
                    document.extend(hex(name));
                    document.extend(hex(value));
                    document.extend(hex(rest));
                    visit(&document);
                    if rest.is_empty() {
                        (from..document.len()).for_each(|cut| visit(&document[..cut]));
                    }
                }
            }
        }
    }
}

/// A start tag, then every token with `count` small pieces after it.
pub fn pieces_after_tokens(count: u32, visit: Visit) {
    let pieces = ["00", "0000", "0001", "FFFF", "61", "C3", "2F", "33"].map(hex);
    for token in 0..=255 {
        let mut start = [&HEADER[..], &hex("32FFFF000170"), &[token]].concat();
        strings(&mut start, &pieces, count, visit);
    }
}

/// Events of every kind and damaged ones, `count` in a row.
pub fn events(count: u32, visit: Visit) {
    let mut pieces: Vec<Vec<u8>> = [
        "00",
        "10",
        "F0",
        "01",
        "11",
        "0B",
        "2C",
        "FD",
        "0E",
        "0F",
        "2F",
        "FF",
        "02",
        "32",
        "3200",
        "320000",
        "320001",
        "32FFFE",
        "32FFFF0000",
        "32FFFF000170",
        "02FFFF000171",
        "F2FFFF000172",
        "32FFFF0001C0",
        "32FFFF0002C3A9",
        "32FFFF000270",
        "32FFFF00",
        "03",
        "330000",
        "330001",
        "33FFFF000170",
        "13FFFF0000",
        "33FFFF000180",
        "CF0000",
        "DF0001",
        "1FFFFF000161",
        "2F00000000",
        "2F0000000162",
        "2F00000001E9",
        "3F00000000",
        "3F00000001",
        "3F0000FFFF000163",
        "4F00000002FFFE",
        "4F000000",
        "5F00010000",
        "6F000080000000",
        "7F0000CAFEBABE",
        "8F0000FFFFFFFFFFFFFFFE",
        "9F00000123456789ABCDEF",
        "AF00007FC00001",
        "BF0000FFF8000000000001",
        "0F0000",
        "EF0000",
        "FF0000",
        "24",
        "2400",
        "240000",
        "24000141",
        "240002C280",
        "2400014180",
        "240001F8",
        "04",
        "14",
        "34",
        "F4",
    ]
    .map(hex)
    .into();
    for command in 5..=10 {
        pieces.push(vec![command]);
        pieces.push(vec![0x20 + command, 0, 2, 0xCF, 0x80]);
    }
    strings(&mut HEADER.to_vec(), &pieces, count, visit);
}

// ---- seeded

/// Strings that break RFC 3629, at the edges of its table.
const BROKEN: [&str; 12] = [
    "80", "BF", "C080", "C1BF", "C2", "E09F80", "EDA080", "E4B8", "F0808080", "F4908080", "F5",
    "FF",
];

const CHARS: [&str; 12] = [
    "00", "61", "7F", "C280", "DFBF", "E0A080", "ED9FBF", "EE8080", "EFBFBF", "F0908080",
    "F09F9880", "F48FBFBF",
];

const NUMBERS: [&str; 7] = [
    "00000000", "00000003", "7FFFFFFF", "80000000", "FFFFFFFF", "7F800001", "FFC00001",
];

/// A document in the making. `odd` is how many fields have one wrong among them; 0 for none.
pub struct Maker<'a> {
    pub document: Vec<u8>,
    /// Where fields begin.
    pub edges: Vec<usize>,
    names: usize,
    odd: usize,
    random: &'a mut Random,
}

impl<'a> Maker<'a> {
    pub fn new(random: &'a mut Random, odd: usize) -> Maker<'a> {
        Maker {
            document: HEADER.to_vec(),
            edges: vec![4],
            names: 0,
            odd,
            random,
        }
    }

    fn odd(&mut self) -> bool {
        self.odd > 0 && self.random.once_in(self.odd)
    }

    fn put(&mut self, bytes: &[u8]) {
        self.document.extend_from_slice(bytes);
        self.edges.push(self.document.len());
    }

    fn u16(&mut self, n: usize) {
        self.put(&(n as u16).to_be_bytes());
    }

    /// A length, mostly the right one, and the bytes.
    fn bytes(&mut self, bytes: &[u8]) {
        let len = match self.odd() {
            false => bytes.len(),
            true => bytes.len() + self.random.below(3),
        };
        self.u16(len.min(65_535));
        self.put(bytes);
    }

    fn string(&mut self) {
        let mut bytes = vec![];
        for _ in 0..self.random.below(7) {
            match self.random.once_in(3) {
                true => bytes.extend(hex(self.random.of(&CHARS))),
                false => bytes.push(b'a' + self.random.below(26) as u8),
            }
        }
        if self.odd() {
            let place = self.random.below(bytes.len() + 1);
            let broken = hex(self.random.of(&BROKEN));
            bytes.splice(place..place, broken);
        }
        self.bytes(&bytes);
    }

    fn name(&mut self) {
        if self.names == 0 || self.random.once_in(4) {
            self.u16(65_535);
            self.string();
            self.names += 1;
            return;
        }
        let index = match self.odd() {
            false => self.random.below(self.names),
            true => self.names + [0, 1, 65_534 - self.names][self.random.below(3)],
        };
        self.u16(index);
    }

    fn number(&mut self) {
        let number = match self.random.once_in(2) {
            true => hex(self.random.of(&NUMBERS)),
            false => (0..4).map(|_| self.random.below(256) as u8).collect(),
        };
        self.put(&number);
    }

    fn attribute(&mut self) {
        let of = match self.odd() {
            false => 1 + self.random.below(13),
            true => [0, 14, 15][self.random.below(3)],
        };
        self.put(&[(16 * of + 15) as u8]);
        self.name();
        match of {
            2 => self.string(),
            3 => self.name(),
            4 | 5 => {
                let blob: Vec<u8> = (0..self.random.below(9))
                    .map(|_| self.random.below(256) as u8)
                    .collect();
                self.bytes(&blob);
            }
            6 | 7 | 10 => self.number(),
            8 | 9 | 11 => {
                self.number();
                self.number();
            }
            _ => {}
        }
    }

    /// An event of any kind. The type nibble of the commands that do not look at it is anything.
    pub fn event(&mut self) {
        let command = match self.odd() {
            false => [0, 1, 2, 2, 2, 2, 3, 3, 4, 5, 6, 7, 8, 9, 10][self.random.below(15)],
            true => 11 + self.random.below(5),
        };
        let any = self.random.below(16);
        match command {
            2 => {
                self.put(&[(16 * any + 2) as u8]);
                self.name();
                for _ in 0..self.random.below(6) {
                    self.attribute();
                }
            }
            3 => {
                self.put(&[(16 * any + 3) as u8]);
                self.name();
            }
            4..=10 => {
                let of = if self.random.once_in(3) { any } else { 2 };
                self.put(&[(16 * of + command) as u8]);
                if of == 2 {
                    self.string();
                }
            }
            _ => self.put(&[(16 * any + command) as u8]),
        }
    }

    /// A text event of `len` bytes.
    fn text(&mut self, len: usize) {
        self.put(&[0x24]);
        self.bytes(&vec![b'x'; len]);
    }

    /// Events until the document has exactly `size` bytes.
    fn fill(mut self, size: usize) -> Vec<u8> {
        while self.document.len() + 70_000 < size {
            self.event();
            self.edges.clear();
        }
        while self.document.len() < size {
            match size - self.document.len() {
                1 | 2 => self.put(&[0x10]),
                rest => self.text((rest - 3).min(65_535)),
            }
        }
        self.document
    }
}

/// A document of some events.
pub fn some(random: &mut Random, events: usize, odd: usize) -> (Vec<u8>, Vec<usize>) {
    let mut maker = Maker::new(random, odd);
    (0..events).for_each(|_| maker.event());
    (maker.document, maker.edges)
}

/// A document of exactly `size` bytes, with events of every kind.
pub fn sized(random: &mut Random, size: usize) -> Vec<u8> {
    Maker::new(random, 0).fill(size)
}

/// The document cut at every length, and with each byte changed in several ways.
pub fn damaged(document: &[u8], ways: &[u8], visit: Visit) {
    (0..document.len()).for_each(|cut| visit(&document[..cut]));
    let mut changed = document.to_vec();
    for place in 0..document.len() {
        for way in ways {
            changed[place] = document[place] ^ way;
            visit(&changed);
        }
        changed[place] = document[place];
    }
}

/// The document cut and changed only near the places given.
pub fn damaged_near(document: &[u8], places: &[usize], visit: Visit) {
    let mut changed = document.to_vec();
    for edge in places {
        for place in edge.saturating_sub(2)..(edge + 2).min(document.len()) {
            visit(&document[..place]);
            changed[place] ^= 0x81;
            visit(&changed);
            changed[place] = document[place];
        }
    }
}

// ---- long

/// Long strings in every place where one can stand, with one, three and four bytes a character, some of them broken.
pub fn long_strings(visit: Visit) {
    let places = [
        "24",
        "32FFFF",
        "33FFFF",
        "32FFFF0000DFFFFF",
        "32FFFF00002F0000",
        "32FFFF00003F0000FFFF",
        "32FFFF00004F0000",
        "32FFFF00005F0000",
    ];
    for len in [255, 256, 32_767, 32_768, 65_532, 65_533, 65_534, 65_535] {
        for char in ["61", "E4B8AD", "F09F9880"] {
            let mut text = hex(char).repeat(len / (char.len() / 2));
            text.resize(len, b'z');
            for place in places {
                let field = [&(len as u16).to_be_bytes()[..], &text].concat();
                let document = [&HEADER[..], &hex(place), &field, &hex("320000")].concat();
                let from = 4 + place.len() / 2;
                visit(&document);
                damaged_near(&document, &[from, from + 2, from + 2 + len], visit);
            }
        }
    }
}

/// `count` new names, in end tags or in attributes of one start tag, and what comes after them.
pub fn names_and(count: usize, one_tag: bool, rest: &str) -> Vec<u8> {
    let mut document = HEADER.to_vec();
    for i in 0..count {
        match one_tag {
            true if i > 0 => document.push(0xCF),
            true => document.push(0x32),
            false => document.push(0x33),
        }
        document.extend([0xFF, 0xFF, 0, 5]);
        document.extend(format!("{i:05}").bytes());
    }
    document.extend(hex(rest));
    document
}

/// Names by index at the pool's limit, and new ones past it.
pub const PAST_THE_LIMIT: &str = "33FFFD33FFFE33FFFF0003616263330000";

/// `count` new names; then names by index, near the last and near the limit.
pub fn many_names(count: usize, visit: Visit) {
    let last = count.min(65_535) - 1;
    for one_tag in [false, true] {
        for rest in [
            "",
            &format!("33{last:04X}"),
            &format!("33{:04X}", (last + 1).min(65_534)),
            "32FFFECFFFFF0000DF0000",
            PAST_THE_LIMIT,
            "32FFFF000161CFFFFF0001620F0000",
        ] {
            visit(&names_and(count, one_tag, rest));
        }
    }
}

/// One start tag with attributes of every type, to about `size` bytes.
pub fn long_tag(random: &mut Random, size: usize) -> Vec<u8> {
    let mut maker = Maker::new(random, 0);
    maker.put(&[0x32]);
    maker.name();
    while maker.document.len() < size {
        maker.attribute();
        maker.edges.clear();
    }
    maker.document
}

/// A start tag of exactly `size` bytes, 6 or more and not 7 to 10.
pub fn tag_of(size: usize) -> Vec<u8> {
    let mut tag = hex("32FFFF000170");
    while tag.len() < size {
        let rest = size - tag.len();
        let len = match rest - 5 {
            len @ 0..=65_535 => len,
            _ => 60_000.min(rest - 10),
        };
        tag.extend(hex("4F0000"));
        tag.extend((len as u16).to_be_bytes());
        tag.resize(tag.len() + len, 0xFF);
    }
    tag
}

/// Lists with a string or a blob of these bytes in each place where one can stand.
pub fn lists_with(text: &str) -> Vec<Vec<android_abx::Event>> {
    use android_abx::{Attribute, AttributeValue, Event};
    let tag = |name: &str, attribute: &str, value| Event::StartTag {
        name: name.into(),
        attributes: vec![Attribute {
            name: attribute.into(),
            value,
        }],
    };
    let bytes = text.as_bytes().to_vec();
    let events = [
        Event::Text(text.into()),
        Event::EndTag { name: text.into() },
        tag(text, "a", AttributeValue::Null),
        tag("p", text, AttributeValue::Boolean(true)),
        tag("p", "a", AttributeValue::String(text.into())),
        tag("p", "a", AttributeValue::BytesHex(bytes.clone())),
        tag("p", "a", AttributeValue::BytesBase64(bytes)),
        tag(text, text, AttributeValue::String(text.into())),
    ];
    let with = |event| {
        vec![
            Event::StartDocument,
            event,
            Event::EndTag { name: "p".into() },
        ]
    };
    events.into_iter().map(with).collect()
}
