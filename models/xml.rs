//! The XML text of events beside a model of it, and the stored lists of xml.txt. The lists have every kind and type, in two stores, with
//! broken UTF-8, characters that XML does not allow and words that form no rows; the outputs are just long enough, just too short, or longer.

use crate::common::Random;
use crate::ours::{self, Answer};
use crate::rows::{bytes, damage, List, Made, Refusal, Row, Value};
use crate::{agreed, Seen};

const MOST_OUTPUT: usize = 16_777_216;

/// What an output holds that was not written.
const UNWRITTEN: u8 = 0xAA;

// ---- the model, from the paper's words

fn signed(n: i64, base: u32) -> String {
    let sign = if n < 0 { "-" } else { "" };
    let size = n.unsigned_abs();
    match base {
        10 => format!("{sign}{size}"),
        _ => format!("{sign}{size:x}"),
    }
}

/// RFC 4648: six bits a digit, and four digits for every three bytes, with `=` where there are no bits.
fn base64(bytes: &[u8]) -> String {
    let bits: Vec<u8> = bytes
        .iter()
        .flat_map(|byte| (0..8).rev().map(move |bit| byte >> bit & 1))
        .collect();
    let digit = |six: &[u8]| {
        let bit = |at: usize| six.get(at).copied().unwrap_or(0);
        let n = (0..6).fold(0, |n, at| 2 * n + bit(at));
        (match n {
            0..=25 => b'A' + n,
            26..=51 => b'a' + n - 26,
            52..=61 => b'0' + n - 52,
            62 => b'+',
            _ => b'/',
        }) as char
    };
    let mut text: String = bits.chunks(6).map(digit).collect();
    while text.len() % 4 > 0 {
        text.push('=');
    }
    text
}

impl List<'_> {
    /// Whether no attribute comes after the row.
    fn is_last(&self, number: usize) -> bool {
        number + 1 >= self.whole_rows() || self.words[8 * number + 8] != 15
    }
}

fn escaped(string: &[u8]) -> Vec<u8> {
    let mut text = vec![];
    for byte in string {
        match byte {
            b'<' => text.extend(b"&lt;"),
            b'>' => text.extend(b"&gt;"),
            b'&' => text.extend(b"&amp;"),
            b'"' => text.extend(b"&quot;"),
            b'\'' => text.extend(b"&apos;"),
            _ => text.push(*byte),
        }
    }
    text
}

/// XML 1.0, production 2.
fn is_char(c: char) -> bool {
    matches!(c, '\t' | '\n' | '\r' | '\u{20}'..='\u{D7FF}' | '\u{E000}'..='\u{FFFD}' | '\u{10000}'..='\u{10FFFF}')
}

impl Row<'_> {
    fn strings(&self) -> Vec<&[u8]> {
        let value = match self.value {
            Value::String(string) => Some(string),
            _ => None,
        };
        self.name.into_iter().chain(value).collect()
    }

    /// An attribute's value.
    fn value_text(&self) -> Vec<u8> {
        let text = match (self.of, &self.value) {
            (_, Value::String(string)) => return escaped(string),
            (4, Value::Blob(blob)) => blob.iter().map(|byte| format!("{byte:02x}")).collect(),
            (_, Value::Blob(blob)) => base64(blob),
            (6, Value::Bits(n)) => signed((*n as i32).into(), 10),
            (7, Value::Bits(n)) => signed((*n as i32).into(), 16),
            (8, Value::Bits(n)) => signed(*n as i64, 10),
            (9, Value::Bits(n)) => signed(*n as i64, 16),
            (10, Value::Bits(n)) => format!("{n:08x}"),
            (_, Value::Bits(n)) => format!("{n:016x}"),
            (12, Value::Nothing) => "true".into(),
            (13, Value::Nothing) => "false".into(),
            (_, Value::Nothing) => String::new(),
        };
        text.into_bytes()
    }

    /// The row's part of its event's text.
    fn text(&self, is_last: bool) -> Vec<u8> {
        let name = self.name.unwrap_or_default();
        let string = match self.value {
            Value::String(string) => string,
            _ => b"",
        };
        let close: &[u8] = if is_last { b">" } else { b"" };
        let parts: [&[u8]; 3] = match self.kind {
            0 | 1 => return vec![],
            2 => [b"<", name, close],
            3 => [b"</", name, b">"],
            4 => return escaped(string),
            5 => [b"<![CDATA[", string, b"]]>"],
            6 => [b"&", string, b";"],
            7 => [b"", string, b""],
            8 => [b"<?", string, b"?>"],
            9 => [b"<!--", string, b"-->"],
            10 => [b"<!DOCTYPE ", string, b">"],
            _ => {
                return [b" ", name, b"=\"", &self.value_text(), b"\"", close].concat();
            }
        };
        parts.concat()
    }
}

/// 7 for any of the strings, then 20 for any.
fn check(rows: &[Row]) -> Result<(), Refusal> {
    let strings = || rows.iter().flat_map(|row| row.strings());
    if strings().any(|string| std::str::from_utf8(string).is_err()) {
        return Err(7);
    }
    if strings().any(|string| !String::from_utf8_lossy(string).chars().all(is_char)) {
        return Err(20);
    }
    Ok(())
}

/// The text of a list, or of one of its rows.
fn model(list: &List, row: Option<usize>, room: usize) -> Result<Vec<u8>, Refusal> {
    if room > MOST_OUTPUT {
        return Err(17);
    }
    let mut text = vec![];
    if let Some(number) = row {
        let row = list.row(number).ok_or(16u32)?;
        text = row.text(list.is_last(number));
        check(&[row])?;
        return if text.len() > room { Err(15) } else { Ok(text) };
    }
    let rows = list.rows().ok_or(16u32)?;
    let mut from = 0;
    for to in 1..=rows.len() {
        if list.is_last(to - 1) {
            let event = &rows[from..to];
            check(event)?;
            for (i, row) in event.iter().enumerate() {
                text.extend(row.text(i + 1 == event.len()));
            }
            if text.len() > room {
                return Err(15);
            }
            from = to;
        }
    }
    Ok(text)
}

// ---- calls

fn call(list: &List, row: Option<usize>, output: &mut [u8]) -> Answer {
    let [first, second] = list.stores;
    match row {
        None => ours::abx_to_xml(first, second, list.words, output),
        Some(row) => ours::abx_row_to_xml(row, first, second, list.words, output),
    }
}

/// Makes a call with an output of so many bytes. The text, where it was not refused.
fn compare(
    list: &List,
    row: Option<usize>,
    room: usize,
    expected: &Result<Vec<u8>, Refusal>,
    seen: &mut Seen,
) -> Result<Vec<u8>, String> {
    let mut output = vec![UNWRITTEN; room];
    let answer = call(list, row, &mut output);
    let (told, text): (Answer, &[u8]) = match expected {
        Ok(text) => ([0, text.len(), 0, 0], text),
        Err(number) => (ours::refused(*number, 0), &[]),
    };
    *seen.entry(told[1] * (told[0] / 2)).or_default() += 1;
    if answer != told {
        return Err(format!("{answer:?}, expected {told:?}"));
    }
    let (written, rest) = output.split_at(text.len());
    if written != text {
        return Err(format!("{:?}", String::from_utf8_lossy(written)));
    }
    if rest.iter().any(|byte| *byte != UNWRITTEN) {
        return Err(format!("bytes after the text, which answered {answer:?}"));
    }
    Ok(written.to_vec())
}

/// A call with enough room, and with just enough, one too few, and any number.
fn compare_rooms(
    random: &mut Random,
    list: &List,
    row: Option<usize>,
    seen: &mut Seen,
) -> Result<Option<Vec<u8>>, String> {
    let whole = model(list, row, MOST_OUTPUT);
    let len = whole.as_ref().map_or(20, Vec::len);
    let mut rooms = vec![len, random.below(len + 1), len + random.below(40)];
    rooms.extend(len.checked_sub(1));
    for room in rooms {
        let expected = match &whole {
            Ok(text) if text.len() <= room => Ok(text.clone()),
            _ => model(list, row, room),
        };
        compare(list, row, room, &expected, seen)
            .map_err(|e| format!("{e}; a room of {room} bytes, row {row:?}"))?;
    }
    Ok(whole.ok())
}

/// The whole list, and each of its rows; the rows' texts, one after the other, are the list's.
fn compare_all(random: &mut Random, list: &List, seen: &mut Seen) -> Result<(), String> {
    let whole = compare_rooms(random, list, None, seen)?;
    let mut joined = vec![];
    let mut good = true;
    for row in 0..list.whole_rows() {
        let text = compare_rooms(random, list, Some(row), seen)?;
        good &= text.is_some();
        joined.extend(text.unwrap_or_default());
    }
    for row in [list.whole_rows(), usize::MAX, usize::MAX / 8, 1 << 61] {
        compare_rooms(random, list, Some(row), seen)?;
    }
    match whole {
        Some(whole) if !good || whole != joined => {
            Err("the texts of the rows are not that of the list".into())
        }
        _ => Ok(()),
    }
}

// ---- the stored lists

/// The lists of xml.txt.
pub fn stored_agree() -> bool {
    let mut seen = Seen::new();
    let mut good = true;
    for line in include_str!("xml.txt").lines() {
        let columns = line.split('#').next().unwrap_or_default();
        let [first, second, words, room, text] = columns.split_whitespace().collect::<Vec<_>>()[..]
        else {
            continue;
        };
        let stored = Made::stored(first, second, words);
        let list = stored.list();
        let room = room.parse().expect("a length");
        let expected = match text.strip_prefix('!') {
            Some(number) => Err(number.parse().expect("a refusal's number")),
            None => Ok(bytes(text)),
        };
        // the model agrees with what is stored, and so does the library
        let told = compare(&list, None, room, &expected, &mut seen);
        if model(&list, None, room) != expected || told.is_err() {
            println!("DIFFERS: {line}: {told:?}");
            good = false;
        }
    }
    let count: usize = seen.values().sum();
    println!("{count} stored lists printed");
    good && count == 66
}

// ---- lists at random

/// Letters, the characters that are escaped, and those next to what XML allows.
const CHARS: [&str; 32] = [
    "a",
    "b",
    "é",
    "€",
    "😀",
    "<",
    ">",
    "&",
    "\"",
    "'",
    "\t",
    "\n",
    "\r",
    " ",
    "\u{7F}",
    "\u{80}",
    "\u{7FF}",
    "\u{800}",
    "\u{FFF}",
    "\u{D7FF}",
    "\u{E000}",
    "\u{EFBE}",
    "\u{F000}",
    "\u{FFBE}",
    "\u{FFBF}",
    "\u{FFFC}",
    "\u{FFFD}",
    "\u{10000}",
    "\u{1FFFE}",
    "\u{1FFFF}",
    "\u{FFFFF}",
    "\u{10FFFF}",
];

const ILLEGAL: [&str; 10] = [
    "\0", "\u{1}", "\u{8}", "\u{B}", "\u{C}", "\u{E}", "\u{1E}", "\u{1F}", "\u{FFFE}", "\u{FFFF}",
];

const BROKEN: [&[u8]; 14] = [
    b"\x80",
    b"\xBF",
    b"\xC0\x80",
    b"\xC1\xBF",
    b"\xC2",
    b"\xE0\x9F\xBF",
    b"\xE2\x82",
    b"\xED\xA0\x80",
    b"\xED\xBF\xBF",
    b"\xEF\xBF",
    b"\xF0\x8F\xBF\xBF",
    b"\xF4\x90\x80\x80",
    b"\xF5\x80\x80\x80",
    b"\xFF",
];

/// How often a string has a character that is not allowed, or is no UTF-8: once in so many, or never.
struct Faults {
    illegal: Option<usize>,
    broken: Option<usize>,
}

fn string(random: &mut Random, faults: &Faults) -> Vec<u8> {
    let most = [4, 12, 40, 140][random.below(4)];
    let length = random.below(most);
    let mut string = vec![];
    // few of the characters at a time: runs of letters, of `<`, of three bytes
    let mix = [1, 1, 3, 32][random.below(4)];
    let from = random.below(33 - mix);
    for _ in 0..length {
        let any = if random.once_in(8) { 32 } else { 0 };
        let char = match any {
            0 => CHARS[from + random.below(mix)],
            _ => CHARS[random.below(any)],
        };
        string.extend(char.as_bytes());
    }
    let now_and_then = |random: &mut Random, times: Option<usize>| match times {
        Some(times) => random.once_in(times),
        None => false,
    };
    let mut put = |random: &mut Random, bytes: &[u8]| {
        // between two characters
        let text = String::from_utf8_lossy(&string);
        let places: Vec<usize> = text.char_indices().map(|(at, _)| at).collect();
        let at = match random.below(3) {
            0 => 0,
            1 => string.len(),
            _ if places.is_empty() => 0,
            _ => places[random.below(places.len())],
        };
        string.splice(at..at, bytes.iter().copied());
    };
    if now_and_then(random, faults.illegal) {
        let illegal = random.of(&ILLEGAL);
        put(random, illegal.as_bytes());
    }
    if now_and_then(random, faults.broken) {
        let broken = BROKEN[random.below(BROKEN.len())];
        put(random, broken);
    }
    string
}

/// Numbers on the edges of their digits, and any.
fn word(random: &mut Random) -> u32 {
    let any = random.0 as u32;
    match random.below(8) {
        0 => [0, 1, 9, 10, 15, 16, 99, 100][random.below(8)],
        1 => [0x7FFF_FFFF, 0x8000_0000, 0x8000_0001, u32::MAX, 0xCAFE_BABE][random.below(5)],
        2 => 10u32.pow(random.below(10) as u32),
        3 => 10u32.pow(random.below(10) as u32) - 1,
        4 => 1 << random.below(32),
        5 => 10u32.pow(random.below(10) as u32).wrapping_neg(),
        _ => any,
    }
}

impl Made {
    fn string(&mut self, random: &mut Random, faults: &Faults) -> [u32; 3] {
        let string = string(random, faults);
        self.span(random, &string)
    }

    fn row(&mut self, random: &mut Random, faults: &Faults) {
        let nothing = [0, 0, 0];
        let last = self.words.len().checked_sub(8).map(|at| self.words[at]);
        let is_attribute = matches!(last, Some(2 | 15)) && !random.once_in(4);
        let kind = match is_attribute {
            true => 15,
            false => [0, 1, 2, 2, 2, 2, 3, 3, 4, 4, 5, 6, 7, 8, 9, 10][random.below(16)],
        };
        let of = match kind {
            15 => [1, 2, 2, 2, 4, 5, 6, 7, 8, 9, 10, 11, 12, 13][random.below(14)],
            4..=10 => 2,
            _ => 0,
        };
        let name = match kind {
            2 | 3 | 15 => self.string(random, faults),
            _ => nothing,
        };
        let value = match of {
            2 => self.string(random, faults),
            4 | 5 => {
                let most = [4, 9, 70][random.below(3)];
                let length = random.below(most);
                let bytes: Vec<u8> = (0..length).map(|_| random.below(256) as u8).collect();
                self.span(random, &bytes)
            }
            6 | 7 | 10 => [0, 0, word(random)],
            8 | 9 | 11 => {
                let high = word(random);
                // also numbers that a carry goes through
                let ends = [0, 1, u32::MAX, word(random)];
                [0, high, ends[random.below(4)]]
            }
            _ => nothing,
        };
        self.words.push(kind);
        self.words.extend(name);
        self.words.push(of);
        self.words.extend(value);
    }
}

fn made(random: &mut Random, rows: usize) -> Made {
    let mut made = Made::new();
    let faults = match random.below(6) {
        0 => Faults {
            illegal: Some(8),
            broken: None,
        },
        1 => Faults {
            illegal: None,
            broken: Some(8),
        },
        2 => Faults {
            illegal: Some(5),
            broken: Some(8),
        },
        _ => Faults {
            illegal: None,
            broken: None,
        },
    };
    (0..rows).for_each(|_| made.row(random, &faults));
    made
}

/// Outputs at the limit and over it, and strings and blobs that ABX has no room for.
fn long_ones(random: &mut Random, seen: &mut Seen) -> Result<(), String> {
    let list = List {
        stores: [b"n", b""],
        words: &[3, 0, 0, 1, 0, 0, 0, 0, 11],
    };
    let good = List {
        words: &list.words[..8],
        ..list
    };
    for room in [MOST_OUTPUT, MOST_OUTPUT + 1] {
        for list in [&list, &good] {
            for row in [None, Some(0), Some(1)] {
                compare(list, row, room, &model(list, row, room), seen)?;
            }
        }
    }
    for length in [65_534, 65_535, 65_536, 65_537, 200_000] {
        let mut store = "<é".repeat(length);
        store.truncate(length / 3 * 3);
        store.push_str("xyz");
        store.truncate(length);
        let n = length as u32;
        for row in [
            [3, 0, 0, n, 0, 0, 0, 0],
            [4, 0, 0, 0, 2, 0, 0, n],
            [9, 0, 0, 0, 2, 0, 0, n],
            [15, 0, 0, n, 2, 0, 0, n],
            [15, 0, 0, 1, 4, 0, 0, n],
            [15, 0, 0, 1, 5, 0, 0, n],
        ] {
            let mut words = vec![2, 0, 0, 1, 0, 0, 0, 0];
            words.extend(row);
            let list = List {
                stores: [store.as_bytes(), b""],
                words: &words,
            };
            compare_all(random, &list, seen)?;
        }
    }
    // a text as long as the longest output, and a byte longer
    let store = vec![b'>'; MOST_OUTPUT / 4 + 1];
    for (length, around) in [
        (MOST_OUTPUT / 4, 0),
        (MOST_OUTPUT / 4, 1),
        (MOST_OUTPUT / 4 + 1, 0),
    ] {
        let words = [
            4,
            0,
            0,
            0,
            2,
            0,
            0,
            length as u32,
            4,
            0,
            0,
            0,
            2,
            0,
            0,
            around,
        ];
        let list = List {
            stores: [&store, b""],
            words: &words,
        };
        for row in [None, Some(0)] {
            let expected = model(&list, row, MOST_OUTPUT);
            compare(&list, row, MOST_OUTPUT, &expected, seen)?;
        }
    }
    Ok(())
}

/// Texts of up to 280 letters, or of characters of two bytes, with a character of interest at every place.
fn every_place(seen: &mut Seen) -> Result<(), String> {
    let pieces: [&[u8]; 7] = [
        b"\x01",
        "\u{FFFD}".as_bytes(),
        "\u{FFFE}".as_bytes(),
        "\u{FFFF}".as_bytes(),
        b"<",
        b"'",
        b"\xEF",
    ];
    for (length, letter) in (0..=280).map(|length| (length, ["a", "é"][length % 2])) {
        let letters = letter.repeat(length / letter.len());
        for place in (0..=letters.len()).step_by(letter.len()) {
            let piece = pieces[(length + place) % 7];
            let other = pieces[(length + place + 3) % 7];
            for (piece, kind) in [(piece, 4), (other, 9)] {
                let (before, after) = letters.as_bytes().split_at(place);
                let store = [before, piece, after].concat();
                let list = List {
                    stores: [&store, b""],
                    words: &[kind, 0, 0, 0, 2, 0, 0, store.len() as u32],
                };
                let room = 6 * store.len() + 8;
                compare(&list, None, room, &model(&list, None, room), seen)
                    .map_err(|e| format!("{e}; {piece:02x?} at {place} of {length} bytes"))?;
            }
        }
    }
    Ok(())
}

/// So many lists of each size, the large ones less often.
pub fn agrees(random: &mut Random, times: usize) -> bool {
    let mut seen = Seen::new();
    let mut done = every_place(&mut seen).and_then(|()| long_ones(random, &mut seen));
    for (times, rows) in [(times, 5), (times / 10, 40), (times / 300, 600)] {
        for _ in 0..times {
            let rows = random.below(rows + 1);
            let mut made = made(random, rows);
            if random.once_in(6) {
                damage(random, &mut made.words);
            }
            let list = made.list();
            let compared = compare_all(random, &list, &mut seen);
            done =
                done.and(compared.map_err(|e| {
                    format!("{e}\nstores {:02x?}\nrows {:?}", list.stores, list.words)
                }));
            if done.is_err() {
                break;
            }
        }
    }
    agreed("XML text", done, &seen, &[0, 7, 15, 16, 17, 20])
}
