//! `abx_is_utf8` beside `std::str::from_utf8`: first whether they agree, then how long each takes.

use std::hint::black_box;
use std::process::ExitCode;
use std::str::from_utf8;
use std::time::Instant;

use library::abx_is_utf8 as ours;

#[path = "../rust/src/library.rs"]
mod library;

fn std(text: &[u8]) -> bool {
    from_utf8(text).is_ok()
}

/// Xorshift, so that every run has the same inputs.
struct Random(u64);

impl Random {
    fn below(&mut self, n: u32) -> u32 {
        self.0 ^= self.0 << 13;
        self.0 ^= self.0 >> 7;
        self.0 ^= self.0 << 17;
        (((self.0 >> 32) * u64::from(n)) >> 32) as u32
    }

    fn char(&mut self, first: char, last: char) -> char {
        let span = last as u32 - first as u32 + 1;
        char::from_u32(first as u32 + self.below(span)).unwrap()
    }

    fn letter(&mut self) -> char {
        self.char('a', 'z')
    }

    fn western(&mut self) -> char {
        match self.below(12) {
            0 => self.char('\u{C0}', '\u{FF}'),
            1 => ' ',
            _ => self.letter(),
        }
    }

    /// A character of one to four octets, each length as likely.
    fn any(&mut self) -> char {
        match self.below(4) {
            0 => self.char(' ', '~'),
            1 => self.char('\u{80}', '\u{7FF}'),
            2 => self.char('\u{800}', '\u{D7FF}'),
            _ => self.char('\u{10000}', '\u{10FFFF}'),
        }
    }

    fn cjk(&mut self) -> char {
        self.char('\u{4E00}', '\u{9FFF}')
    }

    fn rarely_long(&mut self) -> char {
        match self.below(64) {
            0 => self.char('\u{2010}', '\u{2027}'),
            _ => self.letter(),
        }
    }
}

/// The octets at the ends of the ranges of RFC 3629, section 4, with their neighbours.
const EDGES: [u8; 24] = [
    0x00, 0x7F, 0x80, 0x8F, 0x90, 0x9F, 0xA0, 0xBF, 0xC0, 0xC1, 0xC2, 0xDF, 0xE0, 0xE1, 0xEC, 0xED,
    0xEE, 0xEF, 0xF0, 0xF1, 0xF3, 0xF4, 0xF5, 0xFF,
];

#[derive(Default)]
struct Tally {
    tried: u64,
    differ: u64,
}

impl Tally {
    fn compare(&mut self, text: &[u8]) {
        self.tried += 1;
        if ours(text) != std(text) {
            self.differ += 1;
            if self.differ <= 10 {
                println!("differs: {text:02X?}");
            }
        }
    }

    /// `text` with every string of up to `edges` edges after it, and each of these with ASCII after that.
    fn compare_edges(&mut self, text: &mut Vec<u8>, edges: usize) {
        self.compare(text);
        let length = text.len();
        text.resize(length + 20, b'z');
        self.compare(text);
        text.truncate(length);
        if edges > 0 {
            for edge in EDGES {
                text.push(edge);
                self.compare_edges(text, edges - 1);
                text.pop();
            }
        }
    }

    /// A well-formed text of up to 200 octets: whole, cut short, and with one octet made an edge.
    fn compare_damaged(&mut self, random: &mut Random) {
        let length = random.below(200) as usize;
        let rare = 1 + random.below(40);
        let mut text = text_of(length, || match random.below(rare) {
            0 => random.any(),
            _ => random.letter(),
        });
        self.compare(&text);
        if length > 0 {
            let place = random.below(length as u32) as usize;
            self.compare(&text[..place]);
            text[place] = EDGES[random.below(24) as usize];
            self.compare(&text);
        }
    }
}

/// `length` octets of the characters that `next` gives; the last ones are letters where such a character does not fit.
fn text_of(length: usize, mut next: impl FnMut() -> char) -> Vec<u8> {
    let mut text = String::new();
    while text.len() < length {
        let char = next();
        let fits = text.len() + char.len_utf8() <= length;
        text.push(if fits { char } else { 'z' });
    }
    text.into_bytes()
}

/// The same, and not ASCII alone.
fn mixed(length: usize, mut next: impl FnMut() -> char) -> Vec<u8> {
    loop {
        let text = text_of(length, &mut next);
        if !text.is_ascii() {
            return text;
        }
    }
}

/// The nanoseconds that a call takes, over many calls.
fn time(texts: &[Vec<u8>], is_utf8: impl Fn(&[u8]) -> bool) -> f64 {
    let rounds = 1 + 50_000 / (texts.len() * (texts[0].len() + 100));
    let begin = Instant::now();
    for _ in 0..rounds {
        for text in texts {
            black_box(is_utf8(black_box(text)));
        }
    }
    begin.elapsed().as_nanos() as f64 / (rounds * texts.len()) as f64
}

/// A row of the table, over several texts. The two functions take turns, so that noise hits both, and the best turn of
/// each counts.
fn measure(name: &str, length: usize, mut make: impl FnMut(usize) -> Vec<u8>) {
    let count = 16.min(1 + 65_536 / (length + 1));
    let texts: Vec<Vec<u8>> = (0..count).map(|_| make(length)).collect();
    let mut best = [f64::MAX; 2];
    for _ in 0..1000 {
        best[0] = best[0].min(time(&texts, ours));
        best[1] = best[1].min(time(&texts, std));
    }
    let [ours, std] = best;
    println!(
        "{name:20} {length:6} {ours:10.1} {std:10.1} {:10.2} {:10.2} {:7.2}",
        length as f64 / ours,
        length as f64 / std,
        std / ours,
    );
}

fn main() -> ExitCode {
    let random = &mut Random(88_172_645_463_325_252);
    let mut tally = Tally::default();
    for padding in 0..=40 {
        tally.compare_edges(&mut vec![b'a'; padding], 4);
    }
    for _ in 0..1_000_000 {
        tally.compare_damaged(random);
    }
    println!("{} strings tried, {} differ", tally.tried, tally.differ);
    println!(
        "{:20} {:>6} {:>10} {:>10} {:>10} {:>10} {:>7}",
        "text", "bytes", "ours ns", "std ns", "ours GB/s", "std GB/s", "ratio"
    );
    for length in [0, 8, 16, 24, 32, 64, 100, 1024, 4096, 65536] {
        measure("ASCII", length, |n| text_of(n, || random.letter()));
    }
    for length in [24, 64, 256, 1024, 65536] {
        measure("western", length, |n| mixed(n, || random.western()));
    }
    for length in [24, 64, 256, 1024, 65536] {
        measure("1 to 4 octets", length, |n| mixed(n, || random.any()));
    }
    for length in [24, 64, 256, 1024, 65536] {
        measure("CJK", length, |n| mixed(n, || random.cjk()));
    }
    for length in [24, 64, 256, 1024, 65536] {
        measure("rarely long", length, |n| mixed(n, || random.rarely_long()));
    }
    if tally.differ == 0 {
        ExitCode::SUCCESS
    } else {
        ExitCode::FAILURE
    }
}
