//! The writer beside a model of it, over states that a caller may hand in: names that are in the pool twice, pairs that end outside the
//! output or start far outside it, words that form no rows, buffers that are just long enough or just too short.

use std::collections::HashMap;

use crate::common::Random;
use crate::ours::{self, Answer};
use crate::{agreed, Seen};

const MOST_NAMES: usize = 65_535;
const MOST_OUTPUT: usize = 16_777_216;

// ---- the model, from the paper's words

/// What a call takes beside what it may write.
struct Call<'a> {
    single: bool,
    written: usize,
    names: usize,
    stores: [&'a [u8]; 2],
    words: &'a [u32],
}

/// What a call may write: the output, and the pairs of its names.
#[derive(Clone, PartialEq)]
struct Lent {
    output: Vec<u8>,
    pool: Vec<u32>,
}

/// A refusal's number and detail.
type Refusal = (u32, u64);

enum Value<'a> {
    Nothing,
    String(&'a [u8]),
    Blob(&'a [u8]),
    Bits(Vec<u8>),
}

struct Row<'a> {
    token: u8,
    name: Option<&'a [u8]>,
    value: Value<'a>,
}

/// The bytes of a span, if it ends in its store.
fn span<'a>(stores: [&'a [u8]; 2], words: &[u32]) -> Option<&'a [u8]> {
    let (start, length) = (words[1] as usize, words[2] as usize);
    stores.get(words[0] as usize)?.get(start..start + length)
}

fn bits(words: &[u32]) -> Value<'static> {
    let bytes = words.iter().flat_map(|word| word.to_be_bytes());
    Value::Bits(bytes.collect())
}

fn row<'a>(stores: [&'a [u8]; 2], words: &[u32]) -> Option<Row<'a>> {
    let [kind, type_] = [words[0], words[4]];
    let (name, value) = (&words[1..4], &words[5..8]);
    let has_name = matches!(kind, 2 | 3 | 15);
    let type_on_the_wire = match (kind, type_) {
        (0 | 1, 0) => 1,
        (2 | 3, 0) => 3,
        (4..=10, 2) => 2,
        (15, 1..=13) => type_,
        _ => return None,
    };
    let value = match (type_, value) {
        (2, _) => Value::String(span(stores, value)?),
        (4 | 5, _) => Value::Blob(span(stores, value)?),
        (6 | 7 | 10, [0, 0, low]) => bits(&[*low]),
        (8 | 9 | 11, [0, high, low]) => bits(&[*high, *low]),
        (0 | 1 | 12 | 13, [0, 0, 0]) => Value::Nothing,
        _ => return None,
    };
    if !has_name && name != [0, 0, 0] {
        return None;
    }
    Some(Row {
        token: (type_on_the_wire << 4 | kind) as u8,
        name: match has_name {
            true => Some(span(stores, name)?),
            false => None,
        },
        value,
    })
}

/// The events, if the words form rows, and attributes stand only after a start tag.
fn events<'a>(stores: [&'a [u8]; 2], words: &[u32]) -> Option<Vec<Vec<Row<'a>>>> {
    if words.len() % 8 != 0 {
        return None;
    }
    let mut events: Vec<Vec<Row>> = vec![];
    for words in words.chunks_exact(8) {
        let row = row(stores, words)?;
        if words[0] == 15 {
            let tag = events.last_mut().filter(|event| event[0].token == 0x32)?;
            tag.push(row);
        } else {
            events.push(vec![row]);
        }
    }
    Some(events)
}

fn check(string: &[u8], is_text: bool) -> Result<(), Refusal> {
    if string.len() > 65_535 {
        return Err((14, string.len() as u64));
    }
    if is_text && std::str::from_utf8(string).is_err() {
        return Err((7, 0));
    }
    Ok(())
}

/// The names of a call: those that the pool had, by the bytes that the output had, and then its own.
struct Names<'a> {
    places: HashMap<&'a [u8], usize>,
    count: usize,
    /// The first pair that ends outside. A search that comes to it is refused.
    first_bad: Option<usize>,
}

impl<'a> Names<'a> {
    fn new(lent: &'a Lent, count: usize) -> Names<'a> {
        let mut names = Names {
            places: HashMap::new(),
            count,
            first_bad: None,
        };
        for (i, pair) in lent.pool.chunks_exact(2).take(count).enumerate() {
            let (start, length) = (pair[0] as usize, pair[1] as usize);
            match lent.output.get(start..start + length) {
                Some(name) => _ = names.places.entry(name).or_insert(i),
                None => names.first_bad = names.first_bad.or(Some(i)),
            }
        }
        names
    }

    fn find(&self, name: &[u8]) -> Result<Option<usize>, Refusal> {
        let found = self.places.get(name).copied();
        match (found, self.first_bad) {
            (Some(i), Some(bad)) if i < bad => Ok(found),
            (_, Some(_)) => Err((19, 0)),
            (_, None) => Ok(found),
        }
    }

    /// Whether the new name gets a place in the pool.
    fn keep(&mut self, name: &'a [u8]) -> bool {
        let fits = self.count < MOST_NAMES;
        if fits {
            self.places.insert(name, self.count);
            self.count += 1;
        }
        fits
    }
}

fn put(bytes: &mut Vec<u8>, string: &[u8]) {
    bytes.extend((string.len() as u16).to_be_bytes());
    bytes.extend(string);
}

/// The bytes written and the number of names, both after the call.
fn model(call: &Call, lent: &mut Lent) -> Result<[usize; 2], Refusal> {
    let room = lent.output.len();
    if room > MOST_OUTPUT || lent.pool.len() % 2 == 1 || lent.pool.len() > 2 * MOST_NAMES {
        return Err((17, 0));
    }
    if call.written > room || call.names > lent.pool.len() / 2 {
        return Err((19, 0));
    }
    let events = events(call.stores, call.words).ok_or((16, 0))?;
    if call.single && events.len() != 1 {
        return Err((16, 0));
    }
    let mut names = Names::new(lent, call.names);
    let mut bytes = vec![];
    let mut pairs = vec![];
    for event in &events {
        for row in event {
            bytes.push(row.token);
            if let Some(name) = row.name {
                check(name, true)?;
                if let Some(index) = names.find(name)? {
                    bytes.extend((index as u16).to_be_bytes());
                } else {
                    bytes.extend([0xFF, 0xFF]);
                    put(&mut bytes, name);
                    if names.keep(name) {
                        let start = call.written + bytes.len() - name.len();
                        pairs.extend([start as u32, name.len() as u32]);
                    }
                }
            }
            match &row.value {
                Value::Nothing => {}
                Value::Bits(bits) => bytes.extend(bits),
                Value::String(string) | Value::Blob(string) => {
                    check(string, matches!(row.value, Value::String(_)))?;
                    put(&mut bytes, string);
                }
            }
        }
        if 2 * names.count > lent.pool.len() {
            return Err((11, 0));
        }
        if call.written + bytes.len() > room {
            return Err((15, 0));
        }
    }
    let after = [call.written + bytes.len(), names.count];
    lent.output[call.written..after[0]].copy_from_slice(&bytes);
    lent.pool[2 * call.names..2 * after[1]].copy_from_slice(&pairs);
    Ok(after)
}

// ---- calls at random

/// How large the calls of a kind are, each at most.
struct Sizes {
    rows: usize,
    strings: usize,
    /// The names in the pool before the call, from and to.
    names: [usize; 2],
}

/// What the rows of some calls are made from.
struct Strings {
    stores: [Vec<u8>; 2],
    spans: Vec<[u32; 3]>,
}

/// Most are alike or equal; a few are no UTF-8.
fn string(random: &mut Random, i: usize) -> Vec<u8> {
    let letters = ["a", "b", "c", "é", "€"];
    match random.below(7) {
        0 | 1 => format!("com.example.app{:04}.Activity{:03}", i / 8, i).into_bytes(),
        2 => format!("n{i}").into_bytes(),
        3 => format!("{:05}maintenance.panel", random.below(2 * i + 2)).into_bytes(),
        4 => vec![b'a'; random.below(4)],
        _ => {
            let length = random.below(10);
            let mut string: String = (0..length).map(|_| random.of(&letters)).collect();
            if random.once_in(4) {
                string.push_str("maintenance.panel.sign");
            }
            string.into_bytes()
        }
    }
}

fn strings(random: &mut Random, count: usize) -> Strings {
    let mut made = Strings {
        stores: [vec![], vec![]],
        spans: vec![],
    };
    let bad = random.once_in(8);
    for i in 0..count {
        let mut string = string(random, i);
        if bad && random.once_in(count) {
            string.push(0xFF);
        }
        // just short enough, or just too long
        if count < 10 && random.once_in(150) {
            string.resize(65_533 + random.below(5), b'x');
        }
        let source = random.below(2);
        let store = &mut made.stores[source];
        let start = store.len();
        store.extend(&string);
        let [start, length] = [start, string.len()].map(|n| n as u32);
        made.spans.push([source as u32, start, length]);
        // another name that starts there
        if string.is_ascii() && random.once_in(6) {
            made.spans.push([source as u32, start, length / 2]);
        }
    }
    made
}

impl Strings {
    fn span(&self, random: &mut Random) -> [u32; 3] {
        self.spans[random.below(self.spans.len())]
    }

    fn attribute(&self, random: &mut Random) -> [u32; 8] {
        let [source, start, length] = self.span(random);
        let type_ = [1, 2, 4, 5, 6, 7, 8, 9, 10, 11, 12, 13][random.below(12)];
        let [high, low] = [random.0 as u32, (random.0 >> 32) as u32];
        let [x, a, b] = match type_ {
            2 | 4 | 5 => self.span(random),
            6 | 7 | 10 => [0, 0, low],
            8 | 9 | 11 => [0, high, low],
            _ => [0, 0, 0],
        };
        [15, source, start, length, type_, x, a, b]
    }

    /// An event's own row.
    fn first(&self, random: &mut Random) -> [u32; 8] {
        let [x, a, b] = self.span(random);
        match random.below(8) {
            kind @ 0..=1 => [kind as u32, 0, 0, 0, 0, 0, 0, 0],
            2 => [4 + random.below(7) as u32, 0, 0, 0, 2, x, a, b],
            3 | 4 => [3, x, a, b, 0, 0, 0, 0],
            _ => [2, x, a, b, 0, 0, 0, 0],
        }
    }

    /// So many rows: one event, or a list.
    fn words(&self, random: &mut Random, count: usize, single: bool) -> Vec<u32> {
        let mut words = vec![];
        let attributes = random.below(5);
        for i in 0..count {
            let mut row = self.first(random);
            let in_a_tag = i > 0 && matches!(words[8 * i - 8], 2 | 15);
            if single && i > 0 || in_a_tag && random.below(5) < attributes {
                row = self.attribute(random);
            } else if single && count > 1 {
                row = [2, row[1], row[2], row[3], 0, 0, 0, 0];
            }
            words.extend(row);
        }
        words
    }
}

/// A wrong word, or one too few or too many. What comes of it may be rows all the same, or a string that is cut.
fn damage(random: &mut Random, words: &mut Vec<u32>) {
    let at = random.below(words.len());
    match random.below(6) {
        0 => words.push(0),
        1 => words.truncate(at),
        2 => words.drain(..at / 8 * 8).for_each(drop),
        3 => words[at] = words[at].wrapping_add(1),
        4 => words[at] = words[at].wrapping_sub(1),
        _ => words[at] = [0, 1, 2, 3, 4, 11, 14, 15, 16, u32::MAX][random.below(10)],
    }
}

/// An output with strings in it, and pairs of them in the pool.
fn lent(random: &mut Random, strings: &Strings, names: usize, room: usize) -> Lent {
    let mut output = vec![];
    let mut pool = vec![];
    let bad = random.once_in(5);
    for i in 0..names {
        let [source, start, length] = strings.spans[random.below(strings.spans.len())];
        let (start, length) = (start as usize, length as usize);
        let mut pair = [output.len() as u32, length as u32];
        if length < 100 {
            output.extend(&strings.stores[source as usize][start..start + length]);
        }
        // a full pool of few strings would find all of them at once
        if names > 1000 && !random.once_in(20) {
            pair = [output.len() as u32, 6];
            output.extend(format!("{i:06}").bytes());
        }
        // one that was there before, or a part of it
        if i > 0 && random.once_in(6) {
            let before = 2 * random.below(i);
            pair = [pool[before], pool[before + 1]];
            pair[1] -= random.below(1 + pair[1].min(2) as usize) as u32;
        }
        pool.extend(pair);
    }
    let written = output.len();
    output.resize(written + room, b'a');
    // bytes that the call will write over
    if names > 0 && random.once_in(4) {
        let at = 2 * random.below(names);
        pool[at] = (written + random.below(8)) as u32;
        pool[at + 1] = random.below(4) as u32;
    }
    if bad && names > 0 {
        let end = output.len() as u32;
        let pair = [
            [end, 0],
            [end, 1],
            [end + 1, 0],
            [0, end + 1],
            [u32::MAX, 0],
            [u32::MAX, u32::MAX],
            [end - end.min(2), 3],
        ][random.below(7)];
        let at = 2 * random.below(names);
        pool[at..at + 2].copy_from_slice(&pair);
    }
    Lent { output, pool }
}

fn compare(call: &Call, lent: &mut Lent, seen: &mut Seen) -> Result<Answer, String> {
    let mut expected_lent = lent.clone();
    let expected = match model(call, &mut expected_lent) {
        Ok([written, names]) => [0, written, names, 0],
        Err((number, detail)) => ours::refused(number, detail),
    };
    let write = match call.single {
        true => ours::abx_write_event,
        false => ours::abx_write_events,
    };
    let [first, second] = call.stores;
    let Lent { output, pool } = &mut *lent;
    let (written, names) = (call.written, call.names);
    let answer = write(written, names, first, second, call.words, output, pool);
    *seen.entry(expected[1] * (expected[0] / 2)).or_default() += 1;
    let state = format!("from {written} and {names}");
    if answer != expected {
        return Err(format!("{answer:?} {state}, expected {expected:?}"));
    }
    if *lent != expected_lent {
        return Err(format!("output or pool after {answer:?} {state}"));
    }
    Ok(answer)
}

/// Some calls after one another on the same buffers.
fn some_calls(random: &mut Random, sizes: &Sizes, seen: &mut Seen) -> Result<(), String> {
    let count = 1 + random.below(sizes.strings);
    let strings = strings(random, count);
    let [least, most] = sizes.names;
    let mut names = least + random.below(most - least + 1);
    let room = 8 + random.below(80 * sizes.rows);
    let mut lent = lent(random, &strings, names, room);
    let mut written = lent.output.len() - room;
    for _ in 0..1 + random.below(3) {
        let single = random.once_in(3);
        let rows = 1 + random.below(sizes.rows);
        let mut words = strings.words(random, rows, single);
        if random.once_in(8) {
            damage(random, &mut words);
        }
        let [first, second] = &strings.stores;
        let mut call = Call {
            single,
            written,
            names,
            stores: [first, second],
            words: &words,
        };
        // room for the names of any call, and then just enough, or too little
        lent.pool.resize(2 * (names + rows).min(MOST_NAMES), 7);
        if random.once_in(3) {
            if let Ok([written, names]) = model(&call, &mut lent.clone()) {
                let short = [0, 0, 1][random.below(3)];
                lent.output.truncate(written - short.min(written));
                let short = [0, 0, 1][random.below(3)];
                lent.pool.truncate(2 * (names - short.min(names)));
            }
        }
        match random.below(60) {
            0 => call.written = lent.output.len() + random.below(3),
            1 => call.names = lent.pool.len() / 2 + random.below(3),
            2 => call.written = [usize::MAX, 0, 3][random.below(3)],
            3 => call.names = [usize::MAX, 1 << 63, 0][random.below(3)],
            4 => lent.pool.push(0),
            5 => lent.pool.truncate(2 * names),
            6 => call.written = random.below(lent.output.len() + 1),
            7 => call.names = random.below(names + 1),
            _ => {}
        }
        let answer = compare(&call, &mut lent, seen)
            .map_err(|e| format!("{e}; {rows} rows, one event: {single}"))?;
        if let [0, new_written, new_names, _] = answer {
            (written, names) = (new_written, new_names);
        }
        lent.pool.truncate(lent.pool.len() / 2 * 2);
        written = written.min(lent.output.len());
        names = names.min(lent.pool.len() / 2);
    }
    Ok(())
}

/// Buffers over the limits, which are too long to be made again and again.
fn too_long(seen: &mut Seen) -> Result<(), String> {
    for (bytes, words) in [
        (MOST_OUTPUT, 2 * MOST_NAMES),
        (MOST_OUTPUT + 1, 2),
        (8, 2 * MOST_NAMES + 2),
    ] {
        for single in [true, false] {
            let mut lent = Lent {
                output: vec![0; bytes],
                pool: vec![0; words],
            };
            let call = Call {
                single,
                written: bytes - 8,
                names: 0,
                stores: [b"n", b""],
                words: &[3, 0, 0, 1, 0, 0, 0, 0],
            };
            compare(&call, &mut lent, seen)?;
        }
    }
    Ok(())
}

/// So many times some calls of each size, the large ones less often.
pub fn agrees(random: &mut Random, times: usize) -> bool {
    let mut seen = Seen::new();
    let kinds = [
        (times, 6, 6, [0, 8]),
        (times / 5, 200, 150, [0, 200]),
        (times / 100, 600, 600, [0, 1000]),
        (times / 400, 200, 150, [65_300, MOST_NAMES]),
        (times / 4000, 40_000, 30_000, [0, 300]),
        (times / 4000, 40_000, 30_000, [40_000, MOST_NAMES]),
    ];
    let mut done = too_long(&mut seen);
    for (times, rows, strings, names) in kinds {
        let sizes = Sizes {
            rows,
            strings,
            names,
        };
        for _ in 0..times {
            done = done.and_then(|()| some_calls(random, &sizes, &mut seen));
        }
    }
    agreed("the writer", done, &seen, &[0, 7, 11, 14, 15, 16, 17, 19])
}
