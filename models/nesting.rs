//! Whether a list is one nested document, beside a model of it, and the stored lists of nesting.txt. The lists are all short ones over a few
//! rows, and documents at random of which most were changed here and there: rows added, left out and moved, other kinds, names and sources.

use crate::common::Random;
use crate::ours::{self, Answer};
use crate::rows::{damage, List, Made, Refusal, Row};
use crate::{agreed, Seen};

const START_DOCUMENT: u32 = 0;
const END_DOCUMENT: u32 = 1;
const START_TAG: u32 = 2;
const END_TAG: u32 = 3;
const TEXT: u32 = 4;
const WHITESPACE: u32 = 7;
const INSTRUCTION: u32 = 8;
const COMMENT: u32 = 9;
const DOC_DECL: u32 = 10;
const ATTRIBUTE: u32 = 15;

// ---- the model, from the paper's words

struct Event<'a> {
    kind: u32,
    /// A tag's.
    name: Option<&'a [u8]>,
    /// A tag's is that of its element, 1 for an outermost one; another event's is that of the element around it, 0 where there is none.
    level: i64,
}

impl Event<'_> {
    fn is_tag(&self) -> bool {
        matches!(self.kind, START_TAG | END_TAG)
    }
}

/// A level is below 1 at an end tag that ends no element, and nothing is said of those after it.
fn events<'a>(rows: &[Row<'a>]) -> Vec<Event<'a>> {
    let mut open = 0;
    let event = |row: &Row<'a>| {
        let before = open;
        match row.kind {
            START_TAG => open += 1,
            END_TAG => open -= 1,
            _ => {}
        }
        Event {
            kind: row.kind,
            name: row.name,
            level: before.max(open),
        }
    };
    let not_attributes = rows.iter().filter(|row| row.kind != ATTRIBUTE);
    not_attributes.map(event).collect()
}

fn places(events: &[Event], kind: u32) -> Vec<usize> {
    let places = 0..events.len();
    places.filter(|at| events[*at].kind == kind).collect()
}

/// "A nested document has exactly one outermost element": so an empty list is none.
fn one_outermost(events: &[Event]) -> bool {
    let starts = events.iter().filter(|event| event.kind == START_TAG);
    starts.filter(|start| start.level == 1).count() == 1
}

/// "Outside it only document events, comments, instructions, DocDecl and ignorable whitespace stand."
fn outside(events: &[Event]) -> bool {
    let allowed = [
        START_DOCUMENT,
        END_DOCUMENT,
        COMMENT,
        INSTRUCTION,
        DOC_DECL,
        WHITESPACE,
    ];
    let outside = |event: &&Event| event.level == 0 && !event.is_tag();
    let mut outside = events.iter().filter(outside);
    outside.all(|event| allowed.contains(&event.kind))
}

/// "In the whole list there is at most one StartDocument, its first event."
fn start_document(events: &[Event]) -> bool {
    matches!(places(events, START_DOCUMENT)[..], [] | [0])
}

/// "And at most one EndDocument, its last."
fn end_document(events: &[Event]) -> bool {
    match places(events, END_DOCUMENT)[..] {
        [] => true,
        [place] => place + 1 == events.len(),
        _ => false,
    }
}

/// "Each end tag has the innermost open tag's name": that is the last start tag of its level before it.
fn names(events: &[Event]) -> bool {
    let is_good = |end: usize| {
        let Event { name, level, .. } = events[end];
        let starts = |event: &&Event| event.kind == START_TAG && event.level == level;
        let open = events[..end].iter().rev().find(starts);
        open.is_some_and(|open| open.name == name)
    };
    places(events, END_TAG).into_iter().all(is_good)
}

/// "None stays open": an end tag of its level comes after each start tag.
fn none_open(events: &[Event]) -> bool {
    let is_ended = |start: usize| {
        let level = events[start].level;
        let ends = |event: &Event| event.kind == END_TAG && event.level == level;
        events[start..].iter().any(ends)
    };
    places(events, START_TAG).into_iter().all(is_ended)
}

/// "Depth is at most 64."
fn depth(events: &[Event]) -> bool {
    events.iter().all(|event| event.level <= 64)
}

type Rule = fn(&[Event]) -> bool;

const RULES: [(&str, Rule); 7] = [
    ("one outermost element", one_outermost),
    ("what stands outside", outside),
    ("StartDocument", start_document),
    ("EndDocument", end_document),
    ("names", names),
    ("none open", none_open),
    ("depth", depth),
];

/// Whether each rule is kept: a list is a nested document if all are.
type Kept = [bool; RULES.len()];

fn model(list: &List) -> Result<Kept, Refusal> {
    let events = events(&list.rows().ok_or(16u32)?);
    Ok(RULES.map(|(_, rule)| rule(&events)))
}

/// Yes or no.
fn all(kept: Result<Kept, Refusal>) -> Result<bool, Refusal> {
    kept.map(|kept| kept.iter().all(|kept| *kept))
}

// ---- calls

/// A call with an answer of so many words. Four of them are written, or none where there is no room for four.
fn compare_room<const WORDS: usize>(
    list: &List,
    expected: Result<bool, Refusal>,
) -> Result<(), String> {
    let [first, second] = list.stores;
    let answer: [usize; WORDS] = ours::abx_nested(first, second, list.words);
    let told: Answer = match expected {
        Ok(is_nested) => [0, is_nested.into(), 0, 0],
        Err(number) => ours::refused(number, 0),
    };
    let mut words = [usize::MAX; WORDS];
    if let Some(four) = words.get_mut(..4) {
        four.copy_from_slice(&told);
    }
    match answer == words {
        true => Ok(()),
        false => Err(format!(
            "{answer:?}, expected {words:?}\nstores {:02x?}\nrows {:?}",
            list.stores, list.words
        )),
    }
}

fn compare_rooms(list: &List, expected: Result<bool, Refusal>) -> Result<(), String> {
    compare_room::<0>(list, expected)?;
    compare_room::<1>(list, expected)?;
    compare_room::<2>(list, expected)?;
    compare_room::<3>(list, expected)?;
    compare_room::<4>(list, expected)?;
    compare_room::<5>(list, expected)
}

/// How often each answer came.
#[derive(Default)]
struct Count {
    yes: usize,
    no: usize,
    refused: usize,
    /// How often no other rule than this was broken.
    alone: [usize; RULES.len()],
}

impl Count {
    fn add(&mut self, kept: Result<Kept, Refusal>) {
        match all(kept) {
            Ok(true) => self.yes += 1,
            Ok(false) => self.no += 1,
            Err(_) => self.refused += 1,
        }
        let broken = |rule: &usize| kept.is_ok_and(|kept| !kept[*rule]);
        if let [rule] = (0..RULES.len()).filter(broken).collect::<Vec<_>>()[..] {
            self.alone[rule] += 1;
        }
    }

    fn seen(&self) -> Seen {
        let counts = [(0, self.yes + self.no), (16, self.refused)];
        counts.into_iter().filter(|(_, n)| *n > 0).collect()
    }

    fn lists(&self) -> usize {
        self.yes + self.no + self.refused
    }

    /// Tells the answers, and whether yes and no each came at least so often, and so many of the rules by themselves.
    fn is_enough(&self, least: usize, rules: usize) -> bool {
        let alone = RULES.iter().zip(self.alone);
        let alone: Vec<String> = alone.map(|((rule, _), n)| format!("{rule}: {n}")).collect();
        println!(
            "    yes: {}, no: {}; no by one rule alone: {}",
            self.yes,
            self.no,
            alone.join(", ")
        );
        let is_enough = self.yes.min(self.no) >= least && !self.alone[..rules].contains(&0);
        if !is_enough {
            println!("NOT TRIED: nesting: too few of a kind");
        }
        is_enough
    }
}

fn compare(list: &List, count: &mut Count) -> Result<(), String> {
    let kept = model(list);
    count.add(kept);
    compare_room::<4>(list, all(kept))
}

// ---- the stored lists

/// The lists of nesting.txt.
pub fn stored_agree() -> bool {
    let mut count = 0;
    let mut good = true;
    for line in include_str!("nesting.txt").lines() {
        let columns = line.split('#').next().unwrap_or_default();
        let [first, second, words, answer] = columns.split_whitespace().collect::<Vec<_>>()[..]
        else {
            continue;
        };
        count += 1;
        let stored = Made::stored(first, second, words);
        let list = stored.list();
        let expected = match answer.strip_prefix('!') {
            Some(number) => Err(number.parse().expect("a refusal's number")),
            None => Ok(answer == "yes"),
        };
        // the model agrees with what is stored, and so does the library
        if all(model(&list)) != expected || compare_rooms(&list, expected).is_err() {
            println!("DIFFERS: {line}");
            good = false;
        }
    }
    println!("{count} stored lists looked at for nesting");
    good && count == 77
}

// ---- all short lists

/// Tags of two names, and one each of what the rules tell apart.
const ALPHABET: [[u32; 8]; 9] = [
    [START_DOCUMENT, 0, 0, 0, 0, 0, 0, 0],
    [END_DOCUMENT, 0, 0, 0, 0, 0, 0, 0],
    [START_TAG, 0, 0, 1, 0, 0, 0, 0],
    [START_TAG, 0, 1, 1, 0, 0, 0, 0],
    [END_TAG, 1, 0, 1, 0, 0, 0, 0],
    [END_TAG, 0, 1, 1, 0, 0, 0, 0],
    [TEXT, 0, 0, 0, 2, 0, 0, 1],
    [COMMENT, 0, 0, 0, 2, 0, 0, 1],
    [ATTRIBUTE, 0, 0, 1, 12, 0, 0, 0],
];

/// The list, and all that up to so many rows more make of it.
fn every(words: &mut Vec<u32>, more: usize, count: &mut Count) -> Result<(), String> {
    let list = List {
        stores: [b"pq", b"p"],
        words,
    };
    compare(&list, count)?;
    if more == 0 {
        return Ok(());
    }
    for row in ALPHABET {
        words.extend(row);
        every(words, more - 1, count)?;
        words.truncate(words.len() - 8);
    }
    Ok(())
}

/// All lists of up to so many rows.
pub fn short_agree(rows: usize) -> bool {
    let mut count = Count::default();
    let done = every(&mut vec![], rows, &mut count);
    let of = format!("nesting of all lists of up to {rows} rows");
    // such short lists are not too deep
    agreed(&of, done, &count.seen(), &[0, 16]) && count.is_enough(1, RULES.len() - 1)
}

// ---- lists at random

/// Makes a document, then changes it.
struct Maker<'a> {
    random: &'a mut Random,
    made: Made,
    /// A few names, and the spans of each.
    names: Vec<Vec<[u32; 3]>>,
    /// The names of the open tags.
    open: Vec<usize>,
}

impl Maker<'_> {
    fn new(random: &mut Random) -> Maker<'_> {
        let mut made = Made::new();
        let names = alike(random, &mut made);
        Maker {
            random,
            made,
            names,
            open: vec![],
        }
    }

    fn below(&mut self, n: usize) -> usize {
        self.random.below(n)
    }

    fn span_of(&mut self, name: usize) -> [u32; 3] {
        let spans = &self.names[name];
        spans[self.random.below(spans.len())]
    }

    fn any_name(&mut self) -> usize {
        self.random.below(self.names.len())
    }

    fn any_span(&mut self) -> [u32; 3] {
        let name = self.any_name();
        self.span_of(name)
    }

    fn push(&mut self, row: [u32; 8]) {
        self.made.words.extend(row);
    }

    fn start(&mut self) {
        let name = self.any_name();
        self.open.push(name);
        let span = self.span_of(name);
        self.push(tag(START_TAG, span));
        while self.random.once_in(4) {
            let row = self.attribute();
            self.push(row);
        }
    }

    fn end(&mut self) {
        if let Some(name) = self.open.pop() {
            let span = self.span_of(name);
            self.push(tag(END_TAG, span));
        }
    }

    fn attribute(&mut self) -> [u32; 8] {
        let [high, low] = [self.below(1 << 32), self.below(1 << 32)].map(|n| n as u32);
        let of = [1, 2, 4, 5, 6, 7, 8, 9, 10, 11, 12, 13][self.below(12)];
        let [source, a, b] = match of {
            2 | 4 | 5 => self.any_span(),
            6 | 7 | 10 => [0, 0, low],
            8 | 9 | 11 => [0, high, low],
            _ => [0, 0, 0],
        };
        let [name, start, length] = self.any_span();
        [ATTRIBUTE, name, start, length, of, source, a, b]
    }

    /// An event of one of the kinds 4 to 10, from this one on.
    fn string(&mut self, from: u32) -> [u32; 8] {
        let kind = from + self.below((DOC_DECL - from + 1) as usize) as u32;
        let [source, start, length] = self.any_span();
        [kind, 0, 0, 0, 2, source, start, length]
    }

    fn outside(&mut self) {
        for _ in 0..self.below(3) {
            let row = self.string(WHITESPACE);
            self.push(row);
        }
    }

    /// An element with so many steps in it: a tag or another event. Some are about as deep as they may be.
    fn element(&mut self, steps: usize) {
        let most = [2, 4, 64][self.below(3)];
        let at_once = match self.below(8) {
            0 => 62 + self.below(4),
            _ => 1,
        };
        (0..at_once).for_each(|_| self.start());
        for _ in 0..steps {
            match self.below(5) {
                0 | 1 if self.open.len() < most => self.start(),
                2 | 3 if self.open.len() > 1 => self.end(),
                _ => {
                    let row = self.string(TEXT);
                    self.push(row);
                }
            }
        }
        while !self.open.is_empty() {
            self.end();
        }
    }

    fn document(&mut self, steps: usize) {
        if self.random.once_in(2) {
            self.push(alone(START_DOCUMENT));
        }
        self.outside();
        self.element(steps);
        self.outside();
        if self.random.once_in(2) {
            self.push(alone(END_DOCUMENT));
        }
    }

    fn rows(&self) -> usize {
        self.made.words.len() / 8
    }

    /// Any row, at one of the ends or anywhere.
    fn insert(&mut self, row: [u32; 8]) {
        let rows = self.rows();
        let at = match self.below(3) {
            0 => 0,
            1 => rows,
            _ => self.below(rows + 1),
        };
        self.made.words.splice(8 * at..8 * at, row);
    }

    fn remove(&mut self, row: usize) -> [u32; 8] {
        let mut removed = self.made.words.drain(8 * row..8 * row + 8);
        std::array::from_fn(|_| removed.next().unwrap_or_default())
    }

    /// The number of a row of such a kind, if there is one.
    fn find(&mut self, is_kind: impl Fn(u32) -> bool) -> Option<usize> {
        let words = &self.made.words;
        let rows: Vec<usize> = (0..self.rows())
            .filter(|row| is_kind(words[8 * row]))
            .collect();
        match rows.len() {
            0 => None,
            n => Some(rows[self.below(n)]),
        }
    }

    /// Another kind that has the same words beside it.
    fn other_kind(&mut self) {
        let Some(row) = self.find(|kind| kind != ATTRIBUTE) else {
            return;
        };
        let string = TEXT + self.below(7) as u32;
        let kind = &mut self.made.words[8 * row];
        *kind = match *kind {
            START_DOCUMENT => END_DOCUMENT,
            END_DOCUMENT => START_DOCUMENT,
            START_TAG => END_TAG,
            END_TAG => START_TAG,
            _ => string,
        };
    }

    fn other_name(&mut self) {
        let span = self.any_span();
        if let Some(row) = self.find(|kind| matches!(kind, START_TAG | END_TAG | ATTRIBUTE)) {
            self.made.words[8 * row + 1..][..3].copy_from_slice(&span);
        }
    }

    /// The same place in the other store, where other bytes stand or none.
    fn other_source(&mut self) {
        let word = [1, 5][self.below(2)];
        if let Some(row) = self.find(|kind| kind > END_DOCUMENT) {
            self.made.words[8 * row + word] ^= 1;
        }
    }

    /// Another outermost element, or one more in between.
    fn other_element(&mut self) {
        let before = self.made.words.len();
        self.element(0);
        let element = self.made.words.split_off(before);
        let at = match self.below(3) {
            0 => self.below(self.rows() + 1),
            1 => 0,
            _ => self.rows(),
        };
        self.made.words.splice(8 * at..8 * at, element);
    }

    fn change(&mut self) {
        let rows = self.rows();
        if rows == 0 || self.made.words.len() % 8 != 0 {
            return; // rows no more
        }
        let [a, b] = [self.below(rows), self.below(rows)];
        match self.below(14) {
            0 => _ = self.remove(a),
            1 => {
                let row = self.remove(a);
                self.insert(row);
                self.insert(row);
            }
            2 => {
                let row = self.remove(a);
                self.insert(row);
            }
            3 => (0..8).for_each(|word| self.made.words.swap(8 * a + word, 8 * b + word)),
            4 => self.other_kind(),
            5 => self.other_name(),
            6 => self.other_source(),
            7 | 8 => damage(self.random, &mut self.made.words),
            9 => {
                let kind = [START_DOCUMENT, END_DOCUMENT][self.below(2)];
                self.insert(alone(kind));
            }
            10 => {
                let row = self.string(TEXT);
                self.insert(row);
            }
            11 => self.other_element(),
            12 => {
                let span = self.any_span();
                self.insert(tag([START_TAG, END_TAG][b % 2], span));
            }
            _ => self.made.words.truncate(8 * a),
        }
    }
}

fn alone(kind: u32) -> [u32; 8] {
    [kind, 0, 0, 0, 0, 0, 0, 0]
}

fn tag(kind: u32, [source, start, length]: [u32; 3]) -> [u32; 8] {
    [kind, source, start, length, 0, 0, 0, 0]
}

/// A few names, each another with a byte changed, added or left out, and each in some places of the stores.
fn alike(random: &mut Random, made: &mut Made) -> Vec<Vec<[u32; 3]>> {
    let length = [0, 1, 1, 2, 7, 8, 9, 16, 17, 40, 300][random.below(11)];
    let mut name = vec![b'p'; length];
    let mut spans = || {
        match random.below(4) {
            0 => name.push(b'q'),
            1 => _ = name.pop(),
            _ if name.is_empty() => {}
            _ => {
                let at = random.below(name.len());
                name[at] ^= 1;
            }
        }
        let places = 1 + random.below(3);
        (0..places).map(|_| made.span(random, &name)).collect()
    };
    (0..3).map(|_| spans()).collect()
}

/// A document with so many steps; two in five are left as they are.
fn made(random: &mut Random, steps: usize) -> Made {
    let changes = [0, 0, 1, 1, 2][random.below(5)];
    let mut maker = Maker::new(random);
    maker.document(steps);
    (0..changes).for_each(|_| maker.change());
    maker.made
}

/// So many lists of each size, the large ones less often.
pub fn agrees(random: &mut Random, times: usize) -> bool {
    let mut count = Count::default();
    let mut done = Ok(());
    for (times, steps) in [(times, 9), (times / 10, 60), (times / 300, 1_000)] {
        for _ in 0..times {
            let steps = random.below(steps + 1);
            let made = made(random, steps);
            let list = made.list();
            done = done.and(compare(&list, &mut count));
            done = done.and_then(|()| match random.once_in(8) {
                true => compare_rooms(&list, all(model(&list))),
                false => Ok(()),
            });
            if done.is_err() {
                break;
            }
        }
    }
    agreed("nesting", done, &count.seen(), &[0, 16])
        && count.is_enough(count.lists() / 5, RULES.len())
}
