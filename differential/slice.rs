//! One document, read by our slice reader and by the Rust's `AbxParser`.

use std::fmt::Debug;

use android_abx::probe::{self, Outcome};
use android_abx::{AbxParser, Event, InternedStr};
use harness::common::map_error;

use crate::documents::{self, Random, Visit};
use crate::lent::{unwritten_word, Lent};
use crate::ours::{self, refused, Answer, END};
use crate::report::{Compared, Report, Seen, Tested};
use crate::rows::{self, has, span};
use crate::walk::{Walk, POOL_LIMIT};

pub struct Reader {
    pool: Lent<u32>,
    rows: Lent<u32>,
    names: Vec<InternedStr>,
    seen: Seen,
}

/// The words lent in a call: none to spare, or all that there are.
#[derive(Clone, Copy)]
struct Lend {
    pool: usize,
    rows: usize,
}

impl Tested for Reader {
    fn seen(&self) -> &Seen {
        &self.seen
    }

    fn renew(&mut self) {
        self.pool.renew();
        self.rows.renew();
    }
}

impl Reader {
    /// With tables for documents of up to `len` bytes: an attribute takes 3 bytes, a new name 4.
    pub fn new(len: usize) -> Reader {
        let names = (len / 4 + 4).min(POOL_LIMIT);
        Reader {
            pool: Lent::new(2 * names, unwritten_word),
            rows: Lent::new(8 * (len / 3 + 4).min(100_000) + 3, unwritten_word),
            names: Vec::new(),
            seen: Seen::default(),
        }
    }

    /// Compares all that the two make of a document.
    pub fn document(&mut self, document: &[u8]) -> Compared {
        self.seen.documents += 1;
        self.start();
        self.read(document)?;
        self.whole_tables()
    }

    fn read(&mut self, document: &[u8]) -> Compared {
        let created = ours::abx_slice_create(document, &self.pool.now);
        let mut parser = match AbxParser::new(document) {
            Ok(parser) => parser,
            Err(error) => {
                let (number, detail) = map_error(&error);
                let expected = refused(number, detail);
                self.seen.refusal(expected);
                return same("create", created, expected);
            }
        };
        same("create", created, [0, 4, 0, 0])?;
        let mut at = 4;
        loop {
            let kept = self.names.len();
            match parser.next_event() {
                Ok(Some(event)) => {
                    let Outcome::Event(_, len) = probe::complete(&document[at..], &mut self.names)
                    else {
                        return Err("the Rust's reader and its grammar disagree".into());
                    };
                    self.event(document, at, kept, &event, len)?;
                    at += len;
                }
                Ok(None) => {
                    if !matches!(parser.next_event(), Ok(None)) {
                        return Err("the Rust goes on after its end".into());
                    }
                    return self.no_event(document, at, END);
                }
                Err(error) => {
                    let (number, detail) = map_error(&error);
                    let again = parser.next_event().map_err(|e| map_error(&e));
                    if again != Err((number, detail)) {
                        return Err("the Rust's second refusal is another".into());
                    }
                    return self.no_event(document, at, refused(number, detail));
                }
            }
        }
    }

    /// The event at any place, after names whose pairs are given. A pair that ends outside is 19 where it is used: the Rust
    /// has `OUTSIDE` for its name. Where the Rust refuses the event, it can't be seen whether it used that name before, and
    /// either refusal is right.
    pub fn place(
        &mut self,
        document: &[u8],
        at: usize,
        names: &[InternedStr],
        pairs: &[[u32; 2]],
    ) -> Compared {
        self.seen.documents += 1;
        self.start();
        for (i, pair) in pairs.iter().enumerate() {
            self.pool.put(2 * i, pair);
        }
        self.names.extend_from_slice(names);
        if at == document.len() {
            return self.no_event(document, at, END);
        }
        match probe::complete(&document[at..], &mut self.names) {
            Outcome::Event(event, _) if has(&event, OUTSIDE) => {
                self.names.truncate(names.len());
                self.no_event(document, at, refused(19, 0))?;
            }
            Outcome::Event(event, len) => {
                self.event(document, at, names.len(), &event, len)?;
            }
            Outcome::Error(error) => {
                let (number, detail) = map_error(&error);
                let outside = names.iter().any(|name| name == OUTSIDE);
                let expected = match self.answer(document, at, names.len(), self.all()) {
                    answer if outside && answer == refused(19, 0) => answer,
                    _ => refused(number, detail),
                };
                self.no_event(document, at, expected)?;
            }
            Outcome::Incomplete(_) => return Err("the Rust's grammar is at a loss".into()),
        }
        self.whole_tables()
    }

    /// What the paper refuses and the Rust does not know, whatever the document holds.
    pub fn lent(&mut self, document: &[u8], good: bool) -> Compared {
        self.start();
        self.pool.grow(131_072);
        for edge in edges(document, good) {
            let expected = edge.refusal.map_or(END, |number| refused(number, 0));
            if edge.refusal == Some(17) {
                let created = ours::abx_slice_create(document, &self.pool.now[..edge.pool]);
                same("create", created, expected)?;
            }
            let lend = Lend {
                pool: edge.pool,
                rows: 16,
            };
            self.call(document, edge.at, edge.names, lend, expected)?;
        }
        self.whole_tables()
    }

    fn start(&mut self) {
        self.pool.clear(2 * self.names.len());
        self.names.clear();
    }

    fn whole_tables(&self) -> Compared {
        if self.pool.holds_all() && self.rows.holds_all() {
            return Ok(());
        }
        Err("a word far from those that a call may write has changed".into())
    }

    fn answer(&mut self, document: &[u8], at: usize, names: usize, lend: Lend) -> Answer {
        self.seen.calls += 1;
        let pool = &mut self.pool.now[..lend.pool];
        let rows = &mut self.rows.now[..lend.rows];
        ours::abx_slice_next(at, names, document, pool, rows)
    }

    /// A call that should answer this. The tables should then hold what is expected of them.
    fn call(
        &mut self,
        document: &[u8],
        at: usize,
        names: usize,
        lend: Lend,
        expected: Answer,
    ) -> Compared {
        self.seen.refusal(expected);
        let answer = self.answer(document, at, names, lend);
        same("next", answer, expected).map_err(|e| format!("{e} at {at}"))?;
        let (written, after) = match expected {
            [0, rows, _, names] => (8 * rows, names),
            _ => (0, names.min(POOL_LIMIT)),
        };
        if !self.rows.holds(0, written) {
            return Err(format!(
                "rows after the call at {at}, which answered {answer:?}"
            ));
        }
        if !self.pool.holds(2 * names.min(POOL_LIMIT), 2 * after) {
            return Err(format!(
                "pool after the call at {at}, which answered {answer:?}"
            ));
        }
        Ok(())
    }

    /// The end or a refusal, twice: with nothing to spare, and with all that there is.
    fn no_event(&mut self, document: &[u8], at: usize, expected: Answer) -> Compared {
        let names = self.names.len().min(POOL_LIMIT);
        let tight = Lend {
            pool: 2 * names,
            rows: 0,
        };
        self.call(document, at, names, tight, expected)?;
        self.call(document, at, names, self.all(), expected)
    }

    fn all(&self) -> Lend {
        Lend {
            pool: self.pool.len(),
            rows: self.rows.len(),
        }
    }

    /// An event of `len` bytes, which the Rust gave and which took its names from `kept` to those in `self.names`. First 10
    /// and 11, each with one row or one pair too few; then the event, on every other call with nothing to spare.
    fn event(
        &mut self,
        document: &[u8],
        at: usize,
        kept: usize,
        event: &Event,
        len: usize,
    ) -> Compared {
        self.seen.events += 1;
        let count = rows::count(event);
        let (kept, total) = (kept.min(POOL_LIMIT), self.names.len().min(POOL_LIMIT));
        self.rows.grow(8 * count + 11);
        self.rows.clear(8 * count + 8);
        let short = if total > kept {
            2 * total - 2
        } else {
            2 * total
        };
        let few = Lend {
            pool: short,
            rows: 8 * count - 1,
        };
        self.call(document, at, kept, few, refused(10, 0))?;
        if total > kept {
            let few = Lend {
                pool: short,
                rows: self.rows.len(),
            };
            self.call(document, at, kept, few, refused(11, 0))?;
        }
        let mut walk = Walk {
            document,
            at,
            names: kept,
            pool: &mut self.pool,
            rows: &mut self.rows,
            written: 0,
            store: None,
        };
        walk.event();
        if (walk.at, walk.names, walk.written) != (at + len, total, 8 * count) {
            return Err("the Rust's event is not as long as its fields".into());
        }
        let lend = match self.seen.events % 2 {
            0 => self.all(),
            _ => Lend {
                pool: 2 * total,
                rows: 8 * count + at % 8,
            },
        };
        self.call(document, at, kept, lend, [0, count, at + len, total])?;
        for i in kept..total {
            let pair = &self.pool.now[2 * i..2 * i + 2];
            if span(&[document], &[0, pair[0], pair[1]]) != Some(self.names[i].as_bytes()) {
                return Err(format!("name {i} of the pool, new in the event at {at}"));
            }
        }
        let rows = &self.rows.now[..8 * count];
        if !rows::say(&[document], rows, &rows::of(event), &mut self.seen) {
            return Err(format!("the event at {at}: {rows:?} and not {event:?}"));
        }
        Ok(())
    }
}

pub fn same<A: PartialEq + Debug>(call: &str, answer: A, expected: A) -> Compared {
    if answer == expected {
        return Ok(());
    }
    Err(format!("{call} answered {answer:?} and not {expected:?}"))
}

/// Stands for a name whose pair ends outside. No document here has it.
pub const OUTSIDE: &str = "\u{1}outside\u{1}";

/// A pool's length and a state on the edges of what is taken, and the refusal; none where it is the end.
pub struct Edge {
    pub pool: usize,
    pub at: usize,
    pub names: usize,
    pub refusal: Option<u32>,
}

/// Those of a document, which is `good` if it is not too long: sizes (17) before states (19). What would read an event is left out.
pub fn edges(document: &[u8], good: bool) -> Vec<Edge> {
    let mut edges = vec![];
    for pool in [0, 1, 2, 131_069, 131_070, 131_071, 131_072] {
        let bad = !good || pool % 2 == 1 || pool > 131_070;
        for at in [0, 4, document.len(), document.len() + 1, usize::MAX] {
            for names in [0, pool / 2, pool / 2 + 1, usize::MAX / 2 + 1, usize::MAX] {
                let refusal = if bad {
                    Some(17)
                } else if at > document.len() || names > pool / 2 {
                    Some(19)
                } else if at == document.len() {
                    None
                } else {
                    continue;
                };
                edges.push(Edge {
                    pool,
                    at,
                    names,
                    refusal,
                });
            }
        }
    }
    edges
}

// ---- sections

/// Documents of mostly up to `len` bytes, each read by both.
fn read(report: &mut Report, name: &str, len: usize, documents: impl FnOnce(Visit)) {
    report.section(name, Reader::new(len), |compare| {
        documents(&mut |document| compare(document, &mut |reader| reader.document(document)));
    });
}

/// Events at any place of seeded documents, after names that are parts of the document itself; of some, a pair ends outside.
fn read_anywhere(report: &mut Report, random: &mut Random, rounds: usize) {
    report.section("slice: any place, any pairs", Reader::new(600), |compare| {
        for i in 0..rounds {
            let document = documents::some(random, 1 + i % 6, [0, 30][i % 2]).0;
            let at = random.below(document.len() + 1);
            let (names, pairs) = pool_of(&document, random);
            compare(&document, &mut |reader| {
                reader
                    .place(&document, at, &names, &pairs)
                    .map_err(|e| format!("{e}, the pairs {pairs:?}"))
            });
        }
    });
}

/// Up to 5 names; now and then one whose pair ends outside.
pub fn pool_of(document: &[u8], random: &mut Random) -> (Vec<InternedStr>, Vec<[u32; 2]>) {
    let (mut names, mut pairs) = (vec![], vec![]);
    let outside = random.below(10);
    for i in 0..random.below(6) {
        let len = document.len() as u32;
        if i == outside {
            let ends = [
                [len, 1],
                [len + 1, 0],
                [0, len + 1],
                [u32::MAX, 1],
                [1, u32::MAX],
            ];
            names.push(OUTSIDE.into());
            pairs.push(ends[random.below(5)]);
            continue;
        }
        let start = random.below(document.len() + 1);
        let len = random.below(document.len() + 1 - start).min(9);
        if let Ok(name) = std::str::from_utf8(&document[start..start + len]) {
            names.push(name.into());
            pairs.push([start as u32, len as u32]);
        }
    }
    (names, pairs)
}

/// Sizes and states that are refused, whatever the document holds.
fn read_bad_sizes(report: &mut Report, random: &mut Random) {
    report.section("slice: sizes and states", Reader::new(64), |compare| {
        let mut lent = |document: &[u8], good| {
            compare(document, &mut |reader| reader.lent(document, good));
        };
        for document in documents::TINY {
            lent(document, true);
        }
        lent(&documents::sized(random, 16_777_216), true);
        lent(&documents::sized(random, 16_777_217), false);
        lent(&vec![0; 16_777_217], false);
    });
}

pub fn slice_reader(report: &mut Report, long: bool, random: &mut Random) {
    read(report, "slice: headers", 8, documents::headers);
    read(report, "slice: all bodies of up to 3 bytes", 8, |visit| {
        (0..=3).for_each(|count| documents::bodies("", count, visit));
    });
    if long {
        read(
            report,
            "slice: 3 bytes after certain beginnings",
            64,
            |visit| {
                for start in [
                    "24",
                    "32",
                    "33",
                    "32FFFF000170",
                    "32FFFF0001702F",
                    "32FFFF0001703F0000",
                ] {
                    documents::bodies(start, 3, visit);
                }
            },
        );
    }
    read(
        report,
        "slice: a start tag and any token",
        64,
        documents::attributes,
    );
    let count = if long { 5 } else { 4 };
    read(
        report,
        "slice: a start tag, any token and pieces",
        64,
        |visit| {
            (0..=count).for_each(|count| documents::pieces_after_tokens(count, visit));
        },
    );
    read(
        report,
        "slice: up to 3 events, damaged ones too",
        64,
        |visit| {
            (1..=3).for_each(|count| documents::events(count, visit));
        },
    );
    let rounds = if long { 60_000 } else { 6_000 };
    read(
        report,
        "slice: seeded, some changes of each byte",
        600,
        |visit| {
            for i in 0..rounds {
                let document = documents::some(random, 1 + i % 9, [0, 20, 50][i % 3]).0;
                visit(&document);
                documents::damaged(&document, &[0x01, 0x10, 0x80, 0xFF], visit);
            }
        },
    );
    if long {
        let every: Vec<u8> = (1..=255).collect();
        read(
            report,
            "slice: seeded, every change of each byte",
            600,
            |visit| {
                for i in 0..2_000 {
                    let document = documents::some(random, 1 + i % 5, 0).0;
                    documents::damaged(&document, &every, visit);
                }
            },
        );
    }
    let rounds = if long { 2_000 } else { 60 };
    read(report, "slice: seeded, 300 events", 60_000, |visit| {
        for i in 0..rounds {
            let (document, edges) = documents::some(random, 300, [0, 2_000][i % 2]);
            visit(&document);
            let places: Vec<usize> = (0..20).map(|_| edges[random.below(edges.len())]).collect();
            documents::damaged_near(&document, &places, visit);
        }
    });
    read(
        report,
        "slice: long strings",
        70_000,
        documents::long_strings,
    );
    read(
        report,
        "slice: names near the pool's limit",
        800_000,
        |visit| {
            (65_533..=65_538).for_each(|count| documents::many_names(count, visit));
        },
    );
    read(report, "slice: large documents", 16_777_216, |visit| {
        visit(&documents::sized(random, 1_000_000));
        visit(&documents::sized(random, 16_777_215));
        visit(&documents::sized(random, 16_777_216));
        visit(&documents::long_tag(
            random,
            if long { 16_777_000 } else { 1_000_000 },
        ));
    });
    read_anywhere(report, random, if long { 2_000_000 } else { 200_000 });
    read_bad_sizes(report, random);
}
