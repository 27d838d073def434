//! A list of events, written by our writer and by the Rust's `events_to_abx`.

use android_abx::{events_to_abx, AbxParser, Event};
use harness::common::{map_error, Val};

use crate::documents::{self, Random, Visit, HEADER};
use crate::lent::{unwritten_byte, unwritten_word, Lent};
use crate::ours::{self, refused, Answer};
use crate::report::{Compared, Difference, Report, Seen, Tested};
use crate::rows;
use crate::slice::same;
use crate::walk::{Walk, POOL_LIMIT};

/// A list as our writer takes it: rows, and the two stores of their spans.
#[derive(Clone, Copy)]
pub struct List<'a> {
    pub first: &'a [u8],
    pub second: &'a [u8],
    pub rows: &'a [u32],
}

/// What a list of events is made from.
#[derive(Default)]
pub struct Stored {
    stores: [Vec<u8>; 2],
    words: Vec<u32>,
    /// How many words there are at each event's end.
    ends: Vec<usize>,
}

impl Stored {
    pub fn new(events: &[Event]) -> Stored {
        let mut stored = Stored::default();
        for event in events {
            for row in rows::of(event) {
                let name = match row.name {
                    None => [0, 0, 0],
                    Some(name) => stored.span(&name),
                };
                let value = match row.val {
                    Val::None => [0, 0, 0],
                    Val::Bytes(bytes) => stored.span(&bytes),
                    Val::B32(word) => [0, 0, word],
                    Val::B64(pair) => [0, (pair >> 32) as u32, pair as u32],
                };
                stored.words.push(row.kind.into());
                stored.words.extend(name);
                stored.words.push(row.ty.into());
                stored.words.extend(value);
            }
            stored.ends.push(stored.words.len());
        }
        stored
    }

    /// Puts the bytes into one of the stores, anew each time.
    fn span(&mut self, bytes: &[u8]) -> [u32; 3] {
        let source = (self.stores[0].len() + self.words.len()) / 8 % 2;
        let store = &mut self.stores[source];
        store.push(b'.');
        let start = store.len();
        store.extend_from_slice(bytes);
        [source as u32, start as u32, bytes.len() as u32]
    }

    /// The rows of some events of the list.
    pub fn part(&self, from: usize, to: usize) -> List<'_> {
        let place = |event: usize| if event == 0 { 0 } else { self.ends[event - 1] };
        self.rows(&self.words[place(from)..place(to)])
    }

    fn rows<'a>(&'a self, rows: &'a [u32]) -> List<'a> {
        List {
            first: &self.stores[0],
            second: &self.stores[1],
            rows,
        }
    }
}

/// What the writer has done: bytes written, names in the pool.
#[derive(Clone, Copy)]
struct State {
    written: usize,
    names: usize,
}

/// Which calls a list is tried with: one for the whole list; also in halves and without enough space; also event by event
/// and with wrong rows.
#[derive(Clone, Copy, PartialEq, PartialOrd)]
pub enum Calls {
    Whole,
    Lists,
    Each,
}

pub struct Writer {
    output: Lent<u8>,
    pool: Lent<u32>,
    /// For the walk over what the Rust wrote.
    walked: [Lent<u32>; 2],
    used: State,
    seen: Seen,
}

impl Tested for Writer {
    fn seen(&self) -> &Seen {
        &self.seen
    }

    fn renew(&mut self) {
        self.output.renew();
        self.pool.renew();
    }
}

impl Writer {
    pub fn new(len: usize) -> Writer {
        let names = (len / 4 + 4).min(POOL_LIMIT);
        Writer {
            output: Lent::new((2 * len + 16).min(16_777_216), unwritten_byte),
            pool: Lent::new(2 * names, unwritten_word),
            walked: [2 * names, 64].map(|len| Lent::new(len, unwritten_word)),
            used: State {
                written: 0,
                names: 0,
            },
            seen: Seen::default(),
        }
    }

    /// Compares all that the two make of a list of events.
    pub fn list(&mut self, events: &[Event], calls: Calls) -> Compared {
        self.seen.documents += 1;
        self.seen.events += events.len() as u64;
        for event in events {
            rows::of(event).iter().for_each(|row| self.seen.row(row));
        }
        let stored = Stored::new(events);
        let all = stored.part(0, events.len());
        let bytes = match events_to_abx(events) {
            Ok(bytes) => bytes,
            Err(error) => {
                let (number, detail) = map_error(&error);
                let state = self.create()?;
                return self.refuses(state, all, refused(number, detail));
            }
        };
        self.output.grow((bytes.len() + 9).min(16_777_216));
        let states = self.states(events, &bytes);
        let end = *states.last().unwrap();
        let state = self.create()?;
        self.takes(false, state, end, all, &bytes)?;
        if calls >= Calls::Lists {
            let state = self.create()?;
            if end.names > 0 {
                let room = [bytes.len() - 1, 2 * end.names - 2];
                self.call(false, state, all, room, refused(11, 0))?;
            }
            if bytes.len() > 4 {
                let room = [bytes.len() - 1, self.pool.len()];
                self.call(false, state, all, room, refused(15, 0))?;
            }
            let half = events.len() / 2;
            self.takes(false, state, states[half], stored.part(0, half), &bytes)?;
            let rest = stored.part(half, events.len());
            self.takes(false, states[half], end, rest, &bytes)?;
        }
        if calls >= Calls::Each {
            self.create()?;
            for i in 0..events.len() {
                let (from, to) = (states[i], states[i + 1]);
                self.takes(true, from, to, stored.part(i, i + 1), &bytes)?;
            }
            self.wrong_rows(&stored)?;
        }
        self.whole_tables()
    }

    /// What the Rust does not know: words that form no rows, strings that break RFC 3629, pairs that end outside.
    fn wrong_rows(&mut self, stored: &Stored) -> Compared {
        let state = self.create()?;
        let words = &stored.words;
        let not_rows = refused(16, 0);
        self.call_all(true, state, stored.rows(&[]), not_rows)?;
        if words.is_empty() {
            return Ok(());
        }
        if stored.ends.len() > 1 {
            self.call_all(true, state, stored.part(0, 2), not_rows)?;
        }
        for change in 0..8 {
            let mut words = words.clone();
            let last = words.len() - 8;
            match change {
                0 => words.push(0),
                1 => words[0] = 15,
                2 => words[last] = 11,
                3 => words[last + 4] = 3,
                4 => words[last + 1] = 2,
                5 => words[last + 5] = 2,
                6 => words[last + 2] = u32::MAX,
                _ => _ = words.pop(),
            }
            self.call_all(false, state, stored.rows(&words), not_rows)?;
        }
        if (0..words.len() / 8).any(|row| [2, 3, 15].contains(&words[8 * row])) {
            self.pool.put(0, &[self.output.len() as u32, 1]);
            let state = State { names: 1, ..state };
            self.call_all(false, state, stored.rows(words), refused(19, 0))?;
            self.pool.clear(2);
        }
        // the first string with a byte in it
        for row in words.chunks_exact(8) {
            let spans = [(true, &row[1..4]), (row[4] == 2, &row[5..8])];
            for (is_string, span) in spans {
                if is_string && span[2] > 0 {
                    let mut stores = stored.stores.clone();
                    stores[span[0] as usize][span[1] as usize] = 0xFF;
                    let list = List {
                        first: &stores[0],
                        second: &stores[1],
                        rows: words,
                    };
                    return self.call_all(false, state, list, refused(7, 0));
                }
            }
        }
        Ok(())
    }

    /// The state after each event of what the Rust wrote. The pairs of new names are noted on the way.
    fn states(&mut self, events: &[Event], bytes: &[u8]) -> Vec<State> {
        let [pool, rows] = &mut self.walked;
        let mut walk = Walk {
            document: bytes,
            at: 4,
            names: 0,
            pool,
            rows,
            written: 0,
            store: None,
        };
        let mut states = vec![State {
            written: 4,
            names: 0,
        }];
        for event in events {
            walk.rows.grow(8 * rows::count(event));
            walk.written = 0;
            walk.event();
            states.push(State {
                written: walk.at,
                names: walk.names,
            });
        }
        states
    }

    /// A writer anew, the output and the pool as unwritten.
    fn create(&mut self) -> Result<State, Difference> {
        self.output.clear(self.used.written);
        self.pool.clear(2 * self.used.names);
        let short = ours::abx_writer_create(&mut self.output.now[..3], &self.pool.now);
        same("create", short, refused(15, 0))?;
        self.seen.refusal(short);
        self.output.expect(0, &HEADER);
        let created = ours::abx_writer_create(&mut self.output.now, &self.pool.now);
        same("create", created, [0, 4, 0, 0])?;
        self.used = State {
            written: 4,
            names: 0,
        };
        Ok(self.used)
    }

    fn refuses(&mut self, state: State, list: List, answer: Answer) -> Compared {
        self.call_all(false, state, list, answer)?;
        self.whole_tables()
    }

    /// A call that should come from one state to another, of which `bytes` has all that is written. On every other call
    /// there is nothing to spare.
    fn takes(
        &mut self,
        single: bool,
        from: State,
        to: State,
        list: List,
        bytes: &[u8],
    ) -> Compared {
        self.output
            .expect(from.written, &bytes[from.written..to.written]);
        for i in 2 * from.names..2 * to.names {
            let word = self.walked[0].expected(i);
            self.pool.expect(i, &[word]);
        }
        self.used = to;
        let room = match self.seen.calls % 2 {
            0 => [self.output.len(), self.pool.len()],
            _ => [to.written, 2 * to.names],
        };
        self.call(single, from, list, room, [0, to.written, to.names, 0])
    }

    fn call_all(&mut self, single: bool, state: State, list: List, expected: Answer) -> Compared {
        let room = [self.output.len(), self.pool.len()];
        self.call(single, state, list, room, expected)
    }

    fn call(
        &mut self,
        single: bool,
        state: State,
        list: List,
        room: [usize; 2],
        expected: Answer,
    ) -> Compared {
        self.seen.calls += 1;
        self.seen.refusal(expected);
        let output = &mut self.output.now[..room[0]];
        let pool = &mut self.pool.now[..room[1]];
        let write = if single {
            ours::abx_write_event
        } else {
            ours::abx_write_events
        };
        let List {
            first,
            second,
            rows,
        } = list;
        let (written, names) = (state.written, state.names);
        let answer = write(written, names, first, second, rows, output, pool);
        let call = if single {
            "write_event"
        } else {
            "write_events"
        };
        same(call, answer, expected)?;
        let (written, names) = match expected {
            [0, written, names, _] => (written, names),
            _ => (state.written, state.names),
        };
        if !self.output.holds(state.written, written) {
            return Err(format!(
                "the output after a {call} that answered {answer:?}"
            ));
        }
        if !self.pool.holds(2 * state.names, 2 * names) {
            return Err(format!("the pool after a {call} that answered {answer:?}"));
        }
        Ok(())
    }

    fn whole_tables(&self) -> Compared {
        if self.output.holds_all() && self.pool.holds_all() {
            return Ok(());
        }
        Err("a byte or word far from those that a call may write has changed".into())
    }
}

// ---- sections

/// Lists of events, each written by both. The lists are what the Rust reads of documents.
fn write(report: &mut Report, name: &str, len: usize, calls: Calls, documents: impl FnOnce(Visit)) {
    report.section(name, Writer::new(len), |compare| {
        documents(&mut |document| {
            compare(document, &mut |writer| {
                writer.list(&events_of(document), calls)
            });
        });
    });
}

/// The events up to the end or the first refusal.
pub fn events_of(document: &[u8]) -> Vec<Event> {
    let mut events = vec![];
    if let Ok(mut parser) = AbxParser::new(document) {
        while let Ok(Some(event)) = parser.next_event() {
            events.push(event);
        }
    }
    events
}

pub fn writer(report: &mut Report, long: bool, random: &mut Random) {
    write(report, "writer: up to 3 events", 64, Calls::Each, |visit| {
        (0..=3).for_each(|count| documents::events(count, visit));
    });
    let rounds = if long { 600_000 } else { 60_000 };
    write(report, "writer: seeded", 600, Calls::Each, |visit| {
        for i in 0..rounds {
            visit(&documents::some(random, 1 + i % 12, 0).0);
        }
    });
    let rounds = if long { 2_000 } else { 100 };
    write(
        report,
        "writer: seeded, 300 events",
        60_000,
        Calls::Each,
        |visit| {
            (0..rounds).for_each(|_| visit(&documents::some(random, 300, 0).0));
        },
    );
    // the search for a name is linear, so long lists of names are few
    let size = if long { 1_000_000 } else { 200_000 };
    write(report, "writer: long lists", size, Calls::Lists, |visit| {
        visit(&documents::sized(random, size));
        visit(&documents::long_tag(random, size));
    });
    let name = "writer: names near the pool's limit";
    write(report, name, 800_000, Calls::Whole, |visit| match long {
        true => (65_534..=65_537).for_each(|count| documents::many_names(count, visit)),
        false => visit(&documents::names_and(
            65_537,
            false,
            documents::PAST_THE_LIMIT,
        )),
    });
    long_values(report);
}

/// Strings and blobs of 65,534 to 65,537 bytes in every place.
fn long_values(report: &mut Report) {
    let name = "writer: long strings and blobs";
    report.section(name, Writer::new(600_000), |compare| {
        for len in [65_534, 65_535, 65_536, 65_537, 200_000] {
            for events in documents::lists_with(&"x".repeat(len)) {
                let shown = format!("{events:?}").into_bytes();
                compare(&shown, &mut |writer| {
                    writer
                        .list(&events, Calls::Each)
                        .map_err(|e| format!("{len} bytes: {e}"))
                });
            }
        }
    });
}
