//! Our chunk reader, call by call, beside the Rust's grammar on the bytes that wait in the same window.

use android_abx::probe::{self, Outcome};
use android_abx::{Event, InternedStr};
use harness::common::map_error;

use crate::documents::{Random, HEADER};
use crate::lent::{unwritten_byte, unwritten_word, Lent};
use crate::ours::{self, refused, Answer, END, NEED_MORE};
use crate::report::{Compared, Difference, Seen, Tested};
use crate::rows::{self, has};
use crate::slice::{same, OUTSIDE};
use crate::walk::{Walk, POOL_LIMIT};

pub const MAX_WINDOW: usize = 1_048_576;
const MAX_STORE: usize = 16_777_216;
const MAX_TABLE: usize = 131_070;

/// A state that six words say.
#[derive(Clone, Copy, PartialEq, Debug)]
pub struct State {
    pub start: usize,
    pub end: usize,
    pub names: usize,
    pub bytes: usize,
    pub header: bool,
    pub finished: bool,
}

pub const FRESH: State = State {
    start: 0,
    end: 0,
    names: 0,
    bytes: 0,
    header: false,
    finished: false,
};

impl State {
    fn words(self) -> [usize; 6] {
        let flags = [self.header, self.finished].map(usize::from);
        [
            self.start, self.end, self.names, self.bytes, flags[0], flags[1],
        ]
    }
}

/// How much is lent in a call of what there is.
#[derive(Clone, Copy, Debug)]
pub struct Lend {
    pub state: usize,
    pub window: usize,
    pub pool: usize,
    pub store: usize,
    pub rows: usize,
}

pub struct Reader {
    state: Lent<usize>,
    pub window: Lent<u8>,
    pool: Lent<u32>,
    pub store: Lent<u8>,
    pub rows: Lent<u32>,
    /// What every call is lent, if nothing else is said.
    pub lend: Lend,
    /// The names that the pool's pairs name.
    names: Vec<InternedStr>,
    /// Whether a pair ends outside the store.
    outside: bool,
    pub seen: Seen,
}

/// What a next should answer and leave: the state, and an event of so many bytes.
struct Expected {
    answer: Answer,
    state: Option<State>,
    event: Option<(Event, usize)>,
}

fn unwritten_count(i: usize) -> usize {
    unwritten_word(i) as usize
}

impl Tested for Reader {
    fn seen(&self) -> &Seen {
        &self.seen
    }

    fn renew(&mut self) {
        self.state.renew();
        self.window.renew();
        self.pool.renew();
        self.store.renew();
        self.rows.renew();
        self.names.clear();
        self.outside = false;
    }
}

impl Reader {
    /// With a window of so many bytes, and tables for documents of up to `len` bytes.
    pub fn new(window: usize, len: usize) -> Reader {
        let names = (len / 4 + 4).min(POOL_LIMIT);
        let lend = Lend {
            state: 6,
            window,
            pool: 2 * names,
            store: len.min(MAX_STORE),
            rows: 8 * (len.min(MAX_WINDOW) / 3 + 4) + 3,
        };
        Reader {
            state: Lent::new(8, unwritten_count),
            window: Lent::new(window, unwritten_byte),
            pool: Lent::new(lend.pool + 1, unwritten_word),
            store: Lent::new(lend.store, unwritten_byte),
            rows: Lent::new(lend.rows, unwritten_word),
            lend,
            names: vec![],
            outside: false,
            seen: Seen::default(),
        }
    }

    /// As much as no call takes.
    pub fn grow(&mut self) {
        self.pool.grow(MAX_TABLE + 2);
        self.store.grow(MAX_STORE + 1);
    }

    pub fn stream(&self) -> State {
        let [start, end, names, bytes, header, finished] =
            [0, 1, 2, 3, 4, 5].map(|i| self.state.expected(i));
        State {
            start,
            end,
            names,
            bytes,
            header: header != 0,
            finished: finished != 0,
        }
    }

    pub fn waiting(&self) -> &[u8] {
        let s = self.stream();
        &self.window.now[s.start..s.end]
    }

    /// 17, or else 19, for what is lent.
    pub fn fault(&self, lend: Lend) -> Option<Answer> {
        let s = self.stream();
        let sizes = !(64..=MAX_WINDOW).contains(&lend.window)
            || lend.pool % 2 == 1
            || lend.pool > MAX_TABLE
            || lend.store > MAX_STORE;
        let state = lend.state < 6
            || s.start > s.end
            || s.end > lend.window
            || s.names > lend.pool / 2
            || s.bytes > lend.store;
        match (sizes, state) {
            (true, _) => Some(refused(17, 0)),
            (false, true) => Some(refused(19, 0)),
            _ => None,
        }
    }

    // ---- the calls

    /// A reader anew. The window holds what it held, the tables are unwritten.
    pub fn create(&mut self) -> Compared {
        self.pool.clear(2 * self.names.len());
        self.store.clear(self.stream().bytes.min(self.store.len()));
        self.names.clear();
        self.outside = false;
        self.create_with(self.lend)
    }

    pub fn create_with(&mut self, lend: Lend) -> Compared {
        // whatever the state's words say, a creation does not look at them
        let words = self.state.now.clone();
        self.state.put(0, &FRESH.words());
        let expected = self.fault(lend);
        self.state.put(0, &words);
        let answer = ours::abx_stream_create(
            &mut self.state.now[..lend.state],
            &self.window.now[..lend.window],
            &self.pool.now[..lend.pool],
            &self.store.now[..lend.store],
        );
        match expected {
            None => self.compare("create", answer, [0; 4], Some(FRESH), 0),
            Some(refusal) => self.compare("create", answer, refusal, None, 0),
        }
    }

    /// A feed. Of the chunk as many bytes should be taken as fit.
    pub fn feed(&mut self, chunk: &[u8], lend: Lend) -> Result<Answer, Difference> {
        let s = self.stream();
        let expected = match self.fault(lend) {
            Some(answer) => answer,
            None if s.finished => refused(18, 0),
            None => [0, chunk.len().min(lend.window - (s.end - s.start)), 0, 0],
        };
        let answer = ours::abx_stream_feed(
            &mut self.state.now[..lend.state],
            &mut self.window.now[..lend.window],
            &self.pool.now[..lend.pool],
            &self.store.now[..lend.store],
            chunk,
        );
        let mut state = None;
        if let [0, taken, ..] = expected {
            let waiting = s.end - s.start;
            self.window.expect_moved(s.start..s.end);
            self.window.expect(waiting, &chunk[..taken]);
            state = Some(State {
                start: 0,
                end: waiting + taken,
                ..s
            });
        }
        self.compare("feed", answer, expected, state, 0)?;
        Ok(answer)
    }

    pub fn finish(&mut self, lend: Lend) -> Result<Answer, Difference> {
        let s = self.stream();
        let expected = match self.fault(lend) {
            Some(answer) => answer,
            None if s.finished => refused(18, 0),
            None => [0; 4],
        };
        let answer = ours::abx_stream_finish(
            &mut self.state.now[..lend.state],
            &self.window.now[..lend.window],
            &self.pool.now[..lend.pool],
            &self.store.now[..lend.store],
        );
        let state = (expected[0] == 0).then_some(State {
            finished: true,
            ..s
        });
        self.compare("finish", answer, expected, state, 0)?;
        Ok(answer)
    }

    pub fn next(&mut self, lend: Lend) -> Result<Answer, Difference> {
        let before = self.stream();
        let mut expected = self.expected(lend);
        let rows = match expected.answer {
            [0, count, ..] => 8 * count,
            _ => 0,
        };
        self.rows.clear(rows + 8);
        let answer = ours::abx_stream_next(
            &mut self.state.now[..lend.state],
            &self.window.now[..lend.window],
            &mut self.pool.now[..lend.pool],
            &mut self.store.now[..lend.store],
            &mut self.rows.now[..lend.rows],
        );
        // a pair that ends outside is 19 where it is used, and the Rust does not show whether it was used before its own answer
        if self.outside && expected.event.is_none() && answer == refused(19, 0) {
            (expected.answer, expected.state) = (answer, None);
        }
        if let Some((event, len)) = &expected.event {
            let after = expected.state.unwrap();
            self.walk(before, after, *len)?;
            self.seen.events += 1;
            let stores = [&self.window.now[..], &self.store.now[..]];
            let words = &self.rows.now[..rows];
            if !rows::say(&stores, words, &rows::of(event), &mut self.seen) {
                return Err(format!("the event after {before:?} is not {event:?}"));
            }
        }
        self.compare("next", answer, expected.answer, expected.state, rows)?;
        Ok(answer)
    }

    /// What a next should answer, by the Rust's grammar on the bytes that wait.
    fn expected(&mut self, lend: Lend) -> Expected {
        let only = |answer, state| Expected {
            answer,
            state,
            event: None,
        };
        if let Some(refusal) = self.fault(lend) {
            return only(refusal, None);
        }
        let s = self.stream();
        let waiting = &self.window.now[s.start..s.end];
        let mut from = s.start;
        if !s.header {
            match waiting.first_chunk() {
                None if s.finished => return only(refused(1, 0), None),
                None => return only(NEED_MORE, Some(s)),
                Some(&header) if header != HEADER => {
                    let detail = u32::from_be_bytes(header);
                    return only(refused(2, detail.into()), None);
                }
                Some(_) => from += 4,
            }
        }
        let passed = State {
            start: from,
            header: true,
            ..s
        };
        if s.finished && from == s.end {
            return only(END, Some(passed));
        }
        let window = &self.window.now[from..s.end];
        match probe::partial(window, s.finished, &mut self.names) {
            Outcome::Event(event, len) => {
                self.names.truncate(POOL_LIMIT);
                let new: usize = self.names[s.names..].iter().map(|name| name.len()).sum();
                let after = State {
                    start: from + len,
                    names: self.names.len(),
                    bytes: s.bytes + new,
                    ..passed
                };
                let count = rows::count(&event);
                let refusal = if self.outside && has(&event, OUTSIDE) {
                    19
                } else if lend.rows / 8 < count {
                    10
                } else if lend.pool < 2 * after.names {
                    11
                } else if lend.store < after.bytes {
                    12
                } else {
                    return Expected {
                        answer: [0, count, 0, 0],
                        state: Some(after),
                        event: Some((event, len)),
                    };
                };
                self.names.truncate(s.names);
                only(refused(refusal, 0), None)
            }
            Outcome::Incomplete(_) if s.end - from == lend.window => only(refused(13, 0), None),
            Outcome::Incomplete(_) => only(NEED_MORE, Some(passed)),
            Outcome::Error(error) => {
                let (number, detail) = map_error(&error);
                only(refused(number, detail), None)
            }
        }
    }

    /// Notes the words that an event should leave.
    fn walk(&mut self, before: State, after: State, len: usize) -> Compared {
        let mut walk = Walk {
            document: &self.window.now[..before.end],
            at: after.start - len,
            names: before.names,
            pool: &mut self.pool,
            rows: &mut self.rows,
            written: 0,
            store: Some((&mut self.store, before.bytes)),
        };
        walk.event();
        let bytes = walk.store.map(|(_, used)| used);
        if (walk.at, walk.names, bytes) == (after.start, after.names, Some(after.bytes)) {
            return Ok(());
        }
        Err("the Rust's event is not as long as its fields".into())
    }

    /// Whether a call answered this and left the state and every lent word as it should.
    fn compare(
        &mut self,
        call: &str,
        answer: Answer,
        expected: Answer,
        state: Option<State>,
        rows: usize,
    ) -> Compared {
        self.seen.calls += 1;
        self.seen.refusal(expected);
        let before = self.stream();
        same(call, answer, expected).map_err(|e| format!("{e} after {before:?}"))?;
        if let Some(state) = state {
            self.state.expect(0, &state.words());
        }
        let after = self.stream();
        let moved = if call == "feed" { after.end } else { 0 };
        let pairs = [before.names, after.names].map(|names| 2 * names.min(POOL_LIMIT));
        let held = [
            self.state.holds_all(),
            self.window.holds(0, moved),
            self.pool.holds(pairs[0], pairs[1]),
            self.store.holds(before.bytes, after.bytes),
            self.rows.holds(0, rows),
        ];
        if held == [true; 5] {
            return Ok(());
        }
        Err(format!(
            "{call} answered {answer:?} after {before:?}; state, window, pool, store, rows as they should be: {held:?}"
        ))
    }

    /// Whether all words and bytes are as they should be, also those far from what a call may write.
    pub fn whole_tables(&self) -> Compared {
        let all = self.window.holds_all()
            && self.pool.holds_all()
            && self.store.holds_all()
            && self.rows.holds_all();
        match all {
            true => Ok(()),
            false => Err("a word far from those that a call may write has changed".into()),
        }
    }

    // ---- calls that are refused, or change nothing

    /// The next call with too few rows, pairs and bytes for the event that waits, one by one; then with just enough of each, or
    /// with all that there is.
    pub fn next_tightly(&mut self, tight: bool) -> Result<Answer, Difference> {
        let before = self.stream();
        let kept = self.names.len();
        let Expected {
            answer: [0, count, ..],
            state: Some(after),
            ..
        } = self.expected(self.lend)
        else {
            return self.next(self.lend);
        };
        self.names.truncate(kept);
        let exact = Lend {
            pool: 2 * after.names,
            store: after.bytes,
            rows: 8 * count,
            ..self.lend
        };
        let few = Lend {
            pool: 2 * before.names,
            store: before.bytes,
            rows: 8 * count - 1,
            ..exact
        };
        self.next(few)?;
        if after.names > before.names {
            let pool = exact.pool - 2;
            let rows = exact.rows;
            self.next(Lend { pool, rows, ..few })?;
        }
        if after.bytes > before.bytes {
            let store = exact.store - 1;
            self.next(Lend { store, ..exact })?;
        }
        self.next(if tight { exact } else { self.lend })
    }

    /// A call with sizes or a state that no reader takes, with other flags that are true, or one that comes too late. It takes
    /// no byte of a document and hands out no event.
    pub fn trouble(&mut self, random: &mut Random) -> Compared {
        let mut lend = self.lend;
        let words = self.stream().words();
        let mut damaged = false;
        match random.below(8) {
            0 => lend.window = random.below(lend.window + 1),
            1 => lend.pool = random.below(lend.pool + 2),
            2 => lend.store = random.below(lend.store + 1),
            3 => lend.state = random.below(6),
            4 => lend.window = random.below(64),
            5 => lend.pool |= 1,
            6 => {
                let flags = [4, 5].map(|i| words[i] * (1 + random.below(9)));
                self.state.put(4, &flags);
            }
            _ => {
                let i = random.below(4);
                let room = [lend.window, lend.window, lend.pool / 2, lend.store][i];
                let outside = [room + 1, usize::MAX, usize::MAX / 2 + 1][random.below(3)];
                self.state.put(i, &[outside]);
                damaged = true;
            }
        }
        let refused = self.fault(lend).is_some();
        match random.below(3) {
            0 => _ = self.feed(&[], lend)?,
            1 if refused || self.stream().finished => _ = self.finish(lend)?,
            2 if refused => _ = self.next(lend)?,
            _ => {}
        }
        if damaged {
            self.state.put(0, &words);
        }
        Ok(())
    }

    /// Puts a reader in any state, with names that are parts of the store, of which some may end outside.
    pub fn place(
        &mut self,
        state: State,
        window: &[u8],
        store: &[u8],
        names: &[InternedStr],
        pairs: &[[u32; 2]],
    ) {
        self.pool.clear(2 * self.names.len());
        self.names.clear();
        self.names.extend_from_slice(names);
        self.outside = names.iter().any(|name| name == OUTSIDE);
        for (i, pair) in pairs.iter().enumerate() {
            self.pool.put(2 * i, pair);
        }
        self.window.put(0, window);
        self.store.put(0, store);
        self.state.put(0, &state.words());
    }
}
