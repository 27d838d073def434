//! One query after another, by our slice reader and by the Rust's `AbxParser`, mixed with single events.
//!
//! What a document holds is known from the Rust's grammar and from `Walk`, which says where each span lies. From that and from
//! the paper follows what a query leaves, for any room (`expected`). Where there is room enough it is also held against the Rust's
//! own query: its values, its None or refusal, and how many events it left for `next_event`.

use android_abx::probe::{self, Outcome};
use android_abx::{AbxParser, Attribute, Event, InternedStr};
use harness::common::map_error;

use crate::documents::{self, Random, Visit, HEADER};
use crate::lent::{unwritten_word, Lent};
use crate::ours::{self, ask, Query, QueryKind, Told};
use crate::report::{Compared, Difference, Report, Seen, Tested};
use crate::rows::{self, has};
use crate::slice::{edges, same, OUTSIDE};
use crate::walk::{Walk, POOL_LIMIT};

/// A call on a reader.
#[derive(Clone, Debug)]
enum Call {
    Next,
    Ask(Query),
}

/// What the Rust answered: found, done or refused, and the tags that it gave. Where it gave values alone, each stands in a tag of the
/// names asked for.
struct Said {
    what: usize,
    refusal: (u32, u64),
    tags: Vec<Event>,
}

/// An event that the Rust gave, where it starts, the names before it, and its first row.
struct Passed {
    event: Event,
    at: usize,
    names: usize,
    row: usize,
}

/// What a query should leave: how it ends, how many events it consumed, and which rows it wrote.
#[derive(Debug)]
struct Expected {
    what: usize,
    refusal: (u32, u64),
    events: usize,
    rows: Vec<usize>,
}

/// What came up, so that nothing is left out.
#[derive(Default)]
pub struct Counts {
    endings: [[u64; 3]; 4],
    refusals: [[u64; 20]; 4],
    /// Lists that the Rust dropped on a refusal, and their rows.
    dropped: u64,
    dropped_rows: u64,
}

pub struct Asker {
    events: Vec<Passed>,
    /// The place and the names after the last event.
    end: [usize; 2],
    refusal: Option<(u32, u64)>,
    names: Vec<InternedStr>,
    /// Every word of the pool and of the rows, as `Walk` expects it.
    known_pool: Lent<u32>,
    known_rows: Lent<u32>,
    pool: Lent<u32>,
    rows: Lent<u32>,
    written: usize,
    seen: Seen,
    counts: Counts,
}

impl Tested for Asker {
    fn seen(&self) -> &Seen {
        &self.seen
    }

    fn renew(&mut self) {
        self.pool.renew();
        self.rows.renew();
        self.written = 0;
    }
}

impl Asker {
    pub fn new() -> Asker {
        let words = || Lent::new(64, unwritten_word);
        Asker {
            events: vec![],
            end: [0; 2],
            refusal: None,
            names: vec![],
            known_pool: words(),
            known_rows: words(),
            pool: words(),
            rows: words(),
            written: 0,
            seen: Seen::default(),
            counts: Counts::default(),
        }
    }

    /// Random calls on one reader, each of them held against the Rust's.
    pub fn document(&mut self, document: &[u8], random: &mut Random, calls: usize) -> Compared {
        if AbxParser::new(document).is_err() {
            return Ok(());
        }
        self.know(document, 4, &[], &[])?;
        let mut made: Vec<Call> = vec![];
        let mut from = 0;
        for _ in 0..calls {
            made.push(self.some_call(random, from));
            from = match made.last() {
                Some(Call::Ask(query)) => {
                    let query = query.clone();
                    self.trials(document, from, &query, random)?;
                    self.query(document, from, &query, &made, random)
                }
                _ => self.next(document, from, &made),
            }
            .map_err(|e| format!("{e}, the last of {made:?}"))?;
        }
        Ok(())
    }

    /// A query from any event on, after names whose pairs are given. One of them may end outside: 19 where it is used.
    pub fn place(&mut self, document: &[u8], random: &mut Random) -> Compared {
        self.know(document, 4, &[], &[])?;
        let from = random.below(self.events.len() + 1);
        let [at, count] = self.place_of(from);
        let mut names = self.names[..count].to_vec();
        let mut pairs: Vec<[u32; 2]> = (0..count)
            .map(|i| [2 * i, 2 * i + 1].map(|i| self.known_pool.expected(i)))
            .collect();
        let query = self.some_query(random, from);
        if count > 0 {
            let len = document.len() as u32;
            let ends = [[len, 1], [len + 1, 0], [0, len + 1], [u32::MAX, 1]];
            let outside = random.below(count);
            names[outside] = OUTSIDE.into();
            pairs[outside] = ends[random.below(4)];
        }
        self.know(document, at, &names, &pairs)?;
        self.trials(document, 0, &query, random)?;
        self.ask(document, 0, &query, self.pool.len(), self.rows.len())
            .map(|_| ())
            .map_err(|e| format!("{e}, {query:?}, the pairs {pairs:?}"))
    }

    /// Sizes and states on their edges. An answer is written where there is room for seven words.
    pub fn lent(&mut self, document: &[u8], good: bool) -> Compared {
        self.pool.grow(131_072);
        self.rows.grow(64);
        self.renew();
        for kind in QueryKind::ALL {
            let query = Query {
                kind,
                element: b"p".to_vec(),
                name: b"".to_vec(),
            };
            for edge in edges(document, good) {
                let number = edge.refusal.unwrap_or(0) as usize;
                let what = if number == 0 { 1 } else { 2 };
                let place = [edge.at, edge.names];
                self.seen.calls += 1;
                self.count(kind, what, number);
                let pool = &mut self.pool.now[..edge.pool];
                let rows = &mut self.rows.now[..16];
                let told = ask(&query, place, document, pool, rows);
                same(
                    "a query",
                    told,
                    [what, edge.at, edge.names, 0, 0, number, 0],
                )?;
            }
            let number = if good { 19 } else { 17 };
            let outside = [document.len() + 1, 3];
            let told = [2, outside[0], outside[1], 0, 0, number, 0];
            let answers = answers_of(&query, outside, document);
            for (room, answer) in answers.into_iter().enumerate() {
                let mut expected = vec![usize::MAX; room];
                if room >= 7 {
                    expected[..7].copy_from_slice(&told);
                }
                if answer != expected {
                    return Err(format!("an answer of {room} words: {answer:?}"));
                }
            }
        }
        if !self.pool.holds_all() || !self.rows.holds_all() {
            return Err("a refused query changed a word".into());
        }
        Ok(())
    }

    // ---- what a document holds

    /// The events from a place on, to the end or the first refusal; 19 where a name is used whose pair ends outside.
    fn know(
        &mut self,
        document: &[u8],
        at: usize,
        names: &[InternedStr],
        pairs: &[[u32; 2]],
    ) -> Compared {
        self.seen.documents += 1;
        self.pool.clear(2 * self.names.len());
        self.events.clear();
        self.names.clear();
        self.names.extend_from_slice(names);
        self.refusal = None;
        self.known_pool.grow(2 * names.len());
        self.pool.grow(2 * names.len());
        for (i, pair) in pairs.iter().enumerate() {
            self.known_pool.expect(2 * i, pair);
            self.pool.put(2 * i, pair);
        }
        let (mut at, mut row) = (at, 0);
        while at < document.len() {
            let count = self.names.len();
            let (event, len) = match probe::complete(&document[at..], &mut self.names) {
                Outcome::Event(event, _) if has(&event, OUTSIDE) => {
                    self.names.truncate(count);
                    self.refusal = Some((19, 0));
                    break;
                }
                Outcome::Event(event, len) => (event, len),
                Outcome::Error(error) => {
                    self.names.truncate(count);
                    self.refusal = Some(map_error(&error));
                    break;
                }
                Outcome::Incomplete(_) => return Err("the Rust's grammar is at a loss".into()),
            };
            let rows = rows::count(&event);
            self.known_pool.grow(2 * self.names.len().min(POOL_LIMIT));
            self.known_rows.grow(8 * (row + rows));
            let names = count.min(POOL_LIMIT);
            let mut walk = Walk {
                document,
                at,
                names,
                pool: &mut self.known_pool,
                rows: &mut self.known_rows,
                written: 8 * row,
                store: None,
            };
            walk.event();
            self.events.push(Passed {
                event,
                at,
                names,
                row,
            });
            (at, row) = (at + len, row + rows);
        }
        self.end = [at, self.names.len().min(POOL_LIMIT)];
        self.pool.grow(2 * self.end[1] + 4);
        if self.pool.len() > 131_070 {
            self.pool = Lent::new(131_070, unwritten_word);
        }
        self.rows.grow(8 * row + 19);
        self.seen.events += self.events.len() as u64;
        Ok(())
    }

    fn place_of(&self, index: usize) -> [usize; 2] {
        match self.events.get(index) {
            Some(passed) => [passed.at, passed.names],
            None => self.end,
        }
    }

    // ---- what a query leaves, by the paper

    /// The rows of an event that a query writes.
    fn picked(&self, passed: &Passed, query: &Query) -> Vec<usize> {
        let Event::StartTag { name, attributes } = &passed.event else {
            return vec![];
        };
        if name.as_bytes() != query.element {
            return vec![];
        }
        let named = (0..attributes.len())
            .filter(|i| attributes[*i].name.as_bytes() == query.name)
            .map(|i| passed.row + 1 + i);
        match query.kind {
            QueryKind::FindAttribute => named.take(1).collect(),
            QueryKind::FindAllAttributes => named.collect(),
            _ => (passed.row..=passed.row + attributes.len()).collect(),
        }
    }

    /// With so many words of pool and rows.
    fn expected(&self, from: usize, query: &Query, pool: usize, room: usize) -> Expected {
        let single = matches!(
            query.kind,
            QueryKind::FindAttribute | QueryKind::AttributesOf
        );
        let mut rows = vec![];
        let mut index = from;
        let (what, refusal) = loop {
            let Some(passed) = self.events.get(index) else {
                break match self.refusal {
                    None => (1, (0, 0)),
                    Some(refusal) => (2, refusal),
                };
            };
            let picked = self.picked(passed, query);
            if room / 8 < rows.len() + picked.len() {
                break (2, (10, 0));
            }
            if pool < 2 * self.place_of(index + 1)[1] {
                break (2, (11, 0));
            }
            index += 1;
            let found = !picked.is_empty();
            rows.extend(picked);
            if single && found {
                break (0, (0, 0));
            }
            if single && passed.event == Event::EndDocument {
                break (1, (0, 0));
            }
        };
        Expected {
            what,
            refusal,
            events: index - from,
            rows,
        }
    }

    /// Our query with so many words lent: the answer, the rows, the pool, and that no other word changed.
    fn ask(
        &mut self,
        document: &[u8],
        from: usize,
        query: &Query,
        pool: usize,
        room: usize,
    ) -> Result<Expected, Difference> {
        let expected = self.expected(from, query, pool, room);
        let [old, new] = [from, from + expected.events].map(|index| self.place_of(index));
        self.rows.clear(8 * self.written);
        self.written = expected.rows.len();
        for (i, row) in expected.rows.iter().enumerate() {
            for word in 0..8 {
                let value = self.known_rows.expected(8 * row + word);
                self.rows.expect(8 * i + word, &[value]);
            }
        }
        for i in 2 * old[1]..2 * new[1] {
            self.pool.expect(i, &[self.known_pool.expected(i)]);
        }
        self.seen.calls += 1;
        let (p, r) = (&mut self.pool.now[..pool], &mut self.rows.now[..room]);
        let answer = ask(query, old, document, p, r);
        let (number, detail) = expected.refusal;
        let told: Told = [
            expected.what,
            new[0],
            new[1],
            expected.events,
            expected.rows.len(),
            number as usize,
            detail as usize,
        ];
        same("a query", answer, told)
            .and_then(|()| match self.rows.holds_all() {
                true => Ok(()),
                false => Err(format!("rows after the query, which answered {answer:?}")),
            })
            .and_then(|()| match self.pool.holds_all() {
                true => Ok(()),
                false => Err(format!("pool after the query, which answered {answer:?}")),
            })
            .map_err(|e| {
                format!("{e}, from {old:?} with {pool} words of pool and {room} of rows")
            })?;
        self.counts.endings[query.kind as usize][expected.what] += 1;
        self.count(query.kind, expected.what, number as usize);
        Ok(expected)
    }

    /// A refusal, if it is one.
    fn count(&mut self, kind: QueryKind, what: usize, number: usize) {
        if what == 2 {
            self.counts.refusals[kind as usize][number] += 1;
            self.seen.refusals[number] += 1;
        }
    }

    /// One row too few, one pair too few, and any room; after each the pool is as it was before.
    fn trials(
        &mut self,
        document: &[u8],
        from: usize,
        query: &Query,
        random: &mut Random,
    ) -> Compared {
        let whole = self.expected(from, query, self.pool.len(), self.rows.len());
        let (rows, names) = (whole.rows.len(), self.place_of(from + whole.events)[1]);
        let old = self.place_of(from)[1];
        let pools = [2 * names, (2 * names).saturating_sub(2).max(2 * old)];
        let mut lends = vec![];
        if !self.large() {
            let any = 2 * old + 2 * random.below(names - old + 1);
            lends.push((any, random.below(8 * rows + 9)));
            if rows > 0 {
                lends.push((pools[random.below(2)], 8 * rows - 1));
            }
        }
        if names > old {
            let spare = if self.large() { 8 * 99 } else { 0 };
            lends.push((
                pools[1],
                (8 * rows + spare + random.below(8)).min(self.rows.len()),
            ));
        }
        for (pool, room) in lends {
            self.ask(document, from, query, pool, room)
                .map_err(|e| format!("{e}, {query:?}"))?;
            for i in 2 * old..2 * names {
                self.pool.put(i, &[unwritten_word(i)]);
            }
        }
        Ok(())
    }

    /// Where no row is left, our queries are slow at each event that has new names (docs/BENCHMARKS.md): not tried with many such events.
    fn large(&self) -> bool {
        self.events.len() > 5_000
    }

    // ---- beside the Rust

    /// A query with room enough, on every other call with nothing to spare: also what the Rust says.
    fn query(
        &mut self,
        document: &[u8],
        from: usize,
        query: &Query,
        made: &[Call],
        random: &mut Random,
    ) -> Result<usize, Difference> {
        let whole = self.expected(from, query, self.pool.len(), self.rows.len());
        let to = from + whole.events;
        let exact = (2 * self.place_of(to)[1], 8 * whole.rows.len());
        let (pool, room) = match random.below(2) {
            0 => (self.pool.len(), self.rows.len()),
            _ if self.large() => (exact.0, self.rows.len()),
            _ => (exact.0, exact.1 + random.below(8)),
        };
        let left = self.ask(document, from, query, pool, room)?;
        let (mut said, remaining) = rust(document, made);
        if (said.what, said.refusal) != (left.what, left.refusal) {
            return Err(format!(
                "the Rust ends with {} {:?} and ours with {left:?}",
                said.what, said.refusal
            ));
        }
        if to + remaining != self.events.len() {
            return Err(format!(
                "the Rust leaves {remaining} of {} events, and ours consumed {to}",
                self.events.len()
            ));
        }
        let list = matches!(
            query.kind,
            QueryKind::FindAllAttributes | QueryKind::AllAttributesOf
        );
        if list && said.what == 2 {
            // the Rust drops them; it gives them of the document up to the refused event
            said = rust(&document[..self.end[0]], made).0;
            self.counts.dropped += 1;
            self.counts.dropped_rows += left.rows.len() as u64;
        }
        let tags = matches!(
            query.kind,
            QueryKind::AttributesOf | QueryKind::AllAttributesOf
        );
        let words = &self.rows.now[..8 * left.rows.len()];
        let mut rows: Vec<_> = said.tags.iter().flat_map(rows::of).collect();
        rows.retain(|row| row.kind == 15 || tags);
        if !rows::say(&[document], words, &rows, &mut self.seen) {
            return Err(format!("rows {:?} and not {:?}", left.rows, said.tags));
        }
        Ok(to)
    }

    /// A single event between queries.
    fn next(&mut self, document: &[u8], from: usize, made: &[Call]) -> Result<usize, Difference> {
        let to = (from + 1).min(self.events.len());
        let (old, new) = (self.place_of(from), self.place_of(to));
        self.rows.clear(8 * self.written);
        self.written = 0;
        let expected = match self.events.get(from) {
            Some(passed) => {
                self.written = rows::count(&passed.event);
                for i in 0..8 * self.written {
                    let value = self.known_rows.expected(8 * passed.row + i);
                    self.rows.expect(i, &[value]);
                }
                [0, self.written, new[0], new[1]]
            }
            None => match self.refusal {
                None => ours::END,
                Some((number, detail)) => ours::refused(number, detail),
            },
        };
        for i in 2 * old[1]..2 * new[1] {
            self.pool.expect(i, &[self.known_pool.expected(i)]);
        }
        self.seen.calls += 1;
        let (p, r) = (&mut self.pool.now[..], &mut self.rows.now[..]);
        let answer = ours::abx_slice_next(old[0], old[1], document, p, r);
        if answer != expected || !self.rows.holds_all() || !self.pool.holds_all() {
            return Err(format!("next answered {answer:?} and not {expected:?}"));
        }
        let (said, remaining) = rust(document, made);
        let same = match self.events.get(from) {
            // by what they print: a float that is no number is not equal to itself
            Some(passed) => format!("{:?}", said.tags) == format!("{:?}", [&passed.event]),
            None => said.what != 0 && said.refusal == self.refusal.unwrap_or((0, 0)),
        };
        if !same || to + remaining != self.events.len() {
            return Err(format!("the Rust's next gave {:?}", said.tags));
        }
        Ok(to)
    }

    // ---- what is asked for

    fn some_call(&self, random: &mut Random, from: usize) -> Call {
        match random.once_in(5) {
            true => Call::Next,
            false => Call::Ask(self.some_query(random, from)),
        }
    }

    /// Mostly names of a tag that comes, or of one anywhere.
    fn some_query(&self, random: &mut Random, from: usize) -> Query {
        let strange: [&[u8]; 6] = [
            b"",
            b"a",
            b"p",
            b"no such name",
            "\u{e9}".as_bytes(),
            b"\xFF",
        ];
        let mut element = strange[random.below(6)].to_vec();
        let mut name = strange[random.below(6)].to_vec();
        if !self.events.is_empty() && !random.once_in(8) {
            let first = if random.once_in(4) { 0 } else { from };
            let count = self.events.len().saturating_sub(first).max(1);
            let mut index = (first + random.below(count)).min(self.events.len() - 1);
            while index + 1 < self.events.len()
                && !matches!(self.events[index].event, Event::StartTag { .. })
            {
                index += 1;
            }
            if let Event::StartTag {
                name: tag,
                attributes,
            } = &self.events[index].event
            {
                element = tag.as_bytes().to_vec();
                match random.below(10) {
                    0 => {}
                    1 => name = element.clone(),
                    _ if attributes.is_empty() => {}
                    _ => {
                        let attribute = &attributes[random.below(attributes.len())];
                        name = attribute.name.as_bytes().to_vec();
                    }
                }
            }
        }
        Query {
            kind: QueryKind::ALL[random.below(4)],
            element,
            name,
        }
    }
}

/// The answers to a query at a place outside, with room for 0 to 9 words.
fn answers_of(query: &Query, outside: [usize; 2], document: &[u8]) -> [Vec<usize>; 10] {
    macro_rules! answers {
        ($($room:literal),*) => {
            [$(ask::<$room>(query, outside, document, &mut [], &mut []).to_vec()),*]
        };
    }
    answers!(0, 1, 2, 3, 4, 5, 6, 7, 8, 9)
}

/// The last of these calls by a new reader of the Rust's, and how many events it has left then.
fn rust(document: &[u8], made: &[Call]) -> (Said, usize) {
    let mut parser = AbxParser::new(document).expect("a header");
    let mut said = None;
    for call in made {
        said = Some(by_rust(&mut parser, call));
    }
    let mut remaining = 0;
    while let Ok(Some(_)) = parser.next_event() {
        remaining += 1;
    }
    (said.expect("a call"), remaining)
}

fn by_rust(parser: &mut AbxParser, call: &Call) -> Said {
    let said = |what, tags| Said {
        what,
        refusal: (0, 0),
        tags,
    };
    let answer = match call {
        Call::Next => parser.next_event().map(|event| match event {
            Some(event) => said(0, vec![event]),
            None => said(1, vec![]),
        }),
        Call::Ask(query) => {
            let texts = [&query.element, &query.name].map(|s| std::str::from_utf8(s));
            // a name that is no text occurs nowhere; neither does this one
            let [element, name] = texts.map(|s| s.unwrap_or("\u{2}no text\u{2}"));
            let tag = |attributes| Event::StartTag {
                name: element.into(),
                attributes,
            };
            let one = |value| {
                tag(vec![Attribute {
                    name: name.into(),
                    value,
                }])
            };
            let single = |event: Option<Event>| match event {
                Some(event) => said(0, vec![event]),
                None => said(1, vec![]),
            };
            match query.kind {
                QueryKind::FindAttribute => parser
                    .find_attribute(element, name)
                    .map(|value| single(value.map(one))),
                QueryKind::AttributesOf => parser
                    .attributes_of(element)
                    .map(|all| single(all.map(tag))),
                QueryKind::FindAllAttributes => parser
                    .find_all_attributes(element, name)
                    .map(|all| said(1, all.into_iter().map(one).collect())),
                QueryKind::AllAttributesOf => parser
                    .all_attributes_of(element)
                    .map(|all| said(1, all.into_iter().map(tag).collect())),
            }
        }
    };
    answer.unwrap_or_else(|error| Said {
        what: 2,
        refusal: map_error(&error),
        tags: vec![],
    })
}

// ---- documents

/// Few names, so that they come again: by index, anew in the pool, as an element's and as an attribute's, several times in a tag.
/// Once in `odd` times there is a damaged event at the end; 0 for never.
fn few_names(random: &mut Random, events: usize, odd: usize) -> Vec<u8> {
    let mut document = HEADER.to_vec();
    let mut pool = 0;
    for _ in 0..events {
        match random.below(12) {
            0 => document.push(0x11),
            1 => document.extend([0x24, 0, 1, b'x']),
            2 => {
                document.push(0x33);
                few_name(&mut document, &mut pool, random);
            }
            _ => {
                document.push(0x32);
                few_name(&mut document, &mut pool, random);
                for _ in 0..random.below(5) {
                    let of = [0xCF, 0xDF, 0x1F, 0x6F, 0x2F, 0x3F][random.below(6)];
                    document.push(of);
                    few_name(&mut document, &mut pool, random);
                    match of {
                        0x6F => document.extend([0, 0, 0, random.below(256) as u8]),
                        0x2F => document.extend([0, 1, b'a' + random.below(26) as u8]),
                        0x3F => few_name(&mut document, &mut pool, random),
                        _ => {}
                    }
                }
            }
        }
    }
    if odd > 0 && random.once_in(odd) {
        let damaged: [&[u8]; 6] = [
            b"\x0B",
            b"\x0F",
            b"\x24\0",
            b"\x24\0\x02a",
            b"\x32\xFF\xFE",
            b"\x32\0\0\xEF\0\0",
        ];
        document.extend(damaged[random.below(6)]);
    }
    document
}

fn few_name(document: &mut Vec<u8>, pool: &mut usize, random: &mut Random) {
    if *pool > 0 && !random.once_in(3) {
        document.extend((random.below(*pool) as u16).to_be_bytes());
        return;
    }
    let name = ["", "a", "b", "ab", "\u{e9}"][random.below(5)];
    document.extend([0xFF, 0xFF, 0, name.len() as u8]);
    document.extend(name.bytes());
    *pool += 1;
}

// ---- sections

fn section(
    report: &mut Report,
    counts: &mut Counts,
    name: &str,
    random: &mut Random,
    calls: usize,
    documents: impl FnOnce(&mut Random, Visit),
) {
    let asker = report.section(name, Asker::new(), |compare| {
        let mut asks = Random::new(random.below(1 << 30) as u64);
        documents(random, &mut |document| {
            compare(document, &mut |asker| {
                asker.document(document, &mut asks, calls)
            });
        });
    });
    counts.add(&asker.counts);
}

impl Counts {
    fn add(&mut self, other: &Counts) {
        for of in 0..4 {
            for i in 0..3 {
                self.endings[of][i] += other.endings[of][i];
            }
            for i in 0..20 {
                self.refusals[of][i] += other.refusals[of][i];
            }
        }
        self.dropped += other.dropped;
        self.dropped_rows += other.dropped_rows;
    }

    /// Every ending and every refusal that a query can have came up with each of the four.
    fn complete(&self) -> bool {
        let refusals = (3..=11).chain([17, 19]);
        let all = |of: usize| refusals.clone().all(|number| self.refusals[of][number] > 0);
        let ended = |of: usize| {
            let list = of >= 2;
            self.endings[of][1] > 0 && self.endings[of][2] > 0 && (list || self.endings[of][0] > 0)
        };
        (0..4).all(|of| all(of) && ended(of)) && self.dropped_rows > 0
    }
}

pub fn queries(report: &mut Report, long: bool, random: &mut Random) {
    let counts = &mut Counts::default();
    let name = "queries: few names";
    let rounds = if long { 1_500_000 } else { 40_000 };
    section(report, counts, name, random, 4, |random, visit| {
        (0..rounds).for_each(|i| visit(&few_names(random, 1 + i % 9, 4)));
    });
    let name = "queries: seeded, some damaged";
    let rounds = if long { 1_500_000 } else { 60_000 };
    section(report, counts, name, random, 4, |random, visit| {
        for i in 0..rounds {
            visit(&documents::some(random, 1 + i % 9, [0, 20, 50][i % 3]).0);
        }
    });
    let name = "queries: up to 3 events, damaged ones too";
    let count = if long { 3 } else { 2 };
    section(report, counts, name, random, 3, |_, visit| {
        (1..=count).for_each(|count| documents::events(count, visit));
    });
    let name = "queries: a start tag and any token";
    section(report, counts, name, random, 1, |random, visit| {
        documents::attributes(&mut |document| {
            if long || random.once_in(8) {
                visit(document);
            }
        });
    });
    let name = "queries: seeded, 300 events";
    let rounds = if long { 6_000 } else { 200 };
    section(report, counts, name, random, 6, |random, visit| {
        for i in 0..rounds {
            visit(&documents::some(random, 300, [0, 2_000][i % 2]).0);
            visit(&few_names(random, 300, 4));
        }
    });
    let name = "queries: names near the pool's limit";
    section(report, counts, name, random, 2, |_, visit| match long {
        true => (65_533..=65_538).for_each(|count| documents::many_names(count, visit)),
        false => documents::many_names(65_536, visit),
    });
    let name = "queries: any place, a pair outside";
    let asker = report.section(name, Asker::new(), |compare| {
        for i in 0..if long { 1_000_000 } else { 40_000 } {
            let document = match i % 2 {
                0 => documents::some(random, 1 + i % 12, 0).0,
                _ => few_names(random, 1 + i % 12, 0),
            };
            compare(&document, &mut |asker| asker.place(&document, random));
        }
    });
    counts.add(&asker.counts);
    let asker = report.section("queries: sizes and states", Asker::new(), |compare| {
        let mut lent = |document: &[u8], good| {
            compare(document, &mut |asker| asker.lent(document, good));
        };
        for document in documents::TINY {
            lent(document, true);
        }
        lent(&vec![0; 16_777_216], true);
        lent(&vec![0; 16_777_217], false);
    });
    counts.add(&asker.counts);
    println!(
        "queries found, done, refused: {:?}; {} lists that the Rust dropped, of {} rows",
        counts.endings, counts.dropped, counts.dropped_rows
    );
    if !counts.complete() {
        report.differs(
            &[],
            "an ending or a refusal of a query never came up".into(),
        );
    }
}
