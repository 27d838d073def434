//! Lists of calls on one chunk reader: documents fed in chunks, and programs of any calls. What has come of them is held against what
//! the Rust reads, and against the paper's words about every list of calls.

use android_abx::probe::{self, Outcome};
use android_abx::AbxParser;
use harness::common::{Read_, Row};

use crate::documents::{Random, HEADER};
use crate::ours::{self, refused, Answer, END, NEED_MORE};
use crate::report::{Compared, Difference};
use crate::rows;
use crate::stream::{Lend, Reader};

/// What has come of a list of calls, as the paper counts it.
pub struct Trace<'a> {
    pub reader: &'a mut Reader,
    accepted: Vec<u8>,
    handed: Vec<Vec<Row>>,
    header: usize,
    ended: bool,
}

impl<'a> Trace<'a> {
    pub fn new(reader: &'a mut Reader) -> Result<Trace<'a>, Difference> {
        reader.create()?;
        Ok(Trace {
            reader,
            accepted: vec![],
            handed: vec![],
            header: 0,
            ended: false,
        })
    }

    pub fn feed(&mut self, chunk: &[u8]) -> Result<Answer, Difference> {
        let answer = self.reader.feed(chunk, self.reader.lend)?;
        if let [0, taken, ..] = answer {
            self.accepted.extend_from_slice(&chunk[..taken]);
        }
        Ok(answer)
    }

    pub fn finish(&mut self) -> Result<Answer, Difference> {
        self.reader.finish(self.reader.lend)
    }

    pub fn next(&mut self, lend: Lend) -> Result<Answer, Difference> {
        let answer = self.reader.next(lend)?;
        self.answered(answer)
    }

    pub fn next_tightly(&mut self, tight: bool) -> Result<Answer, Difference> {
        let answer = self.reader.next_tightly(tight)?;
        self.answered(answer)
    }

    fn answered(&mut self, answer: Answer) -> Result<Answer, Difference> {
        if let [0, count, ..] = answer {
            let stores = [&self.reader.window.now[..], &self.reader.store.now[..]];
            match rows::read(&stores, &self.reader.rows.now[..8 * count]) {
                Some(rows) => self.handed.push(rows),
                None => {
                    return Err("a span ends outside its store, or an unused word is not 0".into())
                }
            }
        }
        self.ended |= answer == END;
        let passed =
            matches!(answer, [0, ..] | END) || answer == NEED_MORE && self.accepted.len() >= 4;
        if passed {
            self.header = 4;
        }
        Ok(answer)
    }

    /// What holds after every list of calls: what is handed out is a beginning of what the grammar reads from the accepted bytes;
    /// header, events and bytes waiting add up to the accepted bytes, and these wait in the window; End means that all came.
    pub fn sound(&self) -> Compared {
        let read = grammar(&self.accepted);
        let beginning = read.len() >= self.handed.len()
            && self
                .handed
                .iter()
                .zip(&read)
                .all(|(handed, (rows, _))| handed == rows);
        if !beginning {
            return Err("what is handed out is no beginning of what the grammar reads".into());
        }
        let lengths = read[..self.handed.len()].iter().map(|(_, len)| len);
        let consumed = self.header + lengths.sum::<usize>();
        let waiting = self.reader.waiting();
        if self.accepted.len() != consumed + waiting.len() {
            return Err(
                "header, events and bytes waiting do not add up to the accepted bytes".into(),
            );
        }
        if *waiting != self.accepted[consumed..] {
            return Err("the bytes waiting are not the accepted ones after the events".into());
        }
        if self.ended && self.handed.len() != read.len() {
            return Err("End before all events were handed out".into());
        }
        Ok(())
    }

    /// What was read, if it ended so.
    fn read(self, end: Option<(u32, u64)>) -> Read_ {
        Read_ {
            events: self.handed.len(),
            rows: self.handed.into_iter().flatten().collect(),
            end,
        }
    }
}

/// The events of a document up to the end or the first refusal, each with its length; none if the header is refused.
fn grammar(document: &[u8]) -> Vec<(Vec<Row>, usize)> {
    let (mut events, mut names) = (vec![], vec![]);
    if document.first_chunk() != Some(&HEADER) {
        return events;
    }
    let mut at = 4;
    while at < document.len() {
        let Outcome::Event(event, len) = probe::complete(&document[at..], &mut names) else {
            break;
        };
        events.push((rows::of(&event), len));
        at += len;
    }
    events
}

// ---- a document in chunks

/// What our slice reader makes of a document.
pub fn slice_read(document: &[u8]) -> Read_ {
    let mut read = Read_ {
        rows: vec![],
        events: 0,
        end: None,
    };
    let [mut pool, mut rows] = tables(document);
    let answer = ours::read_slice(document, &mut pool, &mut rows, |rows| {
        read.rows.extend(rows::read(&[document], rows).unwrap());
        read.events += 1;
    });
    read.end = end_of(answer);
    read
}

/// A pool table and rows for a document.
fn tables(document: &[u8]) -> [Vec<u32>; 2] {
    let pairs = (document.len() / 4 + 1).min(65_535);
    [2 * pairs, 8 * (document.len() / 3 + 2)].map(|len| vec![0; len])
}

fn end_of(answer: Answer) -> Option<(u32, u64)> {
    match answer {
        [2, number, detail, _] => Some((number as u32, detail as u64)),
        _ => None,
    }
}

/// Feeds a document in chunks of these sizes and asks for events after each, with troubles in between where a random is given.
/// `expected` is what the Rust reads of it.
pub fn document(
    reader: &mut Reader,
    document: &[u8],
    expected: &Read_,
    mut size: impl FnMut() -> usize,
    mut random: Option<&mut Random>,
) -> Compared {
    reader.seen.documents += 1;
    let mut trace = Trace::new(reader)?;
    let mut rest = document;
    let last = loop {
        match rest.len() {
            0 => _ = trace.finish()?,
            len => {
                let taken = trace.feed(&rest[..size().min(len)])?[1];
                rest = &rest[taken..];
            }
        }
        let answer = loop {
            if let Some(random) = &mut random {
                if random.once_in(3) {
                    trace.reader.trouble(random)?;
                }
            }
            let tight = trace.reader.seen.calls % 2 == 0;
            match trace.next_tightly(tight)? {
                [0, ..] => {}
                answer => break answer,
            }
        };
        if answer != NEED_MORE {
            break answer;
        }
    };
    let lend = trace.reader.lend;
    if trace.next(lend)? != last {
        return Err("asked again, it answers otherwise".into());
    }
    trace.sound()?;
    trace.reader.whole_tables()?;
    if last == refused(13, 0) {
        let read = trace.read(None);
        return match expected.rows.starts_with(&read.rows) {
            true => Ok(()),
            false => Err("before 13, not what the Rust reads".into()),
        };
    }
    let read = trace.read(end_of(last));
    match read == *expected {
        true => Ok(()),
        false => Err(format!("not what the Rust reads: {read:?}")),
    }
}

// ---- programs of any calls

/// What our writer makes of the events of a document.
pub fn written(document: &[u8]) -> Vec<u8> {
    let [mut pool, mut rows] = tables(document);
    let mut list = vec![];
    ours::read_slice(document, &mut pool, &mut rows, |rows| {
        list.extend_from_slice(rows);
    });
    let mut output = vec![0; 4 * document.len() + 64];
    let [0, begun, _, _] = ours::abx_writer_create(&mut output, &pool) else {
        panic!("no writer");
    };
    match ours::abx_write_events(begun, 0, document, &[], &list, &mut output, &mut pool) {
        [0, written, _, _] => output.truncate(written),
        answer => panic!("the writer refused: {answer:?}"),
    }
    output
}

/// The spaces that the paper names for a document.
pub fn spaces(document: &[u8]) -> Lend {
    let read = grammar(document);
    let longest = read.iter().map(|(_, len)| len + 1).max();
    let most = read.iter().map(|(rows, _)| rows.len()).max();
    let mut names: Vec<&[u8]> = vec![];
    for row in read.iter().flat_map(|(rows, _)| rows) {
        match row.name.as_deref() {
            Some(name) if !names.contains(&name) => names.push(name),
            _ => {}
        }
    }
    Lend {
        state: 6,
        window: longest.unwrap_or(0).max(64),
        pool: 2 * names.len(),
        store: names.iter().map(|name| name.len()).sum(),
        rows: 8 * most.unwrap_or(0),
    }
}

/// Any calls in any order, each with any rows; each feed has a part of the document, where it is left off, or of `other`. What
/// holds after every list of calls is looked at after each.
fn any_calls(
    trace: &mut Trace,
    document: &[u8],
    other: Option<&[u8]>,
    random: &mut Random,
) -> Compared {
    let mut rest = document;
    for _ in 0..random.below(40) {
        match random.below(16) {
            0..=5 => {
                let from = match other {
                    Some(other) if random.once_in(8) => other,
                    _ => rest,
                };
                let most = [4, 20, from.len() + 1][random.below(3)];
                let len = random.below(most).min(from.len());
                let answer = trace.feed(&from[..len])?;
                if let ([0, taken, ..], true) = (answer, std::ptr::eq(from, rest)) {
                    rest = &rest[taken..];
                }
            }
            6..=12 => {
                let mut lend = trace.reader.lend;
                if random.once_in(3) {
                    lend.rows = random.below(lend.rows + 1);
                }
                trace.next(lend)?;
            }
            13 if random.once_in(4) => _ = trace.finish()?,
            _ => trace.reader.trouble(random)?,
        }
        trace.sound()?;
    }
    Ok(())
}

/// A program on a document, which `other` bytes may be fed between.
pub fn program(
    reader: &mut Reader,
    document: &[u8],
    other: Option<&[u8]>,
    random: &mut Random,
) -> Compared {
    reader.seen.documents += 1;
    let mut trace = Trace::new(reader)?;
    any_calls(&mut trace, document, other, random)?;
    trace.reader.whole_tables()
}

/// A program on what our writer made of a list, with the paper's spaces and no more. Then the rest is fed and finished; the
/// remaining events come, one a next, and End. What came out is the list.
pub fn program_on_written(reader: &mut Reader, document: &[u8], random: &mut Random) -> Compared {
    reader.seen.documents += 1;
    let bytes = written(document);
    reader.lend = spaces(&bytes);
    let lend = reader.lend;
    let mut trace = Trace::new(reader)?;
    any_calls(&mut trace, &bytes, None, random)?;
    if trace.reader.stream().finished && trace.accepted.len() < bytes.len() {
        return trace.reader.whole_tables();
    }
    while trace.accepted.len() < bytes.len() {
        trace.feed(&bytes[trace.accepted.len()..])?;
        if trace.accepted.len() < bytes.len() {
            while let [0, ..] = trace.next(lend)? {}
        }
        trace.sound()?;
    }
    if !trace.reader.stream().finished {
        trace.finish()?;
    }
    let list = AbxParser::new(document).and_then(|mut parser| parser.collect_events());
    let list = list.map_err(|error| format!("the Rust refuses the list: {error}"))?;
    for _ in trace.handed.len()..list.len() {
        if trace.next(lend)?[0] != 0 {
            return Err("with all spaces, an event did not come".into());
        }
        trace.sound()?;
    }
    let nothing = Lend { rows: 0, ..lend };
    if trace.next(nothing)? != END {
        return Err("after the last event End did not come".into());
    }
    trace.sound()?;
    trace.reader.whole_tables()?;
    let rows = list.iter().flat_map(rows::of);
    match rows.eq(trace.read(None).rows) {
        true => Ok(()),
        false => Err("what came out is not the list".into()),
    }
}
