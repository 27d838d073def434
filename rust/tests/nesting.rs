//! Nesting: `nested`, the library's call as it is, and the example program.

#[path = "../src/library.rs"]
mod library;

#[path = "../examples/nested.rs"]
#[allow(dead_code)]
mod program;

mod common;

use std::fs::{self, File};
use std::io::{self, Write};
use std::path::{Path, PathBuf};
use std::process::{Command, Output, Stdio};
use std::slice::from_ref;

use abx::{events_to_abx, nested, AbxParser, Attribute, AttributeValue, Event};
use common::{end_tag, tag, Random};
use library::abx_nested;

fn start(name: &str) -> Event {
    tag(name, vec![])
}

/// An element of this name around contents.
fn element(name: &str, contents: &[Event]) -> Vec<Event> {
    let mut events = vec![start(name)];
    events.extend_from_slice(contents);
    events.push(end_tag(name));
    events
}

/// So many elements, each in the one before.
fn deep(levels: usize) -> Vec<Event> {
    let mut events = vec![start("e"); levels];
    events.extend(vec![end_tag("e"); levels]);
    events
}

#[track_caller]
fn yes(events: &[Event]) {
    assert!(nested(events).unwrap(), "{events:?}");
}

#[track_caller]
fn no(events: &[Event]) {
    assert!(!nested(events).unwrap(), "{events:?}");
}

/// What may stand outside the outermost element, anywhere but for the document events.
fn outside() -> [Event; 4] {
    [
        Event::IgnorableWhitespace("\n".into()),
        Event::ProcessingInstruction("p".into()),
        Event::Comment("c".into()),
        Event::DocDecl("d".into()),
    ]
}

/// What may stand inside only, even if it is empty.
fn inside() -> [Event; 6] {
    [
        Event::Text("t".into()),
        Event::Text("".into()),
        Event::CdataSection("t".into()),
        Event::CdataSection("".into()),
        Event::EntityReference("amp".into()),
        Event::EntityReference("".into()),
    ]
}

fn sample() -> PathBuf {
    Path::new(env!("CARGO_MANIFEST_DIR")).join("../samples/settings.abx")
}

// ---- the rules

#[test]
fn the_sample() {
    let document = fs::read(sample()).unwrap();
    let events = AbxParser::new(&document).unwrap().collect_events().unwrap();
    yes(&events);
    // without any one of its tags it is none
    for (place, event) in events.iter().enumerate() {
        let mut less = events.clone();
        less.remove(place);
        match event {
            Event::StartTag { .. } | Event::EndTag { .. } => no(&less),
            _ => yes(&less),
        }
    }
}

#[test]
fn one_outermost_element() {
    yes(&element("p", &[]));
    yes(&element("p", &element("p", &[])));
    yes(&element(
        "p",
        &[element("a", &[]), element("a", &[])].concat(),
    ));
    no(&[]);
    no(&[Event::StartDocument]);
    no(&[Event::EndDocument]);
    no(&[Event::StartDocument, Event::EndDocument]);
    no(&outside());
    no(&[element("p", &[]), element("p", &[])].concat());
    let comment = vec![Event::Comment("c".into())];
    no(&[element("a", &[]), comment, element("b", &[])].concat());
}

#[test]
fn outside_the_outermost_element() {
    for event in outside() {
        yes(&[vec![event.clone()], element("p", &[])].concat());
        yes(&[element("p", &[]), vec![event.clone()]].concat());
        yes(&element("p", from_ref(&event)));
        no(&[event]);
    }
    let all = outside().to_vec();
    yes(&[all.clone(), element("p", &all), all].concat());
    for event in inside() {
        no(&[vec![event.clone()], element("p", &[])].concat());
        no(&[element("p", &[]), vec![event.clone()]].concat());
        yes(&element("p", from_ref(&event)));
        yes(&element("p", &element("q", from_ref(&event))));
        no(&[event]);
    }
}

#[test]
fn document_events() {
    let first = || vec![Event::StartDocument];
    let last = || vec![Event::EndDocument];
    let comment = || vec![Event::Comment("c".into())];
    let p = || element("p", &[]);
    yes(&[first(), p()].concat());
    yes(&[first(), comment(), p()].concat());
    yes(&[p(), last()].concat());
    yes(&[p(), comment(), last()].concat());
    yes(&[first(), p(), last()].concat());
    no(&[first(), first(), p()].concat());
    no(&[comment(), first(), p()].concat());
    no(&[p(), first()].concat());
    no(&[first(), p(), first()].concat());
    no(&[last(), p()].concat());
    no(&[first(), last(), p()].concat());
    no(&[p(), last(), comment()].concat());
    no(&[p(), last(), last()].concat());
    no(&[p(), last(), p()].concat());
    for event in [Event::StartDocument, Event::EndDocument] {
        no(&element("p", from_ref(&event)));
        no(&element("p", &element("q", from_ref(&event))));
        no(&[start("p"), event.clone()]);
        no(&[event, end_tag("p")]);
    }
}

#[test]
fn tags() {
    // crossed, other, left open, one too many
    no(&[start("a"), start("b"), end_tag("a"), end_tag("b")]);
    no(&[start("a"), end_tag("b")]);
    no(&[start("a"), end_tag("A")]);
    no(&[start("a"), end_tag("aa")]);
    no(&[start("aa"), end_tag("a")]);
    no(&[start("a")]);
    no(&[start("a"), start("b"), end_tag("b")]);
    no(&[start("a"), start("a"), end_tag("a")]);
    no(&[end_tag("a")]);
    no(&[start("a"), end_tag("a"), end_tag("a")]);
    no(&[end_tag("a"), start("a")]);
    // attributes have no part in it
    let attribute = |value| Attribute::new("a", value);
    let attributes = common::all_values().into_iter().map(attribute).collect();
    let with = tag("p", attributes);
    yes(&[with.clone(), end_tag("p")]);
    no(&[with.clone(), end_tag("a")]);
    no(&[with]);
}

#[test]
fn depth() {
    for levels in 1..=64 {
        yes(&deep(levels));
    }
    for levels in [65, 66, 128, 129, 1000] {
        no(&deep(levels));
    }
    // 64 deep, again and again
    yes(&element("p", &vec![deep(63); 100].concat()));
    no(&element("p", &[deep(63), deep(64), deep(63)].concat()));
}

#[test]
fn names() {
    for name in [
        "",
        "\0",
        "é",
        "\u{10FFFF}",
        &"n".repeat(65_535),
        &"n".repeat(70_000),
    ] {
        yes(&element(name, &element("q", &element(name, &[]))));
        for other in [format!("{name}o"), format!("o{name}")] {
            no(&[start(name), end_tag(&other)]);
            no(&[start(&other), end_tag(name)]);
        }
    }
    // other in one byte
    let long = "n".repeat(70_000);
    for place in [0, 1, 7, 8, 35_000, 69_999] {
        let mut other = long.clone();
        other.replace_range(place..place + 1, "o");
        no(&[start(&long), end_tag(&other)]);
        yes(&element(&long, &element(&other, &[])));
    }
    // more of them than are put once only
    let many: Vec<Event> = (0..100_000)
        .flat_map(|i| element(&format!("name{i}"), &[]))
        .collect();
    yes(&element("p", &many));
    no(&element("p", &many[1..]));
}

// ---- long lists

#[test]
fn a_million_events() {
    let three = [start("a"), Event::Text("t".into()), end_tag("a")];
    let mut events = element("p", &vec![three; 333_333].concat());
    assert_eq!(events.len(), 1_000_001);
    assert!(nested(&events).unwrap());
    // the last child's end tag
    let end = events.len() - 2;
    events[end] = end_tag("b");
    assert!(!nested(&events).unwrap());
    events.truncate(end);
    assert!(!nested(&events).unwrap());
    assert!(!nested(&vec![start("a"); 1_000_000]).unwrap());
    assert!(!nested(&vec![end_tag("a"); 1_000_000]).unwrap());
    assert!(!nested(&vec![Event::Comment("c".into()); 1_000_000]).unwrap());
}

#[test]
fn long_texts_and_values() {
    let long = "t".repeat(20_000_000);
    let value = |value| Attribute::new(long.as_str(), value);
    let attributes = vec![
        value(AttributeValue::String(long.clone())),
        value(AttributeValue::BytesHex(long.clone().into_bytes())),
    ];
    let events = [
        Event::Comment(long.clone()),
        tag("p", attributes),
        Event::Text(long.clone()),
        Event::CdataSection(long.clone()),
        end_tag("p"),
        Event::DocDecl(long),
    ];
    assert!(nested(&events).unwrap());
    assert!(!nested(&events[1..4]).unwrap());
}

// ---- beside a model

/// The rules over a stack of names.
fn model(events: &[Event]) -> bool {
    let mut open: Vec<&str> = vec![];
    let mut outermost = 0;
    for (place, event) in events.iter().enumerate() {
        let fits = match event {
            Event::StartDocument => place == 0,
            Event::EndDocument => place == events.len() - 1,
            Event::StartTag { name, .. } => {
                outermost += usize::from(open.is_empty());
                open.push(name);
                open.len() <= 64
            }
            Event::EndTag { name } => open.pop() == Some(name),
            Event::Text(_) | Event::CdataSection(_) | Event::EntityReference(_) => !open.is_empty(),
            _ => true,
        };
        if !fits {
            return false;
        }
    }
    outermost == 1 && open.is_empty()
}

fn any_event(random: &mut Random) -> Event {
    loop {
        if let Some(event) = random.events().pop() {
            return event;
        }
    }
}

/// One element, up to so many levels deep, and what may stand around it: a nested document where the levels are at most 64.
fn document(random: &mut Random, levels: usize) -> Vec<Event> {
    let names = ["", "a", "b", "name", "é"];
    let mut events = outside()[..random.below(3)].to_vec();
    let mut open = vec!["p"];
    events.push(start("p"));
    for _ in 0..random.below(4 * levels) {
        match random.below(5) {
            0..=2 if open.len() < levels => {
                let name = names[random.below(names.len())];
                open.push(name);
                events.push(start(name));
            }
            3 if open.len() > 1 => events.extend(open.pop().map(end_tag)),
            _ => events.push(inside()[random.below(6)].clone()),
        }
    }
    events.extend(open.iter().rev().map(|name| end_tag(name)));
    events.extend_from_slice(&outside()[random.below(4)..]);
    if random.below(2) == 0 {
        events.insert(0, Event::StartDocument);
    }
    if random.below(2) == 0 {
        events.push(Event::EndDocument);
    }
    events
}

/// Changes a list in one place.
fn change(events: &mut Vec<Event>, random: &mut Random) {
    let [place, other] = [(); 2].map(|()| random.below(events.len()));
    match random.below(5) {
        0 => drop(events.remove(place)),
        1 => events.insert(place, any_event(random)),
        2 => events[place] = any_event(random),
        3 => drop(events.splice(place..place, element("p", &[]))),
        _ => events.swap(place, other),
    }
}

#[test]
fn beside_a_model() {
    let mut random = Random(5);
    let mut found = [0; 2];
    for round in 0..3000 {
        let mut events = match round % 6 {
            0 => random.events(),
            1 => document(&mut random, 66),
            _ => document(&mut random, 5),
        };
        if !events.is_empty() && random.below(3) > 0 {
            change(&mut events, &mut random);
        }
        let wanted = model(&events);
        assert_eq!(nested(&events).unwrap(), wanted, "{events:?}");
        found[usize::from(wanted)] += 1;
    }
    assert!(found.iter().all(|count| *count > 500), "{found:?}");
}

// ---- the library's call

const YES: [usize; 4] = [0, 1, 0, 0];
const NO: [usize; 4] = [0, 0, 0, 0];
const REFUSED: [usize; 4] = [2, 16, 0, 0];

/// A row of a tag: its kind, and its name's source, start and length.
fn tag_row(kind: u32, [source, start, len]: [u32; 3]) -> [u32; 8] {
    [kind, source, start, len, 0, 0, 0, 0]
}

fn tag_rows(open: [u32; 3], close: [u32; 3]) -> Vec<u32> {
    [tag_row(2, open), tag_row(3, close)].concat()
}

#[test]
fn answers_of_other_lengths() {
    let rows = tag_rows([0, 0, 1], [0, 0, 1]);
    let unwritten = usize::MAX;
    assert_eq!(abx_nested(b"p", b"", &rows), [unwritten; 0]);
    assert_eq!(abx_nested(b"p", b"", &rows), [unwritten; 1]);
    assert_eq!(abx_nested(b"p", b"", &rows), [unwritten; 3]);
    assert_eq!(abx_nested(b"p", b"", &rows), YES);
    let longer = [0, 1, 0, 0, unwritten, unwritten];
    assert_eq!(abx_nested(b"p", b"", &rows), longer);
    let refused = [2, 16, 0, 0, unwritten, unwritten];
    assert_eq!(abx_nested(b"", b"", &rows), refused);
    assert_eq!(abx_nested(b"", b"", &rows), [unwritten; 3]);
}

#[test]
fn names_in_two_stores() {
    let (first, second) = (b"pqp", b"qp");
    let spans = [[0, 0, 1], [0, 2, 1], [1, 1, 1]];
    for open in spans {
        for close in spans {
            assert_eq!(abx_nested(first, second, &tag_rows(open, close)), YES);
        }
        for close in [[0, 1, 1], [1, 0, 1], [0, 0, 2], [1, 0, 2], [0, 0, 0]] {
            assert_eq!(abx_nested(first, second, &tag_rows(open, close)), NO);
            assert_eq!(abx_nested(first, second, &tag_rows(close, open)), NO);
        }
    }
    // the same place of the other store
    assert_eq!(abx_nested(b"p", b"q", &tag_rows([0, 0, 1], [1, 0, 1])), NO);
    assert_eq!(abx_nested(b"p", b"p", &tag_rows([0, 0, 1], [1, 0, 1])), YES);
    // empty names, wherever they stand
    for close in [[0, 0, 0], [0, 3, 0], [1, 0, 0], [1, 2, 0]] {
        let rows = tag_rows([0, 1, 0], close);
        assert_eq!(abx_nested(first, second, &rows), YES);
    }
    // bytes that are no UTF-8
    let rows = tag_rows([0, 0, 2], [1, 0, 2]);
    assert_eq!(abx_nested(b"\xFF\xC0", b"\xFF\xC0", &rows), YES);
    assert_eq!(abx_nested(b"\xFF\xC0", b"\xFF\xC1", &rows), NO);
}

#[test]
fn words_that_form_no_list() {
    let good = tag_rows([0, 0, 1], [0, 0, 1]);
    let refused = |rows: &[u32]| {
        assert_eq!(abx_nested(b"p", b"q", rows), REFUSED, "{rows:?}");
    };
    assert_eq!(abx_nested(b"p", b"q", &[]), NO);
    for len in 1..16 {
        match len {
            8 => assert_eq!(abx_nested(b"p", b"q", &good[..len]), NO),
            _ => refused(&good[..len]),
        }
    }
    refused(&[&good[..], &[9]].concat());
    for outside in [[0, 0, 2], [0, 2, 0], [0, u32::MAX, 1], [1, 1, 1], [2, 0, 0]] {
        refused(&tag_rows(outside, [0, 0, 1]));
        refused(&tag_rows([0, 0, 1], outside));
        // a text's span, which is not looked at further
        let [source, start, len] = outside;
        let text = [4, 0, 0, 0, 2, source, start, len];
        refused(&[&good[..8], &text, &good[8..]].concat());
        // even where a row before it settles the matter
        refused(&[&good[8..], &text].concat());
    }
    // kinds from 11 to 14 and above 15
    for kind in (11..15).chain([16, u32::MAX]) {
        let row = [kind, 0, 0, 0, 0, 0, 0, 0];
        refused(&[&good[..8], &row, &good[8..]].concat());
    }
    // an attribute belongs to a start tag
    let attribute = [15, 0, 0, 1, 1, 0, 0, 0];
    let with = [&good[..8], &attribute, &attribute, &good[8..]].concat();
    assert_eq!(abx_nested(b"p", b"q", &with), YES);
    refused(&attribute);
    refused(&[&good[..], &attribute].concat());
    refused(&[&attribute, &good[..]].concat());
    // a word that is not used
    for place in 4..8 {
        let mut rows = good.clone();
        rows[place] = 1;
        refused(&rows);
    }
}

// ---- the example program

/// A file of its own for each test.
fn file(name: &str, bytes: &[u8]) -> PathBuf {
    let path = Path::new(env!("CARGO_TARGET_TMPDIR")).join(format!("nesting_{name}.abx"));
    fs::write(&path, bytes).unwrap();
    path
}

fn two_roots() -> Vec<u8> {
    events_to_abx(&[element("p", &[]), element("p", &[])].concat()).unwrap()
}

/// What is told of these files, and the status.
fn told(paths: &[&Path]) -> (Vec<String>, u8) {
    let mut out = vec![];
    let status = program::check_files(paths, &mut out).unwrap();
    let text = String::from_utf8(out).unwrap();
    (text.lines().map(str::to_owned).collect(), status)
}

#[test]
fn files() {
    let sample = sample();
    let two = file("two_roots", &two_roots());
    let refused = file("refused", b"ABX\0\x32\xFF");
    let other = file("other", b"<p/>");
    let absent = two.with_file_name("nesting_absent.abx");
    let line = |path: &Path, words: &str| format!("{}: {words}", path.display());
    let is = line(&sample, "nested");
    let is_not = line(&two, "not nested");

    assert_eq!(told(&[&sample]), (vec![is.clone()], 0));
    assert_eq!(told(&[&two]), (vec![is_not.clone()], 1));
    let cut = line(
        &refused,
        "the input ends inside a token, length, index or number",
    );
    assert_eq!(told(&[&refused]), (vec![cut.clone()], 2));
    let (lines, status) = told(&[&other]);
    assert!(lines[0].contains("this is no ABX document") && status == 2);
    let (lines, status) = told(&[&absent]);
    assert!(lines[0].starts_with(&line(&absent, "")) && lines[0].contains("No such file"));
    assert_eq!(status, 2);

    // the worst counts, and each is told
    let both = vec![is.clone(), is_not.clone()];
    assert_eq!(told(&[&sample, &two]), (both, 1));
    let all = vec![cut, is_not, is];
    assert_eq!(told(&[&refused, &two, &sample]), (all, 2));
}

/// A sink that is closed.
struct Closed;

impl Write for Closed {
    fn write(&mut self, _: &[u8]) -> io::Result<usize> {
        Err(io::ErrorKind::BrokenPipe.into())
    }

    fn flush(&mut self) -> io::Result<()> {
        Ok(())
    }
}

#[test]
fn a_closed_sink() {
    let checked = program::check_files(&[sample()], Closed);
    assert_eq!(checked.unwrap_err().kind(), io::ErrorKind::BrokenPipe);
}

/// The program itself, which `cargo test` makes with all examples.
fn the_program() -> Command {
    let this = std::env::current_exe().unwrap();
    let program = this.parent().unwrap().with_file_name("examples/nested");
    assert!(program.exists(), "not there: run `cargo build --examples`");
    Command::new(program)
}

fn run(program: &mut Command) -> Output {
    program.stderr(Stdio::piped()).output().unwrap()
}

fn printed(output: &Output) -> &str {
    assert_eq!(output.stderr, b"");
    std::str::from_utf8(&output.stdout).unwrap()
}

#[test]
fn the_program_on_files() {
    let two = file("program_two_roots", &two_roots());
    for (path, words, status) in [(sample(), "nested", 0), (two, "not nested", 1)] {
        let output = run(the_program().arg(&path));
        assert_eq!(printed(&output), format!("{}: {words}\n", path.display()));
        assert_eq!(output.status.code(), Some(status));
    }
    let output = run(the_program()
        .arg(file("program_refused", b"AB"))
        .arg(sample()));
    assert_eq!(printed(&output).lines().count(), 2);
    assert_eq!(output.status.code(), Some(2));
}

#[test]
fn the_program_on_standard_input() {
    let inputs = [
        (sample(), "nested", 0),
        (file("input_two_roots", &two_roots()), "not nested", 1),
        (
            file("input_short", b"AB"),
            "the input ends inside the header",
            2,
        ),
    ];
    for (path, words, status) in inputs {
        let output = run(the_program().stdin(File::open(path).unwrap()));
        assert_eq!(printed(&output), format!("standard input: {words}\n"));
        assert_eq!(output.status.code(), Some(status));
    }
}

#[test]
fn the_program_with_a_closed_pipe() {
    let mut child = the_program()
        .stdin(Stdio::piped())
        .stdout(Stdio::piped())
        .stderr(Stdio::piped())
        .spawn()
        .unwrap();
    // It prints only after its input, so the pipe is closed before.
    drop(child.stdout.take());
    let document = fs::read(sample()).unwrap();
    child.stdin.take().unwrap().write_all(&document).unwrap();
    let output = child.wait_with_output().unwrap();
    assert_eq!(printed(&output), "");
    assert_eq!(output.status.code(), Some(2));
}
