//! How much stack the library's calls take: each is made in a thread that has no more. One that takes more ends the whole test, and the
//! thread's name is told.

#[path = "../src/library.rs"]
mod library;
#[path = "common/lists.rs"]
mod lists;

use std::fs;
use std::path::Path;
use std::thread;

use library::*;
use lists::{short_names, List, Writer, MOST_NAMES};

/// A call that handles one event, of up to 1,024 rows where it is written.
const ONE_EVENT: usize = 64 * 1024;

/// A query, and what is written with up to 20,480 different names.
const LIST: usize = 600 * 1024;

/// What is written with more.
const ALL_NAMES: usize = 1700 * 1024;

fn list_of(names: usize) -> usize {
    if names <= 20_480 {
        LIST
    } else {
        ALL_NAMES
    }
}

/// What a thread takes for itself, and the test in it.
const THREAD: usize = 16 * 1024;

fn with_stack<T: Send>(stack: usize, name: &str, work: impl FnOnce() -> T + Send) -> T {
    thread::scope(|scope| {
        thread::Builder::new()
            .name(name.to_owned())
            .stack_size(stack + THREAD)
            .spawn_scoped(scope, work)
            .unwrap()
            .join()
            .unwrap()
    })
}

/// The sample, and a document of many names in which a few come again.
fn documents() -> [Vec<u8>; 2] {
    let sample = Path::new(env!("CARGO_MANIFEST_DIR")).join("../samples/settings.abx");
    let mut names = short_names(0, 40_000);
    names.extend_from_within(..1_000);
    let many = with_ample_stack(&[List::new(&names)]);
    [fs::read(sample).unwrap(), many]
}

type Answer = [usize; 4];

const END: Answer = [1, 0, 0, 0];

#[test]
fn the_slice_reader() {
    for document in documents() {
        let (mut pool, mut rows) = (vec![0; 2 * MOST_NAMES], vec![0; 8 * 1024]);
        let read = || {
            let [0, mut at, mut names, _] = abx_slice_create(&document, &pool) else {
                panic!("no reader");
            };
            loop {
                match abx_slice_next(at, names, &document, &mut pool, &mut rows) {
                    [0, _, now, new] => (at, names) = (now, new),
                    answer => return (answer, at),
                }
            }
        };
        let read = with_stack(ONE_EVENT, "the slice reader", read);
        assert_eq!(read, (END, document.len()));
    }
}

#[test]
fn the_chunk_reader() {
    for document in documents() {
        for chunk in [1, 100, 65_536] {
            let (mut window, mut store) = (vec![0; 65_536], vec![0; 1 << 20]);
            let (mut pool, mut rows) = (vec![0; 2 * MOST_NAMES], vec![0; 8 * 1024]);
            let read = || {
                let mut state = [0; 6];
                let mut rest = &document[..];
                let created: Answer = abx_stream_create(&mut state, &window, &pool, &store);
                assert_eq!(created, [0; 4]);
                loop {
                    let answer: Answer =
                        abx_stream_next(&mut state, &window, &mut pool, &mut store, &mut rows);
                    match answer {
                        [0, ..] => {}
                        [3, ..] if rest.is_empty() => {
                            let finished: Answer =
                                abx_stream_finish(&mut state, &window, &pool, &store);
                            assert_eq!(finished, [0; 4]);
                        }
                        [3, ..] => {
                            let part = &rest[..chunk.min(rest.len())];
                            let [0, taken, _, _] =
                                abx_stream_feed(&mut state, &mut window, &pool, &store, part)
                            else {
                                panic!("not fed");
                            };
                            rest = &rest[taken..];
                        }
                        _ => return (answer, rest.len()),
                    }
                }
            };
            let read = with_stack(ONE_EVENT, "the chunk reader", read);
            assert_eq!(read, (END, 0));
        }
    }
}

#[test]
fn utf8() {
    let text = "aé€😀".repeat(10_000);
    assert!(with_stack(ONE_EVENT, "is_utf8", || abx_is_utf8(
        text.as_bytes()
    )));
}

/// A start tag of so many rows: each name is another, and every value a string.
fn tag(rows: usize) -> List {
    let names: Vec<String> = (0..rows)
        .map(|i| format!("name{i:05}of{rows:05}"))
        .collect();
    let mut tag = List::new(&names);
    for (i, row) in tag.rows.chunks_exact_mut(8).enumerate() {
        row[0] = if i == 0 { 2 } else { 15 };
        if i > 0 {
            row[4] = 2;
            row[6] = row[2];
            row[7] = row[3];
        }
    }
    tag
}

/// What a writer with more than enough stack makes of the same.
fn with_ample_stack(lists: &[List]) -> Vec<u8> {
    let mut writer = Writer::new();
    let write = || lists.iter().for_each(|list| writer.write(list));
    with_stack(8 << 20, "with ample stack", write);
    writer.document().to_vec()
}

#[test]
fn events_one_by_one() {
    let mut tags: Vec<List> = (1..=64).chain((1..=64).rev()).map(tag).collect();
    tags.extend(short_names(0, 20_000).chunks(1).map(List::new));
    // 64 rows of new names, for which the pool is too short
    let mut refused = tag(65);
    refused.rows.truncate(8 * 64);
    let mut writer = Writer::new();
    let write = || -> Answer {
        writer.create();
        for tag in &tags {
            let answer = writer.event(&tag.store, &tag.rows);
            writer.take(answer);
        }
        writer.pool.truncate(2 * writer.names);
        writer.event(&refused.store, &refused.rows)
    };
    let answer = with_stack(ONE_EVENT, "write_event", write);
    assert_eq!(answer, [2, 11, 0, 0]);
    assert!(writer.document() == with_ample_stack(&tags));
}

#[test]
fn lists() {
    for rows in [1, 64, 65, 1_000, 4_096, 4_097, 20_480, 20_481, 70_000] {
        let stack = list_of(rows);
        let names = short_names(0, rows);
        let list = List::new(&names);
        let mut writer = Writer::new();
        let name = format!("write_events, {rows} rows");
        with_stack(stack, &name, || writer.write(&list));
        assert_eq!(writer.names, rows.min(MOST_NAMES));
        // again, with the pool that it left
        with_stack(stack, &name, || writer.write(&list));
        assert_eq!(writer.names, rows.min(MOST_NAMES));
        let twice = [List::new(&names), List::new(&names)];
        assert!(writer.document() == with_ample_stack(&twice), "{name}");
    }
}

/// Many rows of few names: how many rows there are does not count.
#[test]
fn a_long_list_of_few_names() {
    let mut names = short_names(0, 1_000);
    for _ in 0..7 {
        names.extend_from_within(..);
    }
    let list = List::new(&names);
    let mut writer = Writer::new();
    with_stack(LIST, "128,000 rows", || writer.write(&list));
    assert_eq!(writer.names, 1_000);
}

#[test]
fn a_long_event() {
    for rows in [65, 1_024, 1_025, 20_480, 70_000] {
        let stack = if rows <= 1_024 {
            ONE_EVENT
        } else {
            list_of(rows)
        };
        let tag = tag(rows);
        let mut writer = Writer::new();
        let name = format!("write_event, {rows} rows");
        let answer = with_stack(stack, &name, || writer.event(&tag.store, &tag.rows));
        writer.take(answer);
        assert!(writer.document() == with_ample_stack(&[tag]), "{name}");
    }
}

#[test]
fn a_list_that_is_refused_late() {
    let mut list = List::new(&short_names(0, 70_000));
    // a row that ends outside
    list.rows.extend([3, 0, u32::MAX, 1, 0, 0, 0, 0]);
    let mut writer = Writer::new();
    let answer = with_stack(ALL_NAMES, "a refused list", || writer.list(&list));
    assert_eq!(answer, [2, 16, 0, 0]);
    // a pool that is too short for the last name
    let list = List::new(&short_names(0, 60_000));
    let pool = &mut writer.pool[..2 * 59_999];
    let (store, output) = (&list.store, &mut writer.output);
    let write = || abx_write_events(4, 0, store, &[], &list.rows, output, pool);
    assert_eq!(
        with_stack(ALL_NAMES, "a refused list", write),
        [2, 11, 0, 0]
    );
}

#[test]
fn xml_text() {
    let mut list = List::new(&short_names(0, 70_000));
    let tag = tag(70_000);
    let mut output = vec![0; 16_777_216];
    for list in [&list, &tag] {
        let print = || abx_to_xml(&list.store, &[], &list.rows, &mut output);
        let [0, _, 0, 0] = with_stack(ONE_EVENT, "to_xml", print) else {
            panic!("refused");
        };
        let print = || abx_row_to_xml(69_999, &list.store, &[], &list.rows, &mut output);
        let [0, _, 0, 0] = with_stack(ONE_EVENT, "row_to_xml", print) else {
            panic!("refused");
        };
    }
    // one that is refused late
    list.rows.extend([3, 0, u32::MAX, 1, 0, 0, 0, 0]);
    let print = || abx_to_xml(&list.store, &[], &list.rows, &mut output);
    assert_eq!(with_stack(ONE_EVENT, "to_xml", print), [2, 16, 0, 0]);
}

/// Elements one in the other, each tag's name with a span of its own.
fn deep(levels: usize) -> List {
    let mut list = List::new(&vec!["name".to_owned(); 2 * levels]);
    for row in list.rows.chunks_exact_mut(8).take(levels) {
        row[0] = 2;
    }
    list
}

/// So many elements in one.
fn siblings(count: usize) -> List {
    let mut list = List::new(&vec!["name".to_owned(); 2 * count + 2]);
    let rows = list.rows.chunks_exact_mut(8);
    for (place, row) in rows.enumerate().take(2 * count + 1) {
        row[0] = if place == 0 || place % 2 == 1 { 2 } else { 3 };
    }
    list
}

#[test]
fn nesting() {
    let yes: Answer = [0, 1, 0, 0];
    let no: Answer = [0, 0, 0, 0];
    let lists = [
        ("64 deep", deep(64), yes),
        ("65 deep", deep(65), no),
        ("100,000 deep", deep(100_000), no),
        ("70,000 siblings", siblings(70_000), yes),
    ];
    for (what, list, wanted) in lists {
        let ask = || abx_nested(&list.store, &[], &list.rows);
        let answer = with_stack(ONE_EVENT, &format!("nested, {what}"), ask);
        assert_eq!(answer, wanted, "{what}");
    }
    // one that is refused late
    let mut list = deep(64);
    list.rows.extend([3, 0, u32::MAX, 1, 0, 0, 0, 0]);
    let ask = || abx_nested(&list.store, &[], &list.rows);
    assert_eq!(with_stack(ONE_EVENT, "nested", ask), [2, 16, 0, 0]);
}

#[cfg(feature = "queries")]
#[test]
fn queries() {
    type Told = [usize; 7];
    // many names, and at the end the element that is asked for
    let mut lists: Vec<List> = short_names(0, 2_000).chunks(1).map(List::new).collect();
    lists.extend([3, 2, 65].map(tag));
    let document = with_ample_stack(&lists);
    let element = b"name00000of00065";
    let name = b"name00001of00065";
    for room in [0, 1, 2, 64, 65, 1_000] {
        let mut pool = vec![0; 2 * MOST_NAMES];
        let mut rows = vec![0; 8 * room];
        let ask = || -> [Told; 4] {
            let (pool, rows) = (&mut pool, &mut rows);
            [
                abx_find_attribute(4, 0, &document, pool, rows, element, name),
                abx_attributes_of(4, 0, &document, pool, rows, element),
                abx_find_all_attributes(4, 0, &document, pool, rows, element, name),
                abx_all_attributes_of(4, 0, &document, pool, rows, element),
            ]
        };
        let told = with_stack(LIST, &format!("queries with {room} rows"), ask);
        // found, at the end, or refused for want of rows
        for (told, needed) in told.into_iter().zip([1, 65, 1, 65]) {
            let [found, _, _, _, written, number, _] = told;
            match room < needed {
                true => assert_eq!((found, number), (2, 10)),
                false => assert!(found < 2 && written == needed, "{told:?}"),
            }
        }
    }
}
