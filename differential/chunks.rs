//! The chunk reader's part of the comparison.

use harness::common::{read_stream, Read_};

use crate::calls;
use crate::documents::{self, Random, Visit, HEADER};
use crate::report::{Compared, Report};
use crate::slice::pool_of;
use crate::stream::{Lend, Reader, State, FRESH, MAX_WINDOW};

/// Documents of up to `len` bytes, each read by the Rust, by our slice reader, and by our chunk reader in the ways given.
fn read(
    report: &mut Report,
    name: &str,
    window: usize,
    len: usize,
    mut ways: impl FnMut(&mut Reader, &[u8], &Read_) -> Compared,
    documents: impl FnOnce(Visit),
) {
    report.section(name, Reader::new(window, len), |compare| {
        documents(&mut |document| {
            // the Rust reads a long start tag anew at each read, so long documents are not read in small pieces
            let chunk = match document.len() {
                len @ 0..=9_999 => [0, 1, 7, 4096][len % 4],
                _ => 0,
            };
            let expected = read_stream(document, chunk);
            compare(document, &mut |reader| {
                if document.len() <= 16_777_216 && calls::slice_read(document) != expected {
                    return Err(
                        "our slice reader reads otherwise than the Rust's stream reader".into(),
                    );
                }
                ways(reader, document, &expected)
            });
        });
    });
}

/// In two chunks, cut at every place.
fn every_cut(reader: &mut Reader, document: &[u8], expected: &Read_) -> Compared {
    (0..=document.len()).try_for_each(|cut| in_two(reader, document, expected, cut))
}

fn in_two(reader: &mut Reader, document: &[u8], expected: &Read_, cut: usize) -> Compared {
    let mut sizes = [cut].into_iter();
    calls::document(
        reader,
        document,
        expected,
        || sizes.next().unwrap_or(usize::MAX),
        None,
    )
    .map_err(|difference| format!("cut at {cut}: {difference}"))
}

/// Byte by byte.
fn bytewise(reader: &mut Reader, document: &[u8], expected: &Read_) -> Compared {
    calls::document(reader, document, expected, || 1, None)
}

/// A number from least to most, of any length in bits as likely.
fn any_size(random: &mut Random, least: usize, most: usize) -> usize {
    let range = most - least;
    let bits = random.below(usize::BITS as usize - range.leading_zeros() as usize + 1);
    least + random.below((1 << bits).min(range) + 1)
}

/// With any window, in chunks of any sizes up to the limit, with refused calls in between.
fn any_chunks(
    random: &mut Random,
    limit: usize,
) -> impl FnMut(&mut Reader, &[u8], &Read_) -> Compared + '_ {
    move |reader, document, expected| {
        let window = any_size(random, 64, reader.window.len());
        reader.lend.window = window;
        let limit = any_size(random, 1, limit);
        let sizes = &mut Random::new(random.below(1 << 30) as u64);
        let size = || any_size(sizes, 1, limit);
        calls::document(reader, document, expected, size, Some(random))
            .map_err(|difference| format!("window {window}, chunks up to {limit}: {difference}"))
    }
}

/// Start tags that are one to a few bytes shorter or longer than a window, at its start and later, with and without a byte after.
fn full_windows(report: &mut Report, random: &mut Random) {
    let reader = Reader::new(MAX_WINDOW, MAX_WINDOW + 64);
    report.section("stream: full windows", reader, |compare| {
        for window in [64, 65, 1000, 4096, 65_536, 70_000, MAX_WINDOW] {
            for size in window - 3..=window + 2 {
                for (before, after) in [("", ""), ("", "11"), ("10", "330000"), ("240002C3A9", "")]
                {
                    let parts = [&documents::hex(before)[..], &documents::tag_of(size)];
                    let body = [&parts.concat()[..], &documents::hex(after)].concat();
                    let document = [&HEADER[..], &body].concat();
                    let expected = calls::slice_read(&document);
                    let least = 1 + window / 64;
                    compare(&document, &mut |reader| {
                        reader.lend.window = window;
                        let size = || any_size(random, least, 70_000.max(least));
                        calls::document(reader, &document, &expected, size, None)
                    });
                }
            }
        }
    });
}

/// Sizes and states that are refused, whatever waits; and those on their edges.
fn bad_sizes(report: &mut Report) {
    let mut reader = Reader::new(MAX_WINDOW + 1, 16_777_217);
    reader.grow();
    report.section("stream: sizes and states", reader, |compare| {
        let windows = [0, 63, 64, 65, MAX_WINDOW - 1, MAX_WINDOW, MAX_WINDOW + 1];
        let pools = [0, 1, 2, 131_069, 131_070, 131_071, 131_072];
        let stores = [0, 1, 16_777_215, 16_777_216, 16_777_217];
        for (window, pool, store) in all(&windows, &pools, &stores) {
            for state in 0..=8 {
                let lend = Lend {
                    state,
                    window,
                    pool,
                    store,
                    rows: 16,
                };
                compare(&[], &mut |reader| sizes(reader, lend));
            }
        }
    });
}

fn all(a: &[usize], b: &[usize], c: &[usize]) -> Vec<(usize, usize, usize)> {
    let pairs = |&a| {
        b.iter()
            .flat_map(move |&b| c.iter().map(move |&c| (a, b, c)))
    };
    a.iter().flat_map(pairs).collect()
}

/// Every call with what is lent, in states on the edges of it.
fn sizes(reader: &mut Reader, lend: Lend) -> Compared {
    reader.create_with(lend)?;
    let edge = |len: usize| [0, len, len + 1, usize::MAX / 2 + 1, usize::MAX];
    for i in 0..25 {
        let mut state = State {
            start: edge(lend.window)[i % 5],
            end: lend.window,
            names: lend.pool / 2,
            bytes: lend.store,
            header: i % 2 == 0,
            finished: true,
        };
        match i / 5 {
            0 => {}
            1 => (state.start, state.end) = (lend.window, edge(lend.window)[i % 5]),
            2 => (state.start, state.names) = (lend.window, edge(lend.pool / 2)[i % 5]),
            3 => (state.start, state.bytes) = (lend.window, edge(lend.store)[i % 5]),
            _ => (state.start, state.end) = (i % 5, 3),
        }
        reader.place(state, &[], &[], &[], &[]);
        // where bytes wait, pairs that no call made would be used
        if reader.fault(lend).is_some() || state.start == state.end {
            reader.next(lend)?;
        }
        reader.feed(b"10", lend)?;
        reader.finish(lend)?;
    }
    reader.place(FRESH, &[], &[], &[], &[]);
    Ok(())
}

/// Events anywhere in a window, after names that are parts of the store; of some, a pair ends outside.
fn anywhere(report: &mut Report, random: &mut Random, rounds: usize) {
    let reader = Reader::new(700, 700);
    report.section("stream: any state, any pairs", reader, |compare| {
        for i in 0..rounds {
            let window = documents::some(random, 1 + i % 6, [0, 30][i % 2]).0;
            let mut store = documents::some(random, 2, 0).0;
            let bytes = store.len();
            // no name goes on into these
            store.resize(bytes + [0, 100][random.below(2)], 0xFF);
            let window = &window[..window.len().min(700)];
            let (names, pairs) = pool_of(&store, random);
            let end = random.below(window.len() + 1);
            let state = State {
                start: random.below(end + 1),
                end,
                names: names.len(),
                bytes,
                header: !random.once_in(4),
                finished: random.once_in(2),
            };
            let spare = random.below(3);
            compare(window, &mut |reader| {
                reader.seen.documents += 1;
                reader.lend.window = end.max(64) + spare;
                reader.lend.store = store.len();
                reader.place(state, window, &store, &names, &pairs);
                let next = reader.next(reader.lend);
                next.and_then(|_| reader.whole_tables())
                    .map_err(|e| format!("{e}, the pairs {pairs:?}, {state:?}"))
            });
        }
    });
}

/// Programs of any calls: on any documents with other bytes in between, and on what our writer made.
fn programs(report: &mut Report, random: &mut Random, rounds: usize) {
    let reader = Reader::new(700, 2000);
    report.section("stream: programs on any bytes", reader, |compare| {
        for i in 0..rounds {
            let document = documents::some(random, 1 + i % 12, [0, 30][i % 2]).0;
            let other = documents::some(random, 1, 0).0;
            let other = (i % 3 == 0).then_some(&other[..]);
            compare(&document, &mut |reader| {
                reader.lend.window = any_size(random, 64, 700);
                reader.lend.pool = 2 * random.below(40);
                reader.lend.store = random.below(200);
                calls::program(reader, &document, other, random)
            });
        }
    });
    let reader = Reader::new(2000, 4000);
    report.section("stream: programs on written bytes", reader, |compare| {
        for i in 0..rounds {
            let document = documents::some(random, i % 16, 0).0;
            compare(&document, &mut |reader| {
                calls::program_on_written(reader, &document, random)
            });
        }
    });
}

pub fn chunk_reader(report: &mut Report, long: bool, random: &mut Random) {
    let times = |short: usize, more: usize| if long { more } else { short };
    read(
        report,
        "stream: headers, every cut",
        64,
        8,
        every_cut,
        documents::headers,
    );
    read(
        report,
        "stream: bodies of up to 2 bytes, every cut",
        64,
        8,
        every_cut,
        |visit| {
            (0..=2).for_each(|count| documents::bodies("", count, visit));
        },
    );
    if long {
        read(
            report,
            "stream: bodies of 3 bytes, bytewise",
            64,
            8,
            bytewise,
            |visit| {
                documents::bodies("", 3, visit);
            },
        );
        read(
            report,
            "stream: a tag and any token, every cut",
            64,
            64,
            every_cut,
            documents::attributes,
        );
    } else {
        read(
            report,
            "stream: a tag and any token, bytewise",
            64,
            64,
            bytewise,
            |visit| {
                documents::attributes(&mut |document| {
                    if random.once_in(6) {
                        visit(document);
                    }
                });
            },
        );
    }
    read(
        report,
        "stream: events, damaged too, every cut",
        64,
        64,
        every_cut,
        |visit| {
            (1..=times(2, 3) as u32).for_each(|count| documents::events(count, visit));
        },
    );
    read(
        report,
        "stream: seeded, every cut",
        700,
        700,
        every_cut,
        |visit| {
            for i in 0..times(1_000, 20_000) {
                let document = documents::some(random, 1 + i % 9, [0, 20, 50][i % 3]).0;
                visit(&document);
                visit(&document[..random.below(document.len())]);
            }
        },
    );
    let other = &mut Random::new(random.below(1 << 30) as u64);
    read(
        report,
        "stream: seeded, any chunks and windows",
        2_000,
        6_000,
        any_chunks(other, 300),
        |visit| {
            for i in 0..times(20_000, 600_000) {
                visit(&documents::some(random, 1 + i % 40, [0, 0, 400][i % 3]).0);
            }
        },
    );
    read(
        report,
        "stream: 300 events, any chunks and windows",
        MAX_WINDOW,
        60_000,
        any_chunks(other, 70_000),
        |visit| {
            for i in 0..times(60, 3_000) {
                visit(&documents::some(random, 300, [0, 2_000][i % 2]).0);
            }
        },
    );
    read(
        report,
        "stream: long strings",
        200_000,
        70_000,
        any_chunks(other, 70_000),
        |visit| {
            documents::long_strings(&mut |document| {
                if long || random.once_in(10) {
                    visit(document);
                }
            });
        },
    );
    read(
        report,
        "stream: names near the pool's limit",
        MAX_WINDOW,
        800_000,
        in_chunks(60_000),
        |visit| {
            if long {
                return (65_534..=65_537).for_each(|count| documents::many_names(count, visit));
            }
            visit(&documents::names_and(
                65_537,
                false,
                documents::PAST_THE_LIMIT,
            ));
        },
    );
    let size = times(1_000_000, 20_000_000);
    read(
        report,
        "stream: large documents",
        MAX_WINDOW,
        size,
        in_chunks(70_000),
        |visit| {
            visit(&documents::sized(random, size));
            visit(&documents::long_tag(random, times(200_000, 1_000_000)));
        },
    );
    full_windows(report, random);
    anywhere(report, random, times(200_000, 3_000_000));
    programs(report, random, times(60_000, 1_500_000));
    bad_sizes(report);
}

/// In chunks of one size, with the whole window.
fn in_chunks(size: usize) -> impl FnMut(&mut Reader, &[u8], &Read_) -> Compared {
    move |reader, document, expected| calls::document(reader, document, expected, || size, None)
}
