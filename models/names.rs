//! Names that look alike, through the writer and the queries: the writer finds each name's first equal in the pool, and a query the
//! elements and attributes of a name. The model keeps the names in a list and compares them by Rust's `==`.

use crate::common::Random;
use crate::ours::{self, Query, QueryKind};

const START_TAG: u32 = 2;
const END_TAG: u32 = 3;
const ATTRIBUTE: u32 = 15;
const NULL: u32 = 1;

/// An event: a tag's kind and name, and the names of its attributes, which are all null.
struct Tag {
    kind: u32,
    names: Vec<String>,
}

/// A few names of up to 40 bytes, each another with one byte changed, added or left out.
fn alike(random: &mut Random) -> Vec<String> {
    let length = random.below(41);
    let first = (0..length).map(|_| b'a' + random.below(3) as u8).collect();
    let mut names: Vec<Vec<u8>> = vec![first];
    for _ in 0..random.below(12) {
        let mut name = names[random.below(names.len())].clone();
        let at = random.below(name.len() + 1);
        match random.below(4) {
            0 if name.len() < 40 => name.insert(at, b'a' + random.below(3) as u8),
            1 if at < name.len() => drop(name.remove(at)),
            _ if at < name.len() => name[at] = b'a' + random.below(3) as u8,
            _ => {}
        }
        names.push(name);
    }
    names
        .into_iter()
        .map(|name| String::from_utf8(name).unwrap())
        .collect()
}

fn tags(random: &mut Random, names: &[String]) -> Vec<Tag> {
    let pick = |random: &mut Random| names[random.below(names.len())].clone();
    let tag = |random: &mut Random| {
        if random.below(4) == 0 {
            return Tag {
                kind: END_TAG,
                names: vec![pick(random)],
            };
        }
        Tag {
            kind: START_TAG,
            names: (0..=random.below(4)).map(|_| pick(random)).collect(),
        }
    };
    (0..random.below(30)).map(|_| tag(random)).collect()
}

/// The model's document.
fn document(tags: &[Tag]) -> Vec<u8> {
    let mut pool: Vec<&str> = vec![];
    let mut bytes = b"ABX\0".to_vec();
    for tag in tags {
        for (i, name) in tag.names.iter().enumerate() {
            bytes.push(match (i, tag.kind) {
                (0, kind) => 0x30 | kind as u8,
                _ => 0x1F,
            });
            match pool.iter().position(|known| known == name) {
                Some(index) => bytes.extend((index as u16).to_be_bytes()),
                None => {
                    bytes.extend([0xFF, 0xFF]);
                    bytes.extend((name.len() as u16).to_be_bytes());
                    bytes.extend(name.as_bytes());
                    pool.push(name);
                }
            }
        }
    }
    bytes
}

/// The rows of each event, and the store that their names lie in, each by itself.
fn rows(tags: &[Tag]) -> (Vec<u8>, Vec<Vec<u32>>) {
    let mut store = vec![];
    let mut events = vec![];
    for tag in tags {
        let mut rows = vec![];
        for (i, name) in tag.names.iter().enumerate() {
            let (kind, type_) = if i == 0 {
                (tag.kind, 0)
            } else {
                (ATTRIBUTE, NULL)
            };
            rows.extend([
                kind,
                0,
                store.len() as u32,
                name.len() as u32,
                type_,
                0,
                0,
                0,
            ]);
            store.extend(name.as_bytes());
        }
        events.push(rows);
    }
    (store, events)
}

/// What the writer makes of the events, one by one or in one list.
fn written(store: &[u8], events: &[Vec<u32>], one_by_one: bool) -> Vec<u8> {
    let mut output = vec![0; 1 << 16];
    let mut pool = vec![0; 256];
    let [0, mut written, mut names, _] = ours::abx_writer_create(&mut output, &pool) else {
        panic!("no writer");
    };
    let whole = [events.concat()];
    for rows in if one_by_one { events } else { &whole } {
        let answer = match one_by_one {
            true => ours::abx_write_event(written, names, store, &[], rows, &mut output, &mut pool),
            false => {
                ours::abx_write_events(written, names, store, &[], rows, &mut output, &mut pool)
            }
        };
        let [0, now, new, _] = answer else {
            panic!("refused: {answer:?}");
        };
        (written, names) = (now, new);
    }
    output.truncate(written);
    output
}

/// The rows that find_all_attributes gives for two names.
fn found(document: &[u8], element: &str, name: &str) -> usize {
    let query = Query {
        kind: QueryKind::FindAllAttributes,
        element: element.into(),
        name: name.into(),
    };
    let (mut pool, mut rows) = (vec![0; 256], vec![0; 8 * 256]);
    let [1, _, _, _, count, _, _] = ours::ask::<7>(&query, [4, 0], document, &mut pool, &mut rows)
    else {
        panic!("the query did not come to the end");
    };
    count
}

/// The model's count: of all such elements, the attributes of that name.
fn expected(tags: &[Tag], element: &str, name: &str) -> usize {
    let elements = tags
        .iter()
        .filter(|tag| tag.kind == START_TAG && tag.names[0] == element);
    elements
        .flat_map(|tag| &tag.names[1..])
        .filter(|n| *n == name)
        .count()
}

pub fn agree(random: &mut Random, lists: usize) -> bool {
    for _ in 0..lists {
        let names = alike(random);
        let tags = tags(random, &names);
        let (store, events) = rows(&tags);
        let document = document(&tags);
        let good = [true, false]
            .map(|one_by_one| written(&store, &events, one_by_one) == document)
            .into_iter()
            .chain(names.iter().map(|name| {
                let element = &names[random.below(names.len())];
                found(&document, element, name) == expected(&tags, element, name)
            }))
            .all(|good| good);
        if !good {
            println!("DIFFERS: the names of {document:02x?}");
            return false;
        }
    }
    println!("{lists} lists of names that look alike written, read and asked, 0 differ");
    true
}
