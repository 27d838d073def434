//! The C header, and the C example where there is a C compiler.

mod common;

use std::fs;
use std::io::Write;
use std::path::Path;
use std::process::{Command, Stdio};
use std::thread;

use abx::{events_to_abx, AbxParser, Event};
use common::{document, end_tag, tag};

fn names(program: &Path, document: &[u8]) -> (String, bool) {
    let mut child = Command::new(program)
        .stdin(Stdio::piped())
        .stdout(Stdio::piped())
        .spawn()
        .unwrap();
    let mut stdin = child.stdin.take().unwrap();
    // What it prints is read while it is fed, and it may stop before the end.
    let output = thread::scope(|scope| {
        scope.spawn(move || stdin.write_all(document));
        child.wait_with_output().unwrap()
    });
    let text = String::from_utf8(output.stdout).unwrap();
    (text, output.status.success())
}

/// A line of `src/library.rs` as C: a slice is a pointer and a length, and the answer comes last.
fn in_c(line: &str) -> String {
    let (name, rest) = line.split_once('(').unwrap();
    let (numbers, slices) = rest.trim_end_matches(");").split_once(';').unwrap();
    let mut all = vec![];
    for number in numbers.split(", ").filter(|number| !number.is_empty()) {
        all.push(format!("size_t {number}"));
    }
    for slice in slices.split(',').chain(["answer: &mut [usize]"]) {
        let (name, kind) = slice.trim().split_once(": ").unwrap();
        let of = match kind {
            "&[u8]" => "const uint8_t",
            "&mut [u8]" => "uint8_t",
            "&[u32]" => "const uint32_t",
            "&mut [u32]" => "uint32_t",
            "&mut [usize]" => "size_t",
            _ => panic!("{slice}"),
        };
        all.push(format!("{of} *{name}, size_t {name}_len"));
    }
    format!("void {name}({});", all.join(", "))
}

#[test]
fn the_header_declares_what_rust_calls() {
    let crate_folder = Path::new(env!("CARGO_MANIFEST_DIR"));
    let read = |file| fs::read_to_string(crate_folder.join(file)).unwrap();
    let header = read("include/abx.h");
    let header = header.split_whitespace().collect::<Vec<_>>().join(" ");
    let library = read("src/library.rs");
    let lines = library.lines().filter_map(|line| {
        let line = line.strip_prefix("    fn ")?;
        (line.starts_with("abx_") && line.contains(';')).then_some(line)
    });
    let mut count = 0;
    for line in lines {
        let declared = in_c(line);
        assert!(header.contains(&declared), "{declared}");
        count += 1;
    }
    assert_eq!(count, 16);
    assert_eq!(header.matches("void abx_").count(), count);
    assert!(header.contains("bool abx_is_utf8(const uint8_t *s, size_t s_len);"));
}

/// A name as C writes it: `InvalidUtf8` is `INVALID_UTF8`.
fn upper_case(name: &str) -> String {
    let mut told = String::new();
    for (at, letter) in name.char_indices() {
        if at > 0 && letter.is_uppercase() {
            told.push('_');
        }
        told.push(letter.to_ascii_uppercase());
    }
    told
}

/// The numbers of an enum of `wire`, each by its variant, as `number` tells them: as a number, or by a constant of the enum.
fn numbers(wire: &str, of: &str) -> Vec<(String, String)> {
    let (_, block) = wire.split_once(&format!("impl {of} {{")).unwrap();
    let (_, rest) = block.split_once("pub fn number(self)").unwrap();
    let (arms, _) = rest.split_once("\n    }\n").unwrap();
    let value = |constant: &str| {
        let (_, rest) = block.split_once(&format!("pub const {constant}: u32 = "))?;
        Some(rest.split_once(';')?.0)
    };
    let arm = |line: &str| {
        let (variant, number) = line.trim().trim_end_matches(',').split_once(" => ")?;
        let own = |name: &str| name.strip_prefix(of)?.strip_prefix("::").map(str::to_owned);
        let name = own(variant)?;
        let number = match own(number) {
            Some(constant) => value(&constant)?.to_owned(),
            None => number.to_owned(),
        };
        number.parse::<u32>().ok()?;
        Some((upper_case(name.split('(').next()?), number))
    };
    arms.lines().filter_map(arm).collect()
}

#[test]
fn the_header_names_every_number() {
    let crate_folder = Path::new(env!("CARGO_MANIFEST_DIR"));
    let wire = fs::read_to_string(crate_folder.join("../crates/wire/src/lib.rt")).unwrap();
    let header = fs::read_to_string(crate_folder.join("include/abx.h")).unwrap();
    let entry = |line: &str| {
        let line = line.trim().strip_prefix("ABX_")?;
        let (name, rest) = line.split_once(" = ")?;
        let number = rest.split([',', ' ']).next()?;
        Some((name.to_owned(), number.to_owned()))
    };
    // one a line; those of answers and lengths are several
    let told: Vec<_> = header.lines().filter_map(entry).collect();
    let mut wanted = vec![];
    for (block, count) in [("Command", 12), ("Type", 13), ("Refusal", 30)] {
        let numbers = numbers(&wire, block);
        assert_eq!(numbers.len(), count, "{block}");
        // a row has no interned strings
        wanted.extend(
            numbers
                .into_iter()
                .filter(|(name, _)| name != "STRING_INTERNED"),
        );
    }
    assert_eq!(told, wanted);
}

#[test]
fn example() {
    let compiler = std::env::var("CC").unwrap_or_else(|_| "cc".to_owned());
    if Command::new(&compiler).arg("--version").output().is_err() {
        eprintln!("no C compiler: not tried");
        return;
    }
    let crate_folder = Path::new(env!("CARGO_MANIFEST_DIR"));
    let program = Path::new(env!("CARGO_TARGET_TMPDIR")).join("names");
    let compiled = Command::new(&compiler)
        .args(["-std=c99", "-Wall", "-Wextra", "-Werror", "-I"])
        .arg(crate_folder.join("include"))
        .arg(crate_folder.join("examples/names.c"))
        .arg(env!("ABX_LIBRARY"))
        .arg("-o")
        .arg(&program)
        .status()
        .unwrap();
    assert!(compiled.success());

    let events = [
        tag("room", vec![]),
        tag("lamp", vec![]),
        end_tag("lamp"),
        tag("room", vec![]),
    ];
    let listed = names(&program, &events_to_abx(&events).unwrap());
    assert_eq!(listed, ("room\nlamp\nroom\n".to_owned(), true));
    let refused = names(&program, &document("32 FFFF 0001 70 0F 0000"));
    assert_eq!(refused, ("refused 8 0\n".to_owned(), false));
    assert_eq!(names(&program, b"AB"), ("refused 1 0\n".to_owned(), false));

    // A name with a NUL, and a document longer than any buffer.
    let name = "a\0b";
    let text = Event::Text("t".repeat(65_535));
    let mut events = vec![tag(name, vec![])];
    events.extend(vec![text; 300]);
    events.push(tag(name, vec![]));
    let document = events_to_abx(&events).unwrap();
    assert!(document.len() > abx::MAX_DOCUMENT);
    let both = format!("{name}\n{name}\n");
    assert_eq!(names(&program, &document), (both.clone(), true));
    let cut = names(&program, &document[..document.len() - 4]);
    assert_eq!(cut, (format!("{name}\nrefused 4 0\n"), false));
    let sample = fs::read(crate_folder.join("../samples/settings.abx")).unwrap();
    let tags = AbxParser::new(&sample)
        .unwrap()
        .filter_map(|event| match event {
            Ok(Event::StartTag { name, .. }) => Some(format!("{name}\n")),
            _ => None,
        });
    assert_eq!(names(&program, &sample), (tags.collect(), true));
}
