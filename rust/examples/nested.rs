//! Says of each ABX file, or of standard input, whether it is one nested document, or why it could not be read.
//!
//!     cargo run --example nested FILE...
//!
//! Exits with 0 where all are nested, with 1 where one is not, and with 2 where one could not be read.

use std::env;
use std::ffi::OsString;
use std::fs::File;
use std::io::{self, Read, Write};
use std::path::Path;
use std::process::ExitCode;

use abx::AbxStreamParser;

const NESTED: u8 = 0;
const NOT_NESTED: u8 = 1;
const NOT_READ: u8 = 2;

fn main() -> ExitCode {
    let paths: Vec<OsString> = env::args_os().skip(1).collect();
    let mut out = io::stdout().lock();
    let status = if paths.is_empty() {
        check(io::stdin().lock(), "standard input", &mut out)
    } else {
        check_files(&paths, &mut out)
    };
    // Where nobody takes what is printed, nothing was told.
    status.unwrap_or(NOT_READ).into()
}

/// Prints a line for each file, and gives the worst status.
pub fn check_files(paths: &[impl AsRef<Path>], mut out: impl Write) -> io::Result<u8> {
    let mut worst = NESTED;
    for path in paths {
        let path = path.as_ref();
        let name = path.display().to_string();
        let status = match File::open(path) {
            Ok(file) => check(file, &name, &mut out)?,
            Err(error) => print(Err(error.into()), &name, &mut out)?,
        };
        worst = worst.max(status);
    }
    Ok(worst)
}

/// The same for one source.
pub fn check(source: impl Read, name: &str, out: impl Write) -> io::Result<u8> {
    print(is_nested(source), name, out)
}

fn is_nested(source: impl Read) -> abx::Result<bool> {
    let events: Vec<_> = AbxStreamParser::new(source)?.collect::<abx::Result<_>>()?;
    abx::nested(&events)
}

fn print(found: abx::Result<bool>, name: &str, mut out: impl Write) -> io::Result<u8> {
    let (status, words) = match found {
        Ok(true) => (NESTED, "nested".to_owned()),
        Ok(false) => (NOT_NESTED, "not nested".to_owned()),
        Err(error) => (NOT_READ, error.to_string()),
    };
    writeln!(out, "{name}: {words}")?;
    Ok(status)
}
