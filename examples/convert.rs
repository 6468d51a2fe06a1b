//! Converts stored plans, each file where it stands: method 0 of an accepted plan, which was XLWX before version 0.8.0,
//! becomes 2. Says of each file whether it was converted, kept or refused. Exit status: 0 all accepted, 1 one refused,
//! 2 if a file could not be read or written, or standard output not be written. Behind a file that failed it goes on
//! with the next, behind a lost output it stops; an output that is closed from the start is not told, since Rust puts
//! /dev/null in its place. Nothing else may write to the files meanwhile.
//!
//!     bash -c '. tests/common/build.sh && build_archives'
//!     rustc --edition 2021 -L target/staticlib -l static=converter examples/convert.rs -o target/convert
//!     target/convert FILE..
mod lingfallow;

use lingfallow::Refusal;
use std::ffi::{OsStr, OsString};
use std::fs::{File, OpenOptions};
use std::io::{self, Read, Write};
use std::os::unix::ffi::OsStrExt;
use std::os::unix::fs::FileExt;
use std::process::ExitCode;

const ACCEPTED: u8 = 0;
const REFUSED: u8 = 1;
const FAILED: u8 = 2;

/// Reads the bytes that decide. A file that has more is longer than any plan, and is refused: so no plan is cut.
fn read_file(path: &OsStr) -> io::Result<Vec<u8>> {
    let mut bytes = Vec::new();
    File::open(path)?.take(lingfallow::DECIDING_BYTES as u64).read_to_end(&mut bytes)?;
    Ok(bytes)
}

/// Where the plan was changed: a conversion changes one byte at most.
fn changed_at(before: &[u8], after: &[u8]) -> Option<usize> {
    before.iter().zip(after).position(|(old, new)| old != new)
}

/// One byte cannot be half written, so the file holds a whole plan whatever fails. And it keeps its owner, rights and
/// links, which a new file put in its place would not.
fn write_byte(path: &OsStr, at: usize, byte: u8) -> io::Result<()> {
    let file = OpenOptions::new().write(true).open(path)?;
    file.write_all_at(&[byte], at as u64)?;
    file.sync_all()
}

/// What is said of the file, and its exit status.
fn convert(path: &OsStr) -> io::Result<(String, u8)> {
    let stored = read_file(path)?;
    let mut plan = stored.clone();
    if let Err(Refusal { number, place }) = lingfallow::convert(&mut plan) {
        return Ok((format!("refused {number} at {place}"), REFUSED));
    }
    match changed_at(&stored, &plan) {
        Some(at) => {
            write_byte(path, at, plan[at])?;
            Ok(("converted".to_string(), ACCEPTED))
        }
        None => Ok(("kept".to_string(), ACCEPTED)),
    }
}

/// Unlike `eprintln!`, which would end the program where standard error is lost, and leave the next files.
fn tell(sentence: String) {
    let _ = writeln!(io::stderr(), "{sentence}");
}

fn run(paths: &[OsString]) -> io::Result<u8> {
    let mut out = io::stdout().lock();
    let mut status = ACCEPTED;
    for path in paths {
        match convert(path) {
            Ok((said, one)) => {
                out.write_all(path.as_bytes())?;
                writeln!(out, ": {said}")?;
                status = status.max(one);
            }
            Err(error) => {
                tell(format!("convert: {}: {error}", path.to_string_lossy()));
                status = FAILED;
            }
        }
    }
    Ok(status)
}

fn main() -> ExitCode {
    let paths: Vec<OsString> = std::env::args_os().skip(1).collect();
    if paths.is_empty() {
        tell("usage: convert FILE..".to_string());
        return ExitCode::from(FAILED);
    }
    ExitCode::from(run(&paths).unwrap_or_else(|error| {
        tell(format!("convert: standard output: {error}"));
        FAILED
    }))
}
