//! Reads a plan from standard input and prints each flow's verdict, or the refusal. Exit status: 0 accepted, 1 refused,
//! 2 if standard input could not be read or standard output not be written.
//!
//!     bash -c '. tests/common/build.sh && build_archives'
//!     rustc --edition 2021 -L target/staticlib -l static=analyser examples/analyse.rs -o target/analyse
//!     target/analyse < plans/P.plan
mod lingfallow;

use lingfallow::{Answer, Refusal, Verdict};
use std::io::{self, Read, Write};
use std::process::ExitCode;

fn line_of(answer: Answer) -> String {
    let id = answer.id;
    match answer.verdict {
        Verdict::Bounded { bound, rounds } => format!("{id} bounded {bound} rounds {rounds}"),
        Verdict::Late { rounds } => format!("{id} late rounds {rounds}"),
        Verdict::Waits { named_flow } => format!("{id} waits {named_flow}"),
    }
}

fn run() -> io::Result<ExitCode> {
    let mut plan = Vec::new();
    io::stdin().take(lingfallow::DECIDING_BYTES as u64).read_to_end(&mut plan)?;
    let mut reply = [0; lingfallow::LONGEST_REPLY];
    let mut out = io::stdout().lock();
    match lingfallow::analyse(&plan, &mut reply) {
        Ok(length) => {
            for answer in lingfallow::answers(&reply[..length]) {
                writeln!(out, "{}", line_of(answer))?;
            }
            Ok(ExitCode::SUCCESS)
        }
        Err(Refusal { number, place }) => {
            writeln!(out, "refused {number} at {place}")?;
            Ok(ExitCode::from(1))
        }
    }
}

fn main() -> ExitCode {
    run().unwrap_or_else(|error| {
        eprintln!("analyse: {error}");
        ExitCode::from(2)
    })
}
