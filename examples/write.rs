//! Writes plan P, from its numbers, to standard output. Exit status: 0 written, 1 refused, 2 if standard
//! output could not be written.
//!
//!     bash -c '. tests/common/build.sh && build_archives'
//!     rustc --edition 2021 -L target/staticlib -l static=writer examples/write.rs -o target/write
//!     target/write | cmp - plans/P.plan
mod lingfallow;

use lingfallow::{Flow, Platform, Refusal};
use std::io::{self, Write};
use std::process::ExitCode;

/// A mesh of 6 x 1 with links of 1 cycle, routers of 0 and buffers of 10 flits; method 3 is IBN; no priority flits.
const P: Platform = Platform { columns: 6, rows: 1, link: 1, routing: 0, buffer: 10, method: 3, priority_flits: 0 };
const P_FLOWS: [Flow; 3] = [
    Flow { id: 2, priority: 1, source: 4, destination: 5, flits: 60, period: 200, deadline: 200, jitter: 0 },
    Flow { id: 3, priority: 2, source: 0, destination: 5, flits: 198, period: 4000, deadline: 4000, jitter: 0 },
    Flow { id: 5, priority: 3, source: 1, destination: 4, flits: 128, period: 6000, deadline: 6000, jitter: 0 },
];

fn run() -> io::Result<ExitCode> {
    let mut bytes = [0; lingfallow::LONGEST_PLAN];
    match lingfallow::write(P, &P_FLOWS, &mut bytes) {
        Ok(length) => {
            let mut out = io::stdout().lock();
            out.write_all(&bytes[..length])?;
            out.flush()?;
            Ok(ExitCode::SUCCESS)
        }
        Err(Refusal { number, place }) => {
            eprintln!("refused {number} at {place}");
            Ok(ExitCode::from(1))
        }
    }
}

fn main() -> ExitCode {
    run().unwrap_or_else(|error| {
        eprintln!("write: {error}");
        ExitCode::from(2)
    })
}
