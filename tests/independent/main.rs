//! An independent second witness: document 01 with the requests L1 to L4, L6 and L7 of document 02, worked out by other
//! means and compared with the product.

mod answer;
mod claims;
mod compare;
mod conversion_claims;
mod conversions;
mod converted;
mod converting;
mod corners;
mod counts;
mod damage;
mod disagreement;
mod edits;
mod figures;
mod jitters;
mod law;
mod model;
mod pairs;
mod plans;
mod planted;
mod priority_flits;
mod product;
mod raised;
mod random;
mod reading;
mod refusals;
mod routes;
mod rule_table;
mod rules;
mod seen;
mod sevenths;
mod stored;
mod tally;
mod ticks;
mod turns;
mod writing;
mod written;
mod zeros;

use compare::Trial;
use disagreement::{hex, Disagreement};
use figures::Fixed;
use law::Laws;
use planted::{plants, Planted};
use random::Random;
use std::io::{self, ErrorKind, Write};
use std::process::ExitCode;
use std::time::Instant;
use tally::Tally;

const DEFAULT_COUNT: u64 = 20_000;
const DEFAULT_SEED: u64 = 20_160_002;

/// So many plans of the default seed have every case, and a test in an emulator compares no more. Another seed's may be
/// too few for the rarest ones.
const FEWEST_COUNT: u64 = 4_000;

const HELP: &str = "independent PROGRAM [COUNT [SEED]]     compare over COUNT plans made from SEED
independent PROGRAM --plan HEX         compare over one plan
independent PROGRAM --plant NAME [COUNT [SEED]]
                                       break one rule on the expected side: the run must fail
independent PROGRAM --planted          do so for every planted fault
independent --help                     this text and the planted faults

PROGRAM is the path of the program `bounds`. Each plan is analysed, written again from what was read of it, and
converted twice; with each of the COUNT plans, other numbers made from SEED are written too.";

/// The first disagreement, with how many plans were tried.
type Failure = (u64, Disagreement);

fn run(program: &str, laws: Laws, count: u64, seed: u64, tally: &mut Tally) -> Result<(), Failure> {
    for index in 0..count {
        try_all(program, laws, seed, index, tally).map_err(|disagreement| (index + 1, disagreement))?;
    }
    Ok(())
}

/// A plan's bytes to analyse and to convert, and numbers to write.
fn try_all(program: &str, laws: Laws, seed: u64, index: u64, tally: &mut Tally) -> Result<(), Disagreement> {
    let mut random = Random::of_plan(seed, index);
    let bytes = turns::bytes_at(index, &mut random);
    if laws.concern(laws.analysing) {
        Trial { bytes: &bytes, law: laws.analysing }.compare(program, &mut random, tally)?;
    }
    if laws.concern(laws.writing) {
        let mut random = Random::of_writing(seed, index);
        written::give_back(&bytes, laws.writing, &mut random, tally)?;
        let writing = turns::writing_at(index, &mut random);
        written::compare(&writing, laws.writing, &mut random, tally)?;
    }
    if laws.concern(laws.converting) {
        let mut random = Random::of_converting(seed, index);
        converted::compare(&bytes, laws.converting, &mut random, tally)?;
    }
    Ok(())
}

fn show(failure: &Failure) {
    let (after, disagreement) = failure;
    println!("DISAGREEMENT at plan {after}: {}", disagreement.about);
    println!("plan: {}", hex(&disagreement.bytes));
    println!("expected: {}", disagreement.expected);
    println!("came: {}", disagreement.came);
}

/// Whether a run must have seen every case.
fn demands_all(count: u64, seed: u64) -> bool {
    count >= DEFAULT_COUNT || (count >= FEWEST_COUNT && seed == DEFAULT_SEED)
}

/// The fixed list, then the random plans, then what was seen.
fn compare_all(program: &str, count: u64, seed: u64) -> bool {
    let start = Instant::now();
    println!("comparing over {count} plans, seed {seed}");
    let mut fixed_tally = Tally::default();
    match figures::check(program, &mut fixed_tally) {
        Ok(plans) => println!("fixed list: {plans} plans agree"),
        Err(disagreement) => {
            show(&(0, disagreement));
            return false;
        }
    }
    let mut tally = Tally::default();
    if let Err(failure) = run(program, Laws::WHOLE, count, seed, &mut tally) {
        show(&failure);
        return false;
    }
    tally.print();
    let unseen = if demands_all(count, seed) { tally.unseen() } else { Vec::new() };
    for case in &unseen {
        println!("NEVER OCCURRED: {case}");
    }
    println!("{count} plans, library and program: all agree, {:.1} s", start.elapsed().as_secs_f64());
    unseen.is_empty()
}

fn compare_one(program: &str, text: &str) -> bool {
    let bytes = match figures::from_hex(text) {
        Some(bytes) => bytes,
        None => return usage(),
    };
    match Fixed::new(program, &mut Tally::default()).agree(&bytes) {
        Ok(expected) => print!("{}", expected.text),
        Err(disagreement) => {
            show(&(1, disagreement));
            return false;
        }
    }
    true
}

/// A planted run fails as it should, and says so by its exit status like any other run.
fn compare_planted(program: &str, name: &str, count: u64, seed: u64) -> bool {
    let found = plants().into_iter().find(|planted| planted.name == name);
    let laws = match found {
        Some(planted) => planted.laws,
        None => return usage(),
    };
    match run(program, laws, count, seed, &mut Tally::default()) {
        Ok(()) => println!("planted {name}: NOT CAUGHT in {count} plans"),
        Err(failure) => show(&failure),
    }
    false
}

fn caught_after(program: &str, laws: Laws) -> Option<u64> {
    let ran = run(program, laws, DEFAULT_COUNT, DEFAULT_SEED, &mut Tally::default());
    ran.err().map(|(after, _)| after)
}

fn every_planted(program: &str) -> bool {
    let start = Instant::now();
    let mut missed = 0;
    for Planted { laws, name, words } in plants() {
        match caught_after(program, laws) {
            Some(after) => println!("planted {name}: caught after {after} plans ({words})"),
            None => {
                println!("planted {name}: NOT CAUGHT in {DEFAULT_COUNT} plans ({words})");
                missed += 1;
            }
        }
    }
    println!("{} planted faults, {missed} not caught, {:.1} s", plants().len(), start.elapsed().as_secs_f64());
    missed == 0
}

fn write_help(mut out: impl Write) -> io::Result<()> {
    writeln!(out, "{HELP}")?;
    for Planted { name, words, .. } in plants() {
        writeln!(out, "  {name}: {words}")?;
    }
    Ok(())
}

/// A reader such as `head`, which closes the pipe when it has enough, is no failure.
fn usage() -> bool {
    match write_help(io::stdout().lock()) {
        Err(error) if error.kind() != ErrorKind::BrokenPipe => panic!("the help cannot be written: {error}"),
        _ => false,
    }
}

fn numbers(words: &[&str]) -> Option<(u64, u64)> {
    match words {
        [] => Some((DEFAULT_COUNT, DEFAULT_SEED)),
        [count] => Some((count.parse().ok()?, DEFAULT_SEED)),
        [count, seed] => Some((count.parse().ok()?, seed.parse().ok()?)),
        _ => None,
    }
}

fn with_numbers(words: &[&str], work: impl Fn(u64, u64) -> bool) -> bool {
    match numbers(words) {
        Some((count, seed)) => work(count, seed),
        None => usage(),
    }
}

fn main() -> ExitCode {
    let owned: Vec<String> = std::env::args().skip(1).collect();
    let words: Vec<&str> = owned.iter().map(String::as_str).collect();
    let good = match words.as_slice() {
        [] => usage(),
        ["--help"] => !usage(),
        [program, "--planted"] => every_planted(program),
        [program, "--plan", text] => compare_one(program, text),
        [program, "--plant", name, rest @ ..] => {
            with_numbers(rest, |count, seed| compare_planted(program, name, count, seed))
        }
        [program, rest @ ..] => with_numbers(rest, |count, seed| compare_all(program, count, seed)),
    };
    if good {
        ExitCode::SUCCESS
    } else {
        ExitCode::FAILURE
    }
}
