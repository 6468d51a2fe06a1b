//! The three calls of include/lingfallow.h for Rust, in any edition: a module to copy. Link with `-l static=analyser`
//! for `analyse`, with `-l static=writer` for `write`, with `-l static=converter` for `convert`.
#![allow(dead_code)] // a program may use one of the three

// The sizes that include/lingfallow.h explains.
pub const LONGEST_PLAN: usize = 1485;
pub const DECIDING_BYTES: usize = 2048;
pub const LONGEST_REPLY: usize = 1027;
pub const FLOW_RECORD: usize = 16;
pub const MOST_FLOWS: usize = 64;

#[repr(C)]
struct Returned {
    number: u8,
    value: usize,
}

#[repr(C)]
#[derive(Clone, Copy)]
pub struct Platform {
    pub columns: u8,
    pub rows: u8,
    pub link: u8,
    pub routing: u8,
    pub buffer: u8,
    pub method: u8,
    pub priority_flits: u8, // 0 for a chip that sends none
}

#[repr(C)]
#[derive(Clone, Copy, Default)]
pub struct Flow {
    pub id: u16,
    pub priority: u16,
    pub source: u8,
    pub destination: u8,
    pub flits: u16,
    pub period: u32,
    pub deadline: u32,
    pub jitter: u32,
}

#[repr(C)]
struct Plan {
    platform: Platform,
    flows: [Flow; MOST_FLOWS],
    count: usize,
}

// From edition 2024 on an extern block must be `unsafe`, and rustc before 1.82 refuses that word. A macro can tell the
// editions apart: `_` is an expression to it from 2024 on, and not before.
macro_rules! extern_c {
    ($from_2024_on:expr; $($functions:tt)*) => { unsafe extern "C" { $($functions)* } };
    (_; $($functions:tt)*) => { extern "C" { $($functions)* } };
}

extern_c! { _;
    fn lingfallow_analyse(plan: *const u8, plan_length: usize, reply: *mut u8, reply_length: usize) -> Returned;
    fn lingfallow_write(plan: Plan, bytes: *mut u8, length: usize) -> Returned;
    fn lingfallow_convert(plan: *mut u8, plan_length: usize) -> Returned;
}

/// A number of docs/FORMAT.md's table, and its place.
#[derive(Clone, Copy, Debug, PartialEq, Eq)]
pub struct Refusal {
    pub number: u8,
    pub place: usize,
}

fn length_or_refusal(returned: Returned) -> Result<usize, Refusal> {
    match returned.number {
        0 => Ok(returned.value),
        number => Err(Refusal { number, place: returned.value }),
    }
}

/// The reply's length; the reply stands at the start of the buffer, which a refusal leaves as it was.
pub fn analyse(plan: &[u8], reply: &mut [u8]) -> Result<usize, Refusal> {
    // SAFETY: a slice's pointer is good for its length, and a `&mut` slice overlaps no other.
    length_or_refusal(unsafe { lingfallow_analyse(plan.as_ptr(), plan.len(), reply.as_mut_ptr(), reply.len()) })
}

/// The plan's length; the plan stands at the start of the buffer, which a refusal leaves as it was.
pub fn write(platform: Platform, flows: &[Flow], bytes: &mut [u8]) -> Result<usize, Refusal> {
    let kept = flows.len().min(MOST_FLOWS);
    // A count above 64 is refused, so that flows behind the 64th are not lost silently.
    let mut plan = Plan { platform, flows: [Flow::default(); MOST_FLOWS], count: flows.len() };
    plan.flows[..kept].copy_from_slice(&flows[..kept]);
    // SAFETY: a slice's pointer is good for its length.
    length_or_refusal(unsafe { lingfallow_write(plan, bytes.as_mut_ptr(), bytes.len()) })
}

/// Of an accepted plan, a method of 0 is 2 then. Every other byte stays, and a refusal leaves them all.
pub fn convert(plan: &mut [u8]) -> Result<(), Refusal> {
    // SAFETY: a slice's pointer is good for its length.
    length_or_refusal(unsafe { lingfallow_convert(plan.as_mut_ptr(), plan.len()) }).map(|_| ())
}

#[derive(Clone, Copy, Debug, PartialEq, Eq)]
pub enum Verdict {
    Bounded { bound: u32, rounds: u32 },
    Late { rounds: u32 },
    Waits { named_flow: u16 },
}

/// What a record of the reply says.
#[derive(Clone, Copy, Debug, PartialEq, Eq)]
pub struct Answer {
    pub id: u16,
    pub verdict: Verdict,
}

/// The answers of a reply. The end record is shorter than a flow's, so it is no chunk of its own.
pub fn answers(reply: &[u8]) -> impl Iterator<Item = Answer> + '_ {
    reply.chunks_exact(FLOW_RECORD).map(answer_of)
}

fn two(record: &[u8], at: usize) -> u16 {
    u16::from_be_bytes([record[at], record[at + 1]])
}

fn four(record: &[u8], at: usize) -> u32 {
    u32::from_be_bytes([record[at], record[at + 1], record[at + 2], record[at + 3]])
}

/// The offsets are those of the reply's record in docs/FORMAT.md.
fn answer_of(record: &[u8]) -> Answer {
    let rounds = four(record, 12);
    let verdict = match record[5] {
        0 => Verdict::Bounded { bound: four(record, 8), rounds },
        1 => Verdict::Late { rounds },
        _ => Verdict::Waits { named_flow: two(record, 6) }, // 2: there is no fourth verdict
    };
    Answer { id: two(record, 3), verdict }
}
