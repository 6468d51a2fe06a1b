//! Calls of the product: the library's functions over lent buffers, and the program.

use crate::model::{Flow, Number, Platform};
use crate::random::Random;
use crate::reading::MOST_FLOWS;
use std::io::{self, Write};
use std::process::{ChildStdin, Command, Output, Stdio};
use std::thread::sleep;
use std::time::Duration;

#[repr(C)]
#[derive(Clone, Copy, PartialEq, Eq)]
pub struct Returned {
    pub number: u8,
    pub value: usize,
}

#[repr(C)]
struct PlatformNumbers {
    columns: u8,
    rows: u8,
    link: u8,
    routing: u8,
    buffer: u8,
    method: u8,
    priority_flits: u8,
}

#[repr(C)]
struct FlowNumbers {
    id: u16,
    priority: u16,
    source: u8,
    destination: u8,
    flits: u16,
    period: u32,
    deadline: u32,
    jitter: u32,
}

/// A plan as the header lays it out.
#[repr(C)]
pub struct PlanNumbers {
    platform: PlatformNumbers,
    flows: [FlowNumbers; MOST_FLOWS],
    count: usize,
}

extern "C" {
    fn lingfallow_analyse(plan: *const u8, plan_length: usize, reply: *mut u8, reply_length: usize) -> Returned;
    fn lingfallow_write(plan: PlanNumbers, bytes: *mut u8, length: usize) -> Returned;
    fn lingfallow_convert(plan: *mut u8, plan_length: usize) -> Returned;
}

/// No value may be cut here, or another one would be written than was meant.
fn in_width<T: TryFrom<Number>>(value: Number) -> T {
    T::try_from(value).ok().expect("a number to write has its field's width")
}

impl PlatformNumbers {
    fn of(platform: &Platform) -> PlatformNumbers {
        PlatformNumbers {
            columns: in_width(platform.columns),
            rows: in_width(platform.rows),
            link: in_width(platform.link),
            routing: in_width(platform.routing),
            buffer: in_width(platform.buffer),
            method: in_width(platform.method),
            priority_flits: in_width(platform.priority_flits),
        }
    }
}

impl FlowNumbers {
    fn of(flow: &Flow) -> FlowNumbers {
        FlowNumbers {
            id: in_width(flow.id),
            priority: in_width(flow.priority),
            source: in_width(flow.source),
            destination: in_width(flow.destination),
            flits: in_width(flow.flits),
            period: in_width(flow.period),
            deadline: in_width(flow.deadline),
            jitter: in_width(flow.jitter),
        }
    }
}

impl PlanNumbers {
    /// There are as many flows as the array has places, whatever the count says.
    pub fn of(platform: &Platform, places: &[Flow], count: usize) -> PlanNumbers {
        let flows = std::array::from_fn(|place| FlowNumbers::of(&places[place]));
        PlanNumbers { platform: PlatformNumbers::of(platform), flows, count }
    }
}

/// A buffer with guard bytes before and behind it.
#[derive(Clone)]
pub struct Lent {
    pub whole: Vec<u8>,
    pub before: usize,
    pub length: usize,
}

impl Lent {
    /// The guards have random bytes, and lengths that give every alignment.
    pub fn holding(bytes: &[u8], random: &mut Random) -> Lent {
        let before = 1 + random.below(40);
        let behind = 1 + random.below(40);
        let whole = [random.bytes(before), bytes.to_vec(), random.bytes(behind)].concat();
        Lent { whole, before, length: bytes.len() }
    }

    pub fn inside(&mut self) -> &mut [u8] {
        &mut self.whole[self.before..self.before + self.length]
    }

    /// The same buffer with these bytes at its start.
    pub fn with(&self, bytes: &[u8]) -> Lent {
        let mut changed = self.clone();
        changed.inside()[..bytes.len()].copy_from_slice(bytes);
        changed
    }

    /// A pointer into the whole, so that a write to the guards, too, is one that can be seen.
    fn start(&mut self) -> *mut u8 {
        assert!(self.before + self.length <= self.whole.len());
        self.whole.as_mut_ptr().wrapping_add(self.before)
    }
}

/// The buffers are as the call left them when it returns.
pub fn call_library(plan: &mut Lent, reply: &mut Lent) -> Returned {
    // Both pointers and lengths lie inside their vectors, as `start` has seen.
    unsafe { lingfallow_analyse(plan.start(), plan.length, reply.start(), reply.length) }
}

/// The like for writing.
pub fn call_writer(plan: PlanNumbers, buffer: &mut Lent) -> Returned {
    // The pointer and the length lie inside the vector, as `start` has seen.
    unsafe { lingfallow_write(plan, buffer.start(), buffer.length) }
}

/// The like for converting.
pub fn call_converter(plan: &mut Lent) -> Returned {
    // The pointer and the length lie inside the vector, as `start` has seen.
    unsafe { lingfallow_convert(plan.start(), plan.length) }
}

/// In several pieces now and then, as a pipe may bring them.
fn feed(input: &mut ChildStdin, bytes: &[u8], pieces: usize) -> io::Result<()> {
    let size = bytes.len() / pieces + 1;
    for (number, piece) in bytes.chunks(size).enumerate() {
        if number > 0 {
            sleep(Duration::from_millis(2));
        }
        input.write_all(piece)?;
    }
    Ok(())
}

pub fn run_program(path: &str, bytes: &[u8], pieces: usize) -> io::Result<Output> {
    let (input, output) = (Stdio::piped(), Stdio::piped());
    let mut child = Command::new(path).stdin(input).stdout(output).stderr(Stdio::piped()).spawn()?;
    if let Some(mut input) = child.stdin.take() {
        match feed(&mut input, bytes, pieces) {
            // It reads 2,048 bytes at most, so it may be gone before all are written.
            Err(error) if error.kind() != io::ErrorKind::BrokenPipe => return Err(error),
            _ => {}
        }
    }
    child.wait_with_output()
}
