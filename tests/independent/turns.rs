//! What is tried at an index: a case in its turn, or what chance makes. By chance alone a run of some thousand plans
//! could miss a refusal of a field, a seventh byte, a refusal of a plan with method 0 or a number of flows, and a fault
//! planted there would take long to be caught.

use crate::damage::{nodes_in, refuse, some_bytes, Records};
use crate::edits::{some_writing, writing_of};
use crate::model::{field_refusals, is_of_flow, is_of_seventh, Number, FLOW_FIELDS};
use crate::plans::{crowded_plan, good_plan};
use crate::random::Random;
use crate::reading::{plan_at, MOST_FLOWS};
use crate::sevenths;
use crate::writing::Writing;
use crate::zeros;

/// One of so many plans has the next refusal of a field, one of so many the next kind of seventh byte, one of so many
/// the next kind with method 0, and one of so many the next number of flows.
const REFUSAL_EVERY: u64 = 8;
const SEVENTH_EVERY: u64 = 16;
const ZERO_EVERY: u64 = 16;
const FLOWS_EVERY: u64 = 32;

/// The first index of each of the latter three; those of the refusals start at 0, and no index has two.
const FIRST_SEVENTH: u64 = 2;
const FIRST_ZERO: u64 = 6;
const FIRST_FLOWS: u64 = 4;

/// The bytes to analyse.
pub fn bytes_at(index: u64, random: &mut Random) -> Vec<u8> {
    if let Some(turn) = turn_of_seventh(index) {
        return sevenths::bytes_in_turn(turn, random);
    }
    if index % ZERO_EVERY == FIRST_ZERO {
        return zeros::bytes_in_turn((index / ZERO_EVERY) as usize, random);
    }
    match in_turn(index, random) {
        Some(records) => records.concat(),
        None => some_bytes(random),
    }
}

fn turn_of_seventh(index: u64) -> Option<usize> {
    (index % SEVENTH_EVERY == FIRST_SEVENTH).then_some((index / SEVENTH_EVERY) as usize)
}

/// The numbers to write.
pub fn writing_at(index: u64, random: &mut Random) -> Writing {
    if let Some(turn) = turn_of_seventh(index) {
        return sevenths::writing_in_turn(turn, random);
    }
    match in_turn(index, random) {
        Some(records) => {
            let count = flows_of(&records);
            writing_of(plan_at(&records.concat(), count), count, random)
        }
        None => some_writing(random),
    }
}

fn in_turn(index: u64, random: &mut Random) -> Option<Records> {
    let turn = |every: u64| (index / every) as usize;
    if index % REFUSAL_EVERY == 0 {
        return Some(refused(turn(REFUSAL_EVERY), random));
    }
    let good = || crowded_plan(turn(FLOWS_EVERY) % (MOST_FLOWS + 1), random).records();
    (index % FLOWS_EVERY == FIRST_FLOWS).then(good)
}

/// All records are flows but the platform and the end record.
fn flows_of(records: &Records) -> usize {
    records.len() - 2
}

/// A plan that is good but for one record: the platform, or the first flow, the last or any.
fn refused(turn: usize, random: &mut Random) -> Records {
    let numbers: Vec<u8> = field_refusals().into_iter().collect();
    let (round, number) = (turn / numbers.len(), numbers[turn % numbers.len()]);
    // In every other round one field alone is in fault; in the rest the order field by field decides.
    let further = if round % 2 == 0 { FLOW_FIELDS.len() } else { 0 };
    let of_flow = is_of_flow(number);
    let mut plan = good_plan(random);
    if of_flow && plan.flows.is_empty() {
        plan = crowded_plan(1, random);
    }
    // A record without a seventh byte cannot have its refusal.
    let least = Number::from(is_of_seventh(number));
    plan.platform.priority_flits = plan.platform.priority_flits.max(least);
    let mut records = plan.records();
    let (flows, nodes) = (flows_of(&records), nodes_in(&records));
    let index = if of_flow { [1, flows, 1 + random.below(flows)][random.below(3)] } else { 0 };
    refuse(number, further, &mut records[index], nodes, random);
    records
}
