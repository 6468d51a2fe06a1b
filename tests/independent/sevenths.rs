//! Plans in which the platform record's length and seventh byte decide, each kind in its turn: bytes to analyse, and
//! numbers to write. By chance alone the rarest of them would take many thousand plans to come.

use crate::damage::Records;
use crate::edits::writing_of;
use crate::model::{Number, Plan, HEADER, METHOD, PLATFORM_FIELDS, PRIORITY_FLITS};
use crate::plans::{crowded_plan, good_plan};
use crate::random::Random;
use crate::reading::MOST_FLOWS;
use crate::writing::Writing;

type Kind = fn(&mut Random) -> Records;

const KINDS: [Kind; 18] = [
    |random| seventh_of(0, random),
    |random| seventh_of(9, random),
    |random| seventh_of(255, random),
    |random| said(5, random),
    |random| said(6, random),
    |random| said(7, random),
    |random| said(8, random),
    high_byte_said,
    |random| made(5, random),
    |random| made(8, random),
    cut_before_seventh,
    cut_behind_seventh,
    |random| crowded(MOST_FLOWS, 0, random),
    |random| crowded(MOST_FLOWS, 1, random),
    |random| crowded(MOST_FLOWS, 8, random),
    |random| crowded(MOST_FLOWS + 1, 0, random),
    |random| crowded(MOST_FLOWS + 1, 1, random),
    |random| crowded(MOST_FLOWS + 1, 8, random),
];

pub fn bytes_in_turn(turn: usize, random: &mut Random) -> Vec<u8> {
    KINDS[turn % KINDS.len()](random).concat()
}

/// Priority flits of these values, with as many flows as there may be, one more, or fewer; at times the method is in
/// fault too.
pub fn writing_in_turn(turn: usize, random: &mut Random) -> Writing {
    let values = [0, 1, 8, 9, 255, random.between(2, 7), random.between(10, 254)];
    let mut plan = good_plan(random);
    let mut count = plan.flows.len();
    if random.chance(60) {
        count = MOST_FLOWS + random.below(2);
        plan = crowded_plan(count.min(MOST_FLOWS), random);
    }
    plan.platform.priority_flits = values[turn % values.len()];
    if random.chance(20) {
        plan.platform.method = random.pick(&[4, 255]);
    }
    writing_of(plan, count, random)
}

/// A plan with a seventh byte.
fn with_seventh(random: &mut Random) -> Plan {
    let mut plan = good_plan(random);
    plan.platform.priority_flits = plan.platform.priority_flits.max(1);
    plan
}

/// A seventh byte of this value, and at times a field before it outside its values too, or the next record's tag
/// unknown.
fn seventh_of(value: u8, random: &mut Random) -> Records {
    let mut records = with_seventh(random).records();
    records[0][PRIORITY_FLITS] = value;
    if random.chance(30) {
        records[0][METHOD - random.below(PLATFORM_FIELDS.len() - 1)] = u8::MAX;
    }
    if random.chance(30) {
        records[1][0] = u8::MAX;
    }
    records
}

/// The platform record says this length, whatever stands there.
fn said(length: u8, random: &mut Random) -> Records {
    let mut records = good_plan(random).records();
    records[0][HEADER - 1] = length;
    records
}

/// The platform record says 256 more than it has.
fn high_byte_said(random: &mut Random) -> Records {
    let mut records = good_plan(random).records();
    records[0][1] = 1;
    records
}

/// The platform record says this length and has it.
fn made(length: u8, random: &mut Random) -> Records {
    let mut records = said(length, random);
    records[0].resize(HEADER + usize::from(length), random.pick(&[0, 1, 8, 9]));
    records
}

/// Of length 7, and the bytes end before the seventh.
fn cut_before_seventh(random: &mut Random) -> Records {
    let mut records = with_seventh(random).records();
    records[0].truncate(PRIORITY_FLITS);
    records.truncate(1);
    records
}

/// The bytes end with the seventh, or inside of the next record.
fn cut_behind_seventh(random: &mut Random) -> Records {
    let mut records = with_seventh(random).records();
    records.truncate(2);
    let kept = random.below(records[1].len());
    records[1].truncate(kept);
    records
}

/// So many flows behind these priority flits.
pub fn crowded(count: usize, priority_flits: Number, random: &mut Random) -> Records {
    let mut plan = crowded_plan(count, random);
    plan.platform.priority_flits = priority_flits;
    plan.records()
}
