//! Plans with 0 where the method stands, each kind in its turn: those that a conversion has to rewrite, and for each
//! refusal one that it has to leave. By chance alone a run could miss some of them.

use crate::damage::{nodes_in, refuse, Records};
use crate::model::{is_of_seventh, Number, DESTINATION, ID, METHOD, PRIORITY, SOURCE};
use crate::plans::good_plan;
use crate::random::Random;
use crate::reading::MOST_FLOWS;
use crate::refusals::refusals_of_reading;
use crate::sevenths::crowded;
use std::collections::BTreeSet;

type Kind = fn(&mut Random) -> Records;

const KINDS: [Kind; 9] = [
    |random| good_plan(random).records(),
    |random| crowded(0, 0, random),
    |random| crowded(0, 1, random),
    |random| crowded(MOST_FLOWS, 0, random),
    |random| crowded(MOST_FLOWS, 8, random),
    |random| longer(0, random),
    |random| longer(1, random),
    flow_first,
    cut_before_method,
];

/// The refusals that a plan with method 0 can have.
pub fn refusals_with_zero() -> BTreeSet<u8> {
    refusals_of_reading().into_iter().filter(|number| *number != 25).collect()
}

pub fn bytes_in_turn(turn: usize, random: &mut Random) -> Vec<u8> {
    let numbers: Vec<u8> = refusals_with_zero().into_iter().collect();
    let turn = turn % (numbers.len() + KINDS.len());
    let mut bytes = match numbers.get(turn) {
        Some(number) => refused(*number, random),
        None => KINDS[turn - numbers.len()](random),
    }
    .concat();
    if let Some(method) = bytes.get_mut(METHOD) {
        *method = 0;
    }
    bytes
}

/// The longest plan and some bytes, at times more than the program reads.
fn longer(priority_flits: Number, random: &mut Random) -> Records {
    let mut records = crowded(MOST_FLOWS, priority_flits, random);
    let count = [1, 1 + random.below(60), 600, 3000][random.below(4)];
    records.push(random.bytes(count));
    records
}

/// No platform record: what stands at a method's offset is the first flow's destination.
fn flow_first(random: &mut Random) -> Records {
    let mut records = crowded(1 + random.below(3), 0, random);
    records.remove(0);
    records
}

fn cut_before_method(random: &mut Random) -> Records {
    let mut bytes = good_plan(random).records().concat();
    bytes.truncate(random.below(METHOD + 1));
    vec![bytes]
}

/// A plan that is good but for one record: the last flow or what follows it, if that can have the refusal.
fn refused(number: u8, random: &mut Random) -> Records {
    if number == 6 {
        return crowded(MOST_FLOWS + 1, random.between(0, 8), random);
    }
    let least = Number::from(is_of_seventh(number));
    let mut records = crowded(2 + random.below(6), random.between(least, 8), random);
    let (nodes, end) = (nodes_in(&records), records.len() - 1);
    let (first, flow) = (records[1].clone(), end - 1);
    match number {
        1 => records[end].truncate(random.below(3)),
        2 => records[end][0] = random.pick(&[0, 3, 0x7E, 0x80, 0xFF]),
        3 => records[end][2] = random.pick(&[1, 6, 7, 20]),
        4 => records.insert(end, records[0].clone()),
        7 => records[flow][ID..ID + 2].copy_from_slice(&first[ID..ID + 2]),
        8 => records[flow][PRIORITY..PRIORITY + 2].copy_from_slice(&first[PRIORITY..PRIORITY + 2]),
        9 => records[flow][DESTINATION] = records[flow][SOURCE],
        10 => records.push(vec![random.byte(); 1 + random.below(9)]),
        20..=29 => refuse(number, 0, &mut records[0], nodes, random),
        _ => refuse(number, 0, &mut records[random.pick(&[1, flow])], nodes, random),
    }
    records
}
