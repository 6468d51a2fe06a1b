//! Numbers to write, as an editor on screen may hold them: good ones, wrong ones, and more flows than there may be.

use crate::damage::{field_to_any, field_to_edge, wrong_numbers_in_one_flow, Damage};
use crate::model::{Flow, Number, Plan};
use crate::plans::{crowded_plan, good_plan};
use crate::random::Random;
use crate::reading::{plan_at, FLOW_RECORD, MOST_FLOWS};
use crate::writing::Writing;

/// They leave the headers whole, so that the records still say numbers.
const EDITS: [Damage; 5] =
    [field_to_edge, field_to_edge, field_to_any, wrong_numbers_in_one_flow, wrong_numbers_in_one_flow];

/// So many flows behind the 64th are made up at most: the first of them is refused.
const MOST_FURTHER: usize = 3;

/// The numbers that chance makes.
pub fn some_writing(random: &mut Random) -> Writing {
    let (plan, count) = some_numbers(random);
    let edits = random.pick(&[0, 0, 0, 0, 1, 1, 1, 2, 2, 3]);
    let mut plan = edited(plan, edits, random);
    if random.chance(6) {
        // Records without a seventh byte have none that an edit could change.
        plan.platform.priority_flits = Number::from(random.byte());
    }
    writing_of(plan, count, random)
}

/// The plan's flows in the first places of the array, and anything behind them.
pub fn writing_of(plan: Plan, count: usize, random: &mut Random) -> Writing {
    let further = count.saturating_sub(MOST_FLOWS).min(MOST_FURTHER);
    let Plan { platform, flows: mut places } = plan;
    while places.len() < MOST_FLOWS + further {
        let flow = rubbish(&places, random);
        places.push(flow);
    }
    let further = places.split_off(MOST_FLOWS);
    Writing { platform, places, further, count }
}

fn some_numbers(random: &mut Random) -> (Plan, usize) {
    match random.below(100) {
        0..=61 => {
            let plan = good_plan(random);
            let count = plan.flows.len();
            (plan, count)
        }
        // Good flows stand behind the count.
        62..=79 => {
            let plan = good_plan(random);
            let count = random.below(plan.flows.len() + 1);
            (plan, count)
        }
        80..=86 => {
            let count = random.pick(&[1, MOST_FLOWS - 1, MOST_FLOWS]);
            (crowded_plan(count, random), count)
        }
        _ => (crowded_plan(MOST_FLOWS, random), too_many(random)),
    }
}

/// Most of them would be few if they were cut, or if the plan's length were.
fn too_many(random: &mut Random) -> usize {
    let few = random.below(MOST_FLOWS + 1);
    match random.below(10) {
        0..=2 => MOST_FLOWS + 1,
        3 => MOST_FLOWS + 2,
        4 => MOST_FLOWS + 3 + random.below(1000),
        5 => (1 << 8) + few,
        6 => (1 << 16) + few,
        7 => (1 << 32) + few,
        8 => [usize::MAX / FLOW_RECORD + 1 + few, usize::MAX / 2 + 1 + few][random.below(2)],
        _ => usize::MAX - random.below(2) * few,
    }
}

fn edited(plan: Plan, edits: usize, random: &mut Random) -> Plan {
    let mut records = plan.records();
    for _ in 0..edits {
        let edit = random.pick(&EDITS);
        edit(&mut records, random);
    }
    plan_at(&records.concat(), plan.flows.len())
}

/// A flow once more, an unfilled place, or any numbers.
fn rubbish(flows: &[Flow], random: &mut Random) -> Flow {
    match random.below(3) {
        0 if !flows.is_empty() => flows[random.below(flows.len())].clone(),
        1 => Flow::default(),
        _ => any_flow(random),
    }
}

fn any_flow(random: &mut Random) -> Flow {
    let mut any = |width: u32| random.between(0, Number::from(256).pow(width) - 1);
    Flow {
        id: any(2),
        priority: any(2),
        source: any(1),
        destination: any(1),
        flits: any(2),
        period: any(4),
        deadline: any(4),
        jitter: any(4),
    }
}
