//! Numbers to write: what is expected against what the library writes, and reading against writing.

use crate::compare::Trial;
use crate::disagreement::{agree, differ, same_call, Called, Disagreement};
use crate::edits::writing_of;
use crate::law::Law;
use crate::product::{call_writer, Lent, PlanNumbers};
use crate::random::Random;
use crate::reading::read;
use crate::rule_table::Rule;
use crate::tally::Tally;
use crate::writing::{no_priority_flits, replace_zero, reverse, Due, Writing};

/// Has room for every reply.
pub const REPLY: usize = 1027;

/// Longer than any plan.
const LONG: usize = 3000;

pub fn compare(writing: &Writing, law: Law, random: &mut Random, tally: &mut Tally) -> Result<(), Disagreement> {
    let due = Due::of(writing, law);
    let exact = call(writing, &due, due.needed, law, random)?;
    tally.wrote(exact.returned, writing);
    for length in [due.needed - 1, due.needed + 1 + random.below(60), 0, random.below(LONG)] {
        let called = call(writing, &due, length, law, random)?;
        tally.wrote(called.returned, writing);
    }
    match exact {
        Called { returned, mut buffer } if returned.number == 0 => read_back(writing, buffer.inside(), law, random),
        _ => Ok(()),
    }
}

/// Writing what is read from a plan's bytes gives these bytes.
pub fn give_back(bytes: &[u8], law: Law, random: &mut Random, tally: &mut Tally) -> Result<(), Disagreement> {
    // By the whole law: a fault planted in the refusals has to show in the numbers made to be written.
    if let Ok(plan) = read(bytes, Law::WHOLE) {
        let due = Due::same(bytes, &plan, law);
        let length = due.needed + random.below(2) * random.below(60);
        call(&writing_of(plan.clone(), plan.flows.len(), random), &due, length, law, random)?;
        tally.gave_back(&plan);
    }
    Ok(())
}

fn call(writing: &Writing, due: &Due, length: usize, law: Law, random: &mut Random) -> Result<Called, Disagreement> {
    let lent = Lent::holding(&random.bytes(length), random);
    let mut buffer = lent.clone();
    let numbers = PlanNumbers::of(&writing.platform, &writing.places, writing.count);
    let returned = call_writer(numbers, &mut buffer);
    let came = Called { returned, buffer };
    let who = format!("count {}: the writer's", writing.count);
    same_call(&due.bytes, &who, "plan buffer", &due.called(&lent, law), &came)?;
    Ok(came)
}

/// What was written says the same numbers in the same order, and is analysed as they have to be.
fn read_back(writing: &Writing, bytes: &[u8], law: Law, random: &mut Random) -> Result<(), Disagreement> {
    let mut due = writing.plan(law);
    replace_zero(&mut due, law, [Rule::RereadXlwx, Rule::RereadIbn]);
    reverse(&mut due, law, Rule::RereadReversed);
    no_priority_flits(&mut due, law, Rule::RereadNone);
    let refused = |refusal| differ(bytes, "reading what was written", "a plan".to_string(), format!("{refusal:?}"));
    let came = read(bytes, law).map_err(refused)?;
    agree(bytes, came == due, "reading what was written", || (format!("{due:?}"), format!("{came:?}")))?;
    let trial = Trial { bytes, law };
    trial.library(&trial.expected()?, REPLY, random)?;
    Ok(())
}
