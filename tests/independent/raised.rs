//! What L7 of document 02 comes to: priority flits of the platform, and as many flits more in every flow of a plan that
//! has none, give equal answers.

use crate::answer::Expected;
use crate::compare::Trial;
use crate::disagreement::{agree, Disagreement};
use crate::law::Law;
use crate::model::{Plan, MOST_FLITS};
use crate::random::Random;
use crate::tally::Tally;

/// The plan without priority flits, and its flows' flits raised by as many, if they stay inside their values.
fn raised(plan: &Plan) -> Option<Plan> {
    let mut raised = plan.clone();
    raised.platform.priority_flits = 0;
    for flow in &mut raised.flows {
        flow.flits += plan.platform.priority_flits;
    }
    Some(raised).filter(|raised| raised != plan && raised.flows.iter().all(|flow| flow.flits <= MOST_FLITS))
}

/// This program's answers to both plans are equal, and the library's answer to the raised one is that to the other. A
/// planted fault has to show without it.
pub fn compare(expected: &Expected, law: Law, random: &mut Random, tally: &mut Tally) -> Result<(), Disagreement> {
    let accepted = match &expected.answer {
        Ok(accepted) if law.is_whole() => accepted,
        _ => return Ok(()),
    };
    if let Some(plan) = raised(&accepted.plan) {
        let bytes = plan.records().concat();
        let trial = Trial { bytes: &bytes, law };
        let text = trial.expected()?.text;
        let sides = || (expected.text.clone(), text.clone());
        agree(&bytes, expected.text == text, "the text with the flits raised", sides)?;
        trial.library(expected, accepted.reply.len(), random)?;
        tally.raised();
    }
    Ok(())
}
