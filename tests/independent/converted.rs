//! Plans to convert: what is expected against what the library returns and leaves, and what L6 of document 02 claims.

use crate::answer::Expected;
use crate::compare::Trial;
use crate::conversion_claims::{Outcome, Outcomes};
use crate::conversions::Conversion;
use crate::converting::Due;
use crate::disagreement::{differ, same_call, Called, Disagreement};
use crate::law::Law;
use crate::model::Number;
use crate::product::{call_converter, call_library, Lent, Returned};
use crate::random::Random;
use crate::rule_table::Rule;
use crate::rules::{IBN, SB, XLWX};
use crate::tally::Tally;
use crate::written::REPLY;

/// An accepted plan behind its conversion, and what is expected of it.
pub struct Converted {
    pub bytes: Vec<u8>,
    pub expected: Expected,
}

pub fn compare(
    bytes: &[u8],
    law: Law,
    random: &mut Random,
    tally: &mut Tally,
) -> Result<Option<Converted>, Disagreement> {
    let once = call("the converter's", bytes, &Due::of(bytes, law), law, random)?;
    let due = Due::again(&once.bytes, law);
    let twice = call("converted again, the converter's", &once.bytes, &due, law, random)?;
    // Any other planted fault has to show by now.
    if !law.concerns_claims() {
        return Ok(None);
    }
    let left = once.bytes.clone();
    let outcomes = Outcomes { bytes, analysed: analysed(bytes, random), once, twice };
    let broken = |words| differ(bytes, "a claim of L6", "that it holds".to_string(), words);
    outcomes.shown(law).check().map_err(broken)?;
    figures_kept(bytes, left, law, random, tally)
}

fn call(who: &str, bytes: &[u8], due: &Due, law: Law, random: &mut Random) -> Result<Outcome, Disagreement> {
    let lent = Lent::holding(bytes, random);
    let mut plan = lent.clone();
    let returned = call_converter(&mut plan);
    let mut came = Called { returned, buffer: plan };
    same_call(bytes, who, "plan", &due.called(&lent, law), &came)?;
    Ok(Outcome { returned, bytes: came.buffer.inside().to_vec() })
}

fn analysed(bytes: &[u8], random: &mut Random) -> Returned {
    let (mut plan, mut reply) = (Lent::holding(bytes, random), Lent::holding(&random.bytes(REPLY), random));
    call_library(&mut plan, &mut reply)
}

/// The method by which an accepted plan has its figures behind a conversion, given its own.
fn approved(method: Number, law: Law) -> Number {
    match (law.broken(), method) {
        (Some(Rule::ReplyIbn), 0) => IBN,
        (Some(Rule::ReplySb), 0) => SB,
        (Some(Rule::ReplyOther), _) => XLWX,
        (_, 0) => XLWX,
        (_, other) => other,
    }
}

/// The library's reply to a converted plan is this program's to the plan with method 2, if it had 0, and else its own.
fn figures_kept(
    bytes: &[u8],
    left: Vec<u8>,
    law: Law,
    random: &mut Random,
    tally: &mut Tally,
) -> Result<Option<Converted>, Disagreement> {
    let own = Trial { bytes, law: Law::WHOLE }.expected()?;
    let (plan, reply) = match &own.answer {
        Ok(accepted) => (accepted.plan.clone(), accepted.reply.clone()),
        Err(refusal) => {
            tally.converted(&Conversion { bytes: bytes.to_vec(), came: Err(*refusal), moved: false });
            return Ok(None);
        }
    };
    let mut stored = plan.clone();
    stored.platform.method = approved(plan.platform.method, law);
    let stored_bytes = stored.records().concat();
    let expected = if stored == plan { own } else { Trial { bytes: &stored_bytes, law: Law::WHOLE }.expected()? };
    Trial { bytes: &left, law: Law::WHOLE }.library(&expected, reply.len(), random)?;
    let moved = expected.answer.as_ref().map_or(false, |accepted| accepted.reply != reply);
    tally.converted(&Conversion { bytes: bytes.to_vec(), came: Ok(plan), moved });
    Ok(Some(Converted { bytes: left, expected }))
}
