//! What is expected of a conversion: what is returned, and the bytes that the lent plan then holds.

use crate::disagreement::Called;
use crate::law::Law;
use crate::model::{Plan, DESTINATION, METHOD, PRIORITY_FLITS, ROUTING};
use crate::product::{Lent, Returned};
use crate::reading::{read, start_of, Refusal, LONGEST_BEFORE, MOST_FLOWS};
use crate::rule_table::Rule;
use crate::rules::XLWX;

const METHOD_REFUSED: Returned = Returned { number: 25, value: METHOD };
const TOO_SHORT: Returned = Returned { number: 11, value: 0 };

/// So that plans stored with 0 keep the figures of the default that they were approved with.
pub fn converted_method(method: u8) -> u8 {
    match method {
        0 => XLWX as u8,
        other => other,
    }
}

/// What has to come of a plan's bytes, whatever stands around them.
pub struct Due {
    returned: Returned,
    bytes: Vec<u8>,
}

impl Due {
    pub fn of(bytes: &[u8], law: Law) -> Due {
        if bytes.is_empty() && law.breaks(Rule::ConvertEmptyTaken) {
            return Due { returned: Returned { number: 0, value: 0 }, bytes: Vec::new() };
        }
        match read(bytes_read(bytes, law), law) {
            Ok(plan) => Due { returned: accepted(&plan, bytes, law), bytes: rewritten(&plan, bytes, law) },
            Err(refusal) => Due { returned: refused(refusal, bytes, law), bytes: kept(refusal, bytes, law) },
        }
    }

    /// The like for bytes that a conversion has left.
    pub fn again(bytes: &[u8], law: Law) -> Due {
        let mut due = Due::of(bytes, law);
        if due.returned.number == 0 {
            match (law.broken(), bytes.get(METHOD)) {
                (Some(Rule::AgainBack), Some(2)) => due.bytes[METHOD] = 0,
                (Some(Rule::AgainOn), Some(2)) => due.bytes[METHOD] = 3,
                (Some(Rule::AgainRefused), _) => due.returned = METHOD_REFUSED,
                (Some(Rule::AgainValue), _) => due.returned.value = 1,
                _ => {}
            }
        }
        due
    }

    /// What a call over this plan has to return and to leave.
    pub fn called(&self, plan: &Lent, law: Law) -> Called {
        let mut left = plan.with(&self.bytes);
        let (start, end) = (left.before, left.before + left.length);
        left.whole[start - 1] ^= u8::from(law.breaks(Rule::ConvertGuardBefore));
        left.whole[end] ^= u8::from(law.breaks(Rule::ConvertGuardBehind));
        Called { returned: self.returned, buffer: left }
    }
}

/// By a planted fault no more than the longest plan has.
fn bytes_read(bytes: &[u8], law: Law) -> &[u8] {
    let most = if law.breaks(Rule::ConvertLongCut) { LONGEST_BEFORE + 1 } else { bytes.len() };
    &bytes[..most.min(bytes.len())]
}

fn accepted(plan: &Plan, bytes: &[u8], law: Law) -> Returned {
    let zero = plan.platform.method == 0;
    let value = match law.broken() {
        Some(Rule::ConvertShort) => return TOO_SHORT,
        Some(Rule::ConvertOtherRefused) if !zero => return METHOD_REFUSED,
        Some(Rule::ConvertNumberOne) if zero => return Returned { number: 1, value: 0 },
        Some(Rule::ConvertValueLength) => bytes.len(),
        Some(Rule::ConvertValueReply) => 16 * plan.flows.len() + 3,
        Some(Rule::ConvertValuePlace) => METHOD,
        Some(Rule::ConvertValueOne) => usize::from(zero),
        Some(Rule::ConvertValueOther) => usize::from(!zero),
        Some(Rule::ConvertValueMethod) => usize::from(converted_method(bytes[METHOD])),
        _ => 0,
    };
    Returned { number: 0, value }
}

/// An accepted plan's bytes: the method alone is another, and only if it is 0.
fn rewritten(plan: &Plan, bytes: &[u8], law: Law) -> Vec<u8> {
    let mut left = bytes.to_vec();
    let method = &mut left[METHOD];
    if !is_left(plan, bytes, law) {
        *method = law.method_left(*method, converted_method(*method));
    }
    write_more(plan, &mut left, law);
    left
}

/// By a planted fault 0 is not rewritten in every plan.
fn is_left(plan: &Plan, bytes: &[u8], law: Law) -> bool {
    let seventh = plan.platform.priority_flits > 0;
    match law.broken() {
        Some(Rule::ConvertSixLeft) => !seventh,
        Some(Rule::ConvertSevenLeft | Rule::ConvertMoved) => seventh,
        Some(Rule::ConvertFlowlessLeft) => plan.flows.is_empty(),
        Some(Rule::ConvertFullLeft) => plan.flows.len() == MOST_FLOWS,
        Some(Rule::ConvertLongestLeft) => bytes.len() > LONGEST_BEFORE,
        _ => false,
    }
}

/// The bytes that a planted fault writes besides.
fn write_more(plan: &Plan, bytes: &mut [u8], law: Law) {
    let last = bytes.len() - 1;
    let zero = plan.platform.method == 0;
    match law.broken() {
        Some(Rule::ConvertTag) if zero => bytes[0] = 2,
        Some(Rule::ConvertBefore) if zero => bytes[METHOD - 1] ^= 1,
        Some(Rule::ConvertBehind) if zero => bytes[METHOD + 1] ^= 1,
        Some(Rule::ConvertLast) if zero => bytes[last] = 2,
        Some(Rule::ConvertOtherLast) if !zero => bytes[last] = 2,
        Some(Rule::ConvertRouting) if zero && bytes[ROUTING] == 0 => bytes[ROUTING] = 2,
        Some(Rule::ConvertMoved) if zero && plan.platform.priority_flits > 0 => bytes[PRIORITY_FLITS] = 2,
        Some(Rule::ConvertDestinations) if zero => write_destinations(plan, bytes),
        _ => {}
    }
}

fn write_destinations(plan: &Plan, bytes: &mut [u8]) {
    let platform = if plan.platform.priority_flits > 0 { 7 } else { 6 };
    for (index, _) in plan.flows.iter().enumerate().filter(|(_, flow)| flow.destination == 0) {
        bytes[start_of(index + 1, platform) + DESTINATION] = XLWX as u8;
    }
}

fn refused(refusal: Refusal, bytes: &[u8], law: Law) -> Returned {
    let Refusal { number, place } = refusal;
    match law.broken() {
        Some(Rule::ConvertRefusedShort) => TOO_SHORT,
        Some(Rule::ConvertEmptyShort) if bytes.is_empty() => TOO_SHORT,
        Some(Rule::ConvertPlaceZero) => Returned { number, value: 0 },
        Some(Rule::ConvertOneNumber) => Returned { number: 1, value: place },
        _ => Returned { number, value: place },
    }
}

/// A refused plan's bytes; by a planted fault a 0 where the method stands becomes 2, or a method that is refused.
fn kept(refusal: Refusal, bytes: &[u8], law: Law) -> Vec<u8> {
    let mut left = bytes.to_vec();
    if let (true, Some(last)) = (law.breaks(Rule::ConvertRefusedLast), left.last_mut()) {
        *last ^= 1;
    }
    if let (true, Some(method)) = (law.writes_refused(refusal.number), left.get_mut(METHOD)) {
        if *method == 0 || refusal == (Refusal { number: METHOD_REFUSED.number, place: METHOD }) {
            *method = XLWX as u8;
        }
    }
    left
}
