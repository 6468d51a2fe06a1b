//! What is expected of numbers to write: the plan's bytes, what is returned, and what the buffer holds.

use crate::disagreement::Called;
use crate::law::Law;
use crate::model::*;
use crate::product::{Lent, Returned};
use crate::reading::{read, start_of, Refusal, LONGEST_BEFORE, MOST_FLOWS};
use crate::rule_table::Rule;
use crate::rules::{IBN, XLWX};
use std::mem::swap;

/// The numbers that are handed over.
pub struct Writing {
    pub platform: Platform,
    /// All that the array has; those behind the count hold anything.
    pub places: Vec<Flow>,
    /// Some of the flows that the array has no places for: any will do, since a 65th is refused at its tag.
    pub further: Vec<Flow>,
    pub count: usize,
}

impl Writing {
    fn counted(&self, law: Law) -> usize {
        if law.breaks(Rule::WriteCutToMost) {
            return self.count.min(MOST_FLOWS);
        }
        if law.breaks(Rule::WriteCountFourBytes) {
            return self.count % (1 << 32);
        }
        let less = self.count.saturating_sub(usize::from(law.breaks(Rule::WriteOneLess)));
        less.saturating_add(usize::from(law.breaks(Rule::WriteBehind)))
    }

    /// What the platform and the list say.
    pub fn plan(&self, law: Law) -> Plan {
        let count = self.counted(law);
        let further = if count > MOST_FLOWS { &self.further[..] } else { &[] };
        let flows = [&self.places[..count.min(MOST_FLOWS)], further].concat();
        Plan { platform: self.platform_by(law), flows }
    }

    fn platform_by(&self, law: Law) -> Platform {
        let mut platform = self.platform.clone();
        let flits = &mut platform.priority_flits;
        match law.broken() {
            Some(Rule::WriteNone) => *flits = 0,
            Some(Rule::WriteAtMostEight) => *flits = (*flits).min(8),
            Some(Rule::WriteAboveAsNone) if *flits > 8 => *flits = 0,
            Some(Rule::WriteFourBits) => *flits %= 16,
            _ => {}
        }
        platform
    }
}

/// What has to come of a writing, whatever the buffer.
pub struct Due {
    refusal: Option<Refusal>,
    pub needed: usize,
    /// The plan's, but for a planted fault.
    pub bytes: Vec<u8>,
}

impl Due {
    /// The reader's refusal of the bytes as they would be written, if there is one.
    pub fn of(writing: &Writing, law: Law) -> Due {
        let plan = writing.plan(law);
        let bytes = plan.records().concat();
        let mut refusal = read(&bytes, law).err();
        if law.breaks(Rule::WriteZeroRefused) && plan.platform.priority_flits == 0 {
            let before = refusal.filter(|refusal| refusal.place < PRIORITY_FLITS);
            refusal = before.or(Some(Refusal { number: 26, place: PRIORITY_FLITS }));
        }
        if law.breaks(Rule::WriteManyFirst) && writing.count > MOST_FLOWS {
            let platform = plan.platform.record().len() - HEADER;
            refusal = Some(Refusal { number: 6, place: start_of(MOST_FLOWS + 1, platform) });
        }
        Due { refusal, needed: needed(&plan, law), bytes: misspelt(plan, law) }
    }

    /// Writing what was read gives the bytes that it was read from.
    pub fn same(bytes: &[u8], plan: &Plan, law: Law) -> Due {
        let mut other = plan.clone();
        replace_zero(&mut other, law, [Rule::RewriteXlwx, Rule::RewriteIbn]);
        reverse(&mut other, law, Rule::RewriteReversed);
        no_priority_flits(&mut other, law, Rule::RewriteSix);
        let mut bytes = if other == *plan { bytes.to_vec() } else { other.records().concat() };
        if law.breaks(Rule::RewriteSeven) && plan.platform.priority_flits == 0 {
            add_seventh(&mut bytes);
        }
        Due { refusal: None, needed: bytes.len(), bytes }
    }

    fn returned(&self, length: usize, law: Law) -> Returned {
        let too_short = length < self.needed + usize::from(law.breaks(Rule::WriteOneMore));
        match self.refusal {
            Some(refusal) if !(too_short && law.breaks(Rule::WriteShortFirst)) => {
                let place = if law.breaks(Rule::WritePlaceZero) { 0 } else { refusal.place };
                Returned { number: refusal.number, value: place }
            }
            None if !too_short => {
                let value = if law.breaks(Rule::WriteValueBuffer) { length } else { self.needed };
                Returned { number: 0, value }
            }
            _ => Returned { number: 11, value: law.place(11, 0) },
        }
    }

    /// How many of the bytes get into the buffer.
    fn kept(&self, length: usize, returned: &Returned, law: Law) -> usize {
        let most = match returned.number {
            0 => self.bytes.len(),
            11 if law.breaks(Rule::WriteShortWrites) => length,
            _ if law.breaks(Rule::WriteRefusalWrites) => returned.value,
            _ => 0,
        };
        most.min(length).min(self.bytes.len())
    }

    /// What a call over this buffer has to return and to leave.
    pub fn called(&self, buffer: &Lent, law: Law) -> Called {
        let returned = self.returned(buffer.length, law);
        let kept = self.kept(buffer.length, &returned, law);
        let mut left = buffer.with(&self.bytes[..kept]);
        if returned.number == 0 && law.breaks(Rule::WriteCleared) {
            left.inside()[kept..].fill(0);
        }
        let (start, end) = (left.before, left.before + left.length);
        left.whole[start - 1] ^= u8::from(law.breaks(Rule::WriteGuardBefore));
        left.whole[end] ^= u8::from(law.breaks(Rule::WriteGuardBehind));
        Called { returned, buffer: left }
    }
}

/// Another method takes the place of 0: XLWX if the first of these rules is broken, IBN if the second is.
pub fn replace_zero(plan: &mut Plan, law: Law, [as_xlwx, as_ibn]: [Rule; 2]) {
    let method = &mut plan.platform.method;
    match law.broken() {
        Some(rule) if rule == as_xlwx && *method == 0 => *method = XLWX,
        Some(rule) if rule == as_ibn && *method == 0 => *method = IBN,
        _ => {}
    }
}

pub fn reverse(plan: &mut Plan, law: Law, rule: Rule) {
    if law.breaks(rule) {
        plan.flows.reverse();
    }
}

pub fn no_priority_flits(plan: &mut Plan, law: Law, rule: Rule) {
    if law.breaks(rule) {
        plan.platform.priority_flits = 0;
    }
}

/// A seventh byte of 0 in a record without one.
fn add_seventh(record: &mut Vec<u8>) {
    record[HEADER - 1] += 1;
    record.insert(PRIORITY_FLITS, 0);
}

/// How long the buffer has to be, which is returned too.
fn needed(plan: &Plan, law: Law) -> usize {
    let right = plan.records().concat().len();
    match (law.broken(), plan.platform.priority_flits) {
        (Some(Rule::WriteSevenAlways | Rule::WriteNeedsSeven), 0) => right + 1,
        (Some(Rule::WriteSixAlways | Rule::WriteNeedsSix), 1..) => right - 1,
        (Some(Rule::WriteLongest), _) => right.min(LONGEST_BEFORE),
        _ => right,
    }
}

/// The platform's record with the planted fault, if it is one of the seventh byte.
fn wrong_seventh(record: &mut Vec<u8>, law: Law) {
    match (law.broken(), record.len() > PRIORITY_FLITS) {
        (Some(Rule::WriteSevenAlways), false) => add_seventh(record),
        (Some(Rule::WriteSixAlways), true) => {
            record.pop();
            record[HEADER - 1] -= 1;
        }
        (Some(Rule::WriteSeventhBlank), true) => record[PRIORITY_FLITS] = 0,
        (Some(Rule::WriteSeventhBefore), true) => record.swap(METHOD, PRIORITY_FLITS),
        (Some(Rule::WriteLengthSix), true) => record[HEADER - 1] -= 1,
        (Some(Rule::WriteLengthSeven), false) => record[HEADER - 1] += 1,
        _ => {}
    }
}

/// The plan's bytes with the planted fault, if it is one of the bytes.
fn misspelt(plan: Plan, law: Law) -> Vec<u8> {
    let most = if law.breaks(Rule::WriteLongest) { LONGEST_BEFORE } else { usize::MAX };
    let mut records = wrong_numbers(plan, law).records();
    wrong_seventh(&mut records[0], law);
    for record in &mut records {
        wrong_spelling(record, law);
    }
    if law.breaks(Rule::WriteNoEnd) {
        records.pop();
    }
    let mut bytes = records.concat();
    bytes.truncate(bytes.len() - usize::from(law.breaks(Rule::WriteLastByte)));
    bytes.truncate(most);
    bytes
}

fn wrong_numbers(mut plan: Plan, law: Law) -> Plan {
    replace_zero(&mut plan, law, [Rule::WriteXlwx, Rule::WriteIbn]);
    reverse(&mut plan, law, Rule::WriteReversed);
    if law.breaks(Rule::WriteByPriority) {
        plan.flows.sort_by_key(|flow| flow.priority);
    }
    for flow in &mut plan.flows {
        if law.breaks(Rule::WriteIdPriority) {
            swap(&mut flow.id, &mut flow.priority);
        }
        if law.breaks(Rule::WriteEnds) {
            swap(&mut flow.source, &mut flow.destination);
        }
        if law.breaks(Rule::WriteDeadlineJitter) {
            swap(&mut flow.deadline, &mut flow.jitter);
        }
        if law.breaks(Rule::WriteIdByte) {
            flow.id %= 256;
        }
    }
    plan
}

fn wrong_spelling(record: &mut [u8], law: Law) {
    for field in fields_of(record[0]) {
        let little = match field.width {
            2 => law.breaks(Rule::WriteLittleTwo),
            4 => law.breaks(Rule::WriteLittleFour),
            _ => false,
        };
        if little {
            record[field.offset..field.offset + field.width].reverse();
        }
    }
    if law.breaks(Rule::WriteLengthWhole) {
        record[HEADER - 1] += HEADER as u8;
    }
    if law.breaks(Rule::WriteLittleLength) {
        record[1..HEADER].reverse();
    }
}
