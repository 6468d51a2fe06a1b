//! The verdict on a plan's bytes. All faults of all records are gathered with their keys, and the least key decides.
//! A record can be reached only when those before it are faultless, so its start follows from its index and the length
//! of the platform record.

use crate::law::Law;
use crate::model::*;
use crate::rule_table::Rule;
use std::collections::BTreeSet;

#[derive(Clone, Copy, Debug, PartialEq, Eq)]
pub struct Refusal {
    pub number: u8,
    pub place: usize,
}

/// Compared in this order: the record, the check's rank in it, the field.
#[derive(Clone, Copy, PartialEq, Eq, PartialOrd, Ord)]
struct Fault {
    record: usize,
    rank: usize,
    field: usize,
    number: u8,
    place: usize,
}

pub struct Record<'a> {
    bytes: &'a [u8],
    index: usize,
    start: usize,
    law: Law,
}

/// What is looked for at one rank of the order within a record.
pub enum Check {
    /// A refusal, and the place in the record if it is in fault.
    Refusal(u8, fn(&Record) -> Option<usize>),
    /// Field by field, each with refusals of its own.
    Fields,
}

/// A fault that a check has found: the field's rank where there are several, the number, and the place in the record.
type Found = (usize, u8, usize);

/// In the order within a record.
pub const CHECKS: [Check; 10] = [
    Check::Refusal(1, header_cut),
    Check::Refusal(2, tag_unknown),
    Check::Refusal(4, platform_misplaced),
    Check::Refusal(3, length_wrong),
    Check::Refusal(1, body_cut),
    Check::Refusal(6, flow_too_many),
    Check::Fields,
    Check::Refusal(9, ends_equal),
    Check::Refusal(7, id_repeated),
    Check::Refusal(8, priority_repeated),
];

impl Check {
    pub fn name(&self) -> String {
        match self {
            Check::Refusal(number, _) => number.to_string(),
            Check::Fields => "fields".to_string(),
        }
    }

    pub fn refusals(&self) -> BTreeSet<u8> {
        match self {
            Check::Refusal(number, _) => BTreeSet::from([*number]),
            Check::Fields => field_refusals(),
        }
    }

    fn found_in(&self, record: &Record) -> Vec<Found> {
        match self {
            Check::Refusal(number, place_in) => place_in(record).map(|place| (0, *number, place)).into_iter().collect(),
            Check::Fields => fields_outside(record),
        }
    }
}

pub const MOST_FLOWS: usize = 64;
pub const FLOW_RECORD: usize = 23;

/// The longest plan without a seventh byte; with it, one more.
pub const LONGEST_BEFORE: usize = 1484;

/// Where a record starts, given the length of the platform's body.
pub fn start_of(index: usize, platform: usize) -> usize {
    match index {
        0 => 0,
        _ => HEADER + platform + FLOW_RECORD * (index - 1),
    }
}

/// The length of the platform's body. A wrong one is refused before another record is reached; only a planted fault
/// lets in 5 or 8.
fn platform_length(bytes: &[u8], law: Law) -> usize {
    match length_at(bytes, 0, law) {
        Some(length @ 5..=8) if !law.breaks(Rule::StartsNotMoved) => length as usize,
        _ => 6,
    }
}

/// The length that a record says.
fn length_at(bytes: &[u8], start: usize, law: Law) -> Option<Number> {
    let width = if start == 0 && law.breaks(Rule::LengthLowByte) { 1 } else { 2 };
    number_at(bytes, start + HEADER - width, width)
}

/// Whether a tag may have this length.
fn is_legal(tag: u8, length: Number, law: Law) -> bool {
    match (law.broken(), tag, length) {
        (Some(Rule::SevenRefused), PLATFORM_TAG, 7) | (Some(Rule::SixRefused), PLATFORM_TAG, 6) => false,
        (Some(Rule::FiveLetIn), PLATFORM_TAG, 5) | (Some(Rule::EightLetIn), PLATFORM_TAG, 8) => true,
        _ => lengths_of(tag).contains(&length),
    }
}

fn number_at(bytes: &[u8], place: usize, width: usize) -> Option<Number> {
    let part = bytes.get(place..place + width)?;
    Some(part.iter().fold(0, |sum, byte| 256 * sum + Number::from(*byte)))
}

impl<'a> Record<'a> {
    fn at(bytes: &'a [u8], index: usize, law: Law) -> Record<'a> {
        Record { bytes, index, start: start_of(index, platform_length(bytes, law)), law }
    }

    fn number(&self, offset: usize, width: usize) -> Option<Number> {
        number_at(self.bytes, self.start + offset, width)
    }

    fn tag(&self) -> Option<u8> {
        self.bytes.get(self.start).copied()
    }

    fn is(&self, tag: u8) -> bool {
        self.tag() == Some(tag)
    }

    fn length(&self) -> Option<Number> {
        length_at(self.bytes, self.start, self.law)
    }

    /// The number in a field, if the record is long enough to have it.
    fn value(&self, field: &Field) -> Option<Number> {
        let number = self.number(field.offset, field.width);
        let end = (field.offset + field.width - HEADER) as Number;
        match self.law.broken() {
            _ if end <= self.length()? => number,
            Some(Rule::NextByteTaken) => number,
            Some(Rule::SeventhDemanded) => Some(0),
            _ => None,
        }
    }

    fn high(&self, field: &Field) -> Option<Number> {
        match field.high {
            High::Fixed(value) if field.offset == JITTER && self.law.breaks(Rule::JitterRefused) => {
                Some(value.min(self.number(DEADLINE, 4)?))
            }
            High::Fixed(value) => Some(value),
            High::LastNode => Some(number_at(self.bytes, COLUMNS, 1)? * number_at(self.bytes, ROWS, 1)? - 1),
            High::Period => self.number(PERIOD, 4),
        }
    }

    /// The refusal of a field outside its values.
    fn refusal_of(&self, field: &Field) -> Option<u8> {
        let (value, high) = (self.value(field)?, self.high(field)?);
        let (low, high) = self.law.edges(field.name, field.low, high);
        let number = match value {
            _ if value < low => Some(field.below),
            _ if value > high => Some(field.above),
            _ => None,
        };
        number.map(|number| self.law.number(field.name, number))
    }

    /// Whether an earlier flow has the same value at this offset.
    fn repeats(&self, offset: usize) -> bool {
        let value = self.number(offset, 2);
        let mut earlier = (1..self.index).map(|index| Record::at(self.bytes, index, self.law));
        value.is_some() && self.is(FLOW_TAG) && earlier.any(|record| record.number(offset, 2) == value)
    }
}

/// Refusal 1 stands at the record's start.
fn cut(record: &Record, condition: bool) -> Option<usize> {
    let rest = record.bytes.len().saturating_sub(record.start);
    condition.then_some(if record.law.breaks(Rule::CutAtEnd) { rest } else { 0 })
}

fn header_cut(record: &Record) -> Option<usize> {
    cut(record, record.bytes.len() < record.start + HEADER)
}

fn tag_unknown(record: &Record) -> Option<usize> {
    matches!(record.tag(), Some(tag) if lengths_of(tag).is_empty()).then_some(0)
}

fn platform_misplaced(record: &Record) -> Option<usize> {
    (record.tag().is_some() && record.is(PLATFORM_TAG) != (record.index == 0)).then_some(0)
}

fn length_wrong(record: &Record) -> Option<usize> {
    let tag = record.tag().filter(|tag| !lengths_of(*tag).is_empty())?;
    record.length().filter(|length| !is_legal(tag, *length, record.law)).map(|_| 1)
}

fn body_cut(record: &Record) -> Option<usize> {
    let unseen = Number::from(record.law.breaks(Rule::SeventhCut) && record.length() == Some(7));
    let end = |length: Number| (record.start + HEADER) as Number + length - unseen;
    cut(record, matches!(record.length(), Some(length) if end(length) > record.bytes.len() as Number))
}

fn flow_too_many(record: &Record) -> Option<usize> {
    (record.is(FLOW_TAG) && record.index > MOST_FLOWS).then_some(0)
}

fn fields_outside(record: &Record) -> Vec<Found> {
    let fields = record.tag().map_or(&[][..], fields_of).iter().enumerate();
    let rank = |place, field: &Field| record.law.field_rank(place, field.name);
    fields.filter_map(|(place, field)| Some((rank(place, field), record.refusal_of(field)?, field.offset))).collect()
}

fn ends_equal(record: &Record) -> Option<usize> {
    let destination = record.number(DESTINATION, 1);
    let equal = record.is(FLOW_TAG) && destination.is_some() && record.number(SOURCE, 1) == destination;
    equal.then_some(DESTINATION)
}

fn id_repeated(record: &Record) -> Option<usize> {
    record.repeats(ID).then_some(ID)
}

fn priority_repeated(record: &Record) -> Option<usize> {
    record.repeats(PRIORITY).then_some(PRIORITY)
}

/// The place that is told of a fault, given the right one.
fn told(record: &Record, number: u8, place: usize) -> usize {
    let (law, behind) = (record.law, record.index > 0);
    let seventh = platform_length(record.bytes, law) == 7;
    match law.broken() {
        Some(Rule::SeventhAtMethod) if is_of_seventh(number) => METHOD,
        Some(Rule::SeventhAtStart) if is_of_seventh(number) => 0,
        Some(Rule::PlacesNotMoved) if behind && seventh => place - 1,
        Some(Rule::PlacesAlwaysMoved) if behind && !seventh => place + 1,
        Some(Rule::SixtyFifthNotMoved) if number == 6 && seventh => place - 1,
        Some(Rule::CutNotMoved) if number == 1 && behind && seventh => place - 1,
        Some(Rule::AfterEndNotMoved) if number == 10 && seventh => place - 1,
        _ => law.place(number, place),
    }
}

fn faults_of(record: &Record) -> Vec<Fault> {
    let law = record.law;
    let mut faults = Vec::new();
    for (rank, check) in CHECKS.iter().enumerate() {
        for (field, number, offset) in check.found_in(record).into_iter().filter(|(_, number, _)| !law.never(*number)) {
            let place = told(record, number, record.start + offset);
            let last = law.breaks(Rule::SeventhLast) && is_of_seventh(number);
            let index = if last { usize::MAX } else { record.index };
            faults.push(Fault { record: index, rank: law.rank(rank), field, number, place });
        }
    }
    faults
}

/// The index of the end record, if there is one: the first in its row that has the tag. The first record is none.
fn end_index(bytes: &[u8], law: Law) -> Option<usize> {
    let start = |index: usize| start_of(index, platform_length(bytes, law));
    let reachable = (1..).take_while(|index| start(*index) < bytes.len());
    reachable.into_iter().find(|index| bytes[start(*index)] == END_TAG)
}

/// Its key lies behind those of all records.
fn byte_after_end(bytes: &[u8], law: Law) -> Option<Fault> {
    let end = Record::at(bytes, end_index(bytes, law)?, law);
    let place = end.start + HEADER;
    let fault = Fault { record: usize::MAX, rank: 0, field: 0, number: 10, place: told(&end, 10, place) };
    Some(fault).filter(|_| bytes.len() > place && !law.never(10))
}

fn deciding(faults: Vec<Fault>, law: Law) -> Option<Fault> {
    if law.breaks(Rule::LastRecord) {
        let last = faults.iter().map(|fault| fault.record).max();
        return faults.into_iter().filter(|fault| Some(fault.record) == last).min();
    }
    faults.into_iter().min()
}

/// By a planted fault the last byte of the longest plan is not read.
fn bytes_read(bytes: &[u8], law: Law) -> &[u8] {
    let most = if law.breaks(Rule::EndByteUnread) { LONGEST_BEFORE } else { bytes.len() };
    &bytes[..most.min(bytes.len())]
}

pub fn read(bytes: &[u8], law: Law) -> Result<Plan, Refusal> {
    let bytes = bytes_read(bytes, law);
    let record = |index: usize| Record::at(bytes, index, law);
    let behind_all = || (0..).find(|index| record(*index).start >= bytes.len()).unwrap_or(0);
    let last = end_index(bytes, law).unwrap_or_else(behind_all);
    let mut faults: Vec<Fault> = (0..=last).flat_map(|index| faults_of(&record(index))).collect();
    faults.extend(byte_after_end(bytes, law));
    match deciding(faults, law) {
        Some(fault) => Err(Refusal { number: fault.number, place: fault.place }),
        None => Ok(plan_by(law, bytes, last - 1)),
    }
}

/// The numbers in a platform record and so many flow records, whatever their values.
pub fn plan_at(bytes: &[u8], flows: usize) -> Plan {
    plan_by(Law::WHOLE, bytes, flows)
}

fn plan_by(law: Law, bytes: &[u8], flows: usize) -> Plan {
    let record = |index: usize| Record::at(bytes, index, law);
    Plan { platform: platform_in(&record(0)), flows: (1..=flows).map(|index| flow_in(&record(index))).collect() }
}

/// Zero for a seventh byte that the record does not have.
fn numbers_in(record: &Record, fields: &[Field]) -> Vec<Number> {
    fields.iter().map(|field| record.value(field).unwrap_or(0)).collect()
}

fn platform_in(record: &Record) -> Platform {
    let p = numbers_in(record, &PLATFORM_FIELDS);
    Platform { columns: p[0], rows: p[1], link: p[2], routing: p[3], buffer: p[4], method: p[5], priority_flits: p[6] }
}

fn flow_in(record: &Record) -> Flow {
    let f = numbers_in(record, &FLOW_FIELDS);
    Flow {
        id: f[0],
        priority: f[1],
        source: f[2],
        destination: f[3],
        flits: f[4],
        period: f[5],
        deadline: f[6],
        jitter: f[7],
    }
}
