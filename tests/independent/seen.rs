//! What a run has seen of the platform record's seventh byte: in the bytes that it analysed, and in the numbers that it
//! wrote.

use crate::answer::Expected;
use crate::counts::{Case, Counted};
use crate::model::{Number, Platform, HEADER, MOST_FLITS, PRIORITY_FLITS};
use crate::product::Returned;
use crate::reading::Refusal;

/// A plan's bytes by their platform record and their number, and what came of them.
pub struct Analysed {
    /// Its two bytes.
    length: Option<[u8; 2]>,
    seventh: Option<u8>,
    bytes: usize,
    /// Of an accepted plan the platform and the flits of its longest packet, with the priority's.
    came: Result<(Platform, Number), Refusal>,
}

impl Analysed {
    pub fn of(bytes: &[u8], expected: &Expected) -> Analysed {
        let came = match &expected.answer {
            Ok(accepted) => {
                let platform = &accepted.plan.platform;
                let longest = accepted.plan.flows.iter().map(|flow| flow.flits).max().unwrap_or(0);
                Ok((platform.clone(), longest + platform.priority_flits))
            }
            Err(refusal) => Err(*refusal),
        };
        let length = bytes.get(1..HEADER).map(|length| [length[0], length[1]]);
        Analysed { length, seventh: bytes.get(PRIORITY_FLITS).copied(), bytes: bytes.len(), came }
    }

    fn says(&self, length: u8) -> bool {
        self.length == Some([0, length])
    }

    fn is_accepted(&self, length: u8) -> bool {
        self.came.is_ok() && self.says(length)
    }

    fn is_refused(&self, number: u8, place: usize) -> bool {
        self.came == Err(Refusal { number, place })
    }

    /// With a seventh byte and this method.
    fn has_method(&self, method: Number) -> bool {
        matches!(&self.came, Ok((platform, _)) if platform.method == method && self.is_accepted(7))
    }

    fn has_seventh(&self, value: u8) -> bool {
        self.says(7) && self.seventh == Some(value)
    }

    fn is_outside(&self) -> bool {
        self.says(7) && !matches!(self.seventh, Some(1..=8))
    }

    /// Refused in a record behind a seventh byte, or behind the last.
    fn is_refused_behind(&self, number: u8) -> bool {
        let behind = |refusal: &Refusal| refusal.number == number && refusal.place > PRIORITY_FLITS;
        self.says(7) && self.came.as_ref().err().map_or(false, behind)
    }
}

impl Counted for Analysed {
    const KIND: &'static str = "plans";
    const CASES: &'static [Case<Analysed>] = &[
        ("accepted without a seventh byte", |plan| plan.is_accepted(6)),
        ("accepted with a seventh byte, method 0", |plan| plan.has_method(0)),
        ("accepted with a seventh byte, method 1", |plan| plan.has_method(1)),
        ("accepted with a seventh byte, method 2", |plan| plan.has_method(2)),
        ("accepted with a seventh byte, method 3", |plan| plan.has_method(3)),
        ("accepted with a seventh byte of 1", |plan| plan.is_accepted(7) && plan.has_seventh(1)),
        ("accepted with a seventh byte of 8", |plan| plan.is_accepted(7) && plan.has_seventh(8)),
        (
            "accepted with more than 65,535 flits by the seventh byte",
            |plan| matches!(plan.came, Ok((_, flits)) if flits > MOST_FLITS),
        ),
        ("accepted with 1,484 bytes", |plan| plan.came.is_ok() && plan.bytes == 1484),
        ("accepted with 1,485 bytes", |plan| plan.came.is_ok() && plan.bytes == 1485),
        ("refused 26 for 0", |plan| plan.is_refused(26, 9) && plan.has_seventh(0)),
        ("refused 26 for 9", |plan| plan.is_refused(26, 9) && plan.has_seventh(9)),
        ("refused 26 for 255", |plan| plan.is_refused(26, 9) && plan.has_seventh(255)),
        ("refused 25 before 26", |plan| plan.is_refused(25, 8) && plan.is_outside()),
        ("refused 1 for a cut seventh byte", |plan| {
            plan.is_refused(1, 0) && plan.says(7) && plan.bytes == PRIORITY_FLITS
        }),
        ("refused 3 for length 5", |plan| plan.is_refused(3, 1) && plan.says(5)),
        ("refused 3 for length 8", |plan| plan.is_refused(3, 1) && plan.says(8)),
        ("refused 3 for a length of 262 or 263", |plan| {
            plan.is_refused(3, 1) && matches!(plan.length, Some([1, 6 | 7]))
        }),
        ("refused 1 behind a seventh byte", |plan| plan.is_refused_behind(1)),
        ("refused 10 behind a seventh byte", |plan| plan.is_refused_behind(10)),
        ("refused 6 without a seventh byte", |plan| plan.is_refused(6, 1481)),
        ("refused 6 behind a seventh byte", |plan| plan.is_refused(6, 1482)),
    ];
}

/// A writing by its priority flits, and what came of it.
pub struct Asked {
    pub priority_flits: Number,
    pub returned: Returned,
}

impl Asked {
    fn is_accepted(&self) -> bool {
        self.returned.number == 0
    }

    fn is_refused(&self, number: u8, place: usize) -> bool {
        self.returned == Returned { number, value: place }
    }

    fn is_above(&self) -> bool {
        self.priority_flits > 8
    }
}

impl Counted for Asked {
    const KIND: &'static str = "writer calls";
    const CASES: &'static [Case<Asked>] = &[
        ("accepted with priority flits 0", |asked| asked.is_accepted() && asked.priority_flits == 0),
        ("accepted with priority flits 1", |asked| asked.is_accepted() && asked.priority_flits == 1),
        ("accepted with priority flits 2 to 7", |asked| asked.is_accepted() && (2..=7).contains(&asked.priority_flits)),
        ("accepted with priority flits 8", |asked| asked.is_accepted() && asked.priority_flits == 8),
        ("accepted with 1,484 bytes", |asked| asked.returned == Returned { number: 0, value: 1484 }),
        ("accepted with 1,485 bytes", |asked| asked.returned == Returned { number: 0, value: 1485 }),
        ("refused 26 for 9", |asked| asked.is_refused(26, 9) && asked.priority_flits == 9),
        ("refused 26 for 10 to 254", |asked| asked.is_refused(26, 9) && (10..=254).contains(&asked.priority_flits)),
        ("refused 26 for 255", |asked| asked.is_refused(26, 9) && asked.priority_flits == 255),
        ("refused 25 before 26", |asked| asked.is_refused(25, 8) && asked.is_above()),
        ("refused 6 without a seventh byte", |asked| asked.is_refused(6, 1481)),
        ("refused 6 behind a seventh byte", |asked| asked.is_refused(6, 1482)),
    ];
}
