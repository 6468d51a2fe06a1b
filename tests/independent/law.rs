//! The law is document 01 with the fields' refusals of L2, the deadlines of L3, the default of L6 and the priority
//! flits of L7 of document 02, for writing L1, and for converting L6; L4 leaves it as it is. A planted fault breaks one
//! rule of it on the expected side, so that a run must fail.

use crate::model::{Number, SEVENTH};
use crate::rule_table::{is_in, Rule, CLAIMED, PLACE, SHARED, TEXT};

#[derive(Clone, Copy, PartialEq, Eq)]
pub enum End {
    Low,
    High,
}

#[derive(Clone, Copy, PartialEq, Eq)]
pub enum Plant {
    Rule(Rule),
    /// Two neighbours in the order within a record change places.
    Order(usize),
    /// Two neighbouring fields do, in the order field by field.
    FieldOrder(&'static str, &'static str),
    /// The place of a refusal is one more than it is.
    Place(u8),
    /// A refusal is not given.
    Never(u8),
    /// The number of a field's refusals is one more than it is.
    Number(&'static str),
    /// An edge of a field's values lies one lower or higher.
    Edge(&'static str, End, Number),
    /// A conversion leaves another method than it has to: of the one, the other.
    Method(u8, u8),
    /// A conversion writes the method of a plan that has this refusal.
    Refused(u8),
}

#[derive(Clone, Copy)]
pub struct Law {
    planted: Option<Plant>,
}

impl Law {
    pub const WHOLE: Law = Law { planted: None };

    pub fn with(plant: Plant) -> Law {
        Law { planted: Some(plant) }
    }

    pub fn is_whole(&self) -> bool {
        self.planted.is_none()
    }

    /// Whether it says something of the program's text that the library does not show.
    pub fn concerns_text(&self) -> bool {
        match self.planted {
            Some(Plant::Rule(rule)) => is_in(TEXT, rule),
            Some(_) => false,
            None => true,
        }
    }

    /// Whether it says something of a conversion that what the library returns and leaves does not show.
    pub fn concerns_claims(&self) -> bool {
        self.is_whole() || self.broken().map_or(false, |rule| is_in(CLAIMED, rule))
    }

    /// Whether it counts shared links wrongly.
    pub fn miscounts(&self) -> bool {
        self.broken().map_or(false, |rule| is_in(SHARED, rule))
    }

    /// Whether it puts the first of them elsewhere.
    pub fn misplaces(&self) -> bool {
        self.broken().map_or(false, |rule| is_in(PLACE, rule))
    }

    pub fn breaks(&self, rule: Rule) -> bool {
        self.planted == Some(Plant::Rule(rule))
    }

    /// The rule that it breaks, if that is one of the table's.
    pub fn broken(&self) -> Option<Rule> {
        match self.planted {
            Some(Plant::Rule(rule)) => Some(rule),
            _ => None,
        }
    }

    /// The method that a conversion leaves, given the plan's and the right one.
    pub fn method_left(&self, method: u8, right: u8) -> u8 {
        match self.planted {
            Some(Plant::Method(of, left)) if of == method => left,
            _ => right,
        }
    }

    /// Whether a conversion writes the method of a plan that has this refusal.
    pub fn writes_refused(&self, number: u8) -> bool {
        self.planted == Some(Plant::Refused(number))
    }

    pub fn never(&self, number: u8) -> bool {
        self.planted == Some(Plant::Never(number))
    }

    pub fn place(&self, number: u8, place: usize) -> usize {
        place + usize::from(self.planted == Some(Plant::Place(number)))
    }

    /// A check's rank in the order within a record.
    pub fn rank(&self, check: usize) -> usize {
        match self.planted {
            Some(Plant::Order(first)) if check == first => first + 1,
            Some(Plant::Order(first)) if check == first + 1 => first,
            _ => check,
        }
    }

    /// A field's rank in the order field by field, given its place in the record.
    pub fn field_rank(&self, place: usize, name: &str) -> usize {
        match self.planted {
            Some(Plant::Rule(Rule::FieldsBackwards)) => usize::MAX - place,
            Some(Plant::Rule(Rule::SeventhFirst)) if name == SEVENTH => 0,
            Some(Plant::Rule(Rule::SeventhFirst)) => place + 1,
            Some(Plant::FieldOrder(before, _)) if name == before => place + 1,
            Some(Plant::FieldOrder(_, behind)) if name == behind => place - 1,
            _ => place,
        }
    }

    /// The number of a field's refusal, given the right one.
    pub fn number(&self, name: &str, right: u8) -> u8 {
        match self.planted {
            Some(Plant::Number(field)) if field == name => right + 1,
            Some(Plant::Rule(rule)) => misnumbered(rule, right),
            _ => right,
        }
    }

    pub fn edges(&self, name: &str, low: Number, high: Number) -> (Number, Number) {
        match self.planted {
            Some(Plant::Edge(field, End::Low, by)) if field == name => (low + by, high),
            Some(Plant::Edge(field, End::High, by)) if field == name => (low, high + by),
            _ => (low, high),
        }
    }
}

/// A field's refusal by the wrong numberings, given the right one.
fn misnumbered(rule: Rule, right: u8) -> u8 {
    match (rule, right) {
        (Rule::FieldsAsBefore, _) => 5,
        (Rule::PlatformFromThirty, 20..=26) => right + 10,
        (Rule::FlowFromTwenty, 30..=38) => right - 10,
        (Rule::DeadlineSwapped | Rule::DeadlineAlwaysAbove, 36) => 38,
        (Rule::DeadlineSwapped | Rule::DeadlineAlwaysZero, 38) => 36,
        (Rule::SeventhAsMethod, 26) => 25,
        (Rule::JitterLast, 37) => 38,
        (Rule::JitterLast, 38) => 37,
        _ => right,
    }
}

/// The laws of analysing, of writing and of converting: a planted fault breaks one of them.
#[derive(Clone, Copy)]
pub struct Laws {
    pub analysing: Law,
    pub writing: Law,
    pub converting: Law,
}

impl Laws {
    pub const WHOLE: Laws = Laws { analysing: Law::WHOLE, writing: Law::WHOLE, converting: Law::WHOLE };

    /// Whether a side of this law is tried: a fault planted on one cannot show on another.
    pub fn concern(&self, side: Law) -> bool {
        !side.is_whole() || [self.analysing, self.writing, self.converting].iter().all(Law::is_whole)
    }
}
