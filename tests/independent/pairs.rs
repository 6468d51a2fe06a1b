//! Pairs of flows by rows and columns: what they share of each part of a route, and the counts and first places that a
//! wrong closed form would give. Where no fault is planted both come from the sets of links.

use crate::counts::{Case, Counted};
use crate::law::Law;
use crate::model::{Flow, Number, Platform};
use crate::routes::{part_of, place_of, Link, Part};
use crate::rule_table::Rule;

/// A flow's hops along its row or its column: the number of that line, and from where to where in it.
#[derive(Clone, Copy, PartialEq)]
struct Walk {
    line: Number,
    from: Number,
    to: Number,
}

impl Walk {
    fn hops(&self) -> usize {
        self.from.abs_diff(self.to) as usize
    }

    fn is_backward(&self) -> bool {
        self.to < self.from
    }

    /// The hops from one to the other; below zero where they lie over each other.
    fn gap(&self, other: &Walk) -> Number {
        self.from.min(self.to).max(other.from.min(other.to)) - self.from.max(self.to).min(other.from.max(other.to))
    }

    fn is_beside(&self, other: &Walk) -> bool {
        self.line == other.line && self.hops() > 0 && other.hops() > 0
    }

    /// The hops between two that go the same way in one line, one behind the other.
    fn apart(&self, other: &Walk) -> Option<Number> {
        let same_way = self.is_beside(other) && self.is_backward() == other.is_backward();
        Some(self.gap(other)).filter(|gap| same_way && *gap >= 0)
    }

    fn goes_against(&self, other: &Walk) -> bool {
        self.is_beside(other) && self.is_backward() != other.is_backward() && self.gap(other) < 0
    }
}

#[derive(Clone, Copy)]
struct Walks {
    row: Walk,
    column: Walk,
}

impl Walks {
    fn of(platform: &Platform, flow: &Flow) -> Walks {
        let place = |node: Number| place_of(platform, node, Law::WHOLE);
        let (source, destination) = (place(flow.source), place(flow.destination));
        let row = Walk { line: source.1, from: source.0, to: destination.0 };
        let column = Walk { line: destination.0, from: source.1, to: destination.1 };
        Walks { row, column }
    }
}

/// An ordered pair: how many links of each part are shared, and the places of the first on the two routes.
pub struct Pair {
    injection: usize,
    row: usize,
    column: usize,
    ejection: usize,
    first: usize,
    first_on_other: usize,
    own: Walks,
    other: Walks,
}

/// The faults that miscount the common hops of a row, or of a column.
struct Faults {
    one_more: Rule,
    one_less: Rule,
    same_ends: Rule,
    shorter: Rule,
    touching: Rule,
    gap: Rule,
}

const ROW_FAULTS: Faults = Faults {
    one_more: Rule::RowOneMore,
    one_less: Rule::RowOneLess,
    same_ends: Rule::RowSameEnds,
    shorter: Rule::RowShorter,
    touching: Rule::RowTouching,
    gap: Rule::RowGap,
};

const COLUMN_FAULTS: Faults = Faults {
    one_more: Rule::ColumnOneMore,
    one_less: Rule::ColumnOneLess,
    same_ends: Rule::ColumnSameEnds,
    shorter: Rule::ColumnShorter,
    touching: Rule::ColumnTouching,
    gap: Rule::ColumnGap,
};

/// The common hops of one line, given the right number.
fn common(hops: usize, own: &Walk, other: &Walk, faults: &Faults, law: Law) -> usize {
    match law.broken() {
        Some(rule) if rule == faults.one_more && hops > 0 => hops + 1,
        Some(rule) if rule == faults.one_less && hops > 0 => hops - 1,
        Some(rule) if rule == faults.same_ends && own != other => 0,
        Some(rule) if rule == faults.shorter && hops > 0 => own.hops().min(other.hops()),
        Some(rule) if rule == faults.touching && own.apart(other) == Some(0) => 1,
        Some(rule) if rule == faults.gap => hops + own.apart(other).unwrap_or(0) as usize,
        _ => hops,
    }
}

impl Pair {
    /// The shared links in the order of the first flow's route.
    pub fn new(platform: &Platform, flows: [&Flow; 2], shared: &[Link], firsts: [usize; 2]) -> Pair {
        let in_part = |part: Part| shared.iter().filter(|link| part_of(platform, **link) == part).count();
        Pair {
            injection: in_part(Part::Injection),
            row: in_part(Part::Row),
            column: in_part(Part::Column),
            ejection: in_part(Part::Ejection),
            first: firsts[0],
            first_on_other: firsts[1],
            own: Walks::of(platform, flows[0]),
            other: Walks::of(platform, flows[1]),
        }
    }

    pub fn count(&self, law: Law) -> usize {
        let row = common(self.row, &self.own.row, &self.other.row, &ROW_FAULTS, law);
        let column = common(self.column, &self.own.column, &self.other.column, &COLUMN_FAULTS, law);
        let (before, behind) = (self.injection + row, column + self.ejection);
        let whole = before + behind;
        match law.broken() {
            Some(Rule::EndsTurn) if before > 0 => before,
            Some(Rule::StartsTurn) if behind > 0 => behind,
            Some(Rule::InjectionElse) if self.injection > 0 => 1,
            Some(Rule::InjectionAlone) if whole > 1 => whole - self.injection,
            _ => whole,
        }
    }

    /// The place of the first shared link on the first flow's route, 0 where there is none.
    pub fn place(&self, law: Law) -> usize {
        let Pair { first, own, other, .. } = *self;
        let turn = own.row.hops();
        let (in_row, in_column) = (self.starts_in_row(), self.starts_in_column());
        match law.broken() {
            Some(Rule::PlaceNoInjection) => first.saturating_sub(1),
            Some(Rule::PlaceNoRow) if first > turn => first - turn,
            Some(Rule::PlaceOtherRow) if first > turn => first - turn + other.row.hops(),
            Some(Rule::PlaceTurnLess) if first > turn => first - 1,
            Some(Rule::PlaceTurnStart) if in_row && self.column > 0 => 1,
            Some(Rule::PlaceRowStart) if in_row => 1,
            Some(Rule::PlaceColumnStart) if in_column => turn + 1,
            Some(Rule::PlaceRowSources) if in_row => 1 + own.row.from.abs_diff(other.row.from) as usize,
            Some(Rule::PlaceColumnSources) if in_column => {
                turn + 1 + own.column.from.abs_diff(other.column.from) as usize
            }
            Some(Rule::PlaceRowFar) if in_row && own.row.is_backward() => first + self.row,
            Some(Rule::PlaceColumnFar) if in_column && own.column.is_backward() => first + self.column,
            Some(Rule::PlaceEjectionZero) if self.is_ejection_alone() => 0,
            Some(Rule::PlaceEjectionOther) if self.is_ejection_alone() => self.first_on_other,
            _ => first,
        }
    }

    fn starts_in_row(&self) -> bool {
        self.injection == 0 && self.row > 0
    }

    fn starts_in_column(&self) -> bool {
        self.injection + self.row == 0 && self.column > 0
    }

    fn is_ejection_alone(&self) -> bool {
        self.injection + self.row + self.column == 0 && self.ejection > 0
    }

    /// Of which parts links are shared.
    fn parts(&self) -> [bool; 4] {
        [self.injection, self.row, self.column, self.ejection].map(|links| links > 0)
    }

    fn is_over_turn(&self) -> bool {
        self.row > 0 && self.column > 0
    }

    fn shares_nothing(&self) -> bool {
        self.parts() == [false; 4]
    }
}

impl Counted for Pair {
    const KIND: &'static str = "pairs";
    const CASES: &'static [Case<Pair>] = &[
        ("sharing the injection link alone", |pair| pair.parts() == [true, false, false, false]),
        ("sharing hops of the row alone", |pair| pair.parts() == [false, true, false, false]),
        ("sharing hops of the column alone", |pair| pair.parts() == [false, false, true, false]),
        ("sharing the ejection link alone", Pair::is_ejection_alone),
        ("sharing a run over the turn", Pair::is_over_turn),
        ("sharing a run over the turn at two places", |pair| pair.is_over_turn() && pair.first != pair.first_on_other),
        ("sharing hops over the turn alone", |pair| pair.parts() == [false, true, true, false]),
        ("sharing links of every part", |pair| pair.parts() == [true; 4]),
        ("from one row, sharing nothing", |pair| pair.shares_nothing() && pair.own.row.line == pair.other.row.line),
        ("to one column, sharing nothing", |pair| {
            pair.shares_nothing() && pair.own.column.line == pair.other.column.line
        }),
        ("against each other in a row", |pair| pair.own.row.goes_against(&pair.other.row)),
        ("against each other in a column", |pair| pair.own.column.goes_against(&pair.other.column)),
        ("one behind the other in a row", |pair| pair.own.row.apart(&pair.other.row).is_some()),
        ("one behind the other in a column", |pair| pair.own.column.apart(&pair.other.column).is_some()),
    ];
}
