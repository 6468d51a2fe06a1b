//! The analysis: who delays whom, the three recurrences, verdicts and rounds. A bound is worked out when asked for.

use crate::law::Law;
use crate::model::{Flow, Number, Plan, Platform, MOST_FLITS};
use crate::pairs::Pair;
use crate::routes::{route, shared_places, Link, Places};
use crate::rule_table::Rule;
use std::cell::RefCell;

#[derive(Clone, Copy, Debug, PartialEq, Eq)]
pub enum Verdict {
    Bounded { bound: Number, rounds: Number },
    Late { rounds: Number },
    Waits { named: Number },
}

/// What a direct flow brings into a recurrence.
pub struct Term {
    pub period: Number,
    pub jitter: Number,
    pub allowance: Number,
    pub weight: Number,
}

pub struct Analysis<'a> {
    pub plan: &'a Plan,
    pub routes: Vec<Vec<Link>>,
    pub places: Places,
    law: Law,
    known: RefCell<Vec<Option<Verdict>>>,
}

pub const SB: Number = 1;
pub const XLWX: Number = 2;
pub const IBN: Number = 3;

/// Up to so many values of a window are tried one by one.
const TRIES: Number = 3000;

pub fn method_used(platform: &Platform, law: Law) -> Number {
    match platform.method {
        0 if law.breaks(Rule::MethodZeroSb) => SB,
        0 if law.breaks(Rule::MethodZeroXlwx) => XLWX,
        0 => IBN,
        other => other,
    }
}

/// C, with the priority flits added to the flow's.
pub fn latency(platform: &Platform, flow: &Flow, length: usize, law: Law) -> Number {
    let hops = length as Number - 1;
    let link = if law.breaks(Rule::LatencyNoLink) { 1 } else { platform.link };
    let routed = match (law.breaks(Rule::LatencyNoRouting), law.breaks(Rule::LatencyWholeLength)) {
        (true, _) => 0,
        (_, true) => hops + 1,
        _ => hops,
    };
    let (flits, further) = flits_sent(platform, flow, length, law);
    link * (flits + hops) + platform.routing * routed + further
}

/// The flow's flits and the priority's; and, by a planted fault, cycles that the latter add to C by themselves.
fn flits_sent(platform: &Platform, flow: &Flow, length: usize, law: Law) -> (Number, Number) {
    let (flits, added, method) = (flow.flits, platform.priority_flits, method_used(platform, Law::WHOLE));
    let both = flits + added;
    match law.broken() {
        Some(Rule::FlitsAlone) => (flits, 0),
        Some(Rule::FlitsNoLink) => (flits, added),
        Some(Rule::FlitsRouted) => (both, platform.routing * added),
        Some(Rule::FlitsTwice) => (both + added, 0),
        Some(Rule::FlitsEachLink) => (flits + added * length as Number, 0),
        Some(Rule::FlitsOne) => (flits + added.min(1), 0),
        Some(Rule::FlitsGreater) => (flits.max(added), 0),
        Some(Rule::FlitsTwoBytes) => (both % (MOST_FLITS + 1), 0),
        Some(Rule::FlitsAtMost) => (both.min(MOST_FLITS), 0),
        Some(Rule::FlitsNotDefault) if platform.method == 0 => (flits, 0),
        Some(Rule::FlitsNotSb) if method == SB => (flits, 0),
        Some(Rule::FlitsNotXlwx) if method == XLWX => (flits, 0),
        Some(Rule::FlitsNotIbn) if method == IBN => (flits, 0),
        _ => (both, 0),
    }
}

impl<'a> Analysis<'a> {
    pub fn new(plan: &'a Plan, law: Law) -> Analysis<'a> {
        let routes: Vec<Vec<Link>> = plan.flows.iter().map(|flow| route(&plan.platform, flow, law)).collect();
        let places = shared_places(plan, &routes, law);
        Analysis { plan, routes, places, law, known: RefCell::new(vec![None; plan.flows.len()]) }
    }

    pub fn latency(&self, i: usize) -> Number {
        latency(&self.plan.platform, &self.plan.flows[i], self.routes[i].len(), self.law)
    }

    /// C, but without the priority flits if this rule is broken.
    fn latency_by(&self, rule: Rule, i: usize) -> Number {
        let Platform { link, priority_flits, .. } = self.plan.platform;
        let without = if self.law.breaks(rule) { link * priority_flits } else { 0 };
        self.latency(i) - without
    }

    fn all(&self) -> std::ops::Range<usize> {
        0..self.plan.flows.len()
    }

    fn is_higher(&self, j: usize, i: usize) -> bool {
        let (of_j, of_i) = (self.plan.flows[j].priority, self.plan.flows[i].priority);
        if self.law.breaks(Rule::LowestFirst) {
            of_j > of_i
        } else {
            of_j < of_i
        }
    }

    pub fn pair(&self, i: usize, j: usize) -> Pair {
        let first = |one: usize, other: usize| self.places[one][other].first().copied().unwrap_or(0);
        let shared: Vec<Link> = self.places[i][j].iter().map(|place| self.routes[i][*place]).collect();
        let flows = [&self.plan.flows[i], &self.plan.flows[j]];
        Pair::new(&self.plan.platform, flows, &shared, [first(i, j), first(j, i)])
    }

    /// How many links are shared; only a planted fault takes it from rows and columns.
    fn count(&self, i: usize, j: usize) -> usize {
        if self.law.miscounts() {
            self.pair(i, j).count(self.law)
        } else {
            self.places[i][j].len()
        }
    }

    pub fn is_direct(&self, j: usize, i: usize) -> bool {
        self.is_higher(j, i) && (self.count(j, i) > 0 || self.law.breaks(Rule::DirectWithoutLink))
    }

    pub fn direct(&self, i: usize) -> Vec<usize> {
        self.all().filter(|j| self.is_direct(*j, i)).collect()
    }

    /// Every k direct for j and not direct for i.
    pub fn indirect(&self, i: usize, j: usize) -> Vec<usize> {
        let of_j = |k: &usize| {
            self.is_direct(*k, j)
                || (self.law.breaks(Rule::AnyPriority) && *k != i && *k != j && !self.places[j][*k].is_empty())
        };
        let kept = |k: &usize| self.law.breaks(Rule::DirectKept) || !self.is_direct(*k, i);
        self.all().filter(of_j).filter(kept).collect()
    }

    /// Whether all links k shares with j come before all links j shares with i, on j's route.
    pub fn comes_before(&self, i: usize, j: usize, k: usize) -> bool {
        self.places[j][k].iter().all(|of_k| self.places[j][i].iter().all(|of_i| of_k < of_i))
    }

    /// The like for coming after.
    pub fn comes_after(&self, i: usize, j: usize, k: usize) -> bool {
        self.places[j][k].iter().all(|of_k| self.places[j][i].iter().all(|of_i| of_k > of_i))
    }

    /// First places alone decide only where a planted fault puts them elsewhere.
    fn is_upstream(&self, i: usize, j: usize, k: usize) -> bool {
        let place = |one: usize, other: usize| self.pair(one, other).place(self.law);
        match self.law.broken() {
            Some(Rule::UpDownSwapped) => self.comes_after(i, j, k),
            Some(Rule::PlaceOnOther) => place(k, j) < place(i, j),
            Some(Rule::PlaceOnK) => place(k, j) < place(j, i),
            Some(Rule::PlaceOnI) => place(j, k) < place(i, j),
            _ if self.law.misplaces() => place(j, k) < place(j, i),
            _ => self.comes_before(i, j, k),
        }
    }

    pub fn upstream(&self, i: usize, j: usize) -> Vec<usize> {
        self.indirect(i, j).into_iter().filter(|k| self.is_upstream(i, j, *k)).collect()
    }

    pub fn downstream(&self, i: usize, j: usize) -> Vec<usize> {
        self.indirect(i, j).into_iter().filter(|k| !self.is_upstream(i, j, *k)).collect()
    }

    /// Rounds a quotient up: the negative of the negative quotient rounded down.
    pub fn up(&self, dividend: Number, divisor: Number) -> Number {
        if self.law.breaks(Rule::UpPastMultiple) {
            return dividend.div_euclid(divisor) + 1;
        }
        if self.law.breaks(Rule::Down) {
            return dividend.div_euclid(divisor);
        }
        -(-dividend).div_euclid(divisor)
    }

    /// Asked for flows that are known to be bounded; only a planted fault meets another.
    pub fn bound(&self, j: usize) -> Number {
        match self.verdict(j) {
            Verdict::Bounded { bound, .. } if self.law.breaks(Rule::JitterInR) => bound + self.plan.flows[j].jitter,
            Verdict::Bounded { bound, .. } => bound,
            _ => self.latency(j),
        }
    }

    fn hits(&self, j: usize, k: usize) -> Number {
        let flow = &self.plan.flows[k];
        let window = if self.law.breaks(Rule::HitsOfLatency) { self.latency(j) } else { self.bound(j) };
        let jitter = if self.law.breaks(Rule::HitsNoJitter) { 0 } else { flow.jitter };
        let allowance = if self.law.breaks(Rule::HitsAllowance) { self.bound(k) - self.latency(k) } else { 0 };
        self.up(window + jitter + allowance, flow.period)
    }

    fn hits_times(&self, j: usize, over: &[usize], cost: impl Fn(usize) -> Number) -> Number {
        over.iter().map(|k| self.hits(j, *k) * cost(*k)).sum()
    }

    /// What one packet of k costs in the sums over k.
    fn cost(&self, k: usize) -> Number {
        if self.law.breaks(Rule::SumsOfBounds) {
            self.bound(k)
        } else {
            self.latency_by(Rule::SumsWithout, k)
        }
    }

    fn allowance(&self, i: usize, j: usize) -> Number {
        let law = self.law;
        let of_upstream = || self.hits_times(j, &self.upstream(i, j), |k| self.cost(k));
        let delay = || self.bound(j) - self.latency_by(Rule::AllowanceWithout, j);
        match method_used(&self.plan.platform, law) {
            SB if law.breaks(Rule::SbNoAllowance) => 0,
            SB => delay(),
            XLWX if law.breaks(Rule::XlwxAllowanceOfSb) => delay(),
            XLWX => of_upstream(),
            _ if law.breaks(Rule::IbnAllowanceOfXlwx) => of_upstream(),
            _ => delay(),
        }
    }

    fn weight(&self, i: usize, j: usize) -> Number {
        let law = self.law;
        let alone = self.latency_by(Rule::WeightWithout, j);
        let downstream = self.downstream(i, j);
        match method_used(&self.plan.platform, law) {
            SB => alone,
            XLWX if law.breaks(Rule::XlwxWeightOfSb) => alone,
            XLWX => alone + self.hits_times(j, &downstream, |k| self.cost(k)),
            _ if law.breaks(Rule::IbnWeightOfSb) => alone,
            _ => alone + self.hits_times(j, &downstream, |k| self.lesser(self.cost(k), self.buffered(i, j, k))),
        }
    }

    fn lesser(&self, of_k: Number, buffered: Number) -> Number {
        match (self.law.breaks(Rule::IbnNoMinimum), self.law.breaks(Rule::IbnOnlyB)) {
            (true, _) => of_k,
            (_, true) => buffered,
            _ => of_k.min(buffered),
        }
    }

    /// B, the buffers along the links shared by i and j.
    fn buffered(&self, i: usize, j: usize, k: usize) -> Number {
        let platform = &self.plan.platform;
        let other = if self.law.breaks(Rule::BSharedWithK) { k } else { i };
        let added = if self.law.breaks(Rule::FlitsBuffered) { platform.priority_flits } else { 0 };
        let factors = [
            (platform.buffer + added, Rule::BNoFlits),
            (platform.link, Rule::BNoLink),
            (self.count(j, other) as Number, Rule::BNoShared),
        ];
        factors.iter().filter(|(_, left_out)| !self.law.breaks(*left_out)).map(|(factor, _)| *factor).product()
    }

    /// The terms of i's recurrence, one for each direct flow.
    pub fn terms(&self, i: usize) -> Vec<Term> {
        let of_flow = |j: usize| {
            let flow = &self.plan.flows[j];
            let jitter = if self.law.breaks(Rule::PacketsNoJitter) { 0 } else { flow.jitter };
            let allowance = if self.law.breaks(Rule::PacketsNoAllowance) { 0 } else { self.allowance(i, j) };
            Term { period: flow.period, jitter, allowance, weight: self.weight(i, j) }
        };
        self.direct(i).into_iter().map(of_flow).collect()
    }

    /// n_j(x), the packets of one direct flow in a window.
    pub fn packets(&self, term: &Term, x: Number) -> Number {
        self.up(x + term.jitter + term.allowance, term.period)
    }

    /// The bound starts at release, so the flow's own jitter has no part in it.
    pub fn right_side(&self, i: usize, terms: &[Term], x: Number) -> Number {
        let jitter = |rule: Rule| if self.law.breaks(rule) { self.plan.flows[i].jitter } else { 0 };
        let window = x + jitter(Rule::JitterInWindow);
        let delays = terms.iter().map(|term| self.packets(term, window) * term.weight).sum::<Number>();
        self.latency_by(Rule::OwnWithout, i) + jitter(Rule::OwnJitter) + delays
    }

    /// What is gone of the deadline when the packet is released: the flow's own jitter.
    fn gone(&self, i: usize) -> Number {
        let Flow { deadline, jitter, .. } = self.plan.flows[i];
        let alone = self.latency(i);
        match self.law.broken() {
            Some(Rule::DeadlineWhole) => 0,
            Some(Rule::JitterTwice) => 2 * jitter,
            Some(Rule::JitterOneMore) if jitter > 0 => jitter + 1,
            Some(Rule::JitterOneLess) if jitter > 0 => jitter - 1,
            Some(Rule::JitterOfNext) => self.plan.flows[(i + 1) % self.plan.flows.len()].jitter,
            Some(Rule::JitterOfDirect) => self.highest(self.direct(i)).map_or(jitter, |j| self.plan.flows[j].jitter),
            Some(Rule::DeadlineLessC) => alone,
            Some(Rule::JitterHidden) if jitter > deadline => 0,
            Some(Rule::CWholeDeadline) if alone <= deadline => jitter.min(deadline - alone),
            _ => jitter,
        }
    }

    /// The last value that a bound may have: below zero if the jitter is above the deadline.
    fn last_allowed(&self, i: usize) -> Number {
        let later = Number::from(self.law.breaks(Rule::DeadlineOneMore));
        let earlier = Number::from(self.law.breaks(Rule::DeadlineExclusive));
        self.plan.flows[i].deadline - self.gone(i) + later - earlier
    }

    /// The least solution not above the last value: tried value by value where the window is small.
    pub fn least_solution(&self, i: usize, terms: &[Term], last: Number) -> Option<Number> {
        let first = self.latency(i);
        if last - first <= TRIES {
            return (first..=last).find(|x| self.right_side(i, terms, *x) == *x);
        }
        let mut x = first;
        while x <= last {
            let new = self.right_side(i, terms, x);
            if new == x {
                return Some(x);
            }
            x = new;
        }
        None
    }

    /// Counted as the paper words it, apart from the bound.
    fn rounds(&self, i: usize, terms: &[Term]) -> Number {
        let (first, deadline) = (self.latency_by(Rule::LateWithout, i), self.plan.flows[i].deadline);
        let last = if self.law.breaks(Rule::RoundsWholeDeadline) { deadline } else { self.last_allowed(i) };
        if first > last {
            let one = self.law.breaks(Rule::RoundsZeroOnlyC) && first <= deadline;
            return Number::from(one || self.law.breaks(Rule::RoundsLateOne));
        }
        let start = self.latency_by(Rule::StartWithout, i);
        let mut x = if self.law.breaks(Rule::RoundsFromZero) { 0 } else { start };
        let mut rounds = Number::from(self.law.breaks(Rule::RoundsOneMore));
        loop {
            let new = self.right_side(i, terms, x);
            if new == x {
                return rounds + Number::from(!self.law.breaks(Rule::RoundsNotLast));
            }
            if new > last {
                return rounds + Number::from(!self.law.breaks(Rule::RoundsNotLate));
            }
            rounds += 1;
            x = new;
        }
    }

    fn is_reason_to_wait(&self, j: usize) -> bool {
        match self.verdict(j) {
            Verdict::Bounded { .. } => false,
            Verdict::Late { .. } => true,
            Verdict::Waits { .. } => !self.law.breaks(Rule::WaitingIgnored),
        }
    }

    /// The unbounded direct flow of highest priority, if there is one.
    fn waited_for(&self, i: usize) -> Option<usize> {
        let unbounded: Vec<usize> = self.direct(i).into_iter().filter(|j| self.is_reason_to_wait(*j)).collect();
        if self.law.breaks(Rule::WaitsPlanOrder) {
            return unbounded.first().copied();
        }
        if self.law.breaks(Rule::WaitsLowest) {
            return unbounded.into_iter().max_by_key(|j| self.plan.flows[*j].priority);
        }
        self.highest(unbounded)
    }

    /// The one of highest priority.
    fn highest(&self, flows: Vec<usize>) -> Option<usize> {
        flows.into_iter().min_by_key(|j| self.plan.flows[*j].priority)
    }

    fn named(&self, j: usize) -> Number {
        match self.verdict(j) {
            Verdict::Waits { named } if self.law.breaks(Rule::WaitsRoot) => named,
            _ => self.plan.flows[j].id,
        }
    }

    fn is_late_early(&self, i: usize) -> bool {
        let Flow { deadline, jitter, .. } = self.plan.flows[i];
        let first = self.latency(i);
        let passes = |j: usize| first > self.plan.flows[j].period;
        (self.law.breaks(Rule::LateFirst) && first + jitter > deadline)
            || (self.law.breaks(Rule::JitterLateFirst) && jitter > deadline)
            || (self.law.breaks(Rule::LatePastPeriod) && self.direct(i).into_iter().any(passes))
    }

    fn work_out(&self, i: usize) -> Verdict {
        if self.is_late_early(i) {
            return Verdict::Late { rounds: 0 };
        }
        if let Some(j) = self.waited_for(i) {
            return Verdict::Waits { named: self.named(j) };
        }
        let terms = self.terms(i);
        let rounds = self.rounds(i, &terms);
        match self.least_solution(i, &terms, self.last_allowed(i)) {
            Some(bound) => Verdict::Bounded { bound, rounds },
            None => Verdict::Late { rounds },
        }
    }

    /// Worked out once; asks for the verdicts of higher priorities only, so it comes to an end.
    pub fn verdict(&self, i: usize) -> Verdict {
        let known = self.known.borrow()[i];
        known.unwrap_or_else(|| {
            let verdict = self.work_out(i);
            self.known.borrow_mut()[i] = Some(verdict);
            verdict
        })
    }

    pub fn verdicts(&self) -> Vec<Verdict> {
        self.all().map(|i| self.verdict(i)).collect()
    }
}
