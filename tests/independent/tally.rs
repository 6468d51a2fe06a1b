//! What a run has seen. A test that cannot see a case is no test, so a run of the tests' size demands all of them.

use crate::answer::{Accepted, Expected, Judged};
use crate::conversions::Conversion;
use crate::counts::Counts;
use crate::model::{is_of_flow, Number, Plan};
use crate::pairs::Pair;
use crate::product::Returned;
use crate::reading::start_of;
use crate::refusals::{refusals, refusals_of_reading, refusals_of_writing};
use crate::rules::Verdict;
use crate::seen::{Analysed, Asked};
use crate::writing::Writing;
use crate::zeros::refusals_with_zero;
use std::collections::{BTreeMap, BTreeSet};

/// How often each number was met, and at which places.
#[derive(Default)]
struct Met {
    times: BTreeMap<u8, usize>,
    places: BTreeSet<(u8, usize)>,
}

impl Met {
    fn add(&mut self, number: u8, place: usize) {
        *self.times.entry(number).or_default() += 1;
        self.places.insert((number, place));
    }

    fn times(&self, number: u8) -> usize {
        self.times.get(&number).copied().unwrap_or(0)
    }

    /// Whether a field's refusal was met in the first flow, or else in a later one. Behind a seventh byte, too, the
    /// first flow's fields stand before the place where the second flow starts without it.
    fn in_flow(&self, number: u8, first: bool) -> bool {
        self.places.iter().any(|(met, place)| *met == number && (*place < start_of(2, 6)) == first)
    }

    /// A case for each of these refusals, two more for each of a flow's fields, and whether they were met.
    fn cases(&self, numbers: BTreeSet<u8>, words: &str) -> Vec<(String, bool)> {
        let mut cases = Vec::new();
        for number in numbers {
            cases.push((format!("refusal {number}{words}"), self.times(number) > 0));
            if is_of_flow(number) {
                cases.push((format!("refusal {number}{words} in the first flow"), self.in_flow(number, true)));
                cases.push((format!("refusal {number}{words} in a later flow"), self.in_flow(number, false)));
            }
        }
        cases
    }
}

#[derive(Default)]
pub struct Tally {
    accepted: usize,
    /// Plans, but 11 is counted by calls, since it needs an acceptable plan.
    refused: Met,
    calls: usize,
    bounded: usize,
    late: usize,
    late_at_once: usize,
    waiting: usize,
    at_deadline: usize,
    late_by_rounds: usize,
    jitters: Counts<Judged>,
    pairs: Counts<Pair>,
    sevenths: Counts<Analysed>,
    upstream: usize,
    downstream: usize,
    most_rounds: Number,
    most_rounds_bounded: Number,
    /// Calls of the writer, by the number and the value returned.
    written: Met,
    sevenths_written: Counts<Asked>,
    given_back: usize,
    /// Those of them with a seventh byte.
    given_back_sevenths: usize,
    raised: usize,
    written_counts: BTreeSet<usize>,
    conversions: Counts<Conversion>,
    /// Plans to convert that are refused with a 0 where the method stands.
    zeros_refused: Met,
    meshes: BTreeSet<(Number, Number)>,
    methods: BTreeSet<Number>,
    flow_counts: BTreeSet<usize>,
}

impl Tally {
    pub fn called(&mut self, number: u8) {
        self.calls += 1;
        if number == 11 {
            self.refused.add(number, 0);
        }
    }

    pub fn wrote(&mut self, returned: Returned, writing: &Writing) {
        self.written.add(returned.number, returned.value);
        if returned.number == 0 {
            self.written_counts.insert(writing.count);
        }
        self.sevenths_written.count(&Asked { priority_flits: writing.platform.priority_flits, returned });
    }

    /// A plan's bytes came back by writing what was read from them.
    pub fn gave_back(&mut self, plan: &Plan) {
        self.given_back += 1;
        self.given_back_sevenths += usize::from(plan.platform.priority_flits > 0);
    }

    /// A plan's answers were those of the plan with its flits raised.
    pub fn raised(&mut self) {
        self.raised += 1;
    }

    pub fn converted(&mut self, conversion: &Conversion) {
        self.conversions.count(conversion);
        if let Some(refusal) = conversion.refused_with_zero() {
            self.zeros_refused.add(refusal.number, refusal.place);
        }
    }

    pub fn count(&mut self, bytes: &[u8], expected: &Expected) {
        self.sevenths.count(&Analysed::of(bytes, expected));
        match &expected.answer {
            Ok(accepted) => self.count_accepted(accepted),
            Err(refusal) => self.refused.add(refusal.number, refusal.place),
        }
    }

    fn count_accepted(&mut self, accepted: &Accepted) {
        let platform = &accepted.plan.platform;
        self.accepted += 1;
        self.upstream += accepted.upstream;
        self.downstream += accepted.downstream;
        self.meshes.insert((platform.columns, platform.rows));
        self.methods.insert(platform.method);
        self.flow_counts.insert(accepted.plan.flows.len());
        for judged in &accepted.judged {
            self.count_verdict(judged);
            self.jitters.count(judged);
        }
        for pair in &accepted.pairs {
            self.pairs.count(pair);
        }
    }

    fn count_verdict(&mut self, Judged { flow, verdict, .. }: &Judged) {
        match *verdict {
            Verdict::Bounded { bound, rounds } => {
                self.bounded += 1;
                self.at_deadline += usize::from(bound + flow.jitter == flow.deadline);
                self.most_rounds = self.most_rounds.max(rounds);
                self.most_rounds_bounded = self.most_rounds_bounded.max(rounds);
            }
            Verdict::Late { rounds } => {
                self.late += 1;
                self.late_at_once += usize::from(rounds == 0);
                self.late_by_rounds += usize::from(rounds > 1);
                self.most_rounds = self.most_rounds.max(rounds);
            }
            Verdict::Waits { .. } => self.waiting += 1,
        }
    }

    pub fn print(&self) {
        println!("plans accepted: {}", self.accepted);
        for number in refusals_of_reading() {
            println!("plans refused {number}: {}", self.refused.times(number));
        }
        println!("library calls: {}, of them refused 11: {}", self.calls, self.refused.times(11));
        println!("flows bounded: {}, of them at their deadline: {}", self.bounded, self.at_deadline);
        let (at_once, late) = (self.late_at_once, self.late_by_rounds);
        println!("flows late: {}, of them with no round: {at_once}, with more than one: {late}", self.late);
        println!("flows waiting: {}", self.waiting);
        self.jitters.print();
        self.pairs.print();
        self.sevenths.print();
        println!("plans equal to those with their flits raised: {}", self.raised);
        println!("upstream k: {}, downstream k: {}", self.upstream, self.downstream);
        println!("most rounds: {}, of a bounded flow: {}", self.most_rounds, self.most_rounds_bounded);
        println!("mesh sizes: {}, flow counts: {}", self.meshes.len(), self.flow_counts.len());
        let (calls, accepted) = (self.written.times.values().sum::<usize>(), self.written.times(0));
        println!("writer calls: {calls}, of them accepted: {accepted}");
        for number in refusals_of_writing() {
            println!("writer calls refused {number}: {}", self.written.times(number));
        }
        self.sevenths_written.print();
        println!("flow counts written: {}", self.written_counts.len());
        let (given_back, sevenths) = (self.given_back, self.given_back_sevenths);
        println!("plans given back by writing what was read: {given_back}, of them with a seventh byte: {sevenths}");
        self.conversions.print();
        for number in refusals_with_zero() {
            println!("conversions refused {number} with 0 for the method: {}", self.zeros_refused.times(number));
        }
    }

    /// The cases that never occurred.
    pub fn unseen(&self) -> Vec<String> {
        let of_plans = self.refused.cases(refusals(), "");
        let of_zeros = self.zeros_refused.cases(refusals_with_zero(), " of a conversion with 0 for the method");
        let of_writings = self.written.cases(refusals_of_writing(), " of a writing");
        let others = [
            ("acceptance", self.accepted > 0),
            ("bounded", self.bounded > 0),
            ("bounded at the deadline", self.at_deadline > 0),
            ("late", self.late > 0),
            ("late with no round", self.late_at_once > 0),
            ("late after more than one round", self.late_by_rounds > 0),
            ("waits", self.waiting > 0),
            ("upstream", self.upstream > 0),
            ("downstream", self.downstream > 0),
            ("a thousand rounds", self.most_rounds_bounded >= 1000),
            ("every mesh size", self.meshes.len() == 64),
            ("every method", self.methods.len() == 4),
            ("every number of flows", self.flow_counts.len() == 65),
            ("acceptance of a writing", self.written.times(0) > 0),
            ("every number of flows in an accepted writing", self.written_counts.len() == 65),
            ("a plan given back with a seventh byte", self.given_back_sevenths > 0),
            ("a plan given back without a seventh byte", self.given_back > self.given_back_sevenths),
            ("a plan equal to that with its flits raised", self.raised > 0),
        ];
        let others = others.iter().map(|(name, seen)| (name.to_string(), *seen)).collect();
        let counted = [self.jitters.cases(), self.pairs.cases(), self.sevenths.cases(), self.sevenths_written.cases()];
        let all = [of_plans, of_writings, of_zeros, others, counted.concat(), self.conversions.cases()].concat();
        all.into_iter().filter(|(_, seen)| !seen).map(|(name, _)| name).collect()
    }
}
