//! What is expected for a plan's bytes: a refusal, or the reply and the text.

use crate::claims;
use crate::law::Law;
use crate::model::{bytes_of, Flow, Number, Plan};
use crate::pairs::Pair;
use crate::reading::{read, Refusal};
use crate::rule_table::Rule;
use crate::rules::{method_used, Analysis, Verdict};

/// A flow with what was found of it.
pub struct Judged {
    pub flow: Flow,
    pub latency: Number,
    pub verdict: Verdict,
    /// Of a late flow: the bound that it would have if its deadline ran from the release.
    pub without_jitter: Option<Number>,
}

pub struct Accepted {
    pub plan: Plan,
    pub judged: Vec<Judged>,
    /// Each two flows once, the earlier of the plan first.
    pub pairs: Vec<Pair>,
    pub reply: Vec<u8>,
    pub upstream: usize,
    pub downstream: usize,
}

pub struct Expected {
    pub answer: Result<Accepted, Refusal>,
    pub text: String,
}

/// An error is a claim of the documents that does not hold.
pub fn expect(bytes: &[u8], law: Law) -> Result<Expected, String> {
    match read(bytes, law) {
        Ok(plan) => accepted(plan, law),
        Err(refusal) => Ok(Expected { answer: Err(refusal), text: refusal_text(refusal, law) }),
    }
}

fn accepted(plan: Plan, law: Law) -> Result<Expected, String> {
    let analysis = Analysis::new(&plan, law);
    let verdicts = analysis.verdicts();
    if law.is_whole() {
        claims::check(&analysis)?;
    }
    let direct = (0..plan.flows.len()).flat_map(|i| analysis.direct(i).into_iter().map(move |j| (i, j)));
    let (upstream, downstream) = direct.fold((0, 0), |(up, down), (i, j)| {
        (up + analysis.upstream(i, j).len(), down + analysis.downstream(i, j).len())
    });
    let judged = (0..plan.flows.len()).map(|i| judged(&analysis, i)).collect();
    let pairs = (0..plan.flows.len()).flat_map(|j| (0..j).map(move |i| (i, j)));
    let pairs = pairs.map(|(i, j)| analysis.pair(i, j)).collect();
    let reply = reply(&plan, &verdicts, law);
    let text = text(&plan, &verdicts, law);
    Ok(Expected { answer: Ok(Accepted { plan, judged, pairs, reply, upstream, downstream }), text })
}

fn judged(analysis: &Analysis, i: usize) -> Judged {
    let (flow, verdict) = (analysis.plan.flows[i].clone(), analysis.verdict(i));
    let without_jitter = match verdict {
        Verdict::Late { .. } => analysis.least_solution(i, &analysis.terms(i), flow.deadline),
        _ => None,
    };
    Judged { latency: analysis.latency(i), flow, verdict, without_jitter }
}

fn in_order<'a>(plan: &'a Plan, verdicts: &'a [Verdict], law: Law) -> Vec<(&'a Flow, &'a Verdict)> {
    let mut lines: Vec<_> = plan.flows.iter().zip(verdicts).collect();
    if law.breaks(Rule::ReplyByPriority) {
        lines.sort_by_key(|(flow, _)| flow.priority);
    }
    lines
}

fn reply(plan: &Plan, verdicts: &[Verdict], law: Law) -> Vec<u8> {
    let records = in_order(plan, verdicts, law).into_iter().flat_map(|(flow, verdict)| record(flow, verdict, law));
    records.chain([0x7F, 0, 0]).collect()
}

fn record(flow: &Flow, verdict: &Verdict, law: Law) -> Vec<u8> {
    let none: Number = if law.breaks(Rule::NamedZero) { 0 } else { 0xFFFF };
    // Nothing below zero can be written.
    let late_bound = if law.breaks(Rule::LateBound) { (flow.deadline - flow.jitter).max(0) } else { 0 };
    let (number, named, bound, rounds) = match *verdict {
        Verdict::Bounded { bound, rounds } => (0, none, printed(flow, bound, law), rounds),
        Verdict::Late { rounds } => (1, none, late_bound, rounds),
        Verdict::Waits { named } => (2, named, 0, 0),
    };
    let fields = [(0x81, 1), (13, 2), (flow.id, 2), (number, 1), (named, 2), (bound, 4), (rounds, 4)];
    fields.iter().flat_map(|(value, width)| bytes_of(*value, *width)).collect()
}

/// The bound starts at release.
fn printed(flow: &Flow, bound: Number, law: Law) -> Number {
    if law.breaks(Rule::JitterInBound) {
        bound + flow.jitter
    } else {
        bound
    }
}

fn text(plan: &Plan, verdicts: &[Verdict], law: Law) -> String {
    let lines = in_order(plan, verdicts, law).into_iter().map(|(flow, verdict)| line(flow, verdict, law));
    ended(std::iter::once(mesh_line(plan, law)).chain(lines).collect(), law)
}

fn mesh_line(plan: &Plan, law: Law) -> String {
    let p = &plan.platform;
    let (first, second) = if law.breaks(Rule::TextRowsFirst) { (p.rows, p.columns) } else { (p.columns, p.rows) };
    let method = if law.breaks(Rule::TextMethodAsked) { p.method } else { method_used(p, law) };
    let added = if law.breaks(Rule::TextBufferMore) { p.priority_flits } else { 0 };
    let buffer = p.buffer + added;
    let line = format!("mesh {first}x{second} link {} route {} buffer {buffer} method {method}", p.link, p.routing);
    match p.priority_flits {
        flits if flits > 0 && law.breaks(Rule::TextPriorityFlits) => format!("{line} priority {flits}"),
        _ => line,
    }
}

fn line(flow: &Flow, verdict: &Verdict, law: Law) -> String {
    match verdict {
        Verdict::Bounded { bound, rounds } => {
            format!("{} bounded {} rounds {rounds}", flow.id, printed(flow, *bound, law))
        }
        Verdict::Late { .. } if law.breaks(Rule::TextLateBare) => format!("{} late", flow.id),
        Verdict::Late { rounds } => format!("{} late rounds {rounds}", flow.id),
        Verdict::Waits { named } => format!("{} waits {named}", flow.id),
    }
}

fn refusal_text(refusal: Refusal, law: Law) -> String {
    let line = format!("refused {} at {}", refusal.number, refusal.place);
    if law.breaks(Rule::TextMeshRefused) {
        return ended(vec!["mesh".to_string(), line], law);
    }
    ended(vec![line], law)
}

fn ended(lines: Vec<String>, law: Law) -> String {
    let joined = lines.join("\n");
    if law.breaks(Rule::TextNoLastLf) {
        joined
    } else {
        joined + "\n"
    }
}
