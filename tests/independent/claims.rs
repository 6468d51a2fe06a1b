//! What document 01 says of its own rules, with the deadlines of L3, held against every accepted plan.

use crate::model::{Flow, Number};
use crate::rules::{Analysis, Term, Verdict};

pub type Claim = Result<(), String>;

pub fn claim(holds: bool, words: impl Fn() -> String) -> Claim {
    if holds {
        Ok(())
    } else {
        Err(words())
    }
}

pub fn check(analysis: &Analysis) -> Claim {
    for i in 0..analysis.plan.flows.len() {
        for j in 0..analysis.plan.flows.len() {
            unbroken_run(analysis, i, j)?;
        }
        for j in analysis.direct(i) {
            one_of_the_two(analysis, i, j)?;
        }
        if !matches!(analysis.verdict(i), Verdict::Waits { .. }) {
            let terms = analysis.terms(i);
            small_terms(analysis, i, &terms)?;
            few_rounds(analysis, i, &terms)?;
            in_time_from_the_tick(analysis, i)?;
        }
    }
    Ok(())
}

/// The contention domain is empty or one unbroken run on each route, in the same order on both.
fn unbroken_run(analysis: &Analysis, i: usize, j: usize) -> Claim {
    let (on_i, on_j) = (&analysis.places[i][j], &analysis.places[j][i]);
    let unbroken = on_i.windows(2).all(|pair| pair[0] + 1 == pair[1]);
    let links = |flow: usize, places: &Vec<usize>| places.iter().map(|place| analysis.routes[flow][*place]).collect();
    let (by_i, by_j): (Vec<_>, Vec<_>) = (links(i, on_i), links(j, on_j));
    claim(unbroken && by_i == by_j, || format!("the links shared by flows {i} and {j} are no run on both"))?;
    let length = analysis.routes[i].len();
    claim((3..=16).contains(&length), || format!("the route of flow {i} has {length} links"))
}

/// Each k is exactly one of upstream and downstream.
fn one_of_the_two(analysis: &Analysis, i: usize, j: usize) -> Claim {
    for k in analysis.indirect(i, j) {
        let one = analysis.comes_before(i, j, k) != analysis.comes_after(i, j, k);
        claim(one, || format!("flow {k} is not one of upstream and downstream for ({i}, {j})"))?;
    }
    Ok(())
}

/// Neither weight nor allowance exceeds the bound, nor the bound the period; sums stay inside 64 bits.
fn small_terms(analysis: &Analysis, i: usize, terms: &[Term]) -> Claim {
    for (j, term) in analysis.direct(i).into_iter().zip(terms) {
        let bound = analysis.bound(j);
        let small = term.weight <= bound && term.allowance <= bound && bound <= term.period;
        claim(small, || format!("weight, allowance or bound of flow {j} is too large for flow {i}"))?;
    }
    // No window is longer, whatever the jitter.
    let greatest = analysis.right_side(i, terms, analysis.plan.flows[i].deadline);
    claim(u64::try_from(greatest).is_ok(), || format!("the right side of flow {i} leaves 64 bits"))
}

/// A bounded flow's packet is there by its deadline, jitter and all; and C alone decides whether a late one has rounds.
fn in_time_from_the_tick(analysis: &Analysis, i: usize) -> Claim {
    let Flow { deadline, jitter, .. } = analysis.plan.flows[i];
    let starts = analysis.latency(i) + jitter <= deadline;
    match analysis.verdict(i) {
        Verdict::Bounded { bound, .. } => {
            claim(bound + jitter <= deadline, || format!("flow {i}: bound {bound} + jitter {jitter} > {deadline}"))
        }
        Verdict::Late { rounds } => {
            claim((rounds > 0) == starts, || format!("flow {i} is late with {rounds} rounds, C + jitter: {starts}"))
        }
        Verdict::Waits { .. } => Ok(()),
    }
}

/// The ceilings of the rounds.
fn few_rounds(analysis: &Analysis, i: usize, terms: &[Term]) -> Claim {
    let flow = &analysis.plan.flows[i];
    let (first, deadline) = (analysis.latency(i), flow.deadline - flow.jitter);
    let packets = |x: Number| terms.iter().map(|term| analysis.packets(term, x)).sum::<Number>();
    let (rounds, ceiling) = match analysis.verdict(i) {
        Verdict::Bounded { bound, rounds } => (rounds, 2 + packets(bound) - packets(first)),
        Verdict::Late { rounds } if first <= deadline => (rounds, 1 + packets(deadline) - packets(first)),
        Verdict::Late { rounds } => (rounds, 0),
        Verdict::Waits { .. } => (0, 0),
    };
    claim(rounds <= ceiling, || format!("flow {i} has {rounds} rounds, above {ceiling}"))?;
    let of_plan = terms.iter().map(|term| analysis.up((deadline - first).max(0), term.period)).sum::<Number>();
    claim(rounds <= 2 + of_plan, || format!("flow {i} has {rounds} rounds, above 2 + {of_plan}"))?;
    claim(u32::try_from(rounds).is_ok(), || format!("the rounds of flow {i} leave four bytes"))
}
