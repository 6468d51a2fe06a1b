//! Good plans of every kind.

use crate::law::Law;
use crate::model::{Flow, Number, Plan, Platform, BILLION};
use crate::random::Random;
use crate::reading::MOST_FLOWS;
use crate::routes::route;
use crate::rules::{latency, Analysis, Verdict};
use std::collections::BTreeSet;

/// How hard the flows of one plan press on the links.
#[derive(Clone, Copy, PartialEq)]
enum Mood {
    Gentle,
    /// Links well used, several packets in most windows, jitters that matter.
    Level,
    Busy,
    Tight,
    Short,
    Wild,
}

const MOODS: [Mood; 12] = [
    Mood::Gentle,
    Mood::Gentle,
    Mood::Level,
    Mood::Level,
    Mood::Level,
    Mood::Level,
    Mood::Busy,
    Mood::Busy,
    Mood::Tight,
    Mood::Tight,
    Mood::Short,
    Mood::Wild,
];

const MOST_LATENCIES: Number = 20_000;

pub fn good_plan(random: &mut Random) -> Plan {
    let platform = platform(random);
    let count = if platform.nodes() == 1 { 0 } else { flow_count(random) };
    plan_of(platform, count, random)
}

/// A plan with so many flows, good but for their number if that is above 64.
pub fn crowded_plan(count: usize, random: &mut Random) -> Plan {
    let mut platform = platform(random);
    platform.columns = platform.columns.max(2);
    plan_of(platform, count, random)
}

fn platform(random: &mut Random) -> Platform {
    let (columns, rows) = match random.below(10) {
        0 | 1 => (random.between(1, 8), 1),
        2 => (1, random.between(1, 8)),
        3 => (8, 8),
        _ => (random.between(1, 8), random.between(1, 8)),
    };
    Platform {
        columns,
        rows,
        link: [1, 1, random.between(1, 16), 16][random.below(4)],
        routing: [0, 0, random.between(0, 16), 16][random.below(4)],
        buffer: [1, 2, random.between(1, 64), random.between(1, 64), 64][random.below(5)],
        method: random.between(0, 3),
        priority_flits: [0, 0, 0, 1, 8, random.between(1, 8)][random.below(6)],
    }
}

fn flow_count(random: &mut Random) -> usize {
    match random.below(100) {
        0..=3 => 0,
        4..=55 => 1 + random.below(7),
        56..=89 => 8 + random.below(14),
        90..=97 => 22 + random.below(42),
        _ => MOST_FLOWS,
    }
}

/// Different numbers in any order: over the whole range, or close together at one of its ends.
fn distinct(count: usize, low: Number, high: Number, random: &mut Random) -> Vec<Number> {
    let span = count as Number * 2;
    let (from, to) = match random.below(4) {
        0 => (low, low + span),
        1 => (high - span, high),
        _ => (low, high),
    };
    let mut chosen = BTreeSet::new();
    while chosen.len() < count {
        chosen.insert(random.between(from, to));
    }
    let mut list: Vec<Number> = chosen.into_iter().collect();
    random.shuffle(&mut list);
    list
}

fn plan_of(platform: Platform, count: usize, random: &mut Random) -> Plan {
    let ids = distinct(count, 0, 65_534, random);
    let priorities = distinct(count, 1, 65_535, random);
    let mood = random.pick(&MOODS);
    let nodes = popular_nodes(&platform, random);
    let most_flits = [3, 20, 300, 65_535][random.below(4)];
    let mut plan = Plan { platform, flows: Vec::new() };
    for (id, priority) in ids.into_iter().zip(priorities) {
        let source = random.pick(&nodes);
        let others: Vec<Number> = nodes.iter().copied().filter(|node| *node != source).collect();
        let flits = [most_flits, 1 + most_flits / 30, random.between(1, most_flits), random.between(1, most_flits)];
        let flits = random.pick(&flits);
        let destination = random.pick(&others);
        let mut flow = Flow { id, priority, source, destination, flits, period: 1, deadline: 1, jitter: 0 };
        set_times(&plan.platform, &mut flow, mood, count, random);
        plan.flows.push(flow);
    }
    if mood == Mood::Level {
        priorities_by_period(&mut plan);
    }
    if random.chance(60) {
        exact_deadlines(&mut plan, random);
    }
    if random.chance(25) {
        exact_jitter(&mut plan, random);
    }
    if random.chance(35) {
        late_jitters(&mut plan, random);
    }
    plan
}

/// The shorter the period, the higher the priority: then most flows are bounded.
fn priorities_by_period(plan: &mut Plan) {
    let mut priorities: Vec<Number> = plan.flows.iter().map(|flow| flow.priority).collect();
    priorities.sort_unstable();
    let mut by_period: Vec<&mut Flow> = plan.flows.iter_mut().collect();
    by_period.sort_by_key(|flow| flow.period);
    for (flow, priority) in by_period.into_iter().zip(priorities) {
        flow.priority = priority;
    }
}

/// All nodes, or few of them, so that flows meet.
fn popular_nodes(platform: &Platform, random: &mut Random) -> Vec<Number> {
    let mut nodes: Vec<Number> = (0..platform.nodes()).collect();
    if nodes.len() > 2 && random.chance(60) {
        random.shuffle(&mut nodes);
        let most = nodes.len().min(9);
        nodes.truncate(2 + random.below(most - 1));
    }
    nodes
}

fn latency_alone(platform: &Platform, flow: &Flow) -> Number {
    latency(platform, flow, route(platform, flow, Law::WHOLE).len(), Law::WHOLE)
}

fn set_times(platform: &Platform, flow: &mut Flow, mood: Mood, count: usize, random: &mut Random) {
    let alone = latency_alone(platform, flow);
    let crowd = alone * count as Number;
    let period = match mood {
        Mood::Gentle => random.between(crowd * 2, crowd * 12),
        Mood::Level => random.between(crowd / 2 + alone / 2, crowd * 2),
        Mood::Busy => random.between(alone, crowd * 3),
        Mood::Tight if random.chance(70) => alone + random.between(0, 4),
        Mood::Tight => alone * [60, 2000, 9000][random.below(3)],
        Mood::Short => random.between(1, alone * 4),
        Mood::Wild => [1, 2, alone, BILLION, BILLION - 1, random.between(1, BILLION)][random.below(6)],
    };
    flow.period = period.max(1).min(BILLION);
    // Enough for many rounds, and not so many that a run never ends.
    flow.deadline = deadline(flow.period, alone, mood, random).min(alone * MOST_LATENCIES);
    flow.jitter = jitter(flow, alone, mood, random);
}

fn deadline(period: Number, alone: Number, mood: Mood, random: &mut Random) -> Number {
    let usual = if mood == Mood::Busy || mood == Mood::Wild { 55 } else { 92 };
    if random.chance(usual) {
        return period;
    }
    let chosen = match random.below(5) {
        0 => random.between(1, period),
        1 => random.between(alone, period),
        2 => alone,
        3 => random.between(1, alone),
        _ => [1, period - 1][random.below(2)],
    };
    chosen.max(1).min(period)
}

/// Most leave room for C: a flow with another is late at once, and those that it delays wait.
fn jitter(flow: &Flow, alone: Number, mood: Mood, random: &mut Random) -> Number {
    let room = (flow.deadline - alone).max(0);
    let kinds = match mood {
        Mood::Gentle | Mood::Tight => 12,
        Mood::Level => 16,
        _ => 17,
    };
    let chosen = match random.below(kinds) {
        0 | 1 => random.between(0, room.min(5)),
        2 | 3 => random.between(0, room / 3),
        4 => random.between(0, room),
        12 | 13 => random.between(0, room / 2),
        14 | 15 => random.between(0, room),
        16 => random.between(0, flow.period * 2),
        _ => 0,
    };
    chosen.min(BILLION)
}

fn bounds(plan: &Plan) -> Vec<(usize, Number)> {
    let bound_of = |verdict: &Verdict| match verdict {
        Verdict::Bounded { bound, .. } => Some(*bound),
        _ => None,
    };
    let verdicts = Analysis::new(plan, Law::WHOLE).verdicts();
    verdicts.iter().enumerate().filter_map(|(i, verdict)| Some((i, bound_of(verdict)?))).collect()
}

/// Some bounded flows get the deadline that bound and jitter just meet, and the last of them one less at times.
fn exact_deadlines(plan: &mut Plan, random: &mut Random) {
    let mut bounds = bounds(plan);
    random.shuffle(&mut bounds);
    bounds.truncate(1 + random.below(3));
    for (i, bound) in &bounds {
        plan.flows[*i].deadline = *bound + plan.flows[*i].jitter;
    }
    if let (Some((i, _)), true) = (bounds.last(), random.chance(40)) {
        plan.flows[*i].deadline -= 1;
    }
}

/// A bounded flow gets the jitter that its deadline just leaves, or one more. Its own bound stays what it is.
fn exact_jitter(plan: &mut Plan, random: &mut Random) {
    let bounds = bounds(plan);
    if !bounds.is_empty() {
        let (i, bound) = random.pick(&bounds);
        plan.flows[i].jitter = plan.flows[i].deadline - bound + random.pick(&[0, 0, 1]);
    }
}

/// One flow or two, of low priority rather than high, get a jitter that leaves just C, or less, or nothing.
fn late_jitters(plan: &mut Plan, random: &mut Random) {
    let Plan { platform, flows } = plan;
    for _ in 0..random.below(3).min(flows.len()) {
        let (one, other) = (random.below(flows.len()), random.below(flows.len()));
        let lower = if flows[one].priority > flows[other].priority { one } else { other };
        let flow = &mut flows[lower];
        let (room, deadline) = (flow.deadline - latency_alone(platform, flow), flow.deadline);
        let (above, any) = (random.between(deadline, flow.period * 4), random.between(0, BILLION));
        let jitters = [room, room, room + 1, deadline - 1, deadline, deadline + 1, above, any, BILLION];
        flow.jitter = random.pick(&jitters).max(0).min(BILLION);
    }
}
