//! Routes as lists of directed links, and the links that two routes share.

use crate::law::Law;
use crate::model::{Flow, Number, Plan, Platform};
use crate::rule_table::Rule;
use std::collections::BTreeSet;

/// From one node to another; injection comes from outside of the mesh, ejection goes there.
pub type Link = (Number, Number);

const OUTSIDE: Number = -1;

#[derive(Clone, Copy, PartialEq, Eq)]
pub enum Part {
    Injection,
    Row,
    Column,
    Ejection,
}

pub fn part_of(platform: &Platform, link: Link) -> Part {
    match link {
        (OUTSIDE, _) => Part::Injection,
        (_, OUTSIDE) => Part::Ejection,
        (from, to) if from / platform.columns == to / platform.columns => Part::Row,
        _ => Part::Column,
    }
}

/// For an ordered pair of flows: the places on the first flow's route of the links on both, in ascending order.
pub type Places = Vec<Vec<Vec<usize>>>;

fn towards(from: Number, to: Number) -> Vec<Number> {
    if from <= to {
        (from..=to).collect()
    } else {
        (to..=from).rev().collect()
    }
}

/// A node's column and row.
pub fn place_of(platform: &Platform, node: Number, law: Law) -> (Number, Number) {
    if law.breaks(Rule::NodeByColumn) {
        return (node / platform.rows, node % platform.rows);
    }
    (node % platform.columns, node / platform.columns)
}

/// The nodes passed, as column and row: along the source's row first, then along the destination's column.
fn corners(source: (Number, Number), destination: (Number, Number), law: Law) -> Vec<(Number, Number)> {
    let (columns, rows) = (towards(source.0, destination.0), towards(source.1, destination.1));
    if law.breaks(Rule::YxRouting) {
        let down = rows.iter().map(|row| (source.0, *row));
        return down.chain(columns.iter().skip(1).map(|column| (*column, destination.1))).collect();
    }
    let along = columns.iter().map(|column| (*column, source.1));
    along.chain(rows.iter().skip(1).map(|row| (destination.0, *row))).collect()
}

/// A walk from outside to the source, through the mesh and outside again; its steps are the links.
pub fn route(platform: &Platform, flow: &Flow, law: Law) -> Vec<Link> {
    let (source, destination) = (place_of(platform, flow.source, law), place_of(platform, flow.destination, law));
    let inside = corners(source, destination, law);
    let mut walk = vec![OUTSIDE];
    walk.extend(inside.iter().map(|(column, row)| row * platform.columns + column));
    walk.push(OUTSIDE);
    walk.windows(2).map(|step| (step[0], step[1])).collect()
}

/// What is compared to find shared links.
fn compared(platform: &Platform, flow: &Flow, link: Link, law: Law) -> Option<Link> {
    match law.broken() {
        Some(rule) => compared_wrongly(platform, flow, link, rule),
        None => Some(link),
    }
}

/// By a planted fault a link is left out or taken for another.
fn compared_wrongly(platform: &Platform, flow: &Flow, link: Link, rule: Rule) -> Option<Link> {
    let columns = platform.columns;
    let both = |change: &dyn Fn(Number) -> Number| Some((change(link.0), change(link.1)));
    let in_row_of = |node: Number| both(&|end| node - node % columns + end % columns);
    let in_column_of = |node: Number| both(&|end| end - end % columns + node % columns);
    let one_way = Some((link.0.min(link.1), link.0.max(link.1)));
    let backward = link.0 > link.1;
    match (rule, part_of(platform, link)) {
        (Rule::NoInjection, Part::Injection) | (Rule::NoEjection, Part::Ejection) => None,
        (Rule::RowBackwardApart, Part::Row) | (Rule::ColumnBackwardApart, Part::Column) if backward => None,
        (Rule::Undirected | Rule::RowUndirected, Part::Row) => one_way,
        (Rule::Undirected | Rule::ColumnUndirected, Part::Column) => one_way,
        (Rule::RowAnywhere, Part::Row) => in_row_of(0),
        (Rule::ColumnAnywhere, Part::Column) => in_column_of(0),
        (Rule::RowOfDestination, Part::Row) => in_row_of(flow.destination),
        (Rule::ColumnOfSource, Part::Column) => in_column_of(flow.source),
        (Rule::InjectionOfRow, Part::Injection) => Some((OUTSIDE, link.1 - link.1 % columns)),
        (Rule::InjectionOfColumn, Part::Injection) => Some((OUTSIDE, link.1 % columns)),
        (Rule::EjectionOfRow, Part::Ejection) => Some((link.0 - link.0 % columns, OUTSIDE)),
        (Rule::EjectionOfColumn, Part::Ejection) => Some((link.0 % columns, OUTSIDE)),
        _ => Some(link),
    }
}

pub fn shared_places(plan: &Plan, routes: &[Vec<Link>], law: Law) -> Places {
    let of_flow = |(flow, route): (&Flow, &Vec<Link>)| -> Vec<Option<Link>> {
        route.iter().map(|link| compared(&plan.platform, flow, *link, law)).collect()
    };
    let links: Vec<Vec<Option<Link>>> = plan.flows.iter().zip(routes).map(of_flow).collect();
    let sets: Vec<BTreeSet<Link>> = links.iter().map(|links| links.iter().copied().flatten().collect()).collect();
    let of_pair = |first: usize, second: usize| {
        let both: BTreeSet<Link> = sets[first].intersection(&sets[second]).copied().collect();
        let is_shared = |place: &usize| links[first][*place].map_or(false, |link| both.contains(&link));
        (0..links[first].len()).filter(is_shared).collect()
    };
    let flows = plan.flows.len();
    (0..flows).map(|first| (0..flows).map(|second| of_pair(first, second)).collect()).collect()
}
