//! The list of the planted faults: those of analysing, then those of writing and of converting, which have faults of
//! their own and those of analysing that show there too.

use crate::converting::converted_method;
use crate::law::{End, Law, Laws, Plant};
use crate::model::{all_fields, field_refusals, High, FLOW_FIELDS, PLATFORM_FIELDS, SEVENTH};
use crate::reading::CHECKS;
use crate::refusals::{refusals, refusals_of_reading, refusals_of_writing};
use crate::rule_table::*;

/// A planted fault with its name and its words.
pub struct Planted {
    pub laws: Laws,
    pub name: String,
    pub words: String,
}

type Named = (Plant, String, String);

fn planted((plant, name, words): Named, laws: fn(Law) -> Laws) -> Planted {
    Planted { laws: laws(Law::with(plant)), name, words }
}

pub fn plants() -> Vec<Planted> {
    let analysing = analysing_plants().into_iter();
    let analysing = analysing.map(|named| planted(named, |law| Laws { analysing: law, ..Laws::WHOLE }));
    let writing = rule_plants(WRITING).chain(also(Plant::shows_in_writing, "written", "in writing"));
    let writing = writing.map(|named| planted(named, |law| Laws { writing: law, ..Laws::WHOLE }));
    let converting = converting_plants().chain(also(Plant::shows_in_converting, "converted", "in converting"));
    let converting = converting.map(|named| planted(named, |law| Laws { converting: law, ..Laws::WHOLE }));
    analysing.chain(writing).chain(converting).collect()
}

impl Plant {
    /// Whether a fault of analysing can be seen from written bytes too.
    fn shows_in_writing(&self) -> bool {
        match self {
            Plant::Rule(Rule::FieldsBackwards | Rule::LastRecord | Rule::ReplyByPriority | Rule::JitterRefused) => true,
            Plant::Rule(rule) => is_in(NUMBERING, *rule) || is_in(SEVENTH_PLACES, *rule),
            Plant::Order(first) => {
                CHECKS[*first..first + 2].iter().all(|check| check.refusals().is_subset(&refusals_of_writing()))
            }
            Plant::Place(number) | Plant::Never(number) => refusals_of_writing().contains(number),
            // Nothing is written of priority flits 0, so the lowest edge of a seventh byte is never passed.
            Plant::Edge(SEVENTH, End::Low, by) => *by > 0,
            Plant::FieldOrder(..) | Plant::Number(_) | Plant::Edge(..) => true,
            Plant::Method(..) | Plant::Refused(_) => false,
        }
    }

    /// Whether a fault of analysing is one of reading, so that a conversion shows it too.
    fn shows_in_converting(&self) -> bool {
        match self {
            Plant::Rule(Rule::FieldsBackwards | Rule::LastRecord | Rule::CutAtEnd | Rule::JitterRefused) => true,
            Plant::Rule(rule) => {
                [NUMBERING, SEVENTH_READING, SEVENTH_PLACES].into_iter().any(|rules| is_in(rules, *rule))
            }
            Plant::Place(number) | Plant::Never(number) => refusals_of_reading().contains(number),
            Plant::Order(_) | Plant::FieldOrder(..) | Plant::Number(_) | Plant::Edge(..) => true,
            Plant::Method(..) | Plant::Refused(_) => false,
        }
    }
}

/// The faults of analysing that show on another side too.
fn also(shows: fn(&Plant) -> bool, side: &'static str, words_before: &'static str) -> impl Iterator<Item = Named> {
    let shown = analysing_plants().into_iter().filter(move |(plant, _, _)| shows(plant));
    shown.map(move |(plant, name, words)| (plant, format!("{side}-{name}"), format!("{words_before}, {words}")))
}

fn converting_plants() -> impl Iterator<Item = Named> {
    rule_plants(CONVERTING).chain(rule_plants(CLAIMED)).chain(method_plants()).chain(refused_plants())
}

/// Of each method every other one than a conversion has to leave.
fn method_plants() -> impl Iterator<Item = Named> {
    let pairs = (0..=3).flat_map(|method| (0..=3).map(move |left| (method, left)));
    let wrong = pairs.filter(|(method, left)| *left != converted_method(*method));
    wrong.map(|(method, left)| {
        let words = format!("a conversion leaves method {left} of {method}");
        (Plant::Method(method, left), format!("convert-{method}-as-{left}"), words)
    })
}

fn refused_plants() -> impl Iterator<Item = Named> {
    refusals_of_reading().into_iter().map(|number| {
        let words = format!("a conversion writes 2 over the method of a plan refused {number}");
        (Plant::Refused(number), format!("convert-refused-{number}"), words)
    })
}

fn rule_plants(rules: &'static [(Rule, &str, &str)]) -> impl Iterator<Item = Named> {
    rules.iter().map(|(rule, name, words)| (Plant::Rule(*rule), name.to_string(), words.to_string()))
}

fn analysing_plants() -> Vec<Named> {
    let of_platform = [SEVENTH_READING, SEVENTH_PLACES, PRIORITY_FLITS];
    let rules = [ANALYSING, TICK, SHARED, PLACE, TEXT, NUMBERING].into_iter().chain(of_platform).flat_map(rule_plants);
    let orders = (0..CHECKS.len() - 1).map(order_plant).chain(field_order_plants());
    let places = refusals().into_iter().map(|number| {
        (Plant::Place(number), format!("place-{number}"), format!("refusal {number} stands one byte later"))
    });
    let nevers = (6..=10)
        .chain(field_refusals())
        .map(|number| (Plant::Never(number), format!("never-{number}"), format!("refusal {number} is not given")));
    rules.chain(orders).chain(places).chain(nevers).chain(number_plants()).chain(edge_plants()).collect()
}

fn order_plant(first: usize) -> Named {
    let (before, behind) = (CHECKS[first].name(), CHECKS[first + 1].name());
    let words = format!("within a record {behind} comes before {before}");
    (Plant::Order(first), format!("swap-{before}-{behind}"), words)
}

fn field_order_plants() -> impl Iterator<Item = Named> {
    let pairs = PLATFORM_FIELDS.windows(2).chain(FLOW_FIELDS.windows(2));
    pairs.map(|pair| {
        let (before, behind) = (pair[0].name, pair[1].name);
        let words = format!("field by field the {behind} comes before the {before}");
        (Plant::FieldOrder(before, behind), format!("swap-{before}-{behind}"), words)
    })
}

fn number_plants() -> impl Iterator<Item = Named> {
    all_fields().map(|field| {
        let (name, words) = (format!("number-{}", field.name), format!("{}: its number is one more", field.name));
        (Plant::Number(field.name), name, words)
    })
}

fn edge_plants() -> Vec<Named> {
    let mut plants = Vec::new();
    for field in all_fields() {
        let high_fills = matches!(field.high, High::Fixed(high) if high == field.greatest());
        for (end, by, words) in [
            (End::Low, -1, "one below the lowest is allowed"),
            (End::Low, 1, "the lowest is not allowed"),
            (End::High, -1, "the highest is not allowed"),
            (End::High, 1, "one above the highest is allowed"),
        ] {
            // A value that the field's bytes cannot hold is never met.
            let unseen = (end == End::Low && by < 0 && field.low == 0) || (end == End::High && by > 0 && high_fills);
            if !unseen {
                let side = if end == End::Low { "low" } else { "high" };
                let name = format!("{}-{}{:+}", field.name, side, by);
                plants.push((Plant::Edge(field.name, end, by), name, format!("{}: {}", field.name, words)));
            }
        }
    }
    plants
}
