//! What a run has seen of conversions.

use crate::counts::{Case, Counted};
use crate::model::{Number, Plan, FLOW_TAG, METHOD};
use crate::reading::{Refusal, LONGEST_BEFORE};

/// A plan's bytes and what came of them.
pub struct Conversion {
    pub bytes: Vec<u8>,
    pub came: Result<Plan, Refusal>,
    /// Whether its reply is another behind the conversion.
    pub moved: bool,
}

impl Conversion {
    fn has_zero(&self) -> bool {
        self.bytes.get(METHOD) == Some(&0)
    }

    /// Refused, with a 0 where the method stands.
    pub fn refused_with_zero(&self) -> Option<Refusal> {
        self.came.as_ref().err().copied().filter(|_| self.has_zero())
    }

    fn is_converted(&self) -> bool {
        self.came.is_ok() && self.has_zero()
    }

    /// Converted, and its plan is so.
    fn has(&self, is_so: fn(&Plan) -> bool) -> bool {
        self.is_converted() && self.came.as_ref().map_or(false, is_so)
    }

    /// Accepted with this method, and with a seventh byte or without.
    fn is_left(&self, method: Number, seventh: bool) -> bool {
        let is_so = |plan: &Plan| plan.platform.method == method && (plan.platform.priority_flits > 0) == seventh;
        self.came.as_ref().map_or(false, is_so)
    }

    fn is_method_refused(&self, method: u8) -> bool {
        self.came == Err(Refusal { number: 25, place: METHOD }) && self.bytes[METHOD] == method
    }

    /// With so many bytes, a plan but for what stands behind them.
    fn goes_on_behind(&self, length: usize) -> bool {
        self.refused_with_zero() == Some(Refusal { number: 10, place: length })
    }
}

impl Counted for Conversion {
    const KIND: &'static str = "conversions";
    const CASES: &'static [Case<Conversion>] = &[
        ("of 0 without a seventh byte", |plan| plan.has(|plan| plan.platform.priority_flits == 0)),
        ("of 0 with a seventh byte", |plan| plan.has(|plan| plan.platform.priority_flits > 0)),
        ("of 0 without flows", |plan| plan.has(|plan| plan.flows.is_empty())),
        ("of 0 in 1,484 bytes", |plan| plan.is_converted() && plan.bytes.len() == LONGEST_BEFORE),
        ("of 0 in 1,485 bytes", |plan| plan.is_converted() && plan.bytes.len() > LONGEST_BEFORE),
        ("of 0 with routing cycles 0", |plan| plan.has(|plan| plan.platform.routing == 0)),
        ("of 0 with a flow to node 0", |plan| plan.has(|plan| plan.flows.iter().any(|flow| flow.destination == 0))),
        ("of 0 with another reply behind it", |plan| plan.is_converted() && plan.moved),
        ("of 0 with the same reply behind it", |plan| plan.is_converted() && !plan.moved),
        ("of 1 without a seventh byte", |plan| plan.is_left(1, false)),
        ("of 2 without a seventh byte", |plan| plan.is_left(2, false)),
        ("of 3 without a seventh byte", |plan| plan.is_left(3, false)),
        ("of 1 with a seventh byte", |plan| plan.is_left(1, true)),
        ("of 2 with a seventh byte", |plan| plan.is_left(2, true)),
        ("of 3 with a seventh byte", |plan| plan.is_left(3, true)),
        ("refused for method 4", |plan| plan.is_method_refused(4)),
        ("refused for method 255", |plan| plan.is_method_refused(255)),
        ("refused for length 0", |plan| plan.bytes.is_empty()),
        ("refused for less than 9 bytes", |plan| (1..=METHOD).contains(&plan.bytes.len())),
        ("refused with a flow first, to node 0", |plan| plan.has_zero() && plan.bytes[0] == FLOW_TAG),
        ("refused for what stands behind 1,484 bytes with 0", |plan| plan.goes_on_behind(LONGEST_BEFORE)),
        ("refused for what stands behind 1,485 bytes with 0", |plan| plan.goes_on_behind(LONGEST_BEFORE + 1)),
        ("refused for more than 2,048 bytes with 0", |plan| {
            plan.refused_with_zero().is_some() && plan.bytes.len() > 2048
        }),
    ];
}
