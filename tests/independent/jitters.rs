//! What a run has seen of deadlines that run from the tick: the cases in which a flow's own jitter decides.

use crate::answer::Judged;
use crate::counts::{Case, Counted};
use crate::model::{Number, BILLION};
use crate::rules::Verdict;

impl Judged {
    fn jitter(&self) -> Number {
        self.flow.jitter
    }

    fn deadline(&self) -> Number {
        self.flow.deadline
    }

    fn is_bounded(&self) -> bool {
        matches!(self.verdict, Verdict::Bounded { .. })
    }

    /// Late, and C plus jitter is not above the deadline.
    fn is_late_by_rounds(&self) -> bool {
        matches!(self.verdict, Verdict::Late { rounds } if rounds > 0)
    }

    fn is_late_at_once(&self) -> bool {
        self.verdict == Verdict::Late { rounds: 0 }
    }

    fn waits(&self) -> bool {
        matches!(self.verdict, Verdict::Waits { .. })
    }

    /// With a jitter, the bound that it has, or would have without, comes so many cycles after the deadline.
    fn bound_passes_by(&self, by: Number) -> bool {
        let bound = match self.verdict {
            Verdict::Bounded { bound, .. } => Some(bound),
            _ => self.without_jitter,
        };
        self.jitter() > 0 && bound == Some(self.deadline() - self.jitter() + by)
    }

    /// The like for C.
    fn c_passes_by(&self, by: Number) -> bool {
        self.jitter() > 0 && self.latency == self.deadline() - self.jitter() + by
    }
}

impl Counted for Judged {
    const KIND: &'static str = "flows";
    const CASES: &'static [Case<Judged>] = &[
        ("bounded with a jitter", |flow| flow.is_bounded() && flow.jitter() > 0),
        ("bounded at the deadline less a jitter", |flow| flow.is_bounded() && flow.bound_passes_by(0)),
        ("bounded with C at the deadline less a jitter", |flow| flow.is_bounded() && flow.c_passes_by(0)),
        ("late after rounds, bounded without the jitter", |flow| {
            flow.is_late_by_rounds() && flow.without_jitter.is_some()
        }),
        ("late after rounds by one cycle of a jitter", |flow| flow.is_late_by_rounds() && flow.bound_passes_by(1)),
        ("late with C at the deadline less a jitter", |flow| flow.is_late_by_rounds() && flow.c_passes_by(0)),
        ("late at once by the jitter alone", |flow| flow.is_late_at_once() && flow.latency <= flow.deadline()),
        ("late at once by one cycle of a jitter", |flow| flow.is_late_at_once() && flow.c_passes_by(1)),
        ("late at once, bounded without the jitter", |flow| flow.is_late_at_once() && flow.without_jitter.is_some()),
        ("late with a jitter equal to the deadline", |flow| flow.is_late_at_once() && flow.jitter() == flow.deadline()),
        ("late with a jitter above the deadline", |flow| flow.is_late_at_once() && flow.jitter() > flow.deadline()),
        ("late with the largest jitter", |flow| flow.is_late_at_once() && flow.jitter() == BILLION),
        ("waiting with a jitter equal to the deadline", |flow| flow.waits() && flow.jitter() == flow.deadline()),
        ("waiting with a jitter above the deadline", |flow| flow.waits() && flow.jitter() > flow.deadline()),
    ];
}
