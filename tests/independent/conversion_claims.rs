//! What L6 of document 02 claims of a conversion, held against what the product makes of a plan, whatever this program
//! expects of it.

use crate::claims::{claim, Claim};
use crate::disagreement::hex;
use crate::law::Law;
use crate::model::METHOD;
use crate::product::Returned;
use crate::rule_table::Rule;

/// What came of a conversion.
pub struct Outcome {
    pub returned: Returned,
    pub bytes: Vec<u8>,
}

/// What came of a plan: by the analyser with room for its reply, by a conversion, and by a second one.
pub struct Outcomes<'a> {
    pub bytes: &'a [u8],
    pub analysed: Returned,
    pub once: Outcome,
    pub twice: Outcome,
}

impl Outcomes<'_> {
    pub fn check(&self) -> Claim {
        self.as_the_analyser()?;
        if self.once.returned.number == 0 {
            self.zero_alone()?;
        } else {
            claim(self.once.bytes == self.bytes, || format!("a refused plan became {}", hex(&self.once.bytes)))?;
        }
        self.same_again()
    }

    /// The analyser's number, and of a refusal its place; an accepted plan's value is 0.
    fn as_the_analyser(&self) -> Claim {
        let Returned { number, value } = self.once.returned;
        claim(number != 11, || "a conversion gives 11".to_string())?;
        let due = if self.analysed.number == 0 { 0 } else { self.analysed.value };
        let same = (number, value) == (self.analysed.number, due);
        claim(same, || format!("number {number}, value {value}, and {} {due} by the analyser", self.analysed.number))
    }

    /// A 0 where the method stands becomes 2, and every other byte stays.
    fn zero_alone(&self) -> Claim {
        let mut due = self.bytes.to_vec();
        if due[METHOD] == 0 {
            due[METHOD] = 2;
        }
        claim(self.once.bytes == due, || format!("an accepted plan became {}", hex(&self.once.bytes)))
    }

    fn same_again(&self) -> Claim {
        let same = self.twice.returned == self.once.returned && self.twice.bytes == self.once.bytes;
        claim(same, || format!("converted again it became {}", hex(&self.twice.bytes)))
    }

    /// By a planted fault something else than what came.
    pub fn shown(mut self, law: Law) -> Self {
        let accepted = self.analysed.number == 0;
        let Outcome { returned, bytes } = &mut self.once;
        let length = bytes.len();
        match law.broken() {
            Some(Rule::ClaimShort) => *returned = Returned { number: 11, value: 0 },
            Some(Rule::ClaimPlace) if !accepted => returned.value += 1,
            Some(Rule::ClaimNumber) if !accepted => returned.number += 1,
            Some(Rule::ClaimValue) if accepted => returned.value = length,
            Some(Rule::ClaimRefusedByte) if !accepted && length > 0 => bytes[length - 1] ^= 1,
            Some(Rule::ClaimByte) if accepted => bytes[length - 1] ^= 1,
            Some(Rule::ClaimZero) if accepted => bytes[METHOD] = self.bytes[METHOD],
            Some(Rule::ClaimOther) if accepted => bytes[METHOD] = 2,
            Some(Rule::ClaimLonger) if accepted => bytes.push(0),
            Some(Rule::ClaimAgainByte) if accepted => self.twice.bytes[length - 1] ^= 1,
            Some(Rule::ClaimAgainReturned) => self.twice.returned.value += 1,
            _ => {}
        }
        self
    }
}
