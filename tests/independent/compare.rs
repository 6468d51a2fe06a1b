//! One plan's bytes: what is expected against what the library and the program say.

use crate::answer::{expect, Accepted, Expected};
use crate::disagreement::{agree, differ, hex, same_call, Called, Disagreement};
use crate::law::Law;
use crate::product::{call_library, run_program, Lent, Returned};
use crate::raised;
use crate::random::Random;
use crate::reading::Refusal;
use crate::rule_table::Rule;
use crate::tally::Tally;
use std::io;

pub struct Trial<'a> {
    pub bytes: &'a [u8],
    pub law: Law,
}

/// What the program reads at most.
const PROGRAM_READS: usize = 2048;

/// In how many pieces a plan goes into the program, now and then.
const PIECES: usize = 3;

impl Trial<'_> {
    fn agree(&self, same: bool, about: &str, sides: impl Fn() -> (String, String)) -> Result<(), Disagreement> {
        agree(self.bytes, same, about, sides)
    }

    pub fn expected(&self) -> Result<Expected, Disagreement> {
        let broken = |words| differ(self.bytes, "a claim of the documents", "that it holds".to_string(), words);
        expect(self.bytes, self.law).map_err(broken)
    }

    pub fn compare(&self, program: &str, random: &mut Random, tally: &mut Tally) -> Result<Expected, Disagreement> {
        let expected = self.expected()?;
        for length in self.reply_lengths(&expected, random) {
            let number = self.library(&expected, length, random)?;
            tally.called(number);
        }
        // The library shows any other planted fault, and in an emulator the program takes long to start.
        if self.law.concerns_text() {
            self.text(program, &expected, random)?;
        }
        self.text_of_part(&expected)?;
        tally.count(self.bytes, &expected);
        raised::compare(&expected, self.law, random, tally)?;
        Ok(expected)
    }

    /// Exact, one short, longer, 0 and random; for a refused plan any.
    fn reply_lengths(&self, expected: &Expected, random: &mut Random) -> Vec<usize> {
        match &expected.answer {
            Ok(accepted) => {
                let needed = accepted.reply.len();
                vec![needed, needed - 1, needed + 1 + random.below(60), 0, random.below(1200)]
            }
            Err(_) => vec![1027, random.below(100), 0],
        }
    }

    /// The number and the value that belong to a reply buffer's length.
    fn returned(&self, answer: &Result<Accepted, Refusal>, length: usize) -> Returned {
        let too_short = Returned { number: 11, value: self.law.place(11, 0) };
        match answer {
            Err(_) if length == 0 && self.law.breaks(Rule::ShortFirst) => too_short,
            Err(refusal) => Returned { number: refusal.number, value: refusal.place },
            Ok(accepted) => {
                let needed = accepted.reply.len();
                let more = usize::from(self.law.breaks(Rule::ReplyOneMore));
                if length < needed + more {
                    too_short
                } else {
                    Returned { number: 0, value: needed }
                }
            }
        }
    }

    /// The reply buffer with its guards as the call has to leave it.
    fn left(&self, before: &Lent, answer: &Result<Accepted, Refusal>, number: u8) -> Lent {
        let mut left = before.clone();
        let (start, end) = (before.before, before.before + before.length);
        if let (Ok(accepted), 0) = (answer, number) {
            left = before.with(&accepted.reply);
            let own = start + accepted.reply.len();
            // At the end of the buffer there is no further byte to write.
            left.whole[own] ^= u8::from(self.law.breaks(Rule::FurtherWritten) && own < end);
        }
        left.whole[start] ^= u8::from(self.law.breaks(Rule::RefusalWrites) && number != 0 && before.length > 0);
        left.whole[start - 1] ^= u8::from(self.law.breaks(Rule::GuardBefore));
        left.whole[end] ^= u8::from(self.law.breaks(Rule::GuardBehind));
        left
    }

    /// Gives back the number that was returned.
    pub fn library(&self, expected: &Expected, length: usize, random: &mut Random) -> Result<u8, Disagreement> {
        let plan = Lent::holding(self.bytes, random);
        let reply = Lent::holding(&random.bytes(length), random);
        let (mut plan_after, mut reply_after) = (plan.clone(), reply.clone());
        let returned = call_library(&mut plan_after, &mut reply_after);
        let due = self.returned(&expected.answer, length);
        let left = self.left(&reply, &expected.answer, due.number);
        let (due, came) = (Called { returned: due, buffer: left }, Called { returned, buffer: reply_after });
        same_call(self.bytes, "the library's", "reply buffer", &due, &came)?;
        let mut kept = plan.whole.clone();
        kept[plan.before + plan.length - 1] ^= u8::from(self.law.breaks(Rule::PlanWritten));
        let about = format!("the plan's buffer, with {} guard bytes before it", plan.before);
        self.agree(kept == plan_after.whole, &about, || (hex(&kept), hex(&plan_after.whole)))?;
        Ok(came.returned.number)
    }

    pub fn text(&self, program: &str, expected: &Expected, random: &mut Random) -> Result<(), Disagreement> {
        let pieces = if random.below(64) == 0 { PIECES } else { 1 };
        let unable =
            |error: io::Error| differ(self.bytes, "the program", "that it runs".to_string(), error.to_string());
        let output = run_program(program, self.bytes, pieces).map_err(unable)?;
        let printed = |bytes: &[u8]| String::from_utf8_lossy(bytes).into_owned();
        let about = format!("the program's text, its input in {pieces} pieces");
        let same = output.stdout == expected.text.as_bytes();
        self.agree(same, &about, || (format!("{:?}", expected.text), format!("{:?}", printed(&output.stdout))))?;
        let silent = output.stderr.is_empty();
        self.agree(silent, "standard error", || ("nothing".to_string(), printed(&output.stderr)))?;
        let good = output.status.code() == Some(0);
        self.agree(good, "the exit status", || ("0".to_string(), output.status.to_string()))
    }

    /// The bytes that the program reads always decide the reply.
    fn text_of_part(&self, expected: &Expected) -> Result<(), Disagreement> {
        if self.bytes.len() <= PROGRAM_READS {
            return Ok(());
        }
        let text = expect(&self.bytes[..PROGRAM_READS], self.law).map_or_else(|words| words, |part| part.text);
        self.agree(text == expected.text, "the first 2,048 bytes", || (expected.text.clone(), text.clone()))
    }
}
