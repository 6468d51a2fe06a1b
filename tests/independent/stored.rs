//! Rows of L6 of document 02: plans stored with method 0 and others, what a conversion returns and leaves of them, and
//! the figures before and behind it. Those of P are document 01's for methods 3 and 2, and with priority flits those of
//! L7.

use crate::corners::{Turned, PLANS};
use crate::disagreement::{hex, Disagreement};
use crate::figures::{
    changed, figure, typed, Fixed, DEADLINE, END, FLOW_2, FLOW_3, FLOW_5, FLOW_OUTSIDE, METHOD, PERIOD,
    PLATFORM_OUTSIDE, SOURCE,
};
use crate::model::{DESTINATION, ID, PRIORITY};
use crate::priority_flits::{crowd, headed, Changes};
use crate::product::{call_converter, Lent, Returned};
use crate::random::Random;

/// What a conversion may write.
const NOTHING: Changes = &[];
const REWRITTEN: Changes = &[(METHOD, &[2])];

const SIX: &str = "01 0006 06 01 01 00 0A 00";
const SEVEN: &str = "01 0007 06 01 01 00 0A 00 02";

/// A platform record, the bytes changed in P's flows behind it at their places in P, and lines of the text by method 0
/// and by method 2.
type Rewritten = (&'static str, Changes, &'static [&'static str], &'static [&'static str]);

const REWRITES: &[Rewritten] = &[
    (
        SIX,
        &[],
        &["mesh 6x1 link 1 route 0 buffer 10 method 3", "3 bounded 328 rounds 2", "5 bounded 396 rounds 2"],
        &["mesh 6x1 link 1 route 0 buffer 10 method 2", "3 bounded 328 rounds 2", "5 bounded 460 rounds 2"],
    ),
    (
        SEVEN,
        &[],
        &["mesh 6x1 link 1 route 0 buffer 10 method 3", "3 bounded 334 rounds 2", "5 bounded 400 rounds 2"],
        &["mesh 6x1 link 1 route 0 buffer 10 method 2", "3 bounded 334 rounds 2", "5 bounded 468 rounds 2"],
    ),
    ("01 0007 06 01 01 00 0A 00 01", &[], &["5 bounded 398 rounds 2"], &["5 bounded 464 rounds 2"]),
    ("01 0007 06 01 01 00 0A 00 08", &[], &["5 bounded 412 rounds 2"], &["5 bounded 492 rounds 2"]),
    ("01 0006 06 01 01 00 02 00", &[], &["5 bounded 348 rounds 2"], &["5 bounded 460 rounds 2"]),
    // Flow 3's period and deadline 400.
    (
        SIX,
        &[(FLOW_3 + PERIOD, &[0, 0, 1, 0x90, 0, 0, 1, 0x90])],
        &["5 bounded 660 rounds 3"],
        &["5 bounded 788 rounds 3"],
    ),
    // Flow 5's deadline 459 and 395: late by XLWX alone, and by both.
    (SIX, &[(FLOW_5 + DEADLINE, &[0, 0, 1, 0xCB])], &["5 bounded 396 rounds 2"], &["5 late rounds 1"]),
    (SIX, &[(FLOW_5 + DEADLINE, &[0, 0, 1, 0x8B])], &["5 late rounds 1"], &["5 late rounds 1"]),
    // Flow 3's deadline 327: nothing depends on the method.
    (
        SIX,
        &[(FLOW_3 + DEADLINE, &[0, 0, 1, 0x47])],
        &["3 late rounds 1", "5 waits 3"],
        &["3 late rounds 1", "5 waits 3"],
    ),
    // Flow 2 goes from 5 to 0, against the others: C is 66, and it delays none. Its 0 stands at a method's offset.
    (
        SIX,
        &[(FLOW_2 + SOURCE, &[5, 0])],
        &["2 bounded 66 rounds 1", "3 bounded 204 rounds 1", "5 bounded 336 rounds 2"],
        &["2 bounded 66 rounds 1", "3 bounded 204 rounds 1", "5 bounded 336 rounds 2"],
    ),
];

/// The like for plans that a conversion leaves: what it returns, and lines of the text.
type Left = (&'static str, Changes, &'static str, &'static [&'static str]);

const LEFT: &[Left] = &[
    ("01 0006 06 01 01 00 0A 01", &[], "0 0", &["5 bounded 336 rounds 2"]),
    ("01 0006 06 01 01 00 0A 02", &[], "0 0", &["5 bounded 460 rounds 2"]),
    ("01 0006 06 01 01 00 0A 03", &[], "0 0", &["5 bounded 396 rounds 2"]),
    ("01 0006 06 01 01 00 0A 04", &[], "25 8", &["refused 25 at 8"]),
    ("01 0006 06 01 01 00 0A FF", &[], "25 8", &["refused 25 at 8"]),
    ("01 0007 06 01 01 00 0A 01 02", &[], "0 0", &["5 bounded 340 rounds 2"]),
    ("01 0007 06 01 01 00 0A 02 02", &[], "0 0", &["5 bounded 468 rounds 2"]),
    ("01 0007 06 01 01 00 0A 03 02", &[], "0 0", &["5 bounded 400 rounds 2"]),
    ("01 0007 06 01 01 00 0A 04 02", &[], "25 8", &["refused 25 at 8"]),
    // A seventh byte outside its values behind method 0.
    ("01 0007 06 01 01 00 0A 00 00", &[], "26 9", &["refused 26 at 9"]),
    ("01 0007 06 01 01 00 0A 00 09", &[], "26 9", &["refused 26 at 9"]),
    ("01 0007 06 01 01 00 0A 00 FF", &[], "26 9", &["refused 26 at 9"]),
    // Method 0, and the last flow with the first one's id, its priority, or its own source for a destination.
    (SIX, &[(FLOW_5 + ID, &[0, 2])], "7 58", &["refused 7 at 58"]),
    (SIX, &[(FLOW_5 + PRIORITY, &[0, 1])], "8 60", &["refused 8 at 60"]),
    (SIX, &[(FLOW_5 + DESTINATION, &[1])], "9 63", &["refused 9 at 63"]),
    (SEVEN, &[(FLOW_5 + ID, &[0, 2])], "7 59", &["refused 7 at 59"]),
    (SEVEN, &[(FLOW_5 + PRIORITY, &[0, 1])], "8 61", &["refused 8 at 61"]),
    (SEVEN, &[(FLOW_5 + DESTINATION, &[1])], "9 64", &["refused 9 at 64"]),
    // Method 0, and another tag or length of the end record.
    (SIX, &[(END, &[0])], "2 78", &["refused 2 at 78"]),
    (SIX, &[(END, &[1])], "4 78", &["refused 4 at 78"]),
    (SIX, &[(END + 1, &[0, 1])], "3 79", &["refused 3 at 79"]),
    (SEVEN, &[(END + 1, &[1, 0])], "3 80", &["refused 3 at 80"]),
];

/// A whole input, what a conversion returns, and what it writes.
type Whole = (&'static str, &'static str, Changes);

const WHOLES: &[Whole] = &[
    // No flows.
    ("01 0006 06 01 01 00 0A 00 7F 0000", "0 0", REWRITTEN),
    ("01 0006 01 01 01 00 01 00 7F 0000", "0 0", REWRITTEN),
    ("01 0007 06 01 01 00 0A 00 02 7F 0000", "0 0", REWRITTEN),
    ("01 0006 06 01 01 00 0A 03 7F 0000", "0 0", NOTHING),
    // A byte more, a record more, another platform.
    ("01 0006 06 01 01 00 0A 00 7F 0000 00", "10 12", NOTHING),
    ("01 0007 06 01 01 00 0A 00 02 7F 0000 00", "10 13", NOTHING),
    ("01 0006 06 01 01 00 0A 00 7F 0000 7F 0000", "10 12", NOTHING),
    ("01 0006 06 01 01 00 0A 00 01 0006 06 01 01 00 0A 00 7F 0000", "4 9", NOTHING),
    // Cut, or without an end record.
    ("01 0006 06 01 01 00 0A 00 7F 00", "1 9", NOTHING),
    ("01 0007 06 01 01 00 0A 00", "1 0", NOTHING),
    ("01 0007 06 01 01 00 0A 00 02", "1 10", NOTHING),
    // Lengths that a platform record has not.
    ("01 0005 06 01 01 00 0A 00 7F 0000", "3 1", NOTHING),
    ("01 0008 06 01 01 00 0A 00 02 02 7F 0000", "3 1", NOTHING),
    ("01 0106 06 01 01 00 0A 00 7F 0000", "3 1", NOTHING),
    // Another record first, with 0 at 8: a flow to node 0, an end record, an unknown one.
    ("02 0014 0002 0001 04 00 003C 000000C8 000000C8 00000000 7F 0000", "4 0", NOTHING),
    ("7F 0000 00 00 00 00 00 00", "4 0", NOTHING),
    ("00 0006 06 01 01 00 0A 00 7F 0000", "2 0", NOTHING),
];

/// A platform record, how many flows stand behind it, what a conversion returns and writes, and the last line of the
/// text behind it.
type Crowd = (&'static str, u16, &'static str, Changes, &'static str);

const CROWDS: &[Crowd] = &[
    (SIX, 64, "0 0", REWRITTEN, "63 bounded 192 rounds 2"),
    (SEVEN, 64, "0 0", REWRITTEN, "63 bounded 320 rounds 2"),
    (SIX, 65, "6 1481", NOTHING, "refused 6 at 1481"),
    (SEVEN, 65, "6 1482", NOTHING, "refused 6 at 1482"),
];

/// A platform record before 64 flows and so many bytes, and what a conversion returns: one byte more than a plan has,
/// as many as the program reads and one more, and more than two bytes can count.
type Long = (&'static str, usize, &'static str);

const LONG: &[Long] = &[
    (SIX, 1, "10 1484"),
    (SEVEN, 1, "10 1485"),
    (SIX, 564, "10 1484"),
    (SIX, 565, "10 1484"),
    (SEVEN, 564, "10 1485"),
    (SEVEN, 70_000, "10 1485"),
];

/// Where the records of P start behind SIX.
const STARTS: [usize; 5] = [0, FLOW_2, FLOW_3, FLOW_5, END];

/// The product returns and leaves what is typed. Gives back what is left.
fn converts(bytes: &[u8], returned: &str, changes: Changes) -> Result<Vec<u8>, Disagreement> {
    let mut random = Random::of_converting(0, bytes.len() as u64);
    let mut plan = Lent::holding(bytes, &mut random);
    let Returned { number, value } = call_converter(&mut plan);
    let left = changed(bytes, changes);
    let came = format!("{number} {value} {}", hex(plan.inside()));
    figure(bytes, "a conversion", format!("{returned} {}", hex(&left)), came)?;
    Ok(left)
}

impl Fixed<'_> {
    fn rewritten(&mut self, bytes: &[u8], before: &[&str], behind: &[&str]) -> Result<(), Disagreement> {
        self.lines(bytes, "a plan stored with 0", before)?;
        let left = converts(bytes, "0 0", REWRITTEN)?;
        self.lines(&left, "a converted plan", behind)
    }

    fn whole(&mut self, bytes: &[u8], returned: &str, changes: Changes) -> Result<Vec<u8>, Disagreement> {
        self.agree(bytes)?;
        converts(bytes, returned, changes)
    }

    /// With method 0 a plan of corners has the lines of IBN, and behind a conversion those of XLWX.
    fn turned_with_zero(&mut self, (plan, methods): &Turned) -> Result<(), Disagreement> {
        let found = |wanted: u8| methods.iter().find(|(method, _)| *method == wanted);
        let lines = |wanted: u8| found(wanted).expect("a plan of corners has lines by every method").1;
        self.rewritten(&changed(&typed(plan), &[(METHOD, &[0])]), lines(3), lines(2))
    }

    fn crowd_with_zero(&mut self, (platform, count, returned, changes, line): &Crowd) -> Result<(), Disagreement> {
        let left = self.whole(&crowd(platform, *count), returned, changes)?;
        self.lines(&left, "a crowd behind a conversion", &[line])
    }

    fn long(&mut self, (platform, count, returned): &Long) -> Result<(), Disagreement> {
        let further = Random::of_converting(0, *count as u64).bytes(*count);
        self.whole(&[crowd(platform, 64), further].concat(), returned, NOTHING).map(|_| ())
    }

    /// Every part of a plan from its start is refused 1 where the record starts that is cut.
    fn cut(&mut self) -> Result<(), Disagreement> {
        let plan = headed(SIX, &[]);
        for length in 0..plan.len() {
            let start = STARTS.iter().rev().find(|start| **start <= length).unwrap_or(&0);
            self.whole(&plan[..length], &format!("1 {start}"), NOTHING)?;
        }
        Ok(())
    }

    /// A field of the platform or of the last flow, and nothing is written of method 0.
    fn outside_with_zero(&mut self, platform: &str, last_flow: usize) -> Result<(), Disagreement> {
        let plan = headed(platform, &[]);
        let of_platform = PLATFORM_OUTSIDE.iter().map(|field| (0, *field));
        for (record, field) in of_platform.chain(FLOW_OUTSIDE.iter().map(|field| (last_flow, *field))) {
            self.outside(&plan, record, field)?;
            let (offset, new, number) = field;
            let bytes = changed(&plan, &[(record + offset, new)]);
            converts(&bytes, &format!("{number} {}", record + offset), NOTHING)?;
        }
        Ok(())
    }
}

pub fn check(fixed: &mut Fixed) -> Result<(), Disagreement> {
    for (platform, changes, before, behind) in REWRITES {
        fixed.rewritten(&headed(platform, changes), before, behind)?;
    }
    for plan in PLANS {
        fixed.turned_with_zero(plan)?;
    }
    for (platform, changes, returned, lines) in LEFT {
        let bytes = headed(platform, changes);
        fixed.lines(&bytes, "a plan that a conversion leaves", lines)?;
        converts(&bytes, returned, NOTHING)?;
    }
    for (input, returned, changes) in WHOLES {
        fixed.whole(&typed(input), returned, changes)?;
    }
    for crowd in CROWDS {
        fixed.crowd_with_zero(crowd)?;
    }
    for long in LONG {
        fixed.long(long)?;
    }
    fixed.cut()?;
    fixed.outside_with_zero(SIX, FLOW_5)?;
    fixed.outside_with_zero(SEVEN, FLOW_5 + 1)
}
