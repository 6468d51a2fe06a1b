//! Rows of L7 of document 02, worked out by hand: plan P behind a platform record with a seventh byte, or of a wrong
//! length. With k priority flits and m link cycles C is m (62 + k), m (204 + k) and m (132 + k), so that each C grows
//! by k x link cycles, and by document 01
//!   flow 3 has C_3 + C_2 n_2, with n_2(x) = up(x / 200);
//!   flow 5 has C_5 + W n_3, with n_3(x) = up((x + A) / 4000), A being R_3 - C_3, and 0 by XLWX;
//!   W = C_3 by SB, C_3 + h C_2 by XLWX and C_3 + h min(C_2, B) by IBN, with h = up(R_3 / 200) and
//!   B = 3 x m x buffer flits.

use crate::disagreement::{hex, Disagreement};
use crate::edits::writing_of;
use crate::figures::{
    changed, figure, typed, Fixed, Outside, DEADLINE, FLOWS, FLOW_2, FLOW_3, FLOW_5, FLOW_OUTSIDE, JITTER, P, PERIOD,
    PLATFORM_OUTSIDE,
};
use crate::law::Law;
use crate::model::{Number, Plan};
use crate::product::{call_writer, Lent, PlanNumbers};
use crate::random::Random;
use crate::reading::{plan_at, MOST_FLOWS};
use crate::written;

const FLITS: usize = 9;

/// A platform record, the bytes changed in P's flows behind it at their places in P, and lines that the text must have.
type Headed = (&'static str, Changes, &'static [&'static str]);
pub type Changes = &'static [(usize, &'static [u8])];

/// Flow 2's flits 0, which is outside their values.
const NO_FLITS: Changes = &[(FLOW_2 + FLITS, &[0, 0])];

/// Flow 3's period and deadline 400.
const FLOW_3_OFTEN: Changes = &[(FLOW_3 + PERIOD, &[0, 0, 1, 0x90, 0, 0, 1, 0x90])];

const HEADED: &[Headed] = &[
    // Two: C is 64, 206 and 134. Flow 3: 206, 334, 334, so h is 2 and A 128. W is 206, 206 + 2 x 64 and 206 + 2 x 30.
    (
        "01 0007 06 01 01 00 0A 01 02",
        &[],
        &[
            "mesh 6x1 link 1 route 0 buffer 10 method 1",
            "2 bounded 64 rounds 1",
            "3 bounded 334 rounds 2",
            "5 bounded 340 rounds 2",
        ],
    ),
    (
        "01 0007 06 01 01 00 0A 02 02",
        &[],
        &[
            "mesh 6x1 link 1 route 0 buffer 10 method 2",
            "2 bounded 64 rounds 1",
            "3 bounded 334 rounds 2",
            "5 bounded 468 rounds 2",
        ],
    ),
    (
        "01 0007 06 01 01 00 0A 00 02",
        &[],
        &[
            "mesh 6x1 link 1 route 0 buffer 10 method 3",
            "2 bounded 64 rounds 1",
            "3 bounded 334 rounds 2",
            "5 bounded 400 rounds 2",
        ],
    ),
    (
        "01 0007 06 01 01 00 0A 03 02",
        &[],
        &[
            "mesh 6x1 link 1 route 0 buffer 10 method 3",
            "2 bounded 64 rounds 1",
            "3 bounded 334 rounds 2",
            "5 bounded 400 rounds 2",
        ],
    ),
    // The same by no priority flits and flits of 62, 200 and 130.
    (
        "01 0006 06 01 01 00 0A 03",
        &[(FLOW_2 + FLITS, &[0, 62]), (FLOW_3 + FLITS, &[0, 200]), (FLOW_5 + FLITS, &[0, 130])],
        &["2 bounded 64 rounds 1", "3 bounded 334 rounds 2", "5 bounded 400 rounds 2"],
    ),
    // One: C is 63, 205 and 133. Flow 3: 205, 331, 331. W is 205, 205 + 2 x 63 and 205 + 2 x 30.
    (
        "01 0007 06 01 01 00 0A 01 01",
        &[],
        &["2 bounded 63 rounds 1", "3 bounded 331 rounds 2", "5 bounded 338 rounds 2"],
    ),
    (
        "01 0007 06 01 01 00 0A 02 01",
        &[],
        &["2 bounded 63 rounds 1", "3 bounded 331 rounds 2", "5 bounded 464 rounds 2"],
    ),
    (
        "01 0007 06 01 01 00 0A 00 01",
        &[],
        &["2 bounded 63 rounds 1", "3 bounded 331 rounds 2", "5 bounded 398 rounds 2"],
    ),
    (
        "01 0007 06 01 01 00 0A 03 01",
        &[],
        &["2 bounded 63 rounds 1", "3 bounded 331 rounds 2", "5 bounded 398 rounds 2"],
    ),
    // Eight: C is 70, 212 and 140. Flow 3: 212, 352, 352. W is 212, 212 + 2 x 70 and 212 + 2 x 30.
    (
        "01 0007 06 01 01 00 0A 01 08",
        &[],
        &["2 bounded 70 rounds 1", "3 bounded 352 rounds 2", "5 bounded 352 rounds 2"],
    ),
    (
        "01 0007 06 01 01 00 0A 02 08",
        &[],
        &["2 bounded 70 rounds 1", "3 bounded 352 rounds 2", "5 bounded 492 rounds 2"],
    ),
    (
        "01 0007 06 01 01 00 0A 00 08",
        &[],
        &["2 bounded 70 rounds 1", "3 bounded 352 rounds 2", "5 bounded 412 rounds 2"],
    ),
    (
        "01 0007 06 01 01 00 0A 03 08",
        &[],
        &["2 bounded 70 rounds 1", "3 bounded 352 rounds 2", "5 bounded 412 rounds 2"],
    ),
    // Two, and link cycles 2: C is 128, 412 and 268. Flow 3: 412, 796, 924, 1052, 1180, 1180, so h is 6 and A 768.
    // W is 412, 412 + 6 x 128 and, B being 60, 412 + 6 x 60.
    (
        "01 0007 06 01 02 00 0A 01 02",
        &[],
        &["2 bounded 128 rounds 1", "3 bounded 1180 rounds 5", "5 bounded 680 rounds 2"],
    ),
    (
        "01 0007 06 01 02 00 0A 02 02",
        &[],
        &["2 bounded 128 rounds 1", "3 bounded 1180 rounds 5", "5 bounded 1448 rounds 2"],
    ),
    (
        "01 0007 06 01 02 00 0A 03 02",
        &[],
        &["2 bounded 128 rounds 1", "3 bounded 1180 rounds 5", "5 bounded 1040 rounds 2"],
    ),
    // Two by IBN: B is 63 with 21 buffer flits, below C_2, and 66 with 22, above it.
    ("01 0007 06 01 01 00 15 03 02", &[], &["3 bounded 334 rounds 2", "5 bounded 466 rounds 2"]),
    ("01 0007 06 01 01 00 16 03 02", &[], &["3 bounded 334 rounds 2", "5 bounded 468 rounds 2"]),
    // Two, and flow 3's period and deadline 400. By SB flow 5 has x + 128: 134, 340, 546, 546; by XLWX x alone and
    // packets of 334: 134, 468, 802, 1136, 1136; by IBN x + 128 and packets of 266: 134, 400, 666, 666.
    ("01 0007 06 01 01 00 0A 01 02", FLOW_3_OFTEN, &["3 bounded 334 rounds 2", "5 bounded 546 rounds 3"]),
    ("01 0007 06 01 01 00 0A 02 02", FLOW_3_OFTEN, &["3 bounded 334 rounds 2", "5 bounded 1136 rounds 4"]),
    ("01 0007 06 01 01 00 0A 03 02", FLOW_3_OFTEN, &["3 bounded 334 rounds 2", "5 bounded 666 rounds 3"]),
    // Two, and flow 3's period and deadline such that 340 + 128 by SB, and 400 + 128 by IBN, just holds one packet; and
    // one less, so that it holds two.
    (
        "01 0007 06 01 01 00 0A 01 02",
        &[(FLOW_3 + PERIOD, &[0, 0, 1, 0xD4, 0, 0, 1, 0xD4])],
        &["3 bounded 334 rounds 2", "5 bounded 340 rounds 2"],
    ),
    (
        "01 0007 06 01 01 00 0A 01 02",
        &[(FLOW_3 + PERIOD, &[0, 0, 1, 0xD3, 0, 0, 1, 0xD3])],
        &["3 bounded 334 rounds 2", "5 bounded 546 rounds 3"],
    ),
    (
        "01 0007 06 01 01 00 0A 03 02",
        &[(FLOW_3 + PERIOD, &[0, 0, 2, 0x10, 0, 0, 2, 0x10])],
        &["3 bounded 334 rounds 2", "5 bounded 400 rounds 2"],
    ),
    (
        "01 0007 06 01 01 00 0A 03 02",
        &[(FLOW_3 + PERIOD, &[0, 0, 2, 0x0F, 0, 0, 2, 0x0F])],
        &["3 bounded 334 rounds 2", "5 bounded 666 rounds 3"],
    ),
    // Two: flow 3's bound just met by its deadline, and missed by one; C of flow 5 likewise.
    ("01 0007 06 01 01 00 0A 03 02", &[(FLOW_3 + DEADLINE, &[0, 0, 1, 0x4E])], &["3 bounded 334 rounds 2"]),
    ("01 0007 06 01 01 00 0A 03 02", &[(FLOW_3 + DEADLINE, &[0, 0, 1, 0x4D])], &["3 late rounds 1", "5 waits 3"]),
    ("01 0007 06 01 01 00 0A 03 02", &[(FLOW_5 + DEADLINE, &[0, 0, 0, 134])], &["5 late rounds 1"]),
    ("01 0007 06 01 01 00 0A 03 02", &[(FLOW_5 + DEADLINE, &[0, 0, 0, 133])], &["5 late rounds 0"]),
    // Two, and flow 2's jitter 136, which its 64 just meet. Flow 3 has x + 136: 206, 334, 398, 398, so h is 3, A is 192
    // and W 206 + 3 x 30. With 137 flow 2 is late.
    (
        "01 0007 06 01 01 00 0A 03 02",
        &[(FLOW_2 + JITTER, &[0, 0, 0, 136])],
        &["2 bounded 64 rounds 1", "3 bounded 398 rounds 3", "5 bounded 430 rounds 2"],
    ),
    (
        "01 0007 06 01 01 00 0A 03 02",
        &[(FLOW_2 + JITTER, &[0, 0, 0, 137])],
        &["2 late rounds 0", "3 waits 2", "5 waits 3"],
    ),
    // A seventh byte outside its values, alone and behind others that are.
    ("01 0007 06 01 01 00 0A 03 00", &[], &["refused 26 at 9"]),
    ("01 0007 06 01 01 00 0A 03 09", &[], &["refused 26 at 9"]),
    ("01 0007 06 01 01 00 0A 03 FF", &[], &["refused 26 at 9"]),
    ("01 0007 06 01 01 00 0A 04 00", &[], &["refused 25 at 8"]),
    ("01 0007 06 01 01 00 0A 04 09", &[], &["refused 25 at 8"]),
    ("01 0007 06 01 01 00 41 03 FF", &[], &["refused 24 at 7"]),
    ("01 0007 00 01 01 00 0A 03 09", &[], &["refused 20 at 3"]),
    // It comes before a fault of a flow.
    ("01 0007 06 01 01 00 0A 03 00", NO_FLITS, &["refused 26 at 9"]),
    ("01 0007 06 01 01 00 0A 03 02", NO_FLITS, &["refused 34 at 19"]),
    // Lengths that the record has not, and lengths that it has: 5 and 8, and 6 and 7 with 1 before them.
    ("01 0005 06 01 01 00 0A 03", &[], &["refused 3 at 1"]),
    ("01 0005 06 01 01 00 0A", &[], &["refused 3 at 1"]),
    ("01 0008 06 01 01 00 0A 03 02", &[], &["refused 3 at 1"]),
    ("01 0008 06 01 01 00 0A 03 02 02", &[], &["refused 3 at 1"]),
    ("01 0106 06 01 01 00 0A 03", &[], &["refused 3 at 1"]),
    ("01 0107 06 01 01 00 0A 03 02", &[], &["refused 3 at 1"]),
    // Length 6 before seven bytes: the seventh is a tag. As 02 it has the length 0200.
    ("01 0006 06 01 01 00 0A 03 01", &[], &["refused 4 at 9"]),
    ("01 0006 06 01 01 00 0A 03 02", &[], &["refused 3 at 10"]),
    ("01 0006 06 01 01 00 0A 03 08", &[], &["refused 2 at 9"]),
    // Length 7 before six: flow 2's tag is the seventh, and the record at 10 starts with its length.
    ("01 0007 06 01 01 00 0A 03", &[], &["refused 2 at 10"]),
];

/// A whole input, and the line that its text is.
type Alone = (&'static str, &'static str);

const ALONE: &[Alone] = &[
    // Cut in the header, before the seventh byte, behind it, and in the end record.
    ("01 00", "refused 1 at 0"),
    ("01 0007", "refused 1 at 0"),
    ("01 0007 06 01 01 00 0A 03", "refused 1 at 0"),
    ("01 0007 06 01 01 00 0A 03 02", "refused 1 at 10"),
    ("01 0007 06 01 01 00 0A 03 02 7F 00", "refused 1 at 10"),
    // 26 comes before a cut of what follows, and behind 3 nothing is looked at.
    ("01 0007 06 01 01 00 0A 03 00", "refused 26 at 9"),
    ("01 0007 06 01 01 00 0A 03 09", "refused 26 at 9"),
    ("01 0008 06 01 01 00 0A 03", "refused 3 at 1"),
    ("01 0005 06 01", "refused 3 at 1"),
    // No flows; then one byte more; then another platform.
    ("01 0007 06 01 01 00 0A 03 02 7F 0000", "mesh 6x1 link 1 route 0 buffer 10 method 3"),
    ("01 0007 06 01 01 00 0A 03 02 7F 0000 00", "refused 10 at 13"),
    ("01 0007 06 01 01 00 0A 03 02 01 0007 06 01 01 00 0A 03 02 7F 0000", "refused 4 at 10"),
    // The end record's tag as a seventh byte, and a seventh byte as a flow's tag, of length 7F00.
    ("01 0007 06 01 01 00 0A 03 7F 0000", "refused 26 at 9"),
    ("01 0006 06 01 01 00 0A 03 02 7F 0000", "refused 3 at 10"),
];

/// A plan, and lines that its text must have.
type Typed = (&'static str, &'static [&'static str]);

const TYPED: &[Typed] = &[
    // `mesh-5x3` of plans/ with three: link cycles are 2 and routing cycles 4, so each C grows by 6 and is 56, 36, 66
    // and 36. Flow 12 is direct for 11: 56 + 36 up((x + 10) / 300) has 56, 92, 92. Flow 11 is direct for 13, with
    // A = 36: 66 + 56 up((x + 20 + 36) / 500) has 66, 122, 122. Flow 13 is direct for 14: 36 + 66 = 102, which is above
    // 95 - 6. Flow 15 meets 14.
    (
        "01 0007 05 03 02 04 07 01 03
        02 0014 000B 0002 00 04 000A 000001F4 000001C2 00000014
        02 0014 000C 0001 03 09 0006 0000012C 000000C8 0000000A
        02 0014 000D 0005 01 0D 000F 000003E8 00000384 00000028
        02 0014 000E 0006 08 0D 0009 00000190 0000005F 00000006
        02 0014 000F 0009 07 0D 0005 00000320 000002BC 00000003
        7F 0000",
        &[
            "mesh 5x3 link 2 route 4 buffer 7 method 1",
            "11 bounded 92 rounds 2",
            "12 bounded 36 rounds 1",
            "13 bounded 122 rounds 2",
            "14 late rounds 1",
            "15 waits 14",
        ],
    ),
    // The most flits and the most priority flits: C is 16 x (65,535 + 8 + 2) + 16 x 2.
    (
        "01 0007 02 01 10 10 01 01 08 02 0014 0001 0001 00 01 FFFF 3B9ACA00 3B9ACA00 00000000 7F 0000",
        &["1 bounded 1048752 rounds 1"],
    ),
];

/// A platform record, how many flows stand behind it, how many bytes that makes, and the last line of the text.
type Crowd = (&'static str, u16, usize, &'static str);

const SIX: &str = "01 0006 06 01 01 00 0A 01";
const SEVEN: &str = "01 0007 06 01 01 00 0A 01 02";

/// Each flow has one flit and goes from 0 to 1, so C is 3, or 5 with two priority flits, and each delays the later ones
/// once.
const CROWDS: &[Crowd] = &[
    (SIX, 64, 1484, "63 bounded 192 rounds 2"),
    (SEVEN, 64, 1485, "63 bounded 320 rounds 2"),
    (SIX, 65, 1507, "refused 6 at 1481"),
    (SEVEN, 65, 1508, "refused 6 at 1482"),
];

/// P's numbers with these priority flits, the buffer's length, the number and the value that the writer returns, and
/// the platform record that it writes before P's flows.
type Written = (Number, usize, &'static str, &'static str);

const WRITTEN: &[Written] = &[
    (0, 100, "0 81", "01 0006 06 01 01 00 0A 03"),
    (0, 81, "0 81", "01 0006 06 01 01 00 0A 03"),
    (0, 80, "11 0", ""),
    (1, 100, "0 82", "01 0007 06 01 01 00 0A 03 01"),
    (1, 82, "0 82", "01 0007 06 01 01 00 0A 03 01"),
    (1, 81, "11 0", ""),
    (2, 100, "0 82", "01 0007 06 01 01 00 0A 03 02"),
    (8, 100, "0 82", "01 0007 06 01 01 00 0A 03 08"),
    (8, 81, "11 0", ""),
    (9, 100, "26 9", ""),
    (9, 0, "26 9", ""),
    (16, 100, "26 9", ""),
    (255, 100, "26 9", ""),
];

/// The numbers of P behind this platform record, with these changes, and the number and the place of their refusal.
type Refused = (&'static str, Changes, &'static str);

/// A seventh byte of 0 says that there is none: the flits are then refused where they stand without it.
const REFUSED: &[Refused] = &[
    ("01 0007 00 01 01 00 0A 03 09", &[], "20 3 "),
    ("01 0007 06 01 01 00 0A 04 09", &[], "25 8 "),
    ("01 0007 06 01 01 00 0A 04 00", &[], "25 8 "),
    ("01 0007 06 01 01 00 0A 03 09", NO_FLITS, "26 9 "),
    ("01 0007 06 01 01 00 0A 03 02", NO_FLITS, "34 19 "),
    ("01 0007 06 01 01 00 0A 03 00", NO_FLITS, "34 18 "),
];

/// The seventh byte outside its values, in the words of the other fields.
const SEVENTH_OUTSIDE: &[Outside] = &[(9, &[0], 26), (9, &[9], 26), (9, &[255], 26)];

/// P behind this platform record.
pub fn headed(platform: &str, changes: Changes) -> Vec<u8> {
    [typed(platform), changed(&typed(P), changes)[FLOW_2..].to_vec()].concat()
}

pub fn crowd(platform: &str, count: u16) -> Vec<u8> {
    let flow = |id: u16| format!("02 0014 {id:04X} {:04X} 00 01 0001 3B9ACA00 3B9ACA00 00000000", id + 1);
    let flows: String = (0..count).map(flow).collect();
    typed(&format!("{platform} {flows} 7F 0000"))
}

impl Fixed<'_> {
    /// The whole text is this line.
    fn alone(&mut self, bytes: &[u8], line: &str) -> Result<(), Disagreement> {
        let text = self.agree(bytes)?.text;
        figure(bytes, "a seventh byte", format!("{line}\n"), text)
    }

    fn crowd(&mut self, (platform, count, length, line): &Crowd) -> Result<(), Disagreement> {
        let bytes = crowd(platform, *count);
        figure(&bytes, "a crowd's bytes", length.to_string(), bytes.len().to_string())?;
        self.lines(&bytes, "a crowd", &[line])
    }

    /// The product writes what is typed, and what this program expects.
    fn writes(&mut self, plan: Plan, count: usize, length: usize, due: &str) -> Result<(), Disagreement> {
        let mut random = Random::of_writing(0, length as u64);
        let writing = writing_of(plan, count, &mut random);
        let mut buffer = Lent::holding(&vec![0; length], &mut random);
        let numbers = PlanNumbers::of(&writing.platform, &writing.places, count);
        let returned = call_writer(numbers, &mut buffer);
        let came = format!("{} {} {}", returned.number, returned.value, hex(buffer.inside()));
        figure(&[], "priority flits written", due.to_string(), came)?;
        written::compare(&writing, Law::WHOLE, &mut random, self.tally)
    }

    fn written(&mut self, (flits, length, returned, platform): &Written) -> Result<(), Disagreement> {
        let mut plan = plan_at(&typed(P), FLOWS);
        plan.platform.priority_flits = *flits;
        let mut bytes = if platform.is_empty() { Vec::new() } else { headed(platform, &[]) };
        bytes.resize(*length, 0);
        self.writes(plan, FLOWS, *length, &format!("{returned} {}", hex(&bytes)))
    }

    /// Each field of P behind a seventh byte is refused one place later.
    fn fields_outside_moved(&mut self) -> Result<(), Disagreement> {
        let plan = headed("01 0007 06 01 01 00 0A 03 02", &[]);
        for field in PLATFORM_OUTSIDE.iter().chain(SEVENTH_OUTSIDE) {
            self.outside(&plan, 0, *field)?;
        }
        for record in [FLOW_2, FLOW_3, FLOW_5] {
            for field in FLOW_OUTSIDE {
                self.outside(&plan, record + 1, *field)?;
            }
        }
        Ok(())
    }
}

pub fn check(fixed: &mut Fixed) -> Result<(), Disagreement> {
    for (platform, changes, lines) in HEADED {
        fixed.lines(&headed(platform, changes), "P behind another platform record", lines)?;
    }
    for (input, line) in ALONE {
        fixed.alone(&typed(input), line)?;
    }
    for (plan, lines) in TYPED {
        fixed.lines(&typed(plan), "a plan with priority flits", lines)?;
    }
    for crowd in CROWDS {
        fixed.crowd(crowd)?;
    }
    for row in WRITTEN {
        fixed.written(row)?;
    }
    for (platform, changes, due) in REFUSED {
        fixed.writes(plan_at(&headed(platform, changes), FLOWS), FLOWS, 0, due)?;
    }
    for (platform, due) in [(SIX, "6 1481 "), (SEVEN, "6 1482 ")] {
        fixed.writes(plan_at(&crowd(platform, 64), MOST_FLOWS), MOST_FLOWS + 1, 0, due)?;
    }
    fixed.fields_outside_moved()
}
