//! Rows of L3 of document 02, worked out by hand: plan P, whose flows have no jitter, with some. In P, C is 62, 204 and
//! 132; flow 2 is direct for 3, flow 3 for 5, and 2 is downstream for (5, 3). So by document 01
//!   flow 3 has 204 + 62 n_2, with n_2(x) = up((x + jitter_2) / 200);
//!   flow 5 has 132 + 204 n_3 by SB, 132 + (204 + 62 h) n_3 by XLWX and 132 + (204 + 30 h) n_3 by IBN, with
//!   h = up((R_3 + jitter_2) / 200) and n_3(x) = up((x + jitter_3 + A) / 4000), A being R_3 - 204, and 0 by XLWX.

use crate::figures::{Row, DEADLINE, FLOW_2, FLOW_3, FLOW_5, JITTER, METHOD, PERIOD};

/// A jitter of 1,000,000,000.
const LARGEST: &[u8] = &[0x3B, 0x9A, 0xCA, 0x00];

/// Flow 3's period and deadline 400 and its jitter 72, which its bound of 328 just meets.
const FLOW_3_JUST_MET: &[u8] = &[0, 0, 1, 0x90, 0, 0, 1, 0x90, 0, 0, 0, 72];

pub const TICK_ROWS: &[Row] = &[
    // Flow 3, bound 328: with 3,672 just met. Flow 5 has x + 3,796 in its windows: 132, 396, 660, 660.
    (
        &[(FLOW_3 + JITTER, &[0, 0, 0x0E, 0x58])],
        &["2 bounded 62 rounds 1", "3 bounded 328 rounds 2", "5 bounded 660 rounds 3"],
    ),
    // With 3,673 missed by one.
    (&[(FLOW_3 + JITTER, &[0, 0, 0x0E, 0x59])], &["2 bounded 62 rounds 1", "3 late rounds 1", "5 waits 3"]),
    // With 3,796 C itself is just met, and the first round passes it; with 3,797 C is not, and there is no round.
    (&[(FLOW_3 + JITTER, &[0, 0, 0x0E, 0xD4])], &["3 late rounds 1", "5 waits 3"]),
    (&[(FLOW_3 + JITTER, &[0, 0, 0x0E, 0xD5])], &["3 late rounds 0", "5 waits 3"]),
    // Equal to the deadline, one above it, and the largest.
    (&[(FLOW_3 + JITTER, &[0, 0, 0x0F, 0xA0])], &["3 late rounds 0", "5 waits 3"]),
    (&[(FLOW_3 + JITTER, &[0, 0, 0x0F, 0xA1])], &["3 late rounds 0", "5 waits 3"]),
    (&[(FLOW_3 + JITTER, LARGEST)], &["2 bounded 62 rounds 1", "3 late rounds 0", "5 waits 3"]),
    // Deadline 428 with jitter 100, and one less; and 328 with jitter 1, which without it is met.
    (&[(FLOW_3 + DEADLINE, &[0, 0, 1, 0xAC, 0, 0, 0, 100])], &["3 bounded 328 rounds 2", "5 bounded 396 rounds 2"]),
    (&[(FLOW_3 + DEADLINE, &[0, 0, 1, 0xAB, 0, 0, 0, 100])], &["3 late rounds 1", "5 waits 3"]),
    (&[(FLOW_3 + DEADLINE, &[0, 0, 1, 0x48, 0, 0, 0, 1])], &["3 late rounds 1", "5 waits 3"]),
    // Period and deadline 400. By SB flow 5 has x + 196: 132, 336, 540, 540; by XLWX x + 72 and packets of 328: 132,
    // 460, 788, 1116, 1116; by IBN x + 196 and packets of 264: 132, 396, 660, 924, 924.
    (&[(FLOW_3 + PERIOD, FLOW_3_JUST_MET), (METHOD, &[1])], &["3 bounded 328 rounds 2", "5 bounded 540 rounds 3"]),
    (&[(FLOW_3 + PERIOD, FLOW_3_JUST_MET), (METHOD, &[2])], &["3 bounded 328 rounds 2", "5 bounded 1116 rounds 4"]),
    (&[(FLOW_3 + PERIOD, FLOW_3_JUST_MET), (METHOD, &[0])], &["3 bounded 328 rounds 2", "5 bounded 924 rounds 4"]),
    (&[(FLOW_3 + PERIOD, FLOW_3_JUST_MET)], &["3 bounded 328 rounds 2", "5 bounded 924 rounds 4"]),
    (&[(FLOW_3 + PERIOD, &[0, 0, 1, 0x90, 0, 0, 1, 0x90, 0, 0, 0, 73])], &["3 late rounds 1", "5 waits 3"]),
    // Then flow 5 with deadline 1,000: by 76 its 924 are just met, by 77 not; by 340 its 660, by 341 not.
    (
        &[(FLOW_3 + PERIOD, FLOW_3_JUST_MET), (FLOW_5 + DEADLINE, &[0, 0, 3, 0xE8, 0, 0, 0, 76])],
        &["3 bounded 328 rounds 2", "5 bounded 924 rounds 4"],
    ),
    (&[(FLOW_3 + PERIOD, FLOW_3_JUST_MET), (FLOW_5 + DEADLINE, &[0, 0, 3, 0xE8, 0, 0, 0, 77])], &["5 late rounds 3"]),
    (&[(FLOW_3 + PERIOD, FLOW_3_JUST_MET), (FLOW_5 + DEADLINE, &[0, 0, 3, 0xE8, 0, 0, 1, 84])], &["5 late rounds 3"]),
    (&[(FLOW_3 + PERIOD, FLOW_3_JUST_MET), (FLOW_5 + DEADLINE, &[0, 0, 3, 0xE8, 0, 0, 1, 85])], &["5 late rounds 2"]),
    // Flow 2, C 62 and nothing delays it: just met by 138. Flow 3 has x + 138: 204, 328, 390, 390, and h is 3.
    (
        &[(FLOW_2 + JITTER, &[0, 0, 0, 138])],
        &["2 bounded 62 rounds 1", "3 bounded 390 rounds 3", "5 bounded 426 rounds 2"],
    ),
    (&[(FLOW_2 + JITTER, &[0, 0, 0, 138]), (METHOD, &[1])], &["3 bounded 390 rounds 3", "5 bounded 336 rounds 2"]),
    (&[(FLOW_2 + JITTER, &[0, 0, 0, 138]), (METHOD, &[2])], &["3 bounded 390 rounds 3", "5 bounded 522 rounds 2"]),
    (&[(FLOW_2 + JITTER, &[0, 0, 0, 139])], &["2 late rounds 0", "3 waits 2", "5 waits 3"]),
    (&[(FLOW_2 + JITTER, &[0, 0, 0, 200])], &["2 late rounds 0", "3 waits 2", "5 waits 3"]),
    (&[(FLOW_2 + JITTER, LARGEST)], &["2 late rounds 0", "3 waits 2", "5 waits 3"]),
    // No deadline is near. Flow 2's jitter is in the windows of flow 3 as before: 328 + 72 has two packets, 328 + 73
    // three.
    (
        &[(FLOW_2 + JITTER, &[0, 0, 0, 72])],
        &["2 bounded 62 rounds 1", "3 bounded 328 rounds 2", "5 bounded 396 rounds 2"],
    ),
    (
        &[(FLOW_2 + JITTER, &[0, 0, 0, 73])],
        &["2 bounded 62 rounds 1", "3 bounded 390 rounds 3", "5 bounded 426 rounds 2"],
    ),
    // Flow 5, bound 396: just met and missed; then C just met and missed; then the deadline, above it, and the largest.
    (&[(FLOW_5 + JITTER, &[0, 0, 0x15, 0xE4])], &["3 bounded 328 rounds 2", "5 bounded 396 rounds 2"]),
    (&[(FLOW_5 + JITTER, &[0, 0, 0x15, 0xE5])], &["3 bounded 328 rounds 2", "5 late rounds 1"]),
    (&[(FLOW_5 + JITTER, &[0, 0, 0x16, 0xEC])], &["3 bounded 328 rounds 2", "5 late rounds 1"]),
    (&[(FLOW_5 + JITTER, &[0, 0, 0x16, 0xED])], &["3 bounded 328 rounds 2", "5 late rounds 0"]),
    (&[(FLOW_5 + JITTER, &[0, 0, 0x17, 0x70])], &["3 bounded 328 rounds 2", "5 late rounds 0"]),
    (&[(FLOW_5 + JITTER, &[0, 0, 0x17, 0x71])], &["3 bounded 328 rounds 2", "5 late rounds 0"]),
    (&[(FLOW_5 + JITTER, LARGEST)], &["3 bounded 328 rounds 2", "5 late rounds 0"]),
    // Its 336 by SB and its 460 by XLWX, just met and missed.
    (&[(FLOW_5 + JITTER, &[0, 0, 0x16, 0x20]), (METHOD, &[1])], &["5 bounded 336 rounds 2"]),
    (&[(FLOW_5 + JITTER, &[0, 0, 0x16, 0x21]), (METHOD, &[1])], &["5 late rounds 1"]),
    (&[(FLOW_5 + JITTER, &[0, 0, 0x15, 0xA4]), (METHOD, &[2])], &["5 bounded 460 rounds 2"]),
    (&[(FLOW_5 + JITTER, &[0, 0, 0x15, 0xA5]), (METHOD, &[2])], &["5 late rounds 1"]),
    // Waits comes first: flow 5 by 6,000, 6,001 and the largest, and flow 3 by 4,001.
    (
        &[(FLOW_3 + JITTER, &[0, 0, 0x0E, 0x59]), (FLOW_5 + JITTER, &[0, 0, 0x17, 0x70])],
        &["3 late rounds 1", "5 waits 3"],
    ),
    (
        &[(FLOW_3 + DEADLINE, &[0, 0, 1, 0x47]), (FLOW_5 + JITTER, &[0, 0, 0x17, 0x71])],
        &["3 late rounds 1", "5 waits 3"],
    ),
    (&[(FLOW_3 + JITTER, LARGEST), (FLOW_5 + JITTER, LARGEST)], &["3 late rounds 0", "5 waits 3"]),
    (
        &[(FLOW_2 + JITTER, &[0, 0, 0, 201]), (FLOW_3 + JITTER, &[0, 0, 0x0F, 0xA1])],
        &["2 late rounds 0", "3 waits 2", "5 waits 3"],
    ),
];

/// A plan up to its last flow's jitter, and jitters that complete it, each with the last flow's line.
pub type Large = (&'static str, &'static [(u32, &'static str)]);

/// Plans of large numbers, each typed once: its cases differ in the last flow's jitter alone.
pub const LARGE: &[Large] = &[
    // Late after very many rounds: x is 4 + 6k after k rounds. With a jitter of 1,000,000 it may not pass 2,000,000;
    // with 2,999,996 not 4, which is C; with one more there is no round.
    (
        "01 0006 02 01 01 00 01 01
        02 0014 0001 0001 00 01 0001 00000003 00000003 00000000
        02 0014 0002 0002 00 01 0002 3B9ACA00 002DC6C0",
        &[
            (0, "2 late rounds 500000"),
            (1_000_000, "2 late rounds 333333"),
            (2_999_996, "2 late rounds 1"),
            (2_999_997, "2 late rounds 0"),
        ],
    ),
    // Bounded after very many rounds: x is 30,002 (k + 1), until k = 30,002, and one round more changes nothing. The
    // bound is just met with 99,849,994; with one more the round that reaches it is the last.
    (
        "01 0006 02 01 01 00 01 01
        02 0014 0001 0001 00 01 7530 00007533 00007533 00000000
        02 0014 0002 0002 00 01 7530 3B9ACA00 3B9ACA00",
        &[
            (0, "2 bounded 900150006 rounds 30003"),
            (99_849_994, "2 bounded 900150006 rounds 30003"),
            (99_849_995, "2 late rounds 30002"),
        ],
    ),
    // C is 3 and the deadline 1,000,000,000: just met with 999,999,997.
    (
        "01 0006 02 01 01 00 01 01 02 0014 0001 0001 00 01 0001 3B9ACA00 3B9ACA00",
        &[(999_999_997, "1 bounded 3 rounds 1"), (999_999_998, "1 late rounds 0")],
    ),
    // Behind that flow, x is 4 and then 10, by two packets in x + 999,999,997: just met with 999,999,990.
    (
        "01 0006 02 01 01 00 01 01
        02 0014 0001 0001 00 01 0001 3B9ACA00 3B9ACA00 3B9AC9FD
        02 0014 0002 0002 00 01 0002 3B9ACA00 3B9ACA00",
        &[(999_999_990, "2 bounded 10 rounds 2"), (999_999_991, "2 late rounds 1")],
    ),
];
