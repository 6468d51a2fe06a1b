//! Pairs and plans of L4 of document 02, worked out by hand: what two flows share where their routes turn, start and
//! end. The mesh has 5 columns and 4 rows, so node 0 is above 5, 10 and 15, and 5 to 9 stand in one row.

use crate::model::Number;

/// Columns and rows.
pub const MESH: [Number; 2] = [5, 4];

/// Two flows by source and destination: how many links they share, the first's place on the one and on the other.
pub type Corner = ([Number; 2], [Number; 2], [usize; 3]);

pub const PAIRS: &[Corner] = &[
    // One source: opposite ways in the row, along the row and the column, opposite ways in the column.
    ([7, 9], [7, 5], [1, 0, 0]),
    ([7, 9], [7, 17], [1, 0, 0]),
    ([7, 2], [7, 17], [1, 0, 0]),
    // One destination: opposite ways in the column, opposite ways in the row, by the row and by the column.
    ([0, 7], [19, 7], [1, 4, 5]),
    ([5, 7], [8, 7], [1, 3, 2]),
    ([5, 7], [2, 7], [1, 3, 2]),
    // Opposite ways over the same hops.
    ([5, 9], [9, 5], [0, 0, 0]),
    ([1, 16], [16, 1], [0, 0, 0]),
    // The same way, one behind the other: they meet in a node, or do not.
    ([5, 7], [7, 9], [0, 0, 0]),
    ([1, 6], [6, 16], [0, 0, 0]),
    ([5, 6], [8, 9], [0, 0, 0]),
    ([1, 6], [11, 16], [0, 0, 0]),
    // The same way side by side.
    ([5, 9], [10, 14], [0, 0, 0]),
    ([0, 15], [1, 16], [0, 0, 0]),
    // Hops of the row alone: 7 to 8; 8 to 7 to 6; and 6 to 7, from where one goes up and the other down.
    ([5, 8], [7, 9], [1, 3, 1]),
    ([9, 6], [8, 5], [2, 2, 1]),
    ([5, 2], [6, 17], [1, 2, 1]),
    // Hops of the column alone, after two hops of the row and after one: 6 to 11, and 11 to 6.
    ([3, 11], [5, 16], [1, 4, 2]),
    ([18, 6], [10, 1], [1, 4, 2]),
    // From other rows into one column, and from both sides of one row.
    ([0, 12], [9, 12], [2, 4, 3]),
    ([5, 17], [9, 17], [3, 3, 3]),
    // Over the turn, from place 2 of the one and 1 of the other: 1, 2, 7, 12, and 18, 17, 12, 7.
    ([0, 17], [1, 12], [3, 2, 1]),
    ([19, 2], [18, 7], [3, 2, 1]),
    // From the turn on, where the other flow starts.
    ([0, 17], [2, 12], [2, 3, 1]),
    // From the source up to the turn of the one, and the whole route.
    ([0, 12], [0, 3], [3, 0, 0]),
    ([0, 12], [0, 12], [6, 0, 0]),
];

/// A plan, and what its flows' lines are by some methods.
pub type Turned = (&'static str, &'static [(u8, &'static [&'static str])]);

/// C is 15, 20 and 16; flow 1 is upstream for (3, 2) and shares nothing with 3.
/// Flow 2: 20 + 15 up(x / 50) has 20, 35, 35.
/// Flow 3: A = 15 and W = 20 by every method, so 16 + 20 up((x + 15) / 50) has 16, 36, 56, 56.
const UPSTREAM: &[(u8, &[&str])] = &[
    (2, &["1 bounded 15 rounds 1", "2 bounded 35 rounds 2", "3 bounded 56 rounds 3"]),
    (3, &["2 bounded 35 rounds 2", "3 bounded 56 rounds 3"]),
    (1, &["2 bounded 35 rounds 2", "3 bounded 56 rounds 3"]),
];

pub const PLANS: &[Turned] = &[
    // C is 10, 20, 30, 40 and 20. Flow 4 goes 0, 1, 2, 7, 12, 17, with places 1 to 5 of its hops. It shares 1 to 2 with
    // flow 1 at place 2, 2 to 7 with flow 2 at place 3, the ejection at place 6 with flow 3, which comes along the row,
    // and 7 to 12 with flow 5 at place 4. So 1 and 2 are upstream for (5, 4), which place 4 less two row hops would
    // hide for 1, and the places on their own routes, 3 of 2 and 3 of 5, for 2; and 3 is downstream.
    // Flow 4: 40 + 10 up(x / 80) + 20 up(x / 150) + 30 up(x / 90) has 40, 100, 140, 140. Hits on it: 2, 1, 2.
    // Flow 5, 20 + W up((x + A) / 150): by XLWX A = 2 x 10 + 20 and W = 40 + 2 x 30, so 20, 120, 220, 220;
    // by IBN A = 100, B = 4 and W = 48, so 20, 68, 116, 116; by SB W = 40, so 20, 60, 100, 100.
    (
        "01 0006 05 04 01 00 04 02
        02 0014 0001 0001 01 03 0007 00000050 00000050 00000000
        02 0014 0002 0002 04 07 0010 00000096 00000096 00000000
        02 0014 0003 0003 13 11 001B 0000005A 0000005A 00000000
        02 0014 0004 0004 00 11 0022 00000096 00000096 00000000
        02 0014 0005 0005 09 0C 0010 000003E8 000003E8 00000000
        7F 0000",
        &[
            (
                2,
                &[
                    "1 bounded 10 rounds 1",
                    "2 bounded 20 rounds 1",
                    "3 bounded 30 rounds 1",
                    "4 bounded 140 rounds 3",
                    "5 bounded 220 rounds 3",
                ],
            ),
            (3, &["4 bounded 140 rounds 3", "5 bounded 116 rounds 3"]),
            (1, &["4 bounded 140 rounds 3", "5 bounded 100 rounds 3"]),
        ],
    ),
    // C is 10, 30, 40 and 20. Flow 3 goes as flow 4 did. Flow 4 starts at its turn, 2, 7, 12: they share two links, at
    // place 3 and 1. Flow 1 shares 1 to 2 as before, at place 2 and 1: upstream. Flow 2 comes from 13 and shares 12 to
    // 17 and the ejection, at place 5 and 2: downstream.
    // Flow 3: 40 + 10 up(x / 70) + 30 up(x / 90) has 40, 80, 90, 90. Hits on it: 2, and 1 at the exact multiple.
    // Flow 4, 20 + W up((x + A) / 100): by XLWX A = 20 and W = 70, so 20, 90, 160, 160; by IBN A = 50, B = 4 x 2 and
    // W = 48, so 20, 68, 116, 116; by SB W = 40, so 20, 60, 100, 100.
    (
        "01 0006 05 04 01 00 04 02
        02 0014 0001 0001 01 03 0007 00000046 00000046 00000000
        02 0014 0002 0002 0D 11 001B 0000005A 0000005A 00000000
        02 0014 0003 0003 00 11 0022 00000064 00000064 00000000
        02 0014 0004 0004 02 0C 0011 000003E8 000003E8 00000000
        7F 0000",
        &[
            (2, &["3 bounded 90 rounds 3", "4 bounded 160 rounds 3"]),
            (3, &["3 bounded 90 rounds 3", "4 bounded 116 rounds 3"]),
            (1, &["3 bounded 90 rounds 3", "4 bounded 100 rounds 3"]),
        ],
    ),
    // Link cycles 3, routing cycles 1: C is 27, 27, 38, 40, 54 and 34. Flow 5 goes 19, 18, 17, 12, 7, 2 and flow 6 with
    // it over the turn, 18, 17, 12, 7: three links, at place 2 and 1. Flows 1 and 2 go against them, 17, 18, 19 and 2,
    // 7, 12, and share no link. Flow 3 shares the injection alone with 5: upstream. Flow 4 comes from 9 along the row
    // and shares 7 to 2 and the ejection with 5, at place 5 and 3: downstream.
    // Flow 5: 54 + 38 up(x / 200) + 40 up(x / 100) has 54, 132, 172, 172. Hits on it: 1 and 2.
    // Flow 6, 34 + W up((x + A) / 240): by IBN A = 118, B = 2 x 3 x 3 and W = 54 + 2 x 18, so 34, 124, 214, 214; by
    // XLWX A = 38 and W = 134, so 34, 168, 168; by SB A = 118 and W = 54, so 34, 88, 88.
    (
        "01 0006 05 04 03 01 02 03
        02 0014 0001 0001 11 13 0005 00000064 00000064 00000000
        02 0014 0002 0002 02 0C 0005 00000064 00000064 00000000
        02 0014 0003 0003 13 0E 000A 000000C8 000000C8 00000000
        02 0014 0004 0004 09 02 0008 00000064 00000064 00000000
        02 0014 0005 0005 13 02 000A 000000F0 000000F0 00000000
        02 0014 0006 0006 12 07 0006 000003E8 000003E8 00000000
        7F 0000",
        &[
            (
                3,
                &[
                    "1 bounded 27 rounds 1",
                    "2 bounded 27 rounds 1",
                    "3 bounded 38 rounds 1",
                    "4 bounded 40 rounds 1",
                    "5 bounded 172 rounds 3",
                    "6 bounded 214 rounds 3",
                ],
            ),
            (2, &["5 bounded 172 rounds 3", "6 bounded 168 rounds 2"]),
            (1, &["5 bounded 172 rounds 3", "6 bounded 88 rounds 2"]),
        ],
    ),
    // C is 10, 20, 30, 15 and 10. Flow 3 goes 7, 6, 5, 10, 15. It shares the injection alone with flow 1, which goes up
    // from 7; 7 to 6 with flow 2, which has come from 9, at place 1 and 3; 6, 5, 10 with flow 4, which starts there, at
    // place 2 and 1; and 7 to 6 with flow 5. So 1 and 2 are upstream for (4, 3), and 1 for (5, 3), next to it.
    // Flow 3: 30 + 10 up(x / 100) + 20 up(x / 100) has 30, 60, 60. Hits on it: 1 and 1.
    // Flow 4: A = 30 and W = 30 by every method, so up((x + 30) / 70) gives 15, 45, 75, 75.
    // Flow 5, 10 + 30 up((x + A) / 70) + 20 up(x / 100), as flow 2 is direct too: by XLWX A = 10, so 10, 60, 60, with
    // 70 exactly one packet; by the others A = 30, so 10, 60, 90, 90.
    (
        "01 0006 05 04 01 00 03 02
        02 0014 0001 0001 07 02 0008 00000064 00000064 00000000
        02 0014 0002 0002 09 06 0010 00000064 00000064 00000000
        02 0014 0003 0003 07 0F 0019 00000046 00000046 00000000
        02 0014 0004 0004 06 0A 000C 000003E8 000003E8 00000000
        02 0014 0005 0005 08 06 0007 000003E8 000003E8 00000000
        7F 0000",
        &[
            (2, &["3 bounded 60 rounds 2", "4 bounded 75 rounds 3", "5 bounded 60 rounds 2"]),
            (3, &["3 bounded 60 rounds 2", "4 bounded 75 rounds 3", "5 bounded 90 rounds 3"]),
            (1, &["3 bounded 60 rounds 2", "4 bounded 75 rounds 3", "5 bounded 90 rounds 3"]),
        ],
    ),
    // Link cycles 2: C is 40, 30, 20, 20 and 20. Flow 2 goes 6, 7, 8, 9, 14, 19; flow 1 comes to 19 along the row and
    // shares the ejection alone with it: downstream for all. Flow 3 goes 6, 7, 8 and shares three links with 2, the
    // injection among them; flow 4 goes 5, 6, 7 and shares 6 to 7, at place 1 and 2, with 2 and with 3; flow 5 goes 4,
    // 9, 14 and shares 9 to 14 with 2, at place 4 and 2.
    // Flow 2: 30 + 40 up(x / 100) has 30, 70, 70. One hit on it. By IBN A = 40 and B = 2 x 1 x 3, 2 and 2.
    // Flow 3, by IBN 20 + 36 up((x + 40) / 100): 20, 56, 56; by XLWX A = 0 and W = 70: 20, 90, 90; by SB 20, 50, 50.
    // Flow 4, by IBN 20 + 32 up((x + 40) / 100) + 20 up((x + 36) / 300): 20, 72, 104, 104; by XLWX 20 + 70 up(x / 100)
    // + 20 up(x / 300): 20, 110, 180, 180; by SB with 30, and 30 for 36: 20, 70, 100, 100.
    // Flow 5, by IBN 20 + 32 up((x + 40) / 100): 20, 52, 52; else as flow 3.
    (
        "01 0006 05 04 02 00 01 03
        02 0014 0001 0001 12 13 0012 00000064 00000064 00000000
        02 0014 0002 0002 06 13 0009 00000064 00000064 00000000
        02 0014 0003 0003 06 08 0007 0000012C 0000012C 00000000
        02 0014 0004 0004 05 07 0007 000003E8 000003E8 00000000
        02 0014 0005 0005 04 0E 0007 000003E8 000003E8 00000000
        7F 0000",
        &[
            (
                3,
                &[
                    "1 bounded 40 rounds 1",
                    "2 bounded 70 rounds 2",
                    "3 bounded 56 rounds 2",
                    "4 bounded 104 rounds 3",
                    "5 bounded 52 rounds 2",
                ],
            ),
            (2, &["3 bounded 90 rounds 2", "4 bounded 180 rounds 3", "5 bounded 90 rounds 2"]),
            (1, &["3 bounded 50 rounds 2", "4 bounded 100 rounds 3", "5 bounded 50 rounds 2"]),
        ],
    ),
    // Flow 2 goes 0, 1, 2, 7; flow 3 comes up to 7 from 12 and shares the ejection alone with it, at place 4 and 2.
    // Flow 1 goes 2, 7, 12 against flow 3 and shares 2 to 7 with flow 2, at place 3. Link cycles 2, routing cycles 1.
    (
        "01 0006 05 04 02 01 08 02
        02 0014 0001 0001 02 0C 0003 00000032 00000032 00000000
        02 0014 0002 0002 00 07 0004 00000032 00000032 00000000
        02 0014 0003 0003 0C 07 0005 000003E8 000003E8 00000000
        7F 0000",
        UPSTREAM,
    ),
    // Flow 2 goes 8, 7, 6, 11, 16; flow 1 goes 7, 6, 1 and shares the last hop before the turn with it, flow 3 goes 1,
    // 6, 11 and shares the first behind it.
    (
        "01 0006 05 04 01 00 08 02
        02 0014 0001 0001 07 01 000C 00000032 00000032 00000000
        02 0014 0002 0002 08 10 000F 00000032 00000032 00000000
        02 0014 0003 0003 01 0B 000D 000003E8 000003E8 00000000
        7F 0000",
        UPSTREAM,
    ),
    // Flow 2 goes 13, 12, 11, 6, 1; flow 1 goes 16, 11, 6, from a row before it, and shares 11 to 6; flow 3 goes 5, 6,
    // 1.
    (
        "01 0006 05 04 01 00 08 02
        02 0014 0001 0001 10 06 000C 00000032 00000032 00000000
        02 0014 0002 0002 0D 01 000F 00000032 00000032 00000000
        02 0014 0003 0003 05 01 000D 000003E8 000003E8 00000000
        7F 0000",
        UPSTREAM,
    ),
    // Flow 2 goes 13, 12, 11, 6; flow 1 goes 16, 11, 6, 1 and shares 11 to 6; flow 3 goes 5, 6 and shares the ejection.
    (
        "01 0006 05 04 01 00 08 02
        02 0014 0001 0001 10 01 000B 00000032 00000032 00000000
        02 0014 0002 0002 0D 06 0010 00000032 00000032 00000000
        02 0014 0003 0003 05 06 000E 000003E8 000003E8 00000000
        7F 0000",
        UPSTREAM,
    ),
];
