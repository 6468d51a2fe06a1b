//! The fixed list: plan P with its reply and text, every row of "Figures to meet", typed from document 01, every
//! refusal of a field, typed from L2 of document 02, the rows of L3, the corners of L4, and the rows of L6 and L7.

use crate::answer::Expected;
use crate::compare::Trial;
use crate::converted::{self, Converted};
use crate::corners::{Corner, Turned, MESH, PAIRS, PLANS};
use crate::disagreement::{agree, hex, Disagreement};
use crate::edits::writing_of;
use crate::law::Law;
use crate::model::{Flow, Number, Plan, Platform};
use crate::priority_flits;
use crate::product::{call_library, Lent};
use crate::random::Random;
use crate::reading::plan_at;
use crate::rules::Analysis;
use crate::stored;
use crate::tally::Tally;
use crate::ticks::{Large, LARGE, TICK_ROWS};
use crate::written::{self, give_back};

pub const P: &str = "01 0006 06 01 01 00 0A 03
    02 0014 0002 0001 04 05 003C 000000C8 000000C8 00000000
    02 0014 0003 0002 00 05 00C6 00000FA0 00000FA0 00000000
    02 0014 0005 0003 01 04 0080 00001770 00001770 00000000
    7F 0000";

const P_REPLY: &str = "81 000D 0002 00 FFFF 0000003E 00000001
    81 000D 0003 00 FFFF 00000148 00000002
    81 000D 0005 00 FFFF 0000018C 00000002
    7F 0000";

const P_TEXT: &str = "mesh 6x1 link 1 route 0 buffer 10 method 3
2 bounded 62 rounds 1
3 bounded 328 rounds 2
5 bounded 396 rounds 2
";

/// Places in P: of its records, of the platform's fields, and of a flow's fields in its record.
const PLATFORM: usize = 0;
const BUFFER: usize = 7;
pub const METHOD: usize = 8;
pub const FLOW_2: usize = 9;
pub const FLOW_3: usize = 32;
pub const FLOW_5: usize = 55;
pub const FLOWS: usize = 3;
pub const END: usize = 78;
pub const SOURCE: usize = 7;
pub const PERIOD: usize = 11;
pub const DEADLINE: usize = 15;
pub const JITTER: usize = 19;

/// The bytes changed in P, and lines that the text must have.
pub type Row = (&'static [(usize, &'static [u8])], &'static [&'static str]);

const ROWS: &[Row] = &[
    (&[], &["2 bounded 62 rounds 1", "3 bounded 328 rounds 2", "5 bounded 396 rounds 2"]),
    (&[(METHOD, &[1])], &["5 bounded 336 rounds 2"]),
    (&[(METHOD, &[2])], &["5 bounded 460 rounds 2"]),
    (&[(METHOD, &[0])], &["5 bounded 396 rounds 2", "mesh 6x1 link 1 route 0 buffer 10 method 3"]),
    (&[(BUFFER, &[2])], &["5 bounded 348 rounds 2"]),
    (&[(FLOW_3 + DEADLINE, &[0, 0, 1, 0x48])], &["3 bounded 328 rounds 2"]),
    (&[(FLOW_3 + DEADLINE, &[0, 0, 1, 0x47])], &["3 late rounds 1", "5 waits 3"]),
    (&[(FLOW_3 + PERIOD, &[0, 0, 1, 0x90, 0, 0, 1, 0x90]), (METHOD, &[1])], &["5 bounded 540 rounds 3"]),
    (&[(FLOW_3 + PERIOD, &[0, 0, 1, 0x90, 0, 0, 1, 0x90]), (METHOD, &[2])], &["5 bounded 788 rounds 3"]),
    (&[(FLOW_3 + PERIOD, &[0, 0, 1, 0x90, 0, 0, 1, 0x90]), (METHOD, &[3])], &["5 bounded 660 rounds 3"]),
    (&[(FLOW_5 + DEADLINE, &[0, 0, 1, 0x4F]), (METHOD, &[1])], &["5 late rounds 1"]),
    (&[(FLOW_5 + DEADLINE, &[0, 0, 0, 0x83])], &["5 late rounds 0"]),
    (&[(FLOW_2 + SOURCE, &[0, 1]), (METHOD, &[0])], &["5 bounded 336 rounds 2"]),
    (&[(FLOW_2 + SOURCE, &[0, 1]), (METHOD, &[1])], &["5 bounded 336 rounds 2"]),
    (&[(FLOW_2 + SOURCE, &[0, 1]), (METHOD, &[2])], &["5 bounded 336 rounds 2"]),
    (&[(FLOW_2 + SOURCE, &[0, 1]), (METHOD, &[3])], &["5 bounded 336 rounds 2"]),
    (&[(BUFFER, &[65])], &["refused 24 at 7"]),
];

/// A field outside its values: its offset in the record, its bytes, and the refusal.
pub type Outside = (usize, &'static [u8], u8);

pub const PLATFORM_OUTSIDE: &[Outside] = &[
    (3, &[0], 20),
    (3, &[9], 20),
    (4, &[0], 21),
    (4, &[9], 21),
    (5, &[0], 22),
    (5, &[17], 22),
    (6, &[17], 23),
    (7, &[0], 24),
    (7, &[65], 24),
    (8, &[4], 25),
];

/// P has six nodes; 6,001 is above the period of each of its flows, and just above the third's.
pub const FLOW_OUTSIDE: &[Outside] = &[
    (3, &[0xFF, 0xFF], 30),
    (5, &[0, 0], 31),
    (7, &[6], 32),
    (8, &[6], 33),
    (9, &[0, 0], 34),
    (11, &[0, 0, 0, 0], 35),
    (11, &[0x3B, 0x9A, 0xCA, 0x01], 35),
    (15, &[0, 0, 0, 0], 36),
    (19, &[0x3B, 0x9A, 0xCA, 0x01], 37),
    (15, &[0, 0, 0x17, 0x71], 38),
    (15, &[0xFF, 0xFF, 0xFF, 0xFF], 38),
];

pub fn from_hex(text: &str) -> Option<Vec<u8>> {
    let digits: Option<Vec<u32>> = text.chars().filter(|c| !c.is_whitespace()).map(|c| c.to_digit(16)).collect();
    let digits = digits?;
    let whole = digits.len() % 2 == 0;
    whole.then(|| digits.chunks(2).map(|pair| (16 * pair[0] + pair[1]) as u8).collect())
}

pub fn typed(text: &str) -> Vec<u8> {
    from_hex(text).expect("the document's bytes are typed in hex")
}

/// The plan with these bytes at these places.
pub fn changed(plan: &[u8], changes: &[(usize, &[u8])]) -> Vec<u8> {
    let mut bytes = plan.to_vec();
    for (place, new) in changes {
        bytes[*place..place + new.len()].copy_from_slice(new);
    }
    bytes
}

/// A plan typed up to its last flow's jitter, with this jitter and the end record.
fn completed(start: &str, jitter: u32) -> Vec<u8> {
    typed(&format!("{start} {jitter:08X} 7F 0000"))
}

/// What the document says against what this program expects; the product is held to the latter.
pub fn figure(bytes: &[u8], about: &str, expected: String, came: String) -> Result<(), Disagreement> {
    let about = format!("figures to meet: {about}");
    agree(bytes, expected == came, &about, || (expected.clone(), came.clone()))
}

pub struct Fixed<'a> {
    program: &'a str,
    pub tally: &'a mut Tally,
    plans: usize,
}

impl<'a> Fixed<'a> {
    pub fn new(program: &'a str, tally: &'a mut Tally) -> Fixed<'a> {
        Fixed { program, tally, plans: 0 }
    }

    pub fn agree(&mut self, bytes: &[u8]) -> Result<Expected, Disagreement> {
        self.plans += 1;
        let (mut random, trial) = (Random::of_plan(0, self.plans as u64), Trial { bytes, law: Law::WHOLE });
        let expected = trial.compare(self.program, &mut random, self.tally)?;
        give_back(bytes, Law::WHOLE, &mut random, self.tally)?;
        self.convert(bytes, &mut random)?;
        Ok(expected)
    }

    /// The program shows a converted plan too, which for random plans would take long in an emulator.
    fn convert(&mut self, bytes: &[u8], random: &mut Random) -> Result<(), Disagreement> {
        match converted::compare(bytes, Law::WHOLE, random, self.tally)? {
            Some(Converted { bytes: left, expected }) if left != bytes => {
                Trial { bytes: &left, law: Law::WHOLE }.text(self.program, &expected, random)
            }
            _ => Ok(()),
        }
    }

    fn plan_p(&mut self) -> Result<(), Disagreement> {
        let bytes = typed(P);
        let expected = self.agree(&bytes)?;
        let reply = expected.answer.map(|accepted| accepted.reply).unwrap_or_default();
        figure(&bytes, "P's reply", hex(&typed(P_REPLY)), hex(&reply))?;
        figure(&bytes, "P's text", P_TEXT.to_string(), expected.text)?;
        short_and_exact(&bytes)
    }

    pub fn lines(&mut self, bytes: &[u8], about: &str, lines: &[&str]) -> Result<(), Disagreement> {
        let text = self.agree(bytes)?.text;
        for line in lines {
            let found = text.lines().find(|printed| printed == line);
            figure(bytes, about, line.to_string(), found.unwrap_or(&text).to_string())?;
        }
        Ok(())
    }

    fn row(&mut self, row: &Row) -> Result<(), Disagreement> {
        self.lines(&changed(&typed(P), row.0), "a row", row.1)
    }

    fn turned(&mut self, (plan, methods): &Turned) -> Result<(), Disagreement> {
        for (method, lines) in *methods {
            self.lines(&changed(&typed(plan), &[(METHOD, &[*method])]), "a plan of corners", lines)?;
        }
        Ok(())
    }

    /// The product shows of two flows alone whether they share a link.
    fn corner(&mut self, (one, other, due): &Corner) -> Result<(), Disagreement> {
        let plan = Plan { platform: mesh(MESH), flows: vec![small_flow(1, *one), small_flow(2, *other)] };
        let bytes = plan.records().concat();
        let Analysis { places, .. } = Analysis::new(&plan, Law::WHOLE);
        let first = |places: &[usize]| places.first().copied().unwrap_or(0);
        let came = [places[0][1].len(), first(&places[0][1]), first(&places[1][0])];
        figure(&bytes, "links shared and their places", format!("{due:?}"), format!("{came:?}"))?;
        self.agree(&bytes).map(|_| ())
    }

    /// Read or written, the field is refused where it stands: at its record's start in the plan and its offset. Of a
    /// seventh byte of 0 nothing is written.
    pub fn outside(&mut self, plan: &[u8], record: usize, (offset, new, number): Outside) -> Result<(), Disagreement> {
        let place = record + offset;
        let bytes = changed(plan, &[(place, new)]);
        let text = self.agree(&bytes)?.text;
        figure(&bytes, "a field outside its values", format!("refused {number} at {place}\n"), text)?;
        let mut random = Random::of_writing(0, self.plans as u64);
        let writing = writing_of(plan_at(&bytes, FLOWS), FLOWS, &mut random);
        written::compare(&writing, Law::WHOLE, &mut random, self.tally)
    }

    fn fields_outside(&mut self) -> Result<(), Disagreement> {
        let plan = typed(P);
        for field in PLATFORM_OUTSIDE {
            self.outside(&plan, PLATFORM, *field)?;
        }
        for record in [FLOW_2, FLOW_3, FLOW_5] {
            for field in FLOW_OUTSIDE {
                self.outside(&plan, record, *field)?;
            }
        }
        Ok(())
    }

    fn shorter_plans(&mut self) -> Result<(), Disagreement> {
        let endless = typed(P)[..END].to_vec();
        let text = self.agree(&endless)?.text;
        figure(&endless, "end record missing", "refused 1 at 78\n".to_string(), text)?;
        let flowless = [&typed(P)[..FLOW_2], &[0x7F, 0, 0]].concat();
        let expected = self.agree(&flowless)?;
        let reply = expected.answer.map(|accepted| accepted.reply).unwrap_or_default();
        figure(&flowless, "no flows", "7F0000".to_string(), hex(&reply))
    }

    fn large(&mut self, (start, ends): &Large) -> Result<(), Disagreement> {
        for (jitter, line) in *ends {
            let bytes = completed(start, *jitter);
            let text = self.agree(&bytes)?.text;
            let last = text.lines().last().unwrap_or("").to_string();
            figure(&bytes, "a plan of large numbers", line.to_string(), last)?;
        }
        Ok(())
    }
}

/// A reply of 50 bytes is refused 11 at 0, one of 51 accepted with the document's bytes.
fn short_and_exact(bytes: &[u8]) -> Result<(), Disagreement> {
    for (length, due) in [(50, "11 0 "), (51, "0 51 81000D000200FFFF")] {
        let mut random = Random::of_plan(0, length as u64);
        let (mut plan, mut reply) = (Lent::holding(bytes, &mut random), Lent::holding(&vec![0; length], &mut random));
        let returned = call_library(&mut plan, &mut reply);
        let start = &reply.whole[reply.before..reply.before + 8];
        let shown = if returned.number == 0 { hex(start) } else { String::new() };
        let came = format!("{} {} {shown}", returned.number, returned.value);
        figure(bytes, "reply of 50 or 51 bytes", due.to_string(), came)?;
    }
    Ok(())
}

fn mesh([columns, rows]: [Number; 2]) -> Platform {
    Platform { columns, rows, link: 1, routing: 0, buffer: 10, method: 3, priority_flits: 0 }
}

fn small_flow(id: Number, [source, destination]: [Number; 2]) -> Flow {
    Flow { id, priority: id, source, destination, flits: 1, period: 400, deadline: 400, jitter: 0 }
}

/// The wrong turns that can be seen in this program's own routes and windows.
fn wrong_turns() -> Result<(), Disagreement> {
    let flows = [[0, 1], [0, 5], [1, 2], [2, 1]];
    let flows = flows.into_iter().zip(1..).map(|(ends, id)| small_flow(id, ends)).collect();
    let plan = Plan { platform: mesh([6, 1]), flows };
    let analysis = Analysis::new(&plan, Law::WHOLE);
    let shared = |i: usize, j: usize| analysis.places[i][j].len().to_string();
    figure(&[], "0 to 1 and 0 to 5 share", "2".to_string(), shared(0, 1))?;
    figure(&[], "1 to 2 and 2 to 1 share", "0".to_string(), shared(2, 3))?;
    let packets = format!("{} {}", analysis.up(400, 400), analysis.up(401, 400));
    figure(&[], "packets in windows of 400 and 401", "1 2".to_string(), packets)
}

/// Gives back how many plans it tried.
pub fn check(program: &str, tally: &mut Tally) -> Result<usize, Disagreement> {
    let mut fixed = Fixed::new(program, tally);
    wrong_turns()?;
    fixed.plan_p()?;
    for row in ROWS.iter().chain(TICK_ROWS) {
        fixed.row(row)?;
    }
    for corner in PAIRS {
        fixed.corner(corner)?;
    }
    for plan in PLANS {
        fixed.turned(plan)?;
    }
    fixed.fields_outside()?;
    fixed.shorter_plans()?;
    priority_flits::check(&mut fixed)?;
    stored::check(&mut fixed)?;
    for plan in LARGE {
        fixed.large(plan)?;
    }
    Ok(fixed.plans)
}
