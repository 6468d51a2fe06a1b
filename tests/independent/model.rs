//! A plan in document 01's words, the table of its fields, and its bytes. The fields' refusals are those of request L2,
//! and the priority flits, a seventh byte of the platform record, those of L7.

use std::collections::BTreeSet;

/// Wide enough that no sum of this program can leave it.
pub type Number = i128;

pub const PLATFORM_TAG: u8 = 0x01;
pub const FLOW_TAG: u8 = 0x02;
pub const END_TAG: u8 = 0x7F;
pub const HEADER: usize = 3;

#[derive(Clone, Debug, PartialEq, Eq)]
pub struct Platform {
    pub columns: Number,
    pub rows: Number,
    pub link: Number,
    pub routing: Number,
    pub buffer: Number,
    pub method: Number,
    /// 0 for none: then the record has no seventh byte.
    pub priority_flits: Number,
}

#[derive(Clone, Debug, Default, PartialEq, Eq)]
pub struct Flow {
    pub id: Number,
    pub priority: Number,
    pub source: Number,
    pub destination: Number,
    pub flits: Number,
    pub period: Number,
    pub deadline: Number,
    pub jitter: Number,
}

#[derive(Clone, Debug, PartialEq, Eq)]
pub struct Plan {
    pub platform: Platform,
    pub flows: Vec<Flow>,
}

/// The highest allowed value of a field.
#[derive(Clone, Copy)]
pub enum High {
    Fixed(Number),
    LastNode,
    Period,
}

/// A field's place counts from its record's tag.
pub struct Field {
    pub name: &'static str,
    pub offset: usize,
    pub width: usize,
    pub low: Number,
    pub high: High,
    /// The refusal of a value below the lowest, and that of one above the highest.
    pub below: u8,
    pub above: u8,
}

const fn field(number: u8, name: &'static str, offset: usize, width: usize, low: Number, high: High) -> Field {
    Field { name, offset, width, low, high, below: number, above: number }
}

impl Field {
    /// The greatest number that its bytes can hold.
    pub fn greatest(&self) -> Number {
        (1 << (8 * self.width)) - 1
    }

    /// The same twice but for the deadline.
    pub fn refusals(&self) -> [u8; 2] {
        [self.below, self.above]
    }
}

pub const BILLION: Number = 1_000_000_000;
pub const MOST_FLITS: Number = 65_535;
pub const COLUMNS: usize = 3;
pub const ROWS: usize = 4;
pub const ROUTING: usize = 6;
pub const METHOD: usize = 8;
pub const PRIORITY_FLITS: usize = 9;
pub const ID: usize = 3;
pub const PRIORITY: usize = 5;
pub const SOURCE: usize = 7;
pub const DESTINATION: usize = 8;
pub const PERIOD: usize = 11;
pub const DEADLINE: usize = 15;
pub const JITTER: usize = 19;

/// The name of the platform's seventh byte.
pub const SEVENTH: &str = "priority-flits";

/// A record of length 6 ends before the last of them.
pub const PLATFORM_FIELDS: [Field; 7] = [
    field(20, "columns", COLUMNS, 1, 1, High::Fixed(8)),
    field(21, "rows", ROWS, 1, 1, High::Fixed(8)),
    field(22, "link", 5, 1, 1, High::Fixed(16)),
    field(23, "routing", ROUTING, 1, 0, High::Fixed(16)),
    field(24, "buffer", 7, 1, 1, High::Fixed(64)),
    field(25, "method", METHOD, 1, 0, High::Fixed(3)),
    field(26, SEVENTH, PRIORITY_FLITS, 1, 1, High::Fixed(8)),
];

pub const FLOW_FIELDS: [Field; 8] = [
    field(30, "id", ID, 2, 0, High::Fixed(65_534)),
    field(31, "priority", PRIORITY, 2, 1, High::Fixed(65_535)),
    field(32, "source", SOURCE, 1, 0, High::LastNode),
    field(33, "destination", DESTINATION, 1, 0, High::LastNode),
    field(34, "flits", 9, 2, 1, High::Fixed(MOST_FLITS)),
    field(35, "period", PERIOD, 4, 1, High::Fixed(BILLION)),
    // Zero is an unfilled cell, above the period a planning error.
    Field { above: 38, ..field(36, "deadline", DEADLINE, 4, 1, High::Period) },
    field(37, "jitter", JITTER, 4, 0, High::Fixed(BILLION)),
];

pub fn all_fields() -> impl Iterator<Item = &'static Field> {
    PLATFORM_FIELDS.iter().chain(&FLOW_FIELDS)
}

/// The refusals of fields outside their values.
pub fn field_refusals() -> BTreeSet<u8> {
    all_fields().flat_map(Field::refusals).collect()
}

/// Whether a flow's field has this refusal.
pub fn is_of_flow(number: u8) -> bool {
    FLOW_FIELDS.iter().any(|field| field.refusals().contains(&number))
}

/// Whether the platform's seventh byte has this refusal.
pub fn is_of_seventh(number: u8) -> bool {
    PLATFORM_FIELDS.iter().any(|field| field.name == SEVENTH && field.refusals().contains(&number))
}

/// The fields of a record by its tag; the end record and unknown ones have none.
pub fn fields_of(tag: u8) -> &'static [Field] {
    match tag {
        PLATFORM_TAG => &PLATFORM_FIELDS,
        FLOW_TAG => &FLOW_FIELDS,
        _ => &[],
    }
}

/// The body lengths that belong to a tag; an unknown one has none.
pub fn lengths_of(tag: u8) -> &'static [Number] {
    match tag {
        PLATFORM_TAG => &[6, 7],
        FLOW_TAG => &[20],
        END_TAG => &[0],
        _ => &[],
    }
}

/// Most significant byte first, in so many bytes.
pub fn bytes_of(value: Number, width: usize) -> Vec<u8> {
    value.to_be_bytes()[16 - width..].to_vec()
}

impl Platform {
    pub fn nodes(&self) -> Number {
        self.columns * self.rows
    }

    /// Without priority flits there is no seventh byte.
    pub fn record(&self) -> Vec<u8> {
        let mut values = vec![self.columns, self.rows, self.link, self.routing, self.buffer, self.method];
        values.extend(Some(self.priority_flits).filter(|flits| *flits != 0));
        record(PLATFORM_TAG, &PLATFORM_FIELDS, &values)
    }
}

impl Flow {
    pub fn record(&self) -> Vec<u8> {
        let ends = [self.id, self.priority, self.source, self.destination];
        let times = [self.flits, self.period, self.deadline, self.jitter];
        record(FLOW_TAG, &FLOW_FIELDS, &[ends, times].concat())
    }
}

impl Plan {
    pub fn records(&self) -> Vec<Vec<u8>> {
        let mut records = vec![self.platform.record()];
        records.extend(self.flows.iter().map(Flow::record));
        records.push(record(END_TAG, &[], &[]));
        records
    }
}

fn record(tag: u8, fields: &[Field], values: &[Number]) -> Vec<u8> {
    let body: Vec<u8> = fields.iter().zip(values).flat_map(|(f, v)| bytes_of(*v, f.width)).collect();
    let mut bytes = vec![tag];
    bytes.extend(bytes_of(body.len() as Number, 2));
    bytes.extend(body);
    bytes
}
