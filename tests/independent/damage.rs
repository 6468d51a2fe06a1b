//! Damaged plans, and bytes that are no plan.

use crate::model::*;
use crate::plans::{crowded_plan, good_plan};
use crate::random::Random;
use crate::reading::MOST_FLOWS;

/// A plan's records; after a damage they may be anything.
pub type Records = Vec<Vec<u8>>;

pub type Damage = fn(&mut Records, &mut Random);

/// Chooses a value for a field, given its highest.
type Choice = fn(&Field, Number, &mut Random) -> Number;

const DAMAGES: [Damage; 16] = [
    flip_byte,
    field_to_edge,
    field_to_edge,
    field_to_edge,
    cut_anywhere,
    part_of_a_header_at_the_end,
    append_bytes,
    duplicate_record,
    swap_records,
    wrong_tag,
    wrong_length,
    platform_resized,
    platform_missing,
    platform_twice,
    faults_in_one_flow,
    faults_in_one_flow,
];

/// The bytes that chance makes: half of them good plans.
pub fn some_bytes(random: &mut Random) -> Vec<u8> {
    match random.below(1000) {
        0..=499 => good_plan(random).records().concat(),
        500..=769 => damaged(1, random),
        770..=919 => damaged(2, random),
        920..=959 => sixty_fifth(random),
        960..=974 => many_records(random),
        975..=984 => random_bytes(random),
        985..=994 => long_input(random),
        _ => Vec::new(),
    }
}

fn damaged(times: usize, random: &mut Random) -> Vec<u8> {
    let mut records = good_plan(random).records();
    for _ in 0..times {
        let damage = random.pick(&DAMAGES);
        damage(&mut records, random);
    }
    records.concat()
}

fn any_record(records: &Records, random: &mut Random) -> usize {
    random.below(records.len())
}

fn flows_in(records: &Records) -> Vec<usize> {
    (0..records.len()).filter(|index| records[*index].len() == 23 && records[*index][0] == FLOW_TAG).collect()
}

fn flip_byte(records: &mut Records, random: &mut Random) {
    let index = any_record(records, random);
    if !records[index].is_empty() {
        let place = random.below(records[index].len());
        records[index][place] ^= [1 << random.below(8), 1 + random.byte() % 255][random.below(2)];
    }
}

fn put(record: &mut [u8], offset: usize, bytes: &[u8]) {
    if let Some(part) = record.get_mut(offset..offset + bytes.len()) {
        part.copy_from_slice(bytes);
    }
}

fn number_in(record: &[u8], offset: usize, width: usize) -> Number {
    let part = record.get(offset..offset + width).unwrap_or(&[]);
    part.iter().fold(0, |sum, byte| 256 * sum + Number::from(*byte))
}

pub fn nodes_in(records: &Records) -> Number {
    number_in(&records[0], COLUMNS, 1) * number_in(&records[0], ROWS, 1)
}

/// One field to an edge of its values, or to one beyond.
pub fn field_to_edge(records: &mut Records, random: &mut Random) {
    field_to(edge, records, random);
}

/// One field to any value that its bytes can hold.
pub fn field_to_any(records: &mut Records, random: &mut Random) {
    field_to(any_value, records, random);
}

fn field_to(choice: Choice, records: &mut Records, random: &mut Random) {
    let index = if random.chance(40) { 0 } else { any_record(records, random) };
    let nodes = nodes_in(records);
    field_in(choice, &mut records[index], nodes, random);
}

fn edge(field: &Field, high: Number, random: &mut Random) -> Number {
    random.pick(&[field.low, field.low - 1, high, high + 1])
}

fn any_value(field: &Field, _high: Number, random: &mut Random) -> Number {
    number_in(&random.bytes(field.width), 0, field.width)
}

fn high_of(field: &Field, record: &[u8], nodes: Number) -> Number {
    match field.high {
        High::Fixed(value) => value,
        High::LastNode => nodes - 1,
        High::Period => number_in(record, PERIOD, 4),
    }
}

/// A longer one could bring so many rounds that a run takes minutes.
const LONGEST_DEADLINE: Number = 10_000_000;

/// The fields of a record by its tag, as far as its bytes go.
fn fields_in(record: &[u8]) -> Vec<&'static Field> {
    let fields = record.first().map_or(&[][..], |tag| fields_of(*tag));
    fields.iter().filter(|field| field.offset + field.width <= record.len()).collect()
}

fn field_in(choice: Choice, record: &mut [u8], nodes: Number, random: &mut Random) {
    let fields = fields_in(record);
    if fields.is_empty() {
        return;
    }
    let field = random.pick(&fields);
    let high = high_of(field, record, nodes);
    let mut value = choice(field, high, random);
    if matches!(field.high, High::Period) && value <= high && value > LONGEST_DEADLINE {
        value = high + 1;
    }
    put(record, field.offset, &bytes_of(value, field.width));
}

/// A field to a value with this refusal, and so many further fields behind it, if there are, outside their values too.
pub fn refuse(number: u8, further: usize, record: &mut [u8], nodes: Number, random: &mut Random) {
    let fields = fields_in(record).into_iter().skip_while(|field| !field.refusals().contains(&number));
    for (place, field) in fields.take(1 + further).enumerate() {
        let wanted = if place == 0 { [number; 2] } else { field.refusals() };
        let value = outside(field, high_of(field, record, nodes), wanted, random);
        put(record, field.offset, &bytes_of(value, field.width));
    }
}

/// A value with one of these refusals: the nearest to the allowed ones, the furthest, or any.
fn outside(field: &Field, high: Number, wanted: [u8; 2], random: &mut Random) -> Number {
    let sides = [(field.below, field.low - 1, 0), (field.above, high + 1, field.greatest())];
    let mut possible: Vec<(Number, Number)> = Vec::new();
    for (number, nearest, furthest) in sides {
        // No number is below zero, and none greater than the field's bytes can hold.
        if wanted.contains(&number) && (0..=field.greatest()).contains(&nearest) {
            possible.push((nearest, furthest));
        }
    }
    let (nearest, furthest) = random.pick(&possible);
    let any = random.between(nearest.min(furthest), nearest.max(furthest));
    random.pick(&[nearest, nearest, furthest, any])
}

fn cut_anywhere(records: &mut Records, random: &mut Random) {
    let mut bytes = records.concat();
    bytes.truncate(random.below(bytes.len() + 1));
    *records = vec![bytes];
}

/// Ends inside of a header, whatever its tag.
fn part_of_a_header_at_the_end(records: &mut Records, random: &mut Random) {
    records.truncate(random.below(records.len() + 1));
    let tag = random.pick(&[0x00, PLATFORM_TAG, FLOW_TAG, END_TAG, 0xFF]);
    records.push([tag, 0][..1 + random.below(2)].to_vec());
}

fn append_bytes(records: &mut Records, random: &mut Random) {
    let count = [1, 2, 3, 1 + random.below(30)][random.below(4)];
    let bytes = match random.below(4) {
        0 => vec![0; count],
        1 => vec![END_TAG, 0, 0],
        2 => records.concat(),
        _ => random.bytes(count),
    };
    records.push(bytes);
}

fn duplicate_record(records: &mut Records, random: &mut Random) {
    let copy = records[any_record(records, random)].clone();
    let place = random.below(records.len() + 1);
    records.insert(place, copy);
}

fn swap_records(records: &mut Records, random: &mut Random) {
    let (first, second) = (any_record(records, random), any_record(records, random));
    records.swap(first, second);
}

fn wrong_tag(records: &mut Records, random: &mut Random) {
    let index = any_record(records, random);
    let tag = random.pick(&[0x00, 0x01, 0x02, 0x03, 0x7E, 0x7F, 0x80, 0x81, 0xFF]);
    put(&mut records[index], 0, &[tag]);
}

fn wrong_length(records: &mut Records, random: &mut Random) {
    let index = any_record(records, random);
    let said = number_in(&records[index], 1, 2);
    let other = Number::from(random.byte());
    let length = random.pick(&[0, 1, 6, 7, 20, said + 1, said - 1, said + 256, 65_535, other]);
    put(&mut records[index], 1, &bytes_of(length, 2));
}

/// The first record has a byte more or less, or says another length, or both.
fn platform_resized(records: &mut Records, random: &mut Random) {
    let length = 5 + random.below(4);
    if random.chance(60) {
        records[0].resize(HEADER + length, random.pick(&[0, 1, 8, 9, 255]));
    }
    if random.chance(60) {
        put(&mut records[0], 1, &bytes_of(length as Number, 2));
    }
}

fn platform_missing(records: &mut Records, _random: &mut Random) {
    records.remove(0);
    // Something must be left for a second damage.
    records.push(Vec::new());
}

fn platform_twice(records: &mut Records, random: &mut Random) {
    let copy = records[0].clone();
    let place = random.below(records.len() + 1);
    records.insert(place, copy);
}

/// How many kinds of faults a flow can have; those of its numbers come first, and leave the header whole.
const FLOW_FAULTS: usize = 20;
const NUMBER_FAULTS: usize = 17;

fn faults_in_one_flow(records: &mut Records, random: &mut Random) {
    faults_of(FLOW_FAULTS, records, random);
}

pub fn wrong_numbers_in_one_flow(records: &mut Records, random: &mut Random) {
    faults_of(NUMBER_FAULTS, records, random);
}

/// Up to four faults in one flow, so that the order within a record is tried.
fn faults_of(kinds: usize, records: &mut Records, random: &mut Random) {
    let flows = flows_in(records);
    if flows.is_empty() {
        return;
    }
    let nodes = nodes_in(records);
    let index = random.pick(&flows);
    let earlier = records[random.pick(&flows)].clone();
    for _ in 0..1 + random.below(4) {
        fault_in_flow(kinds, &mut records[index], &earlier, nodes, random);
    }
}

fn fault_in_flow(kinds: usize, record: &mut Vec<u8>, earlier: &[u8], nodes: Number, random: &mut Random) {
    match random.below(kinds) {
        0..=3 => put(record, ID, &earlier[ID..ID + 2]),
        4..=7 => put(record, PRIORITY, &earlier[PRIORITY..PRIORITY + 2]),
        8..=11 => {
            let source = number_in(record, SOURCE, 1);
            put(record, DESTINATION, &bytes_of(source, 1));
        }
        12..=16 => field_in(edge, record, nodes, random),
        17 => put(record, 1, &bytes_of(random.between(0, 300), 2)),
        18 => put(record, 0, &[random.pick(&[0x00, PLATFORM_TAG, END_TAG, 0xFF])]),
        _ => record.truncate(random.below(23)),
    }
}

/// 65 flows or some more, the 65th with faults of its own at times, or cut.
fn sixty_fifth(random: &mut Random) -> Vec<u8> {
    let count = MOST_FLOWS + 1 + random.below(3) * random.below(2);
    let plan = crowded_plan(count, random);
    let mut records = plan.records();
    let place = MOST_FLOWS + 1;
    let earlier = records[1 + random.below(MOST_FLOWS)].clone();
    if random.chance(60) {
        for _ in 0..1 + random.below(3) {
            fault_in_flow(FLOW_FAULTS, &mut records[place], &earlier, plan.platform.nodes(), random);
        }
    }
    if random.chance(30) {
        // Cut inside of the 65th flow.
        records.truncate(place + 1);
        let kept = random.below(records[place].len() + 1);
        records[place].truncate(kept);
    }
    records.concat()
}

/// Records with right headers and bodies of small numbers, in any order.
fn many_records(random: &mut Random) -> Vec<u8> {
    let length = random.pick(lengths_of(PLATFORM_TAG));
    let mut bytes = vec![PLATFORM_TAG, 0, length as u8];
    bytes.extend((0..length).map(|_| 1 + random.byte() % 8));
    for _ in 0..random.below(8) {
        let tag = random.pick(&[FLOW_TAG, FLOW_TAG, FLOW_TAG, PLATFORM_TAG, END_TAG, 0x04]);
        let length = lengths_of(tag).last().copied().unwrap_or(2);
        bytes.push(tag);
        bytes.extend(bytes_of(length, 2));
        bytes.extend((0..length).map(|_| random.byte() % 4));
    }
    bytes
}

fn random_bytes(random: &mut Random) -> Vec<u8> {
    let count = random.below(200);
    random.bytes(count)
}

/// Longer than the 2,048 bytes that the program reads, at times longer than a pipe holds.
fn long_input(random: &mut Random) -> Vec<u8> {
    let wanted = [2048, 2049, 2050 + random.below(6000), 70_000][random.below(4)];
    let mut bytes = match random.below(4) {
        0 => random.bytes(wanted),
        1 => crowded_plan(MOST_FLOWS, random).records().concat(),
        2 => crowded_plan(120, random).records().concat(),
        _ => good_plan(random).records().concat(),
    };
    while bytes.len() < wanted {
        bytes.push(random.byte());
    }
    bytes
}
