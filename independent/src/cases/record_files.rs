//! Calls of the writer and the reader: lawful records, records with each rule broken, files with every kind of fault.

use super::rng::Rng;
use crate::entries::Given;
use crate::records::{Record, RECORD_BYTES};

/// A record to be written.
pub fn write(rng: &mut Rng) -> Given {
    let mut record = lawful(rng);
    for _ in 0..rng.pick(&[0, 0, 1, 1, 2]) {
        break_rule(rng, &mut record);
    }
    let length = if rng.chance(85) { RECORD_BYTES } else { rng.pick(&[0, 1, 12, 23, 25, 48, 24 + 65_536]) };
    let room = (0..length).map(|_| rng.any() as u8).collect();
    Given::Write { record, room }
}

/// A file to be tested.
pub fn count(rng: &mut Rng) -> Given {
    Given::Count { bytes: file(rng) }
}

/// A file and a record number.
pub fn read(rng: &mut Rng) -> Given {
    let bytes = file(rng);
    let records = bytes.len() / RECORD_BYTES;
    let within = if records == 0 { 0 } else { rng.below(records) };
    let number = match rng.below(20) {
        0 => records,
        1 => records + rng.between(1, 20),
        2 => (1 << 16) + within,
        3 => (1 << 32) + within,
        // 24 times this number is, in 64 bits, the place of a record that is there.
        4 => (1 << 61) + within,
        5 => rng.pick(&[usize::MAX, 1 << 63]),
        _ => within,
    };
    Given::Read { bytes, number }
}

/// A record that keeps every rule.
fn lawful(rng: &mut Rng) -> Record {
    let goal = field(rng, 4095);
    let mut record = Record {
        serial: field(rng, 65_535),
        cart: field(rng, 65_535),
        start: field(rng, 4095),
        goal,
        ending: rng.between(1, 3) as u8,
        last: goal,
        moves: rng.pick(&[0, 1, 255, 65_536, 16_769_024, 16_769_025]),
        required: field(rng, 126),
        lookahead: field(rng, 4095) + 1,
        limit: field(rng, 4095) + 1,
    };
    if rng.chance(60) {
        record.moves = rng.below(16_769_026) as u32;
    }
    while record.ending != 1 && record.last == goal {
        record.last = field(rng, 4095);
    }
    record
}

/// A number from 0 to the most, often at one of the two bounds.
fn field(rng: &mut Rng, most: usize) -> u16 {
    match rng.below(8) {
        0 => 0,
        1 => most as u16,
        _ => rng.between(0, most) as u16,
    }
}

/// Breaks one rule of a record's values, if another break hasn't mended it.
fn break_rule(rng: &mut Rng, record: &mut Record) {
    let cell = rng.pick(&[4096, 4097, 8192, 65_535]);
    let setting = rng.pick(&[0, 4097, 8192, 65_535]);
    match rng.below(11) {
        0 => record.ending = rng.pick(&[0, 4, 5, 128, 255]),
        1 => record.start = cell,
        2 => {
            record.goal = cell;
            record.last = if record.ending == 1 { cell } else { record.last };
        }
        3 => {
            record.last = cell;
            record.ending = record.ending.max(2);
        }
        4 => record.ending = if record.ending == 1 { rng.between(2, 3) as u8 } else { 1 },
        5 if record.ending == 1 => record.last = record.goal.wrapping_add(1) % 4096,
        5 => record.last = record.goal,
        6 | 7 => record.moves = rng.pick(&[16_769_026, 16_777_216, 1 << 31, u32::MAX]),
        8 => record.required = rng.pick(&[127, 127, 128, 256, 65_535]),
        9 => record.lookahead = setting,
        _ => record.limit = setting,
    }
}

/// A file of 0 to some hundred records, lawful or with some faults.
fn file(rng: &mut Rng) -> Vec<u8> {
    let records = match rng.below(20) {
        0 => 0,
        1..=12 => rng.between(1, 5),
        13..=18 => rng.between(2, 40),
        _ => rng.between(40, 300),
    };
    let mut serial = if rng.chance(50) { 65_535 - rng.below(records + 1) as u16 } else { field(rng, 65_535) };
    let mut records: Vec<Record> = (0..records).map(|_| lawful(rng)).collect();
    for record in &mut records {
        record.serial = serial;
        serial = serial.wrapping_add(1);
    }
    for _ in 0..rng.pick(&[0, 0, 0, 1, 1, 2, 3]) {
        break_file(rng, &mut records);
    }
    let mut bytes: Vec<u8> = records.iter().flat_map(Record::bytes).collect();
    if rng.chance(10) {
        fill_a_zero(rng, &mut bytes);
    }
    if rng.chance(12) {
        let length = rng.pick(&[bytes.len() + 1, bytes.len() + 23, bytes.len().saturating_sub(1), bytes.len() + 12]);
        bytes.resize(length, 0);
    }
    bytes
}

/// One fault in a file: a value, a serial, or both in one record.
fn break_file(rng: &mut Rng, records: &mut [Record]) {
    if records.is_empty() {
        return;
    }
    let at = rng.below(records.len());
    let kind = rng.below(4);
    if kind != 0 {
        break_rule(rng, &mut records[at]);
    }
    if kind == 0 || kind == 3 || rng.chance(10) {
        let by = rng.pick(&[1, 2, 256, 65_535, 65_534]);
        // A jump after which the serials run on, or one serial alone.
        let last = if rng.chance(50) { records.len() } else { at + 1 };
        for record in &mut records[at..last] {
            record.serial = record.serial.wrapping_add(by);
        }
    }
}

/// Something other than zero in a byte that has to be zero.
fn fill_a_zero(rng: &mut Rng, bytes: &mut [u8]) {
    if bytes.is_empty() {
        return;
    }
    let record = rng.below(bytes.len() / RECORD_BYTES);
    bytes[record * RECORD_BYTES + rng.pick(&[9, 22, 23])] = rng.pick(&[1, 128, 255]);
}
