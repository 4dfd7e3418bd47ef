//! Trip records: layout, rules, the writer and the reader.

use crate::refusals::setting_lawful;
use crate::wrong::{Planner, Wrong};

pub const RECORD_BYTES: usize = 24;

/// A record's fields in the layout's order.
#[derive(Clone, Copy, PartialEq, Eq, Debug, Default)]
pub struct Record {
    pub serial: u16,
    pub cart: u16,
    pub start: u16,
    pub goal: u16,
    pub ending: u8,
    pub last: u16,
    pub moves: u32,
    pub required: u16,
    pub lookahead: u16,
    pub limit: u16,
}

impl Record {
    /// The 24 bytes, low byte first.
    pub fn bytes(&self) -> Vec<u8> {
        let mut bytes = Vec::new();
        bytes.extend(self.serial.to_le_bytes());
        bytes.extend(self.cart.to_le_bytes());
        bytes.extend(self.start.to_le_bytes());
        bytes.extend(self.goal.to_le_bytes());
        bytes.extend([self.ending, 0]);
        bytes.extend(self.last.to_le_bytes());
        bytes.extend(self.moves.to_le_bytes());
        bytes.extend(self.required.to_le_bytes());
        bytes.extend(self.lookahead.to_le_bytes());
        bytes.extend(self.limit.to_le_bytes());
        bytes.extend([0, 0]);
        bytes
    }

    /// The fields of 24 bytes, whatever their values.
    fn of(bytes: &[u8]) -> Record {
        let two = |at: usize| u16::from(bytes[at]) + 256 * u16::from(bytes[at + 1]);
        Record {
            serial: two(0),
            cart: two(2),
            start: two(4),
            goal: two(6),
            ending: bytes[8],
            last: two(10),
            moves: u32::from(two(12)) + 65_536 * u32::from(two(14)),
            required: two(16),
            lookahead: two(18),
            limit: two(20),
        }
    }

    /// The numbers in the layout's order.
    pub fn numbers(&self) -> Vec<u64> {
        let first = [self.serial, self.cart, self.start, self.goal].map(u64::from);
        let middle = [u64::from(self.ending), u64::from(self.last), u64::from(self.moves)];
        let rest = [self.required, self.lookahead, self.limit].map(u64::from);
        [&first[..], &middle, &rest].concat()
    }
}

impl Planner {
    /// Writes one record into a room of 24 bytes.
    pub fn write(&self, record: &Record, room: &mut [u8]) -> Result<(), u8> {
        if room.len() != RECORD_BYTES {
            return Err(10);
        }
        if !self.lawful(record) {
            return Err(11);
        }
        room.copy_from_slice(&record.bytes());
        if self.is(Wrong::HighByteFirst) {
            room[12..16].reverse();
        }
        Ok(())
    }

    /// The number of records in a file.
    pub fn count(&self, bytes: &[u8]) -> Result<usize, u8> {
        if bytes.len() % RECORD_BYTES != 0 {
            return Err(10);
        }
        if self.is(Wrong::SerialsFirst) {
            self.all(bytes, |_, before, raw| self.follows(before, raw))?;
        }
        self.all(bytes, |number, before, raw| {
            let first_bad = self.is(Wrong::FirstSerialZero) && number == 0 && Record::of(raw).serial != 0;
            if !self.lawful(&Record::of(raw)) || self.zeros_broken(raw) {
                Err(11)
            } else if first_bad {
                Err(12)
            } else {
                self.follows(before, raw)
            }
        })?;
        Ok(bytes.len() / RECORD_BYTES)
    }

    /// The record of this number, counted from 0, after the whole file was tested.
    pub fn read(&self, bytes: &[u8], number: usize) -> Result<Record, u8> {
        if self.is(Wrong::NumberFirst) && number >= bytes.len() / RECORD_BYTES {
            return Err(11);
        }
        let count = self.count(bytes)?;
        if number >= count {
            return if self.is(Wrong::ReadsPastEnd) { Ok(Record::default()) } else { Err(11) };
        }
        Ok(Record::of(&bytes[number * RECORD_BYTES..][..RECORD_BYTES]))
    }

    /// Goes record by record: a test is given the record's number, the one before, and its own bytes.
    fn all(&self, bytes: &[u8], test: impl Fn(usize, Option<&[u8]>, &[u8]) -> Result<(), u8>) -> Result<(), u8> {
        let mut before = None;
        for (number, raw) in bytes.chunks(RECORD_BYTES).enumerate() {
            test(number, before, raw)?;
            before = Some(raw);
        }
        Ok(())
    }

    /// Serials run by one, and the serial after 65,535 is 0; the first may be any.
    fn follows(&self, before: Option<&[u8]>, raw: &[u8]) -> Result<(), u8> {
        let before = match before {
            Some(bytes) => Record::of(bytes).serial,
            None => return Ok(()),
        };
        let stuck = before == u16::MAX && self.is(Wrong::SerialNoWrap);
        if Record::of(raw).serial == before.wrapping_add(1) && !stuck {
            Ok(())
        } else {
            Err(12)
        }
    }

    /// The rules on a record's values.
    fn lawful(&self, record: &Record) -> bool {
        let start_lawful = record.start < 4096 || self.is(Wrong::StartUntested);
        let cells_lawful = start_lawful && record.goal < 4096 && record.last < 4096;
        let ending_lawful = (1..=3).contains(&record.ending) || (record.ending == 4 && self.is(Wrong::UnderWayWritten));
        let arrival_agrees = (record.ending == 1) == (record.last == record.goal) || self.is(Wrong::EndingRuleDropped);
        let moves_lawful = record.moves <= 16_769_025 || self.is(Wrong::MovesUnbounded);
        let required_lawful = record.required <= 126 + u16::from(self.is(Wrong::Required127));
        let limit_lawful = setting_lawful(record.limit.into()) || self.is(Wrong::LimitUntested);
        let settings_lawful = setting_lawful(record.lookahead.into()) && limit_lawful;
        cells_lawful && ending_lawful && arrival_agrees && moves_lawful && required_lawful && settings_lawful
    }

    /// Whether a byte that has to be zero isn't.
    fn zeros_broken(&self, raw: &[u8]) -> bool {
        [9, 22, 23].iter().any(|&at| raw[at] != 0) && !self.is(Wrong::ZerosUntested)
    }
}
