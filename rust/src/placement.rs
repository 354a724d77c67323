//! What a done run gives.

use crate::point::Point;
use crate::program::ValueNumber;
use crate::refusal::Refusal;
use crate::tables::Tables;

const RECORD_WORDS: usize = 2;
const IN_REGISTER: u32 = 1;

/// How many words so many records take.
pub(crate) fn words(count: u32) -> usize {
    count as usize * RECORD_WORDS
}

/// Where a value is from one point to another, both included.
#[derive(Clone, Copy, Debug, PartialEq, Eq, Hash)]
pub enum Record {
    Register {
        value: ValueNumber,
        register: u32,
        first: Point,
        last: Point,
    },
    Slot {
        value: ValueNumber,
        slot: u32,
        first: Point,
        last: Point,
    },
}

impl Record {
    /// Reads the two words of a record.
    pub fn unpack(place: u32, points: u32) -> Self {
        let value = ValueNumber::new(place >> 18 & 0xfff);
        let number = place & 0xffff;
        let first = Point::from_number(points >> 16);
        let last = Point::from_number(points & 0xffff);
        if place >> 30 == IN_REGISTER {
            return Record::Register {
                value,
                register: number,
                first,
                last,
            };
        }
        Record::Slot {
            value,
            slot: number,
            first,
            last,
        }
    }

    pub fn value(&self) -> ValueNumber {
        match self {
            Record::Register { value, .. } | Record::Slot { value, .. } => *value,
        }
    }

    pub fn first(&self) -> Point {
        match self {
            Record::Register { first, .. } | Record::Slot { first, .. } => *first,
        }
    }

    pub fn last(&self) -> Point {
        match self {
            Record::Register { last, .. } | Record::Slot { last, .. } => *last,
        }
    }
}

/// The records of a done run, in lent words. Records 0 on are those of the values, in order; each
/// split appended one.
#[derive(Clone, Copy, Debug, PartialEq, Eq)]
pub struct Records<'a> {
    words: &'a [u32],
    slot_total: u32,
}

impl<'a> Records<'a> {
    pub(crate) fn new(words: &'a [u32], slot_total: u32) -> Self {
        Records { words, slot_total }
    }

    pub fn iter(&self) -> impl ExactSizeIterator<Item = Record> + 'a {
        self.words
            .chunks_exact(RECORD_WORDS)
            .map(|row| Record::unpack(row[0], row[1]))
    }

    /// What all slots take together, in words of the stack.
    pub fn slot_total(&self) -> u32 {
        self.slot_total
    }

    pub fn words(&self) -> &'a [u32] {
        self.words
    }

    pub fn to_placement(&self) -> Placement {
        Placement {
            words: self.words.to_vec(),
            slot_total: self.slot_total,
        }
    }
}

/// The records of a done run, kept.
#[derive(Clone, Debug, PartialEq, Eq)]
pub struct Placement {
    words: Vec<u32>,
    slot_total: u32,
}

impl Placement {
    pub fn records(&self) -> impl ExactSizeIterator<Item = Record> + '_ {
        self.as_records().iter()
    }

    /// The records of one value, in the order in which they were made.
    pub fn of_value(&self, value: ValueNumber) -> impl Iterator<Item = Record> + '_ {
        self.records().filter(move |record| record.value() == value)
    }

    /// What all slots take together, in words of the stack.
    pub fn slot_total(&self) -> u32 {
        self.slot_total
    }

    pub fn words(&self) -> &[u32] {
        &self.words
    }

    pub fn as_records(&self) -> Records<'_> {
        Records::new(&self.words, self.slot_total)
    }

    /// Asks the checker about this placement.
    pub fn check(&self, tables: &Tables) -> Result<(), Refusal> {
        let count = (self.words.len() / RECORD_WORDS) as u32;
        crate::check(tables, &self.words, count, self.slot_total)
    }
}

#[cfg(test)]
mod tests {
    use super::*;

    #[test]
    fn records_are_read_back() {
        let (first, last) = (Point::use_of(1), Point::def_of(3));
        let value = ValueNumber::new(1);
        let register = Record::Register {
            value,
            register: 5,
            first,
            last,
        };
        assert_eq!(Record::unpack(0x4004_0005, 0x0002_0007), register);
        let slot = Record::Slot {
            value,
            slot: 9,
            first,
            last,
        };
        assert_eq!(Record::unpack(0x8004_0009, 0x0002_0007), slot);
    }
}
