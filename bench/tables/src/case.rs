//! A case: options, the six tables, the lent room, and for the checker a claim.

use crate::words::{capacity, work_words, Interval, INTERVAL_WORDS, MAX_RECORDS, RECORD_WORDS};

#[derive(Clone, Copy, Debug, PartialEq, Eq)]
pub struct Options {
    pub strategy: u32,
    pub partial_split: bool,
    pub near_end: bool,
}

/// Words lent for the result and for the work.
#[derive(Clone, Copy, Debug, PartialEq, Eq)]
pub struct Room {
    pub result: usize,
    pub work: usize,
}

impl Room {
    /// The most that document 01 allows.
    pub fn most() -> Self {
        Room {
            result: MAX_RECORDS * RECORD_WORDS,
            work: work_words(MAX_RECORDS),
        }
    }

    /// Room for so many records.
    pub fn for_records(count: usize) -> Self {
        let result = count * RECORD_WORDS;
        Room {
            result,
            work: work_words(capacity(result)),
        }
    }
}

#[derive(Clone, Debug, PartialEq, Eq)]
pub struct Claim {
    pub count: u32,
    pub total: u32,
    pub words: Vec<u32>,
}

#[derive(Clone, Debug, PartialEq, Eq)]
pub struct Case {
    pub name: String,
    pub options: Options,
    pub instructions: u32,
    pub classes: Vec<u32>,
    pub registers: Vec<u32>,
    pub fragments: Vec<u32>,
    pub intervals: Vec<u32>,
    pub mentions: Vec<u32>,
    pub safepoints: Vec<u32>,
    pub room: Option<Room>,
    pub claim: Option<Claim>,
}

impl Case {
    pub fn new(name: &str) -> Self {
        Case {
            name: name.to_string(),
            options: Options {
                strategy: 1,
                partial_split: false,
                near_end: false,
            },
            instructions: 0,
            classes: Vec::new(),
            registers: Vec::new(),
            fragments: Vec::new(),
            intervals: Vec::new(),
            mentions: Vec::new(),
            safepoints: Vec::new(),
            room: None,
            claim: None,
        }
    }

    pub fn room(&self) -> Room {
        self.room.unwrap_or_else(Room::most)
    }

    pub fn interval_count(&self) -> usize {
        self.intervals.len() / INTERVAL_WORDS
    }

    pub fn interval(&self, k: usize) -> Interval {
        Interval::unpack(&self.intervals[k * INTERVAL_WORDS..(k + 1) * INTERVAL_WORDS])
    }

    /// True where some slot is wider than 1: outside the domain of equality.
    pub fn has_wide_slot(&self) -> bool {
        (0..self.interval_count()).any(|k| self.interval(k).log_size > 0)
    }
}
