//! Packed words: fields most significant first, spare bits zero.

/// The place of an answer that names none.
pub const NOWHERE: u32 = 65_535;
pub const MAX_INSTRUCTIONS: u32 = 32_768;
pub const MAX_CLASSES: usize = 8;
pub const MAX_REGISTERS: usize = 64;
pub const MAX_FRAGMENTS: usize = 8_192;
pub const MAX_INTERVALS: usize = 4_096;
pub const MAX_MENTIONS: usize = 16_384;
pub const MAX_SAFEPOINTS: usize = 16_384;
pub const MAX_RECORDS: usize = 16_384;
pub const INTERVAL_WORDS: usize = 4;
pub const RECORD_WORDS: usize = 2;
const WORK_PER_RECORD: usize = 8;
const WORK_BASE: usize = 256;
const LOW_HALF: u32 = 0xffff;

/// How many records a lent result area holds.
pub fn capacity(result_words: usize) -> usize {
    (result_words / RECORD_WORDS).min(MAX_RECORDS)
}

/// The least work area for a capacity.
pub fn work_words(capacity: usize) -> usize {
    capacity * WORK_PER_RECORD + WORK_BASE
}

pub fn use_point(instruction: u32) -> u32 {
    instruction * 2
}

pub fn def_point(instruction: u32) -> u32 {
    instruction * 2 + 1
}

/// Two halves in a word: an index range, a fragment, a start and an end.
pub fn pack_pair(high: u32, low: u32) -> u32 {
    debug_assert!(high <= LOW_HALF && low <= LOW_HALF);
    high << 16 | low
}

pub fn pair(word: u32) -> (u32, u32) {
    (word >> 16, word & LOW_HALF)
}

#[derive(Clone, Copy, Debug, PartialEq, Eq)]
pub struct Class {
    pub first: u32,
    pub count: u32,
    pub has_scratch: bool,
    pub scratch: u32,
    pub spare: u32,
}

impl Class {
    pub fn unpack(word: u32) -> Self {
        Class {
            first: word >> 24,
            count: word >> 16 & 0xff,
            has_scratch: word >> 15 & 1 == 1,
            scratch: word >> 7 & 0xff,
            spare: word & 0x7f,
        }
    }

    pub fn pack(self) -> u32 {
        let scratch = u32::from(self.has_scratch) << 15 | self.scratch << 7;
        self.first << 24 | self.count << 16 | scratch | self.spare
    }
}

#[derive(Clone, Copy, Debug, PartialEq, Eq)]
pub struct Interval {
    pub class: u32,
    pub reference: bool,
    pub log_size: u32,
    pub spare: u32,
    pub start: u32,
    pub end: u32,
    pub mentions: (u32, u32),
    pub safepoints: (u32, u32),
}

impl Interval {
    pub fn unpack(row: &[u32]) -> Self {
        let (start, end) = pair(row[1]);
        Interval {
            class: row[0] >> 29,
            reference: row[0] >> 28 & 1 == 1,
            log_size: row[0] >> 26 & 3,
            spare: row[0] & 0x3ff_ffff,
            start,
            end,
            mentions: pair(row[2]),
            safepoints: pair(row[3]),
        }
    }

    pub fn pack(self) -> [u32; INTERVAL_WORDS] {
        let kind = self.class << 29 | u32::from(self.reference) << 28 | self.log_size << 26;
        [
            kind | self.spare,
            pack_pair(self.start, self.end),
            pack_pair(self.mentions.0, self.mentions.1),
            pack_pair(self.safepoints.0, self.safepoints.1),
        ]
    }

    pub fn slot_size(self) -> u32 {
        1 << self.log_size
    }
}

#[derive(Clone, Copy, Debug, PartialEq, Eq)]
pub struct Mention {
    pub instruction: u32,
    pub spare: u32,
    pub is_use: bool,
    pub is_mod: bool,
    pub is_def: bool,
}

impl Mention {
    pub fn unpack(word: u32) -> Self {
        Mention {
            instruction: word >> 17,
            spare: word >> 3 & 0x3fff,
            is_use: word >> 2 & 1 == 1,
            is_mod: word >> 1 & 1 == 1,
            is_def: word & 1 == 1,
        }
    }

    pub fn pack(self) -> u32 {
        let flags =
            u32::from(self.is_use) << 2 | u32::from(self.is_mod) << 1 | u32::from(self.is_def);
        self.instruction << 17 | self.spare << 3 | flags
    }

    /// A use or mod has the Use point.
    pub fn has_use_point(self) -> bool {
        self.is_use || self.is_mod
    }

    /// A mod or def has the Def point.
    pub fn has_def_point(self) -> bool {
        self.is_mod || self.is_def
    }
}

/// A result record.
#[derive(Clone, Copy, Debug, PartialEq, Eq)]
pub struct Record {
    pub kind: u32,
    pub interval: u32,
    pub number: u32,
    pub first: u32,
    pub last: u32,
}

pub const IN_REGISTER: u32 = 1;
pub const IN_SLOT: u32 = 2;

impl Record {
    pub fn pack(self) -> [u32; RECORD_WORDS] {
        let place = self.kind << 30 | self.interval << 18 | self.number;
        [place, pack_pair(self.first, self.last)]
    }

    pub fn unpack(row: &[u32]) -> Self {
        let (first, last) = pair(row[1]);
        Record {
            kind: row[0] >> 30,
            interval: row[0] >> 18 & 0xfff,
            number: row[0] & LOW_HALF,
            first,
            last,
        }
    }
}
