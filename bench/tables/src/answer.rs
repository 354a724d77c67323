//! Answers: document 01's number, place, count and total, and the module's own verdict.

use crate::words::{NOWHERE, RECORD_WORDS};

pub const DONE: u32 = 1;
pub const NO_ROOM: u32 = 9;
pub const NO_RECORD: u32 = 10;
pub const NO_REGISTER: u32 = 11;
pub const OUT_OF_REGISTERS: u32 = 12;
pub const FIXED_CLASH: u32 = 13;
pub const BAD_SAFEPOINT: u32 = 7;

/// An answer of document 01 with the result words of a done run.
#[derive(Clone, Debug, PartialEq, Eq)]
pub struct Answer {
    pub number: u32,
    pub place: u32,
    pub count: u32,
    pub total: u32,
    pub words: Vec<u32>,
}

impl Answer {
    pub fn done(words: Vec<u32>, total: u32) -> Self {
        let count = (words.len() / RECORD_WORDS) as u32;
        Answer {
            number: DONE,
            place: NOWHERE,
            count,
            total,
            words,
        }
    }

    pub fn refused(number: u32, place: u32) -> Self {
        Answer {
            number,
            place,
            count: 0,
            total: 0,
            words: Vec::new(),
        }
    }

    /// The line that `temgurisk_run` writes for a case.
    pub fn line(&self, name: &str) -> String {
        let mut line = format!(
            "{name} {} {} {} {}",
            self.number, self.place, self.count, self.total
        );
        for word in &self.words {
            line.push_str(&format!(" {word:08x}"));
        }
        line
    }

    /// Reads such a line: the case's name and the answer.
    pub fn parse(line: &str) -> Option<(String, Answer)> {
        let mut fields = line.split_whitespace();
        let name = fields.next()?.to_string();
        let mut decimal = || fields.next()?.parse::<u32>().ok();
        let (number, place, count, total) = (decimal()?, decimal()?, decimal()?, decimal()?);
        let words: Option<Vec<u32>> = fields.map(|f| u32::from_str_radix(f, 16).ok()).collect();
        Some((
            name,
            Answer {
                number,
                place,
                count,
                total,
                words: words?,
            },
        ))
    }
}

/// How a run of the module ended.
#[derive(Clone, Debug, PartialEq, Eq)]
pub enum Ending {
    /// It returned its intervals: an answer 1.
    Done(Answer),
    /// It returned an error; `record` is the one that was popped last. Answers 11 and 12.
    Error(Answer),
    /// A split would make more records than the case has room for: an answer 10.
    Full(Answer),
    /// It panicked (a debug assertion, an index, an overflow) while `record` was handled.
    Panicked { record: u32, why: String },
}

/// What the module gave for a case, and whether two queued records ever shared the lowest start.
#[derive(Clone, Debug, PartialEq, Eq)]
pub struct Verdict {
    pub ending: Ending,
    pub tie: bool,
}

impl Verdict {
    /// The answer of document 01 that this verdict amounts to, if any.
    pub fn answer(&self) -> Option<&Answer> {
        match &self.ending {
            Ending::Done(a) | Ending::Error(a) | Ending::Full(a) => Some(a),
            Ending::Panicked { .. } => None,
        }
    }
}
