//! The proved archive: its two functions on cases, and what a caller sees of them.

use tables::answer::{Answer, DONE, FIXED_CLASH, NO_RECORD};
use tables::case::{Case, Claim};
use tables::words::{capacity, RECORD_WORDS};
use temgurisk::face::{self, Answer as Four, Lent, Settings};

pub use temgurisk::face::AT_HAND;

/// What lent words hold before a call, so that an unwritten one is seen.
const BEFORE: u32 = 0xdead_beef;

fn lent(case: &Case) -> Lent<'_> {
    Lent {
        instructions: case.instructions,
        classes: &case.classes,
        registers: &case.registers,
        fragments: &case.fragments,
        intervals: &case.intervals,
        mentions: &case.mentions,
        safepoints: &case.safepoints,
    }
}

/// Assigns registers. The lent areas are the caller's.
pub fn assign(case: &Case, result: &mut [u32], work: &mut [u32]) -> Four {
    let settings = Settings {
        strategy: case.options.strategy,
        partial_split: case.options.partial_split,
        partial_split_near_end: case.options.near_end,
    };
    face::assign(settings, lent(case), result, work)
}

/// Checks a claim: records and slot total.
pub fn check(case: &Case, words: &[u32], count: u32, total: u32) -> Four {
    face::check(lent(case), words, count, total)
}

/// Lends a fresh result area and work area, calls the port, and looks at every word of the result
/// area afterwards. An error says which word is wrong.
pub fn answer(case: &Case) -> Result<Answer, String> {
    let room = case.room();
    let mut result = vec![BEFORE; room.result];
    let mut work = vec![BEFORE; room.work];
    let four = assign(case, &mut result, &mut work);
    let written = written_words(four, room.result);
    let zeroed = (NO_RECORD..=FIXED_CLASH).contains(&four.number);
    if written > result.len() || result[written..].iter().any(|word| *word != BEFORE) {
        return Err(format!("{four:?}: a word past {written} was written"));
    }
    if zeroed && result[..written].iter().any(|word| *word != 0) {
        return Err(format!("{four:?}: a word below {written} is not zero"));
    }
    let at_entry = (2..NO_RECORD).contains(&four.number);
    if at_entry && work.iter().any(|word| *word != BEFORE) {
        return Err(format!("{four:?}: the work area was written"));
    }
    let words = if four.number == DONE {
        result[..written].to_vec()
    } else {
        Vec::new()
    };
    Ok(with_words(four, words))
}

/// The checker's answer for a claim.
pub fn checked(case: &Case, claim: &Claim) -> Answer {
    with_words(
        check(case, &claim.words, claim.count, claim.total),
        Vec::new(),
    )
}

fn with_words(four: Four, words: Vec<u32>) -> Answer {
    let Four {
        number,
        place,
        count,
        total,
    } = four;
    Answer {
        number,
        place,
        count,
        total,
        words,
    }
}

/// How many words of the result area a call writes.
fn written_words(four: Four, lent: usize) -> usize {
    match four.number {
        DONE => four.count as usize * RECORD_WORDS,
        NO_RECORD..=FIXED_CLASH => capacity(lent) * RECORD_WORDS,
        _ => 0,
    }
}
