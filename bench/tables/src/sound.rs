//! The entry rules, answers 2 to 9, in the order of document 01. This is a second reading, apart
//! from the proved one: it says which made-up tables are sound, and what the entry must answer.

use crate::answer::{Answer, BAD_SAFEPOINT, NO_ROOM};
use crate::case::Case;
use crate::words::*;

const BAD_STRATEGY: u32 = 2;
const OVER_LIMIT: u32 = 3;
const BAD_CLASS: u32 = 4;
const BAD_INTERVAL: u32 = 5;
const BAD_MENTION: u32 = 6;
const BAD_FIXED: u32 = 8;
const STRATEGIES: std::ops::RangeInclusive<u32> = 1..=7;

/// The refusal of the entry checks, or none.
pub fn refusal(case: &Case) -> Option<Answer> {
    if !STRATEGIES.contains(&case.options.strategy) {
        return Some(Answer::refused(BAD_STRATEGY, NOWHERE));
    }
    table_refusal(case).or_else(|| room_refusal(case))
}

/// 3 to 8: the tables alone.
pub fn table_refusal(case: &Case) -> Option<Answer> {
    let at = |number: u32, place: Option<usize>| place.map(|p| Answer::refused(number, p as u32));
    if over_limit(case) {
        return Some(Answer::refused(OVER_LIMIT, NOWHERE));
    }
    at(BAD_CLASS, bad_class(case))
        .or_else(|| at(BAD_INTERVAL, bad_interval(case)))
        .or_else(|| at(BAD_MENTION, bad_mention(case)))
        .or_else(|| at(BAD_SAFEPOINT, bad_safepoint(case)))
        .or_else(|| at(BAD_FIXED, bad_fixed(case)))
}

fn over_limit(case: &Case) -> bool {
    case.instructions > MAX_INSTRUCTIONS
        || case.classes.is_empty()
        || case.classes.len() > MAX_CLASSES
        || case.registers.len() > MAX_REGISTERS
        || case.fragments.len() > MAX_FRAGMENTS
        || case.intervals.len() % INTERVAL_WORDS != 0
        || case.interval_count() > MAX_INTERVALS
        || case.mentions.len() > MAX_MENTIONS
        || case.safepoints.len() > MAX_SAFEPOINTS
}

/// The last index of a table, or the place that names none.
fn last_of(count: usize) -> usize {
    count.checked_sub(1).unwrap_or(NOWHERE as usize)
}

fn bad_class(case: &Case) -> Option<usize> {
    let mut next = 0;
    for (k, word) in case.classes.iter().enumerate() {
        let class = Class::unpack(*word);
        if class.first != next || class.spare != 0 || !scratch_fits(class) {
            return Some(k);
        }
        next += class.count;
    }
    let wrong_sum = next as usize != case.registers.len();
    wrong_sum.then(|| last_of(case.classes.len()))
}

fn scratch_fits(class: Class) -> bool {
    if class.count == 0 {
        return !class.has_scratch && class.scratch == 0;
    }
    let own = class.first..class.first + class.count;
    class.has_scratch && own.contains(&class.scratch)
}

fn bad_interval(case: &Case) -> Option<usize> {
    let (mut mentions, mut safepoints) = (0, 0);
    for k in 0..case.interval_count() {
        let i = case.interval(k);
        let known = i.spare == 0 && (i.class as usize) < case.classes.len();
        let inside = i.start <= i.end && i.end < 2 * case.instructions;
        let goes_on = i.mentions.0 == mentions && i.safepoints.0 == safepoints;
        mentions += i.mentions.1;
        safepoints += i.safepoints.1;
        let there = mentions as usize <= case.mentions.len()
            && safepoints as usize <= case.safepoints.len();
        if !(known && inside && goes_on && there) {
            return Some(k);
        }
    }
    let left =
        mentions as usize != case.mentions.len() || safepoints as usize != case.safepoints.len();
    left.then(|| last_of(case.interval_count()))
}

/// The indices that a range names.
fn indices(range: (u32, u32)) -> std::ops::Range<usize> {
    range.0 as usize..(range.0 + range.1) as usize
}

fn bad_mention(case: &Case) -> Option<usize> {
    (0..case.interval_count()).find_map(|k| {
        let interval = case.interval(k);
        indices(interval.mentions).find(|&m| {
            let mention = Mention::unpack(case.mentions[m]);
            let first = m == interval.mentions.0 as usize;
            let ascends =
                first || Mention::unpack(case.mentions[m - 1]).instruction < mention.instruction;
            !(ascends && mention_fits(mention, interval))
        })
    })
}

fn mention_fits(mention: Mention, interval: Interval) -> bool {
    let inside = |point: u32| interval.start <= point && point <= interval.end;
    let some_flag = mention.has_use_point() || mention.has_def_point();
    let use_in = !mention.has_use_point() || inside(use_point(mention.instruction));
    let def_in = !mention.has_def_point() || inside(def_point(mention.instruction));
    mention.spare == 0 && some_flag && use_in && def_in
}

fn bad_safepoint(case: &Case) -> Option<usize> {
    (0..case.interval_count()).find_map(|k| {
        let interval = case.interval(k);
        indices(interval.safepoints).find(|&s| {
            let first = s == interval.safepoints.0 as usize;
            let ascends = first || case.safepoints[s - 1] < case.safepoints[s];
            !(interval.reference && ascends && safepoint_fits(case, interval, case.safepoints[s]))
        })
    })
}

fn safepoint_fits(case: &Case, interval: Interval, instruction: u32) -> bool {
    if instruction >= case.instructions {
        return false;
    }
    let point = use_point(instruction);
    let inside = interval.start <= point && point <= interval.end;
    let read_only = indices(interval.mentions).any(|m| {
        let mention = Mention::unpack(case.mentions[m]);
        mention.instruction == instruction && mention.is_use && !mention.has_def_point()
    });
    inside && !read_only
}

fn bad_fixed(case: &Case) -> Option<usize> {
    let mut next = 0;
    for (r, word) in case.registers.iter().enumerate() {
        let (first, count) = pair(*word);
        if first != next || (first + count) as usize > case.fragments.len() {
            return Some(r);
        }
        if !fragments_fit(case, indices((first, count))) {
            return Some(r);
        }
        next += count;
    }
    let left = next as usize != case.fragments.len();
    left.then(|| last_of(case.registers.len()))
}

fn fragments_fit(case: &Case, range: std::ops::Range<usize>) -> bool {
    let mut free_from = 0;
    case.fragments[range].iter().all(|word| {
        let (first, last) = pair(*word);
        let fits = free_from <= first && first <= last && last < 2 * case.instructions;
        free_from = last + 1;
        fits
    })
}

/// 9: capacity below interval count, or work area short.
fn room_refusal(case: &Case) -> Option<Answer> {
    let room = case.room();
    let holds = capacity(room.result);
    let short = holds < case.interval_count() || room.work < work_words(holds);
    short.then(|| Answer::refused(NO_ROOM, NOWHERE))
}
