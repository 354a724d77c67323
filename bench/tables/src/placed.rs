//! The placement rules, in a second reading apart from the proved checker.

use crate::answer::{Answer, DONE};
use crate::case::{Case, Claim};
use crate::sound::table_refusal;
use crate::words::*;
use std::collections::BTreeMap;

const OVER_LIMIT: u32 = 3;
const BROKEN: u32 = 14;

/// What the checker must answer for a claim.
pub fn verdict(case: &Case, claim: &Claim) -> Answer {
    let count = claim.count as usize;
    if count > MAX_RECORDS || count * RECORD_WORDS > claim.words.len() {
        return Answer::refused(OVER_LIMIT, NOWHERE);
    }
    if let Some(refusal) = table_refusal(case) {
        return refusal;
    }
    let rows = claim.words.chunks_exact(RECORD_WORDS).take(count);
    let placed = Placed {
        case,
        total: claim.total,
        records: rows.map(Record::unpack).collect(),
    };
    match placed.lowest_broken(&claim.words) {
        Some(rule) => Answer::refused(BROKEN, rule),
        None => Answer {
            number: DONE,
            place: NOWHERE,
            count: claim.count,
            total: claim.total,
            words: Vec::new(),
        },
    }
}

/// A claim on sound tables. A later rule is only asked where the earlier ones hold.
struct Placed<'a> {
    case: &'a Case,
    total: u32,
    records: Vec<Record>,
}

impl Placed<'_> {
    fn lowest_broken(&self, words: &[u32]) -> Option<u32> {
        if !(self.is_packed(words) && self.is_whole()) {
            return Some(1);
        }
        let later: [(u32, fn(&Self) -> bool); 6] = [
            (2, Self::mentions_are_in_registers),
            (3, Self::registers_are_of_the_class),
            (4, Self::registers_are_not_shared),
            (5, Self::fragments_are_not_met),
            (6, Self::slots_are_apart),
            (7, Self::safepoints_are_kept),
        ];
        later
            .iter()
            .find(|(_, holds)| !holds(self))
            .map(|(rule, _)| *rule)
    }

    /// Kind 1 or 2, spare bits zero, first not after last, and an interval that there is.
    fn is_packed(&self, words: &[u32]) -> bool {
        let rows = words.chunks_exact(RECORD_WORDS);
        self.records.iter().zip(rows).all(|(record, row)| {
            let known = record.kind == IN_REGISTER || record.kind == IN_SLOT;
            let no_spare = record.pack() == [row[0], row[1]];
            let named = (record.interval as usize) < self.case.interval_count();
            known && no_spare && named && record.first <= record.last
        })
    }

    /// The records of each interval, one after the other, are the interval.
    fn is_whole(&self) -> bool {
        let mut parts = vec![Vec::new(); self.case.interval_count()];
        for record in &self.records {
            parts[record.interval as usize].push((record.first, record.last));
        }
        parts.iter_mut().enumerate().all(|(k, parts)| {
            parts.sort_unstable();
            let interval = self.case.interval(k);
            let mut next = interval.start;
            let follows = parts.iter().all(|(first, last)| {
                let fits = *first == next;
                next = last + 1;
                fits
            });
            follows && next == interval.end + 1
        })
    }

    fn in_registers(&self) -> impl Iterator<Item = &Record> {
        self.records
            .iter()
            .filter(|record| record.kind == IN_REGISTER)
    }

    fn in_slots(&self) -> impl Iterator<Item = &Record> {
        self.records.iter().filter(|record| record.kind == IN_SLOT)
    }

    fn interval_of(&self, record: &Record) -> Interval {
        self.case.interval(record.interval as usize)
    }

    /// All points of a mention lie in one register record of its interval.
    fn mentions_are_in_registers(&self) -> bool {
        let mut homes: BTreeMap<u32, Vec<&Record>> = BTreeMap::new();
        for record in self.in_registers() {
            homes.entry(record.interval).or_default().push(record);
        }
        (0..self.case.interval_count()).all(|k| {
            let own = homes.get(&(k as u32)).map_or(&[][..], |own| &own[..]);
            self.mentions(self.case.interval(k)).all(|mention| {
                own.iter()
                    .any(|record| points(mention).all(|point| holds(record, point)))
            })
        })
    }

    fn mentions(&self, interval: Interval) -> impl Iterator<Item = Mention> + '_ {
        let (first, count) = interval.mentions;
        let range = first as usize..(first + count) as usize;
        self.case.mentions[range]
            .iter()
            .map(|word| Mention::unpack(*word))
    }

    fn registers_are_of_the_class(&self) -> bool {
        self.in_registers().all(|record| {
            let class = Class::unpack(self.case.classes[self.interval_of(record).class as usize]);
            let own = class.first..class.first + class.count;
            own.contains(&record.number) && record.number != class.scratch
        })
    }

    fn registers_are_not_shared(&self) -> bool {
        let mut parts: Vec<(u32, u32, u32)> = self
            .in_registers()
            .map(|r| (r.number, r.first, r.last))
            .collect();
        parts.sort_unstable();
        parts
            .windows(2)
            .all(|two| two[0].0 != two[1].0 || two[0].2 < two[1].1)
    }

    fn fragments_are_not_met(&self) -> bool {
        self.in_registers().all(|record| {
            let (first, count) = pair(self.case.registers[record.number as usize]);
            let range = first as usize..(first + count) as usize;
            self.case.fragments[range].iter().all(|word| {
                let (first, last) = pair(*word);
                last < record.first || record.last < first
            })
        })
    }

    /// One slot for each value, a multiple of its size, apart from the others; the total is where
    /// the furthest ends.
    fn slots_are_apart(&self) -> bool {
        let mut slots: BTreeMap<u32, u32> = BTreeMap::new();
        for record in self.in_slots() {
            if *slots.entry(record.interval).or_insert(record.number) != record.number {
                return false;
            }
        }
        let size = |k: u32| self.case.interval(k as usize).slot_size();
        let mut extents: Vec<(u32, u32)> = slots.iter().map(|(k, s)| (*s, *s + size(*k))).collect();
        extents.sort_unstable();
        let apart = extents.windows(2).all(|two| two[0].1 <= two[1].0);
        let aligned = slots.iter().all(|(k, slot)| slot % size(*k) == 0);
        apart && aligned && self.total == extents.last().map_or(0, |extent| extent.1)
    }

    /// A reference in a register: at its first safepoint it is written, inside the record.
    fn safepoints_are_kept(&self) -> bool {
        self.in_registers().all(|record| {
            let interval = self.interval_of(record);
            let (first, count) = interval.safepoints;
            let own = &self.case.safepoints[first as usize..(first + count) as usize];
            let met = own.iter().find(|s| holds(record, use_point(**s)));
            !interval.reference || met.is_none_or(|s| self.is_written(record, interval, *s))
        })
    }

    fn is_written(&self, record: &Record, interval: Interval, instruction: u32) -> bool {
        let point = def_point(instruction);
        let is_point = |mention: Mention| points(mention).any(|p| p == point);
        holds(record, point) && self.mentions(interval).any(is_point)
    }
}

fn holds(record: &Record, point: u32) -> bool {
    record.first <= point && point <= record.last
}

fn points(mention: Mention) -> impl Iterator<Item = u32> {
    let read = mention
        .has_use_point()
        .then_some(use_point(mention.instruction));
    let written = mention
        .has_def_point()
        .then_some(def_point(mention.instruction));
    read.into_iter().chain(written)
}
