//! Refusals, in words.

use std::fmt;

/// The place of an answer that names none.
const NOWHERE: u32 = 65_535;

/// Why there is no placement, or why a claimed one is rejected. Numbers count from 0.
#[derive(Clone, Copy, Debug, PartialEq, Eq, Hash)]
pub enum Refusal {
    /// 2: the strategy is none of the seven. Not from [`Options`](crate::Options).
    BadStrategy,
    /// 3: a count exceeds its limit, there is no class, or the interval words are no multiple of 4.
    OverLimit,
    /// 4
    BadClass { class: u32 },
    /// 5: none is named where there is no interval and words are left over.
    BadInterval { interval: Option<u32> },
    /// 6
    BadMention { mention: u32 },
    /// 7
    BadSafepoint { safepoint: u32 },
    /// 8: none is named where there is no register and fragments are left over.
    BadFixed { register: Option<u32> },
    /// 9: the result area holds fewer records than there are intervals, or the work area is short.
    NoRoom,
    /// 10
    NoRecord { record: u32 },
    /// 11
    NoRegister { record: u32 },
    /// 12
    OutOfRegisters { record: u32 },
    /// 13
    FixedClash { record: u32 },
    /// 14: from the checker only, the lowest rule that is broken.
    Broken(Rule),
}

/// The placement rules.
#[derive(Clone, Copy, Debug, PartialEq, Eq, Hash)]
pub enum Rule {
    Whole,
    MentionsInRegisters,
    OwnClass,
    NoOverlap,
    NoFragment,
    Slots,
    Safepoints,
}

const RULES: [Rule; 7] = [
    Rule::Whole,
    Rule::MentionsInRegisters,
    Rule::OwnClass,
    Rule::NoOverlap,
    Rule::NoFragment,
    Rule::Slots,
    Rule::Safepoints,
];

impl Refusal {
    /// The refusal of an answer, none for 1, which is done.
    pub(crate) fn of(number: u32, place: u32) -> Option<Self> {
        let named = (place != NOWHERE).then_some(place);
        Some(match number {
            1 => return None,
            2 => Refusal::BadStrategy,
            3 => Refusal::OverLimit,
            4 => Refusal::BadClass { class: place },
            5 => Refusal::BadInterval { interval: named },
            6 => Refusal::BadMention { mention: place },
            7 => Refusal::BadSafepoint { safepoint: place },
            8 => Refusal::BadFixed { register: named },
            9 => Refusal::NoRoom,
            10 => Refusal::NoRecord { record: place },
            11 => Refusal::NoRegister { record: place },
            12 => Refusal::OutOfRegisters { record: place },
            13 => Refusal::FixedClash { record: place },
            14 => Refusal::Broken(rule(place)),
            _ => unreachable!("the archive answers 1 to 14, by proof"),
        })
    }

    /// The number of the answer, 2 to 14.
    pub const fn number(self) -> u32 {
        match self {
            Refusal::BadStrategy => 2,
            Refusal::OverLimit => 3,
            Refusal::BadClass { .. } => 4,
            Refusal::BadInterval { .. } => 5,
            Refusal::BadMention { .. } => 6,
            Refusal::BadSafepoint { .. } => 7,
            Refusal::BadFixed { .. } => 8,
            Refusal::NoRoom => 9,
            Refusal::NoRecord { .. } => 10,
            Refusal::NoRegister { .. } => 11,
            Refusal::OutOfRegisters { .. } => 12,
            Refusal::FixedClash { .. } => 13,
            Refusal::Broken(_) => 14,
        }
    }
}

fn rule(place: u32) -> Rule {
    let at = place.checked_sub(1).map(|p| p as usize);
    let known = at.and_then(|p| RULES.get(p)).copied();
    known.unwrap_or_else(|| unreachable!("there are seven rules"))
}

impl fmt::Display for Refusal {
    fn fmt(&self, f: &mut fmt::Formatter<'_>) -> fmt::Result {
        match self {
            Refusal::BadStrategy => write!(f, "the strategy is none of 1 to 7"),
            Refusal::OverLimit => write!(f, "a table is longer than it may be, there is no class, or the interval words are no multiple of 4"),
            Refusal::BadClass { class } => write!(f, "class {class} is bad: its registers do not follow those before, its scratch is not one of them, or the classes do not sum to the registers"),
            Refusal::BadInterval { interval: Some(k) } => write!(f, "interval {k} is bad: its class, its points, or where its mentions and safepoints lie"),
            Refusal::BadInterval { interval: None } => write!(f, "there are mentions or safepoints, but no interval"),
            Refusal::BadMention { mention } => write!(f, "mention {mention} is bad: out of order, without a flag, or outside its interval"),
            Refusal::BadSafepoint { safepoint } => write!(f, "safepoint {safepoint} is bad: its interval is no reference, it is out of order or outside, or the value is only read there"),
            Refusal::BadFixed { register: Some(r) } => write!(f, "the fragments of register {r} are bad: out of order, overlapping, or outside the program"),
            Refusal::BadFixed { register: None } => write!(f, "there are fragments, but no register"),
            Refusal::NoRoom => write!(f, "the lent room is too small: one record for each interval, and eight work words for each record and 256 more"),
            Refusal::NoRecord { record } => write!(f, "record {record} has to be split, and every record is in use: lend a longer result area"),
            Refusal::NoRegister { record } => write!(f, "record {record} needs a register, and its class has none but scratch"),
            Refusal::OutOfRegisters { record } => write!(f, "out of registers: record {record} needs one where it starts, and all are needed there"),
            Refusal::FixedClash { record } => write!(f, "record {record} needs its register exactly where the register is blocked"),
            Refusal::Broken(rule) => write!(f, "the placement is broken: {rule}"),
        }
    }
}

impl fmt::Display for Rule {
    fn fmt(&self, f: &mut fmt::Formatter<'_>) -> fmt::Result {
        let words = match self {
            Rule::Whole => "rule 1, a record is badly packed, or an interval's points do not lie each in exactly one of its records",
            Rule::MentionsInRegisters => "rule 2, the points of a mention do not lie in one register record",
            Rule::OwnClass => "rule 3, a register is scratch or of another class",
            Rule::NoOverlap => "rule 4, two records share a register at a point",
            Rule::NoFragment => "rule 5, a record lies in a register where it is blocked",
            Rule::Slots => "rule 6, a value has two slots or one that is no multiple of its size, two values' slots meet, or the total is wrong",
            Rule::Safepoints => "rule 7, a reference is in a register at a safepoint that does not write it",
        };
        write!(f, "{words}")
    }
}

impl std::error::Error for Refusal {}

#[cfg(test)]
mod tests {
    use super::*;

    #[test]
    fn numbers_go_both_ways() {
        for number in 2..=14 {
            let refusal = Refusal::of(number, 3).unwrap();
            assert_eq!(refusal.number(), number);
            assert!(!refusal.to_string().is_empty());
        }
        assert_eq!(Refusal::of(1, NOWHERE), None);
    }

    #[test]
    fn leftovers_name_nothing() {
        assert_eq!(
            Refusal::of(5, NOWHERE),
            Some(Refusal::BadInterval { interval: None })
        );
        assert_eq!(
            Refusal::of(8, 2),
            Some(Refusal::BadFixed { register: Some(2) })
        );
    }
}
