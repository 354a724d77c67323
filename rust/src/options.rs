//! How pieces are split.

use crate::face::Settings;

/// Where a piece is split that leaves its register: in a range from just after its last mention to
/// the point where the register is lost. A place outside the range becomes its start.
#[derive(Clone, Copy, Debug, PartialEq, Eq, Hash, Default)]
pub enum Strategy {
    /// At the start of the range.
    #[default]
    From,
    /// At its end.
    To,
    /// One point after the start.
    NextFrom,
    /// Two points after the start.
    NextNextFrom,
    /// Where the instruction in the middle reads.
    Mid,
    /// One point before the end.
    PrevTo,
    /// Two points before the end.
    PrevPrevTo,
}

impl Strategy {
    /// The number that the archive takes, 1 to 7.
    pub const fn number(self) -> u32 {
        match self {
            Strategy::From => 1,
            Strategy::To => 2,
            Strategy::NextFrom => 3,
            Strategy::NextNextFrom => 4,
            Strategy::Mid => 5,
            Strategy::PrevTo => 6,
            Strategy::PrevPrevTo => 7,
        }
    }
}

/// What the caller may choose.
#[derive(Clone, Copy, Debug, PartialEq, Eq, Hash, Default)]
pub struct Options {
    pub strategy: Strategy,
    /// Take a register that is free for a part of the piece only, and split the piece there.
    pub partial_split: bool,
    /// Make that split as late as it can be, not as early.
    pub partial_split_near_end: bool,
}

impl Options {
    /// The options in numbers.
    pub(crate) fn settings(self) -> Settings {
        Settings {
            strategy: self.strategy.number(),
            partial_split: self.partial_split,
            partial_split_near_end: self.partial_split_near_end,
        }
    }
}
