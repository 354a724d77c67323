//! Points of a program.

use std::fmt;

/// A side of an instruction: where it reads, or where it writes.
#[derive(Clone, Copy, PartialEq, Eq, PartialOrd, Ord, Hash)]
pub struct Point {
    number: u32,
}

impl Point {
    /// Where an instruction reads.
    pub const fn use_of(instruction: u32) -> Self {
        Point {
            number: instruction.saturating_mul(2),
        }
    }

    /// Where an instruction writes, after it has read.
    pub const fn def_of(instruction: u32) -> Self {
        Point {
            number: instruction.saturating_mul(2).saturating_add(1),
        }
    }

    pub const fn instruction(self) -> u32 {
        self.number / 2
    }

    pub const fn is_def(self) -> bool {
        self.number % 2 == 1
    }

    /// The number of the point: twice the instruction, and one more where it writes.
    pub const fn number(self) -> u32 {
        self.number
    }

    /// The point of this number.
    pub const fn from_number(number: u32) -> Self {
        Point { number }
    }
}

impl fmt::Debug for Point {
    fn fmt(&self, f: &mut fmt::Formatter<'_>) -> fmt::Result {
        let side = if self.is_def() { "def" } else { "use" };
        write!(f, "{side}_of({})", self.instruction())
    }
}
