//! Tables as packed words.

use crate::face::Lent;

/// The six tables and the number of instructions, packed as the archive takes them.
///
/// [`Program::pack`](crate::Program::pack) makes them; whoever has packed words already fills them
/// in. Any words may stand here: bad ones are refused.
#[derive(Clone, Debug, PartialEq, Eq, Default)]
pub struct Tables {
    pub instructions: u32,
    /// First register 8 bits, count 8, has-scratch 1, scratch 8, spare 7.
    pub classes: Vec<u32>,
    /// First fragment index 16, fragment count 16.
    pub registers: Vec<u32>,
    /// First point 16, last point 16.
    pub fragments: Vec<u32>,
    /// Four words each: class 3, reference 1, log2 of the slot size 2, spare 26; start 16, end 16;
    /// mention index 16, count 16; safepoint index 16, count 16.
    pub intervals: Vec<u32>,
    /// Instruction 15, spare 14, use 1, mod 1, def 1.
    pub mentions: Vec<u32>,
    /// Instruction numbers.
    pub safepoints: Vec<u32>,
}

const INTERVAL_WORDS: usize = 4;

impl Tables {
    /// How many intervals there are: one for each value.
    pub fn interval_count(&self) -> usize {
        self.intervals.len() / INTERVAL_WORDS
    }

    /// The tables as a call takes them.
    pub(crate) fn lent(&self) -> Lent<'_> {
        Lent {
            instructions: self.instructions,
            classes: &self.classes,
            registers: &self.registers,
            fragments: &self.fragments,
            intervals: &self.intervals,
            mentions: &self.mentions,
            safepoints: &self.safepoints,
        }
    }
}
