//! Typed tables, and how they are packed.

use crate::point::Point;
use crate::tables::Tables;
use std::fmt;

/// A class of a [`Program`], in the order in which they were added.
#[derive(Clone, Copy, Debug, PartialEq, Eq, PartialOrd, Ord, Hash)]
pub struct ClassNumber(u32);

/// A value of a [`Program`], in the order in which they were added.
#[derive(Clone, Copy, Debug, PartialEq, Eq, PartialOrd, Ord, Hash)]
pub struct ValueNumber(u32);

impl ClassNumber {
    pub const fn new(number: u32) -> Self {
        ClassNumber(number)
    }

    pub const fn get(self) -> u32 {
        self.0
    }
}

impl ValueNumber {
    pub const fn new(number: u32) -> Self {
        ValueNumber(number)
    }

    pub const fn get(self) -> u32 {
        self.0
    }
}

/// Registers of one kind. Registers count on from those of the classes before.
#[derive(Clone, Debug, PartialEq, Eq)]
pub struct Class {
    fragments: Vec<Vec<(Point, Point)>>,
    scratch: u32,
}

impl Class {
    /// A class of so many registers. Its last is scratch, unless another is named.
    pub fn new(count: u32) -> Self {
        Class {
            fragments: vec![Vec::new(); count as usize],
            scratch: count.saturating_sub(1),
        }
    }

    /// Names the scratch register, counted from 0 inside the class. No value is put there.
    pub fn scratch(mut self, register: u32) -> Self {
        self.scratch = register;
        self
    }

    /// A register of the class, counted from 0 inside it, is taken from `first` to `last`. The
    /// parts of one register are added in order.
    ///
    /// # Panics
    /// Where the class has no such register.
    pub fn blocked(mut self, register: u32, first: Point, last: Point) -> Self {
        self.fragments[register as usize].push((first, last));
        self
    }
}

/// How many words of the stack a slot has.
#[derive(Clone, Copy, Debug, PartialEq, Eq, Hash, Default)]
pub enum SlotSize {
    #[default]
    One,
    Two,
    Four,
    Eight,
}

#[derive(Clone, Copy, Debug, PartialEq, Eq)]
struct Mention {
    instruction: u32,
    flags: u32,
}

const USE: u32 = 4;
const MOD: u32 = 2;
const DEF: u32 = 1;

/// A value: where it lives, and which instructions name it. Mentions and safepoints are added in
/// the order of the instructions.
#[derive(Clone, Debug, PartialEq, Eq)]
pub struct Value {
    class: ClassNumber,
    reference: bool,
    size: SlotSize,
    first: Point,
    last: Point,
    mentions: Vec<Mention>,
    safepoints: Vec<u32>,
}

impl Value {
    /// A value that lives from `first` to `last`, both included.
    pub fn new(class: ClassNumber, first: Point, last: Point) -> Self {
        Value {
            class,
            reference: false,
            size: SlotSize::One,
            first,
            last,
            mentions: Vec::new(),
            safepoints: Vec::new(),
        }
    }

    /// The instruction reads it.
    pub fn used(self, instruction: u32) -> Self {
        self.mentioned(instruction, USE)
    }

    /// The instruction reads and writes it, in one register.
    pub fn modified(self, instruction: u32) -> Self {
        self.mentioned(instruction, MOD)
    }

    /// The instruction writes it.
    pub fn defined(self, instruction: u32) -> Self {
        self.mentioned(instruction, DEF)
    }

    /// An instruction that names the value twice has one mention with both flags.
    fn mentioned(mut self, instruction: u32, flag: u32) -> Self {
        match self.mentions.last_mut() {
            Some(last) if last.instruction == instruction => last.flags |= flag,
            _ => self.mentions.push(Mention {
                instruction,
                flags: flag,
            }),
        }
        self
    }

    /// How large its slot is.
    pub fn slot_size(mut self, size: SlotSize) -> Self {
        self.size = size;
        self
    }

    /// It refers to memory that a collector moves.
    pub fn reference(mut self) -> Self {
        self.reference = true;
        self
    }

    /// The collector may run at this instruction.
    pub fn safepoint(mut self, instruction: u32) -> Self {
        self.safepoints.push(instruction);
        self
    }
}

/// A program: its classes of registers and its values.
#[derive(Clone, Debug, PartialEq, Eq)]
pub struct Program {
    instructions: u32,
    classes: Vec<Class>,
    values: Vec<Value>,
}

/// A number that does not fit into its field of a word.
#[derive(Clone, Debug, PartialEq, Eq)]
pub struct TooLarge {
    /// What the number is.
    pub what: &'static str,
    pub number: u64,
    /// The greatest that fits.
    pub most: u32,
}

impl fmt::Display for TooLarge {
    fn fmt(&self, f: &mut fmt::Formatter<'_>) -> fmt::Result {
        write!(
            f,
            "{} {} is too large: {} is the most",
            self.what, self.number, self.most
        )
    }
}

impl std::error::Error for TooLarge {}

impl Program {
    /// A program of so many instructions.
    pub fn new(instructions: u32) -> Self {
        Program {
            instructions,
            classes: Vec::new(),
            values: Vec::new(),
        }
    }

    pub fn add_class(&mut self, class: Class) -> ClassNumber {
        self.classes.push(class);
        ClassNumber(self.classes.len() as u32 - 1)
    }

    pub fn add(&mut self, value: Value) -> ValueNumber {
        self.values.push(value);
        ValueNumber(self.values.len() as u32 - 1)
    }

    /// Packs everything into words. Only what has no word is refused here; what makes no sense is
    /// refused by the run, which says where.
    pub fn pack(&self) -> Result<Tables, TooLarge> {
        let mut tables = Tables {
            instructions: self.instructions,
            ..Tables::default()
        };
        let mut first_register = 0;
        for class in &self.classes {
            class.pack(first_register, &mut tables)?;
            first_register += class.fragments.len();
        }
        for value in &self.values {
            value.pack(&mut tables)?;
        }
        Ok(tables)
    }
}

impl Class {
    fn pack(&self, first: usize, tables: &mut Tables) -> Result<(), TooLarge> {
        let count = self.fragments.len();
        let scratch = if count > 0 {
            first as u64 + u64::from(self.scratch)
        } else {
            0
        };
        let word = field("first register of a class", first as u64, 8)? << 24
            | field("count of registers", count as u64, 8)? << 16
            | u32::from(count > 0) << 15
            | field("scratch register", scratch, 8)? << 7;
        tables.classes.push(word);
        for fragments in &self.fragments {
            let range = half("fragment index", tables.fragments.len())? << 16
                | half("count of fragments", fragments.len())?;
            tables.registers.push(range);
            for (first, last) in fragments {
                tables.fragments.push(points(*first, *last)?);
            }
        }
        Ok(())
    }
}

impl Value {
    fn pack(&self, tables: &mut Tables) -> Result<(), TooLarge> {
        let kind = field("class", u64::from(self.class.0), 3)? << 29
            | u32::from(self.reference) << 28
            | (self.size as u32) << 26;
        let mentions = half("mention index", tables.mentions.len())? << 16
            | half("count of mentions", self.mentions.len())?;
        let safepoints = half("safepoint index", tables.safepoints.len())? << 16
            | half("count of safepoints", self.safepoints.len())?;
        let row = [kind, points(self.first, self.last)?, mentions, safepoints];
        tables.intervals.extend(row);
        for mention in &self.mentions {
            let instruction = field("instruction", u64::from(mention.instruction), 15)?;
            tables.mentions.push(instruction << 17 | mention.flags);
        }
        tables.safepoints.extend(&self.safepoints);
        Ok(())
    }
}

/// A number for a field of so many bits.
fn field(what: &'static str, number: u64, bits: u32) -> Result<u32, TooLarge> {
    let most = (1 << bits) - 1;
    if number > u64::from(most) {
        return Err(TooLarge { what, number, most });
    }
    Ok(number as u32)
}

fn half(what: &'static str, number: usize) -> Result<u32, TooLarge> {
    field(what, number as u64, 16)
}

fn points(first: Point, last: Point) -> Result<u32, TooLarge> {
    let point = |p: Point| field("point", u64::from(p.number()), 16);
    Ok(point(first)? << 16 | point(last)?)
}

#[cfg(test)]
mod tests {
    use super::*;

    fn two_registers() -> (Program, ClassNumber) {
        let mut program = Program::new(5);
        let class = program.add_class(Class::new(2));
        (program, class)
    }

    #[test]
    fn classes_count_on() {
        let mut program = Program::new(1);
        program.add_class(Class::new(8));
        program.add_class(Class::new(4));
        program.add_class(Class::new(2));
        program.add_class(Class::new(0));
        let tables = program.pack().unwrap();
        assert_eq!(
            tables.classes,
            [0x0008_8380, 0x0804_8580, 0x0c02_8680, 0x0e00_0000]
        );
        assert_eq!(tables.registers, [0; 14]);
    }

    #[test]
    fn fragments_follow_each_other() {
        let mut program = Program::new(9);
        let class = Class::new(2).blocked(0, Point::use_of(2), Point::def_of(2));
        let class = class.blocked(1, Point::def_of(3), Point::def_of(3));
        program.add_class(
            class
                .blocked(1, Point::use_of(8), Point::def_of(8))
                .scratch(0),
        );
        let tables = program.pack().unwrap();
        assert_eq!(tables.classes, [0x0002_8000]);
        assert_eq!(tables.registers, [0x0000_0001, 0x0001_0002]);
        assert_eq!(tables.fragments, [0x0004_0005, 0x0007_0007, 0x0010_0011]);
    }

    #[test]
    fn values_take_four_words_and_their_mentions() {
        let (mut program, class) = two_registers();
        let long = Value::new(class, Point::def_of(0), Point::def_of(4));
        program.add(
            long.defined(0)
                .used(4)
                .modified(4)
                .slot_size(SlotSize::Eight),
        );
        let short = Value::new(class, Point::use_of(1), Point::use_of(3));
        program.add(short.reference().modified(1).used(3).safepoint(2));
        let tables = program.pack().unwrap();
        let first = [0x0c00_0000, 0x0001_0009, 0x0000_0002, 0];
        let second = [0x1000_0000, 0x0002_0006, 0x0002_0002, 0x0000_0001];
        assert_eq!(tables.intervals, [first, second].concat());
        assert_eq!(
            tables.mentions,
            [0x0000_0001, 0x0008_0006, 0x0002_0002, 0x0006_0004]
        );
        assert_eq!(tables.safepoints, [2]);
    }

    #[test]
    fn what_has_no_word_is_too_large() {
        let (mut program, class) = two_registers();
        program.add(Value::new(class, Point::use_of(0), Point::def_of(32_768)));
        let error = program.pack().unwrap_err();
        assert_eq!(
            error.to_string(),
            "point 65537 is too large: 65535 is the most"
        );
    }

    #[test]
    fn a_class_number_has_three_bits() {
        let (mut program, _) = two_registers();
        program.add(Value::new(
            ClassNumber::new(8),
            Point::use_of(0),
            Point::use_of(0),
        ));
        assert_eq!(program.pack().unwrap_err().what, "class");
    }
}
