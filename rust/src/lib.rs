//! Puts the values of a program into registers and memory slots, by linear scan.
//!
//! The step itself is proved: for every input its answer is the one that the rules of the project
//! give, and every result that it gives is accepted by a checker that is proved too. This crate is
//! ordinary Rust over the archive of that code. It packs typed tables into words, lends the room,
//! and turns numbers into enums.
//!
//! A program has instructions 0, 1, 2 and so on. Each has two points: [`Point::use_of`], where it
//! reads, and [`Point::def_of`], where it writes. A value lives from one point to another, and each
//! instruction that names it is a mention.
//!
//! ```
//! use temgurisk::{assign, Class, Options, Point, Program, Record, Value};
//!
//! let mut program = Program::new(5);
//! // One class with registers 0 and 1. Register 1 is scratch, and is never given to a value.
//! let class = program.add_class(Class::new(2).scratch(1));
//! // One value is written by instruction 0 and read by 4, the other lives in between.
//! let long = program.add(Value::new(class, Point::def_of(0), Point::def_of(4)).defined(0).used(4));
//! let short = program.add(Value::new(class, Point::def_of(1), Point::use_of(3)).defined(1).used(3));
//!
//! let tables = program.pack()?;
//! let placement = assign(Options::default(), &tables)?;
//!
//! // The short one takes the register, so the long one waits in slot 0.
//! assert_eq!(placement.slot_total(), 1);
//! let waits = Record::Slot { value: long, slot: 0, first: Point::use_of(1), last: Point::def_of(3) };
//! assert!(placement.records().any(|record| record == waits));
//! assert_eq!(placement.of_value(short).count(), 1);
//! // Anyone can check a placement, whoever made it.
//! placement.check(&tables)?;
//! # Ok::<(), Box<dyn std::error::Error>>(())
//! ```
//!
//! A refusal says what is wrong and where:
//!
//! ```
//! use temgurisk::{assign, Class, Options, Point, Program, Refusal, Value};
//!
//! let mut program = Program::new(4);
//! // The only register is scratch.
//! let class = program.add_class(Class::new(1).scratch(0));
//! program.add(Value::new(class, Point::use_of(0), Point::def_of(3)).used(0));
//!
//! let refusal = assign(Options::default(), &program.pack()?).unwrap_err();
//! assert_eq!(refusal, Refusal::NoRegister { record: 0 });
//! assert_eq!(refusal.to_string(), "record 0 needs a register, and its class has none but scratch");
//! # Ok::<(), temgurisk::TooLarge>(())
//! ```

#[cfg(all(not(archive), not(test), not(feature = "archive-optional")))]
compile_error!(
    "the archive libtemgurisk.a is missing: run `./archive` at the root of the repository, then build again"
);

#[doc(hidden)]
pub mod face;
mod options;
mod placement;
mod point;
mod program;
mod refusal;
mod room;
mod tables;

pub use options::{Options, Strategy};
pub use placement::{Placement, Record, Records};
pub use point::Point;
pub use program::{Class, ClassNumber, Program, SlotSize, TooLarge, Value, ValueNumber};
pub use refusal::{Refusal, Rule};
pub use room::Room;
pub use tables::Tables;

use face::Answer;

/// Assigns registers, with room that is computed here.
///
/// It asks for what most programs need, and where a split then finds no record, for the most that
/// there may be.
pub fn assign(options: Options, tables: &Tables) -> Result<Placement, Refusal> {
    let mut room = Room::for_tables(tables);
    match assign_in(options, tables, &mut room) {
        Err(Refusal::NoRecord { .. }) => assign_in(options, tables, &mut Room::most()),
        answer => answer,
    }
}

/// Assigns registers in room that the caller keeps, so that many programs share it.
pub fn assign_in(options: Options, tables: &Tables, room: &mut Room) -> Result<Placement, Refusal> {
    let (result, work) = room.areas();
    assign_into(options, tables, result, work).map(|records| records.to_placement())
}

/// Assigns registers into words that the caller lends, and allocates nothing.
///
/// `result` has two words for each record, `work` eight and 256 more. Where the tables, the options
/// or the room are refused, neither is written. Where the run is refused, every whole record of
/// `result` is zero. A done run writes its records only.
pub fn assign_into<'a>(
    options: Options,
    tables: &Tables,
    result: &'a mut [u32],
    work: &mut [u32],
) -> Result<Records<'a>, Refusal> {
    let answer = face::assign(options.settings(), tables.lent(), result, work);
    refused(answer)?;
    Ok(Records::new(
        &result[..placement::words(answer.count)],
        answer.total,
    ))
}

/// Checks any records against the placement rules: `words` has two words for each of the `count`
/// records, and `total` is what the slots take together. It writes nothing.
pub fn check(tables: &Tables, words: &[u32], count: u32, total: u32) -> Result<(), Refusal> {
    refused(face::check(tables.lent(), words, count, total))
}

fn refused(answer: Answer) -> Result<(), Refusal> {
    Refusal::of(answer.number, answer.place).map_or(Ok(()), Err)
}

#[cfg(all(test, archive))]
mod tests;
