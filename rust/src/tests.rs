//! The small runs of document 01, through the archive.

use crate::*;

/// One class of registers 0 and 1, the second its scratch.
fn one(instructions: u32) -> (Program, ClassNumber) {
    let mut program = Program::new(instructions);
    let class = program.add_class(Class::new(2));
    (program, class)
}

fn run(program: &Program) -> Result<Placement, Refusal> {
    let tables = program.pack().unwrap();
    let placement = assign(Options::default(), &tables)?;
    placement.check(&tables)?;
    Ok(placement)
}

/// M6: the long value waits in a slot while the short one has the register.
fn m6() -> Program {
    let (mut program, class) = one(5);
    program.add(
        Value::new(class, Point::def_of(0), Point::def_of(4))
            .defined(0)
            .used(4),
    );
    program.add(
        Value::new(class, Point::def_of(1), Point::use_of(3))
            .defined(1)
            .used(3),
    );
    program
}

#[test]
fn m1_no_value() {
    let placement = run(&one(0).0).unwrap();
    assert_eq!((placement.words().len(), placement.slot_total()), (0, 0));
}

#[test]
fn m2_one_value() {
    let (mut program, class) = one(1);
    program.add(Value::new(class, Point::def_of(0), Point::def_of(0)).defined(0));
    assert_eq!(run(&program).unwrap().words(), [0x4000_0000, 0x0001_0001]);
}

#[test]
fn m3_and_m4_scratch_alone() {
    let mut program = Program::new(4);
    let class = program.add_class(Class::new(1));
    let value = Value::new(class, Point::use_of(0), Point::def_of(3));
    let mut used = program.clone();
    program.add(value.clone());
    let placement = run(&program).unwrap();
    assert_eq!(placement.words(), [0x8000_0000, 0x0000_0007]);
    assert_eq!(placement.slot_total(), 1);
    used.add(value.used(0));
    assert_eq!(run(&used), Err(Refusal::NoRegister { record: 0 }));
}

#[test]
fn m5_out_of_registers() {
    let mut program = Program::new(1);
    let class = program.add_class(Class::new(3));
    for _ in 0..3 {
        program.add(Value::new(class, Point::use_of(0), Point::def_of(0)).used(0));
    }
    assert_eq!(run(&program), Err(Refusal::OutOfRegisters { record: 2 }));
}

#[test]
fn m6_a_value_waits() {
    let placement = run(&m6()).unwrap();
    let rows = [
        [0x4000_0000, 0x0001_0001],
        [0x4004_0000, 0x0003_0006],
        [0x8000_0000, 0x0002_0007],
        [0x4000_0000, 0x0008_0009],
    ];
    assert_eq!(placement.words(), rows.concat());
    assert_eq!(placement.slot_total(), 1);
}

#[test]
fn m7_no_record_is_left() {
    let mut room = Room::for_records(3);
    let tables = m6().pack().unwrap();
    let refusal = assign_in(Options::default(), &tables, &mut room).unwrap_err();
    assert_eq!(refusal, Refusal::NoRecord { record: 2 });
    assert_eq!(room.areas().0, [0; 6]);
}

#[test]
fn m9_a_fixed_clash() {
    let mut program = Program::new(5);
    let blocked = Class::new(2).blocked(0, Point::use_of(2), Point::def_of(2));
    let class = program.add_class(blocked);
    let value = Value::new(class, Point::def_of(0), Point::def_of(4));
    program.add(value.defined(0).used(2).used(4));
    assert_eq!(run(&program), Err(Refusal::FixedClash { record: 0 }));
}

#[test]
fn m11_a_bad_safepoint() {
    let (mut program, class) = one(5);
    let value = Value::new(class, Point::def_of(0), Point::def_of(4))
        .reference()
        .safepoint(2);
    program.add(value.defined(0).used(2).used(4));
    assert_eq!(run(&program), Err(Refusal::BadSafepoint { safepoint: 0 }));
}

#[test]
fn m13_slots_of_two_sizes() {
    let mut program = Program::new(4);
    let class = program.add_class(Class::new(1));
    let value = Value::new(class, Point::use_of(0), Point::def_of(3));
    program.add(value.clone().slot_size(SlotSize::Two));
    program.add(value);
    let placement = run(&program).unwrap();
    assert_eq!(
        placement.words(),
        [0x8000_0000, 0x0000_0007, 0x8004_0002, 0x0000_0007]
    );
    assert_eq!(placement.slot_total(), 3);
}

#[test]
fn a_changed_record_is_rejected() {
    let tables = m6().pack().unwrap();
    let placement = assign(Options::default(), &tables).unwrap();
    let mut words = placement.words().to_vec();
    words[1] = 0x0001_0003;
    assert_eq!(
        check(&tables, &words, 4, 1),
        Err(Refusal::Broken(Rule::Whole))
    );
}

#[test]
fn short_lent_words_are_left_alone() {
    let tables = m6().pack().unwrap();
    let (mut result, mut work) = ([7; 4], [7; 16]);
    let refusal = assign_into(Options::default(), &tables, &mut result, &mut work);
    assert_eq!(refusal, Err(Refusal::NoRoom));
    assert_eq!((result, work), ([7; 4], [7; 16]));
}
