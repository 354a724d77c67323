//! Made-up sound tables of many shapes. The seed decides everything.

use crate::case::{Case, Claim, Options, Room};
use crate::rng::Rng;
use crate::words::*;

/// What a made-up case is like.
#[derive(Clone, Copy, Debug, PartialEq, Eq, PartialOrd, Ord)]
pub enum Shape {
    /// Few instructions, everything meets everything.
    Dense,
    /// No instruction names two values, so that starts hardly ever tie.
    Apart,
    /// Values are defined once and used soon after; calls block registers.
    Program,
    /// Few values that live nearly everywhere, with many mentions.
    Long,
    /// Little in registers, slots of 1 to 8.
    Wide,
    /// References that live across safepoints.
    References,
}

pub const SHAPES: [Shape; 6] = [
    Shape::Dense,
    Shape::Apart,
    Shape::Program,
    Shape::Long,
    Shape::Wide,
    Shape::References,
];

/// The numbers behind a shape, each from a least to a most.
#[derive(Clone, Copy)]
struct Plan {
    instructions: (u32, u32),
    classes: (u32, u32),
    /// Of a class, scratch included.
    registers: (u32, u32),
    intervals: (u32, u32),
    /// How many instructions an interval spans.
    length: (u32, u32),
    fragments: (u32, u32),
    gap: (u32, u32),
    mention_percent: u32,
    wide_percent: u32,
    reference_percent: u32,
    safepoint_percent: u32,
    apart: bool,
}

const DENSE: Plan = Plan {
    instructions: (1, 14),
    classes: (1, 3),
    registers: (0, 6),
    intervals: (0, 12),
    length: (0, 8),
    fragments: (0, 3),
    gap: (0, 12),
    mention_percent: 25,
    wide_percent: 10,
    reference_percent: 10,
    safepoint_percent: 10,
    apart: false,
};

const APART: Plan = Plan {
    instructions: (60, 400),
    registers: (2, 5),
    intervals: (2, 14),
    length: (4, 120),
    fragments: (0, 6),
    gap: (10, 90),
    mention_percent: 12,
    wide_percent: 0,
    reference_percent: 20,
    safepoint_percent: 4,
    apart: true,
    ..DENSE
};

const LONG: Plan = Plan {
    instructions: (80, 400),
    classes: (1, 2),
    registers: (3, 9),
    intervals: (3, 12),
    length: (60, 400),
    fragments: (0, 8),
    gap: (5, 80),
    mention_percent: 20,
    wide_percent: 0,
    ..DENSE
};

const WIDE: Plan = Plan {
    instructions: (10, 60),
    registers: (2, 4),
    intervals: (4, 16),
    length: (3, 40),
    mention_percent: 8,
    wide_percent: 70,
    ..DENSE
};

const REFERENCES: Plan = Plan {
    instructions: (10, 80),
    registers: (2, 5),
    intervals: (2, 12),
    length: (2, 40),
    mention_percent: 15,
    wide_percent: 0,
    reference_percent: 75,
    safepoint_percent: 20,
    ..DENSE
};

/// The shape that a seed picks.
pub fn shape(seed: u64) -> Shape {
    SHAPES[(Rng::new(seed).draw() % SHAPES.len() as u64) as usize]
}

/// A sound case of the shape that the seed picks.
pub fn any(seed: u64) -> Case {
    case(shape(seed), seed)
}

/// A sound case with one thing changed, so that mostly something is bad.
pub fn damaged(seed: u64) -> Case {
    let mut rng = Rng::new(!seed);
    let mut case = any(seed);
    case.name = format!("damaged:{}", case.name);
    match rng.range(0, 9) {
        0 => case.options.strategy = rng.range(0, 9),
        1 => case.instructions = rng.range(0, case.instructions),
        2 => lend_less(&mut rng, &mut case),
        3 => damage(&mut rng, &mut case.classes),
        4 => damage(&mut rng, &mut case.registers),
        5 => damage(&mut rng, &mut case.fragments),
        6 => damage(&mut rng, &mut case.intervals),
        7 => damage(&mut rng, &mut case.mentions),
        8 => damage(&mut rng, &mut case.safepoints),
        _ => read_at_safepoints(&mut case),
    }
    case
}

/// A claim with one thing changed.
pub fn damaged_claim(seed: u64, claim: &Claim) -> Claim {
    let mut rng = Rng::new(seed);
    let mut claim = claim.clone();
    let records = claim.words.len() as u32 / RECORD_WORDS as u32;
    match rng.range(0, 5) {
        0 => claim.total = claim.total.wrapping_add(rng.range(0, 2)).wrapping_sub(1),
        1 => claim.count = claim.count.wrapping_add(rng.range(0, 2)).wrapping_sub(1),
        2 if records > 1 => copy_place(&mut rng, &mut claim.words, records),
        3 if records > 0 => claim.words[RECORD_WORDS * rng.range(0, records - 1) as usize] ^= 1,
        4 => {}
        _ => damage(&mut rng, &mut claim.words),
    }
    claim
}

/// One record gets the register or slot of another.
fn copy_place(rng: &mut Rng, words: &mut [u32], records: u32) {
    let from = RECORD_WORDS * rng.range(0, records - 1) as usize;
    let to = RECORD_WORDS * rng.range(0, records - 1) as usize;
    words[to] = words[to] >> 16 << 16 | words[from] & 0xffff;
}

fn lend_less(rng: &mut Rng, case: &mut Case) {
    let room = case.room();
    let (result, work) = (room.result as u32, room.work as u32);
    let less = Room {
        result: rng.range(0, result) as usize,
        work: rng.range(0, work) as usize,
    };
    case.room = Some(less);
}

/// Changes a bit, drops the last word, or doubles it.
fn damage(rng: &mut Rng, table: &mut Vec<u32>) {
    if table.is_empty() || rng.chance(5) {
        table.push(rng.draw() as u32);
    } else if rng.chance(10) {
        table.pop();
    } else {
        let at = rng.range(0, table.len() as u32 - 1) as usize;
        table[at] ^= 1 << rng.range(0, 31);
    }
}

/// Makes every mention at a safepoint a plain use, which is bad.
fn read_at_safepoints(case: &mut Case) {
    for k in 0..case.interval_count() {
        let interval = case.interval(k);
        let range =
            interval.mentions.0 as usize..(interval.mentions.0 + interval.mentions.1) as usize;
        let safepoints = &case.safepoints[interval.safepoints.0 as usize..];
        let safepoints = &safepoints[..interval.safepoints.1 as usize];
        for word in &mut case.mentions[range] {
            let mention = Mention::unpack(*word);
            let reads = Mention {
                is_use: true,
                is_mod: false,
                is_def: false,
                ..mention
            };
            let inside = interval.start <= use_point(mention.instruction);
            if inside && safepoints.contains(&mention.instruction) {
                *word = reads.pack();
            }
        }
    }
}

/// A case of this shape.
pub fn case(shape: Shape, seed: u64) -> Case {
    let mut rng = Rng::new(seed ^ (shape as u64) << 56);
    let mut draft = match shape {
        Shape::Dense => planned(&mut rng, DENSE),
        Shape::Apart => planned(&mut rng, APART),
        Shape::Long => planned(&mut rng, LONG),
        Shape::Wide => planned(&mut rng, WIDE),
        Shape::References => planned(&mut rng, REFERENCES),
        Shape::Program => small_program(&mut rng),
    };
    draft.options = options(&mut rng);
    if rng.chance(10) {
        draft.shift(&mut rng);
    }
    let mut case = draft.pack(&format!("{shape:?}:{seed}"));
    case.room = Some(room(&mut rng, &case));
    case
}

fn options(rng: &mut Rng) -> Options {
    Options {
        strategy: rng.range(1, 7),
        partial_split: rng.flag(),
        near_end: rng.flag(),
    }
}

/// Mostly ample; now and then so short that a split finds no record. An odd last word is lent too.
fn room(rng: &mut Rng, case: &Case) -> Room {
    let intervals = case.interval_count();
    let records = if rng.chance(4) {
        intervals + rng.range(0, 4) as usize
    } else {
        intervals * 3 + case.mentions.len() * 2 + case.safepoints.len() + case.fragments.len()
    };
    let mut room = Room::for_records(records);
    room.result += usize::from(rng.chance(20));
    room
}

/// Tables before packing.
struct Draft {
    options: Options,
    instructions: u32,
    classes: Vec<Class>,
    /// Fragments by register.
    fragments: Vec<Vec<(u32, u32)>>,
    values: Vec<Value>,
}

#[derive(Clone)]
struct Value {
    class: u32,
    reference: bool,
    log_size: u32,
    start: u32,
    end: u32,
    mentions: Vec<Mention>,
    safepoints: Vec<u32>,
}

impl Draft {
    /// Moves everything behind instructions that name nothing, mostly to the last points there are.
    fn shift(&mut self, rng: &mut Rng) {
        let most = MAX_INSTRUCTIONS - self.instructions;
        let by = if rng.chance(70) {
            most
        } else {
            rng.range(0, most)
        };
        self.instructions += by;
        for fragment in self.fragments.iter_mut().flatten() {
            *fragment = (fragment.0 + 2 * by, fragment.1 + 2 * by);
        }
        for value in &mut self.values {
            value.start += 2 * by;
            value.end += 2 * by;
            value
                .mentions
                .iter_mut()
                .for_each(|mention| mention.instruction += by);
            value
                .safepoints
                .iter_mut()
                .for_each(|safepoint| *safepoint += by);
        }
    }

    fn pack(&self, name: &str) -> Case {
        let mut case = Case::new(name);
        case.options = self.options;
        case.instructions = self.instructions;
        case.classes = self.classes.iter().map(|class| class.pack()).collect();
        for fragments in &self.fragments {
            let first = case.fragments.len() as u32;
            case.registers
                .push(pack_pair(first, fragments.len() as u32));
            case.fragments
                .extend(fragments.iter().map(|f| pack_pair(f.0, f.1)));
        }
        for value in &self.values {
            value.pack(&mut case);
        }
        case
    }
}

impl Value {
    fn pack(&self, case: &mut Case) {
        let interval = Interval {
            class: self.class,
            reference: self.reference,
            log_size: self.log_size,
            spare: 0,
            start: self.start,
            end: self.end,
            mentions: (case.mentions.len() as u32, self.mentions.len() as u32),
            safepoints: (case.safepoints.len() as u32, self.safepoints.len() as u32),
        };
        case.intervals.extend(interval.pack());
        case.mentions.extend(self.mentions.iter().map(|m| m.pack()));
        case.safepoints.extend(&self.safepoints);
    }

    fn holds(&self, point: u32) -> bool {
        self.start <= point && point <= self.end
    }
}

fn classes(rng: &mut Rng, count: u32, registers: (u32, u32)) -> Vec<Class> {
    let mut first = 0;
    let mut class = |_: u32| {
        let count = rng.range(registers.0, registers.1);
        let has_scratch = count > 0;
        let scratch = if has_scratch {
            first + rng.range(0, count - 1)
        } else {
            0
        };
        let class = Class {
            first,
            count,
            has_scratch,
            scratch,
            spare: 0,
        };
        first += count;
        class
    };
    (0..count).map(&mut class).collect()
}

/// Fragments of one register in order, now and then touching.
fn fragments(rng: &mut Rng, points: u32, count: u32, gap: (u32, u32)) -> Vec<(u32, u32)> {
    let mut found = Vec::new();
    let mut from = 0;
    for _ in 0..count {
        let first = from + rng.range(gap.0, gap.1);
        let last = first + rng.range(0, 3);
        if last >= points {
            break;
        }
        found.push((first, last));
        from = last + 1;
    }
    found
}

/// A mention with some flags, of those that keep its points inside.
fn mention(rng: &mut Rng, instruction: u32, start: u32, end: u32) -> Option<Mention> {
    let flags = rng.range(1, 7);
    let flags = if rng.chance(60) {
        4 >> rng.range(0, 2)
    } else {
        flags
    };
    let mention = Mention {
        instruction,
        spare: 0,
        is_use: flags & 4 != 0,
        is_mod: flags & 2 != 0,
        is_def: flags & 1 != 0,
    };
    let use_in = !mention.has_use_point() || start <= use_point(instruction);
    let def_in = !mention.has_def_point() || def_point(instruction) <= end;
    (use_in && def_in).then_some(mention)
}

/// Instructions with a point inside.
fn spanned(start: u32, end: u32) -> std::ops::RangeInclusive<u32> {
    start / 2..=end / 2
}

fn planned(rng: &mut Rng, plan: Plan) -> Draft {
    let instructions = rng.range(plan.instructions.0, plan.instructions.1);
    let class_count = if rng.chance(5) {
        rng.range(1, MAX_CLASSES as u32)
    } else {
        rng.range(plan.classes.0, plan.classes.1)
    };
    let most = MAX_REGISTERS as u32 / class_count;
    let registers = (plan.registers.0.min(most), plan.registers.1.min(most));
    let classes = classes(rng, class_count, registers);
    let registers: u32 = classes.iter().map(|class| class.count).sum();
    let mut row = |_: u32| {
        let count = rng.range(plan.fragments.0, plan.fragments.1);
        fragments(rng, 2 * instructions, count, plan.gap)
    };
    let fragments = (0..registers).map(&mut row).collect();
    let mut taken = vec![false; instructions as usize];
    let wanted = rng.range(plan.intervals.0, plan.intervals.1);
    let mut values = Vec::new();
    for _ in 0..wanted {
        let value = value(rng, plan, instructions, class_count, &mut taken);
        values.extend(value);
    }
    let options = Options {
        strategy: 1,
        partial_split: false,
        near_end: false,
    };
    Draft {
        options,
        instructions,
        classes,
        fragments,
        values,
    }
}

/// One value. `taken` marks the instructions that name one, for plans that keep values apart.
fn value(
    rng: &mut Rng,
    plan: Plan,
    instructions: u32,
    classes: u32,
    taken: &mut [bool],
) -> Option<Value> {
    let last_point = 2 * instructions - 1;
    let length = rng.range(plan.length.0, plan.length.1);
    let start = rng.range(0, last_point);
    let end = (start + 2 * length + rng.range(0, 1)).min(last_point);
    if plan.apart && std::mem::replace(&mut taken[start as usize / 2], true) {
        return None;
    }
    let mut value = Value {
        class: rng.range(0, classes - 1),
        reference: rng.chance(plan.reference_percent),
        log_size: if rng.chance(plan.wide_percent) {
            rng.range(0, 3)
        } else {
            0
        },
        start,
        end,
        mentions: Vec::new(),
        safepoints: Vec::new(),
    };
    add_mentions(rng, plan, &mut value, taken);
    add_safepoints(rng, plan.safepoint_percent, &mut value);
    Some(value)
}

fn add_mentions(rng: &mut Rng, plan: Plan, value: &mut Value, taken: &mut [bool]) {
    for instruction in spanned(value.start, value.end) {
        let own = instruction == value.start / 2;
        let free = !plan.apart || own || !taken[instruction as usize];
        if !free || !rng.chance(plan.mention_percent) {
            continue;
        }
        if let Some(mention) = mention(rng, instruction, value.start, value.end) {
            taken[instruction as usize] = true;
            value.mentions.push(mention);
        }
    }
}

fn add_safepoints(rng: &mut Rng, percent: u32, value: &mut Value) {
    if !value.reference {
        return;
    }
    for instruction in spanned(value.start, value.end) {
        if rng.chance(percent) && allows_safepoint(value, instruction) {
            value.safepoints.push(instruction);
        }
    }
}

/// The Use point is inside, and no mention there only reads.
fn allows_safepoint(value: &Value, instruction: u32) -> bool {
    let reads = |m: &Mention| m.instruction == instruction && m.is_use && !m.has_def_point();
    value.holds(use_point(instruction)) && !value.mentions.iter().any(reads)
}

/// A program's tables: how long it is, what it runs on, and how far a use lies from its def.
#[derive(Clone, Copy)]
pub struct Program {
    pub values: u32,
    pub classes: u32,
    pub registers: u32,
    pub reach: u32,
    pub call_percent: u32,
    pub reference_percent: u32,
}

fn small_program(rng: &mut Rng) -> Draft {
    let program = Program {
        values: if rng.chance(3) {
            rng.range(100, 400)
        } else {
            rng.range(3, 60)
        },
        classes: rng.range(1, 3),
        registers: rng.range(2, 9),
        reach: rng.range(2, 20),
        call_percent: rng.range(0, 12),
        reference_percent: 15,
    };
    program_draft(rng, program)
}

/// A program-like case of a given size, for measuring.
pub fn program(seed: u64, program: Program) -> Case {
    let mut rng = Rng::new(seed);
    let draft = program_draft(&mut rng, program);
    let mut case = draft.pack(&format!("program:{}:{seed}", program.values));
    case.room = Some(Room::most());
    case
}

/// Few values that live nearly everywhere, each with a hundred mentions and more, for measuring.
pub fn long(seed: u64, values: u32) -> Case {
    let plan = Plan {
        instructions: (2_000, 2_000),
        classes: (1, 1),
        registers: (17, 17),
        intervals: (values, values),
        length: (700, 2_000),
        fragments: (0, 0),
        mention_percent: 8,
        ..LONG
    };
    let mut case = planned(&mut Rng::new(seed), plan).pack(&format!("long:{values}:{seed}"));
    case.room = Some(Room::most());
    case
}

/// Every instruction but a call defines a value and reads one or two recent ones.
fn program_draft(rng: &mut Rng, program: Program) -> Draft {
    let mut values: Vec<Value> = Vec::new();
    let mut calls = Vec::new();
    let mut instruction = 0;
    while values.len() < program.values as usize {
        read_some(rng, program, &mut values, instruction);
        if rng.chance(program.call_percent) {
            calls.push(instruction);
        } else {
            values.push(defined(rng, program, instruction));
        }
        instruction += 1;
    }
    for value in &mut values {
        cross_calls(value, &calls);
    }
    let count = program.registers;
    let classes = classes(rng, program.classes, (count, count));
    let registers = program.classes * count;
    let fragments = (0..registers).map(|r| clobbers(rng, &calls, r)).collect();
    let options = Options {
        strategy: 1,
        partial_split: false,
        near_end: false,
    };
    Draft {
        options,
        instructions: instruction,
        classes,
        fragments,
        values,
    }
}

/// A value that this instruction defines.
fn defined(rng: &mut Rng, program: Program, instruction: u32) -> Value {
    let point = def_point(instruction);
    let def = Mention {
        instruction,
        spare: 0,
        is_use: false,
        is_mod: false,
        is_def: true,
    };
    Value {
        class: rng.range(0, program.classes - 1),
        reference: rng.chance(program.reference_percent),
        log_size: 0,
        start: point,
        end: point,
        mentions: vec![def],
        safepoints: Vec::new(),
    }
}

/// The instruction reads up to two values out of the last few.
fn read_some(rng: &mut Rng, program: Program, values: &mut [Value], instruction: u32) {
    for _ in 0..rng.range(0, 2) {
        let reach = program.reach.min(values.len() as u32);
        if reach == 0 {
            return;
        }
        let back = rng.range(1, reach) as usize;
        let at = values.len() - back;
        read(&mut values[at], instruction, rng.chance(10));
    }
}

fn read(value: &mut Value, instruction: u32, changes: bool) {
    if value
        .mentions
        .last()
        .is_some_and(|m| m.instruction >= instruction)
    {
        return;
    }
    let is_use = !changes;
    let mention = Mention {
        instruction,
        spare: 0,
        is_use,
        is_mod: changes,
        is_def: false,
    };
    value.end = if changes {
        def_point(instruction)
    } else {
        use_point(instruction)
    };
    value.mentions.push(mention);
}

/// A reference that lives on past a call meets a safepoint there.
fn cross_calls(value: &mut Value, calls: &[u32]) {
    if !value.reference {
        return;
    }
    let lives_on = |call: &&u32| value.holds(use_point(**call)) && value.holds(def_point(**call));
    let met: Vec<u32> = calls.iter().filter(lives_on).copied().collect();
    let allowed = met
        .into_iter()
        .filter(|call| allows_safepoint(value, *call))
        .collect();
    value.safepoints = allowed;
}

/// Odd registers are lost at a call, after its reads; the others keep their values.
fn clobbers(rng: &mut Rng, calls: &[u32], register: u32) -> Vec<(u32, u32)> {
    let lost = register % 2 == 1;
    let point = |call: &u32| (def_point(*call), def_point(*call));
    let at = calls.iter().filter(|_| lost && rng.chance(90));
    at.map(point).collect()
}

#[cfg(test)]
mod tests {
    use super::*;
    use crate::{sound, text};

    const TRIES: u64 = 2_000;

    #[test]
    fn every_shape_is_sound() {
        for shape in SHAPES {
            for seed in 0..TRIES {
                let case = case(shape, seed);
                assert_eq!(sound::refusal(&case), None, "{}", text::write(&case));
            }
        }
    }

    #[test]
    fn a_seed_gives_one_case() {
        assert_eq!(any(7), any(7));
        assert_ne!(any(7), any(8));
    }

    #[test]
    fn text_keeps_a_case() {
        for seed in 0..200 {
            let case = any(seed);
            assert_eq!(text::read(&text::write(&case)), [Ok(case)]);
        }
    }
}
