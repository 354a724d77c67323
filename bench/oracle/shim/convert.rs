//! From a case's tables to what the module takes, and from what it gives to an answer.

use crate::data_structures::{RegClassInfo, RegVecsAndBounds};
use crate::linear_scan::*;
use crate::{
    data_structures::InstPoint, watch, BlockIx, Function, InstIx, Range, RealReg, RealRegUniverse,
    RegAllocError, RegClass, SpillSlot, VirtualReg, NUM_REG_CLASSES,
};
use tables::answer::{Answer, Ending, Verdict, NO_RECORD, NO_REGISTER, OUT_OF_REGISTERS};
use tables::case::{Case, Options};
use tables::words::{self, pair, Class, Record, IN_REGISTER, IN_SLOT};

/// The slot size of each virtual register. There are no blocks.
struct Sizes(Vec<u32>);

impl Function for Sizes {
    fn get_spillslot_size(&self, _regclass: RegClass, for_vreg: VirtualReg) -> u32 {
        self.0[for_vreg.get_index()]
    }

    fn block_insns(&self, _block: BlockIx) -> Range<InstIx> {
        unreachable!("there are no blocks")
    }
}

/// A case as the module takes it.
pub struct Prepared {
    options: LinearScanOptions,
    sizes: Sizes,
    universe: RealRegUniverse,
    scratches: [Option<RealReg>; NUM_REG_CLASSES],
    intervals: Intervals,
}

/// The module's own copy of the intervals, made before the clock starts.
pub struct Input(Intervals);

/// What a run gave. Dropping it is not timed.
pub struct Output(Result<(Intervals, u32), RegAllocError>);

impl Prepared {
    /// Converts tables; they need not be sound, but must be readable.
    pub fn new(case: &Case) -> Self {
        let classes: Vec<Class> = case
            .classes
            .iter()
            .map(|word| Class::unpack(*word))
            .collect();
        let registers = real_registers(&classes);
        let scratch = |k: usize| classes.get(k).filter(|c| c.has_scratch).map(|c| c.scratch);
        let fixeds = registers
            .iter()
            .map(|reg| fixed_interval(case, *reg))
            .collect();
        let virtuals = (0..case.interval_count())
            .map(|k| virtual_interval(case, k))
            .collect();
        Prepared {
            options: options(case.options),
            sizes: Sizes(
                (0..case.interval_count())
                    .map(|k| case.interval(k).slot_size())
                    .collect(),
            ),
            scratches: std::array::from_fn(|k| scratch(k).map(|r| registers[r as usize])),
            universe: universe(&classes, &registers),
            intervals: Intervals { virtuals, fixeds },
        }
    }

    pub fn input(&self) -> Input {
        Input(self.intervals.clone())
    }

    /// Runs the module.
    #[cfg(module_at_hand)]
    pub fn run(&self, input: Input) -> Output {
        Output(assign_registers::run(
            &self.options,
            &self.sizes,
            &RegVecsAndBounds,
            &self.universe,
            &self.scratches,
            input.0,
            None,
        ))
    }

    /// The module is not at hand.
    #[cfg(not(module_at_hand))]
    pub fn run(&self, _input: Input) -> Output {
        let _ = RegVecsAndBounds;
        Output(Err(RegAllocError::Other(
            "the module is not at hand".to_string(),
        )))
    }
}

impl Output {
    /// How many records a done run has.
    pub fn records(&self) -> Option<usize> {
        self.0
            .as_ref()
            .ok()
            .map(|(intervals, _)| intervals.virtuals.len())
    }
}

fn options(o: Options) -> LinearScanOptions {
    let split_strategy = match o.strategy {
        2 => OptimalSplitStrategy::To,
        3 => OptimalSplitStrategy::NextFrom,
        4 => OptimalSplitStrategy::NextNextFrom,
        5 => OptimalSplitStrategy::Mid,
        6 => OptimalSplitStrategy::PrevTo,
        7 => OptimalSplitStrategy::PrevPrevTo,
        _ => OptimalSplitStrategy::From,
    };
    LinearScanOptions {
        split_strategy,
        partial_split: o.partial_split,
        partial_split_near_end: o.near_end,
    }
}

fn real_registers(classes: &[Class]) -> Vec<RealReg> {
    let mut registers = Vec::new();
    for (k, class) in classes.iter().enumerate() {
        for index in class.first..class.first + class.count {
            registers.push(RealReg::new(RegClass::new(k), index));
        }
    }
    registers
}

fn universe(classes: &[Class], registers: &[RealReg]) -> RealRegUniverse {
    let info = |k: usize| {
        let class = classes.get(k).filter(|class| class.count > 0)?;
        let (first, count) = (class.first as usize, class.count as usize);
        Some(RegClassInfo {
            first,
            last: first + count - 1,
        })
    };
    RealRegUniverse {
        regs: registers
            .iter()
            .map(|reg| (*reg, format!("{reg:?}")))
            .collect(),
        allocable_by_class: std::array::from_fn(info),
    }
}

fn to_module(point: u32) -> InstPoint {
    let instruction = InstIx::new(point / 2);
    if point % 2 == 0 {
        InstPoint::new_use(instruction)
    } else {
        InstPoint::new_def(instruction)
    }
}

fn from_module(point: InstPoint) -> u32 {
    let instruction = point.iix().get();
    if point == InstPoint::new_use(point.iix()) {
        words::use_point(instruction)
    } else {
        words::def_point(instruction)
    }
}

fn fixed_interval(case: &Case, reg: RealReg) -> FixedInterval {
    let (first, count) = pair(case.registers[reg.get_index()]);
    let range = first as usize..(first + count) as usize;
    let fragment = |word: &u32| {
        let (first, last) = pair(*word);
        FixedFrag {
            first: to_module(first),
            last: to_module(last),
        }
    };
    FixedInterval {
        reg,
        frags: case.fragments[range].iter().map(fragment).collect(),
    }
}

fn mention(word: u32) -> (InstIx, Mention) {
    let packed = words::Mention::unpack(word);
    let mut mention = Mention::new();
    if packed.is_use {
        mention.add_use();
    }
    if packed.is_mod {
        mention.add_mod();
    }
    if packed.is_def {
        mention.add_def();
    }
    (InstIx::new(packed.instruction), mention)
}

fn virtual_interval(case: &Case, k: usize) -> VirtualInterval {
    let interval = case.interval(k);
    let range = |(first, count): (u32, u32)| first as usize..(first + count) as usize;
    let mut mentions = MentionMap::with_capacity(interval.mentions.1 as usize);
    for word in &case.mentions[range(interval.mentions)] {
        mentions.push(mention(*word));
    }
    let numbered = case.safepoints[range(interval.safepoints)]
        .iter()
        .enumerate();
    VirtualInterval::new(
        IntId(k),
        VirtualReg::new(RegClass::new(interval.class as usize), k as u32),
        to_module(interval.start),
        to_module(interval.end),
        mentions,
        Vec::new(),
        interval.reference,
        numbered.map(|(i, s)| (InstIx::new(*s), i)).collect(),
    )
}

fn record(interval: &VirtualInterval) -> Record {
    let (kind, number) = match interval.location {
        Location::None => (0, 0),
        Location::Reg(reg) => (IN_REGISTER, reg.get_index() as u32),
        Location::Stack(slot) => (IN_SLOT, SpillSlot::get(slot)),
    };
    Record {
        kind,
        interval: interval.vreg.get_index() as u32,
        number,
        first: from_module(interval.start),
        last: from_module(interval.end),
    }
}

fn answer(output: Output, popped: u32) -> Ending {
    match output.0 {
        Ok((intervals, total)) => {
            let rows = intervals.virtuals.iter().flat_map(|int| record(int).pack());
            Ending::Done(Answer::done(rows.collect(), total))
        }
        Err(RegAllocError::OutOfRegisters(_)) => {
            Ending::Error(Answer::refused(OUT_OF_REGISTERS, popped))
        }
        Err(RegAllocError::Other(_)) => Ending::Error(Answer::refused(NO_REGISTER, popped)),
    }
}

fn panicked(thrown: Box<dyn std::any::Any + Send>, popped: u32) -> Ending {
    if let Some(full) = thrown.downcast_ref::<watch::Full>() {
        return Ending::Full(Answer::refused(NO_RECORD, full.parent as u32));
    }
    let text = thrown.downcast_ref::<&str>().map(|s| s.to_string());
    let why = text
        .or_else(|| thrown.downcast_ref::<String>().cloned())
        .unwrap_or_default();
    Ending::Panicked {
        record: popped,
        why,
    }
}

/// Runs the module on a case, with room for `limit` records. A panic is caught.
pub fn assign(case: &Case, limit: usize) -> Verdict {
    let run = || {
        let prepared = Prepared::new(case);
        let input = prepared.input();
        watch::begin(limit, input.0.virtuals.iter().map(|int| int.start.bits()));
        prepared.run(input)
    };
    let caught = std::panic::catch_unwind(std::panic::AssertUnwindSafe(run));
    let (popped, tie) = watch::end();
    let ending = match caught {
        Ok(output) => answer(output, popped as u32),
        Err(thrown) => panicked(thrown, popped as u32),
    };
    Verdict { ending, tie }
}
