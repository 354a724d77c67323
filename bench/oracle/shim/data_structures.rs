//! Points, registers and slots, as document 01 means them.

use std::fmt;

/// Document 01 has up to 8 classes; the crate has 5, and the timed build keeps to that.
pub(crate) const NUM_REG_CLASSES: usize = if cfg!(feature = "watch") { 8 } else { 5 };

#[derive(Clone, Copy, PartialEq, Eq, Hash, Debug)]
#[repr(u8)]
pub(crate) enum RegClass {
    C0,
    C1,
    C2,
    C3,
    C4,
    C5,
    C6,
    C7,
}

const CLASSES: [RegClass; 8] = [
    RegClass::C0,
    RegClass::C1,
    RegClass::C2,
    RegClass::C3,
    RegClass::C4,
    RegClass::C5,
    RegClass::C6,
    RegClass::C7,
];

impl RegClass {
    pub(crate) fn new(index: usize) -> Self {
        assert!(index < NUM_REG_CLASSES, "more classes than the module has");
        CLASSES[index]
    }
}

macro_rules! register {
    ($name:ident) => {
        #[derive(Clone, Copy, PartialEq, Eq, Hash, Debug)]
        pub(crate) struct $name {
            class: RegClass,
            index: u32,
        }

        impl $name {
            #[inline(always)]
            pub(crate) fn new(class: RegClass, index: u32) -> Self {
                $name { class, index }
            }

            #[inline(always)]
            pub(crate) fn get_class(self) -> RegClass {
                self.class
            }

            #[inline(always)]
            pub(crate) fn get_index(self) -> usize {
                self.index as usize
            }
        }
    };
}

register!(RealReg);
register!(VirtualReg);
register!(Reg);

#[derive(Clone, Copy, PartialEq, Eq, PartialOrd, Ord, Hash, Debug)]
pub(crate) struct InstIx(u32);

impl InstIx {
    #[inline(always)]
    pub(crate) fn new(n: u32) -> Self {
        InstIx(n)
    }

    #[inline(always)]
    pub(crate) fn get(self) -> u32 {
        self.0
    }

    #[inline(always)]
    pub(crate) fn plus(self, n: u32) -> Self {
        InstIx(self.0 + n)
    }

    #[inline(always)]
    pub(crate) fn minus(self, n: u32) -> Self {
        InstIx(self.0 - n)
    }
}

#[derive(Clone, Copy, PartialEq, Eq, Debug)]
pub(crate) struct BlockIx(pub(crate) u32);

/// A range of indices, first and last included.
pub(crate) struct Range<R> {
    pub(crate) first: R,
    pub(crate) last: R,
}

impl<R: Copy> Range<R> {
    pub(crate) fn first(&self) -> R {
        self.first
    }

    pub(crate) fn last(&self) -> R {
        self.last
    }
}

/// The sides of an instruction. Only Use and Def are points of document 01; Reload and Spill make
/// "blocked" and "never", below and above every point.
#[derive(Clone, Copy, PartialEq, Eq, PartialOrd, Ord, Hash, Debug)]
pub(crate) enum Point {
    Reload,
    Use,
    Def,
    Spill,
}

const SIDE_BITS: u32 = 2;
const SIDE_MASK: u32 = 3;

/// An instruction and a side of it, in one word, so that comparing is one instruction.
#[derive(Clone, Copy, PartialEq, Eq, PartialOrd, Ord, Hash)]
pub(crate) struct InstPoint {
    bits: u32,
}

impl InstPoint {
    #[inline(always)]
    fn new(iix: InstIx, pt: Point) -> Self {
        InstPoint {
            bits: iix.get() << SIDE_BITS | pt as u32,
        }
    }

    #[inline(always)]
    pub(crate) fn new_use(iix: InstIx) -> Self {
        InstPoint::new(iix, Point::Use)
    }

    #[inline(always)]
    pub(crate) fn new_def(iix: InstIx) -> Self {
        InstPoint::new(iix, Point::Def)
    }

    /// "Blocked": below every point.
    #[inline(always)]
    pub(crate) fn min_value() -> Self {
        InstPoint::new(InstIx::new(0), Point::Reload)
    }

    /// "Never": above every point.
    #[inline(always)]
    pub(crate) fn max_value() -> Self {
        InstPoint { bits: u32::MAX }
    }

    /// The whole word: points compare as their words do.
    #[inline(always)]
    pub(crate) fn bits(self) -> u32 {
        self.bits
    }

    #[inline(always)]
    pub(crate) fn iix(self) -> InstIx {
        InstIx::new(self.bits >> SIDE_BITS)
    }

    #[inline(always)]
    pub(crate) fn pt(self) -> Point {
        match self.bits & SIDE_MASK {
            0 => Point::Reload,
            1 => Point::Use,
            2 => Point::Def,
            _ => Point::Spill,
        }
    }

    #[inline(always)]
    pub(crate) fn set_iix(&mut self, iix: InstIx) {
        *self = InstPoint::new(iix, self.pt());
    }

    #[inline(always)]
    pub(crate) fn set_pt(&mut self, pt: Point) {
        *self = InstPoint::new(self.iix(), pt);
    }
}

impl fmt::Debug for InstPoint {
    fn fmt(&self, f: &mut fmt::Formatter<'_>) -> fmt::Result {
        write!(f, "{}{:?}", self.iix().get(), self.pt())
    }
}

#[derive(Clone, Copy, PartialEq, Eq, Debug)]
pub(crate) struct SpillSlot(u32);

impl SpillSlot {
    pub(crate) fn new(n: u32) -> Self {
        SpillSlot(n)
    }

    pub(crate) fn get(self) -> u32 {
        self.0
    }

    /// Up to a multiple of the size.
    pub(crate) fn round_up(self, size: u32) -> Self {
        SpillSlot((self.0 + size - 1) / size * size)
    }

    pub(crate) fn inc(self, n: u32) -> Self {
        SpillSlot(self.0 + n)
    }
}

pub(crate) struct RegClassInfo {
    pub(crate) first: usize,
    pub(crate) last: usize,
}

pub(crate) struct RealRegUniverse {
    pub(crate) regs: Vec<(RealReg, String)>,
    pub(crate) allocable_by_class: [Option<RegClassInfo>; NUM_REG_CLASSES],
}

/// Which registers each instruction names. Only `_build_mention_map` asks, and nobody calls it.
pub(crate) struct RegVecsAndBounds;

pub(crate) struct RegSets {
    pub(crate) uses: Vec<Reg>,
    pub(crate) mods: Vec<Reg>,
    pub(crate) defs: Vec<Reg>,
}

impl RegSets {
    pub(crate) fn is_sanitized(&self) -> bool {
        true
    }
}

impl RegVecsAndBounds {
    pub(crate) fn num_insns(&self) -> usize {
        0
    }

    pub(crate) fn get_reg_sets_for_iix(&self, _iix: InstIx) -> RegSets {
        RegSets {
            uses: Vec::new(),
            mods: Vec::new(),
            defs: Vec::new(),
        }
    }
}
