//! Intervals, mentions and their uses, as document 01 means them.

use crate::data_structures::{InstPoint, RegVecsAndBounds};
#[cfg(not(debian_crates))]
use crate::stand_ins::smallvec;
use crate::{watch, InstIx, RealReg, SpillSlot, VirtualReg};
use smallvec::SmallVec;
use std::fmt;

/// The published text, as it is.
#[cfg(module_at_hand)]
#[allow(unknown_lints, mismatched_lifetime_syntaxes)]
pub(crate) mod assign_registers {
    #[cfg(not(debian_crates))]
    use crate::stand_ins::{log, rustc_hash, smallvec};
    include!(env!("MODULE_TEXT"));
}

pub(crate) mod analysis {
    use crate::BlockIx;

    #[derive(Clone, Copy)]
    pub(crate) enum BlockPos {
        Start,
        End,
    }

    #[derive(Clone)]
    pub(crate) struct BlockBoundary {
        pub(crate) bix: BlockIx,
        pub(crate) pos: BlockPos,
    }
}

pub(crate) type RegUses = RegVecsAndBounds;

#[derive(Clone, Copy, Debug)]
pub(crate) enum OptimalSplitStrategy {
    From,
    To,
    NextFrom,
    NextNextFrom,
    Mid,
    PrevTo,
    PrevPrevTo,
}

#[derive(Clone, Debug)]
pub(crate) struct LinearScanOptions {
    pub(crate) split_strategy: OptimalSplitStrategy,
    pub(crate) partial_split: bool,
    pub(crate) partial_split_near_end: bool,
}

#[derive(Default)]
pub(crate) struct Statistics {
    pub(crate) peak_active: usize,
    pub(crate) peak_inactive: usize,
    pub(crate) num_try_allocate_reg: usize,
    pub(crate) num_try_allocate_reg_success: usize,
    pub(crate) num_reg_splits: usize,
    pub(crate) num_reg_splits_success: usize,
}

/// How an instruction names a register: use, mod, def, or several.
#[derive(Clone, Copy, PartialEq, Eq, Debug)]
pub(crate) struct Mention(u8);

const USE: u8 = 1;
const MOD: u8 = 2;
const DEF: u8 = 4;

impl Mention {
    pub(crate) fn new() -> Self {
        Mention(0)
    }

    pub(crate) fn add_use(&mut self) {
        self.0 |= USE;
    }

    pub(crate) fn add_mod(&mut self) {
        self.0 |= MOD;
    }

    pub(crate) fn add_def(&mut self) {
        self.0 |= DEF;
    }

    #[inline(always)]
    pub(crate) fn is_use_or_mod(self) -> bool {
        self.0 & (USE | MOD) != 0
    }

    #[inline(always)]
    pub(crate) fn is_mod_or_def(self) -> bool {
        self.0 & (MOD | DEF) != 0
    }
}

/// Up to two mentions lie in the interval itself, so that a small piece costs no allocation.
pub(crate) type MentionMap = SmallVec<[(InstIx, Mention); 2]>;

#[derive(Clone, Copy, PartialEq, Eq, PartialOrd, Ord, Hash, Debug)]
pub(crate) struct IntId(pub(crate) usize);

#[derive(Clone, Copy, Debug)]
pub(crate) enum Location {
    None,
    Reg(RealReg),
    Stack(SpillSlot),
}

impl Location {
    #[inline(always)]
    pub(crate) fn reg(&self) -> Option<RealReg> {
        match self {
            Location::Reg(reg) => Some(*reg),
            _ => None,
        }
    }

    #[inline(always)]
    pub(crate) fn spill(&self) -> Option<SpillSlot> {
        match self {
            Location::Stack(slot) => Some(*slot),
            _ => None,
        }
    }

    /// The module asks this of a popped record, and of no other.
    #[inline(always)]
    pub(crate) fn is_none(&self) -> bool {
        watch::popped();
        matches!(self, Location::None)
    }
}

#[derive(Clone)]
pub(crate) struct VirtualInterval {
    pub(crate) id: IntId,
    pub(crate) vreg: VirtualReg,
    pub(crate) ref_typed: bool,
    pub(crate) parent: Option<IntId>,
    pub(crate) child: Option<IntId>,
    pub(crate) ancestor: Option<IntId>,
    pub(crate) start: InstPoint,
    pub(crate) end: InstPoint,
    pub(crate) location: Location,
    mentions: MentionMap,
    block_boundaries: Vec<analysis::BlockBoundary>,
    safepoints: Vec<(InstIx, usize)>,
}

impl VirtualInterval {
    #[allow(clippy::too_many_arguments)]
    pub(crate) fn new(
        id: IntId,
        vreg: VirtualReg,
        start: InstPoint,
        end: InstPoint,
        mentions: MentionMap,
        block_boundaries: Vec<analysis::BlockBoundary>,
        ref_typed: bool,
        safepoints: Vec<(InstIx, usize)>,
    ) -> Self {
        VirtualInterval {
            id,
            vreg,
            ref_typed,
            parent: None,
            child: None,
            ancestor: None,
            start,
            end,
            location: Location::None,
            mentions,
            block_boundaries,
            safepoints,
        }
    }

    #[inline(always)]
    pub(crate) fn covers(&self, pos: InstPoint) -> bool {
        self.start <= pos && pos <= self.end
    }

    pub(crate) fn mentions_mut(&mut self) -> &mut MentionMap {
        &mut self.mentions
    }

    pub(crate) fn block_boundaries(&self) -> &[analysis::BlockBoundary] {
        &self.block_boundaries
    }

    pub(crate) fn block_boundaries_mut(&mut self) -> &mut Vec<analysis::BlockBoundary> {
        &mut self.block_boundaries
    }

    pub(crate) fn safepoints(&self) -> &[(InstIx, usize)] {
        &self.safepoints
    }

    pub(crate) fn safepoints_mut(&mut self) -> &mut Vec<(InstIx, usize)> {
        &mut self.safepoints
    }
}

impl fmt::Display for VirtualInterval {
    fn fmt(&self, f: &mut fmt::Formatter<'_>) -> fmt::Result {
        write!(
            f,
            "{:?} [{:?}; {:?}] {:?}",
            self.id, self.start, self.end, self.location
        )
    }
}

/// A fragment of a fixed register, first and last included.
#[derive(Clone, Debug)]
pub(crate) struct FixedFrag {
    pub(crate) first: InstPoint,
    pub(crate) last: InstPoint,
}

impl FixedFrag {
    #[inline(always)]
    pub(crate) fn contains(&self, pos: &InstPoint) -> bool {
        self.first <= *pos && *pos <= self.last
    }
}

#[derive(Clone)]
pub(crate) struct FixedInterval {
    pub(crate) reg: RealReg,
    pub(crate) frags: Vec<FixedFrag>,
}

impl fmt::Display for FixedInterval {
    fn fmt(&self, f: &mut fmt::Formatter<'_>) -> fmt::Result {
        write!(f, "{:?} {:?}", self.reg, self.frags)
    }
}

/// The records, in the order of their numbers, and the fixed registers, in the order of theirs.
#[derive(Clone)]
pub(crate) struct Intervals {
    pub(crate) virtuals: Vec<VirtualInterval>,
    pub(crate) fixeds: Vec<FixedInterval>,
}

impl Intervals {
    #[inline(always)]
    pub(crate) fn get(&self, id: IntId) -> &VirtualInterval {
        watch::got(id.0);
        &self.virtuals[id.0]
    }

    #[inline(always)]
    pub(crate) fn get_mut(&mut self, id: IntId) -> &mut VirtualInterval {
        &mut self.virtuals[id.0]
    }

    pub(crate) fn num_virtual_intervals(&self) -> usize {
        self.virtuals.len()
    }

    pub(crate) fn push_interval(&mut self, interval: VirtualInterval) {
        debug_assert!(interval.id.0 == self.virtuals.len());
        watch::pushing(
            interval.start.bits(),
            interval.parent.map(|parent| parent.0),
        );
        self.virtuals.push(interval);
    }

    pub(crate) fn set_reg(&mut self, id: IntId, reg: RealReg) {
        self.virtuals[id.0].location = Location::Reg(reg);
    }

    pub(crate) fn set_spill(&mut self, id: IntId, slot: SpillSlot) {
        watch::spilled(id.0);
        self.virtuals[id.0].location = Location::Stack(slot);
    }

    pub(crate) fn set_child(&mut self, id: IntId, child: IntId) {
        self.virtuals[id.0].child = Some(child);
    }
}

/// A use or mod has the Use point.
#[inline(always)]
fn use_point(mention: &(InstIx, Mention)) -> Option<InstPoint> {
    mention
        .1
        .is_use_or_mod()
        .then(|| InstPoint::new_use(mention.0))
}

/// A mod or def has the Def point.
#[inline(always)]
fn def_point(mention: &(InstIx, Mention)) -> Option<InstPoint> {
    mention
        .1
        .is_mod_or_def()
        .then(|| InstPoint::new_def(mention.0))
}

/// The least mention point of the piece at or after `pos`.
pub(crate) fn next_use(int: &VirtualInterval, pos: InstPoint, _: &RegUses) -> Option<InstPoint> {
    let at = int
        .mentions
        .partition_point(|mention| mention.0 < pos.iix());
    int.mentions[at..].iter().find_map(|mention| {
        let or_later = |point: &InstPoint| *point >= pos;
        use_point(mention)
            .filter(or_later)
            .or_else(|| def_point(mention).filter(or_later))
    })
}

/// The greatest mention point of the piece at or before `pos`.
pub(crate) fn last_use(int: &VirtualInterval, pos: InstPoint, _: &RegUses) -> Option<InstPoint> {
    let past = int
        .mentions
        .partition_point(|mention| mention.0 <= pos.iix());
    int.mentions[..past].iter().rev().find_map(|mention| {
        let or_before = |point: &InstPoint| *point <= pos;
        def_point(mention)
            .filter(or_before)
            .or_else(|| use_point(mention).filter(or_before))
    })
}
