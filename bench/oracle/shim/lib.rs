//! The published `assign_registers.rs` of regalloc 0.0.34 with what it imports.
//!
//! The file is compiled from where it lies. What it imports is written here, each helper meaning
//! what document 01 says: points, `next_use`, `last_use`, `covers`, `Intervals`, `SpillSlot`.
#![allow(dead_code)]
#![cfg_attr(not(module_at_hand), allow(unused_imports, unused_macros))]

#[cfg(debian_crates)]
extern crate log;
#[cfg(debian_crates)]
extern crate rustc_hash;
#[cfg(debian_crates)]
extern crate smallvec;

mod convert;
mod data_structures;
mod linear_scan;
#[cfg(not(debian_crates))]
mod stand_ins;
mod watch;

pub use convert::{assign, Prepared};

use data_structures::{
    BlockIx, InstIx, Range, RealReg, RealRegUniverse, Reg, RegClass, SpillSlot, VirtualReg,
    NUM_REG_CLASSES,
};
use linear_scan::LinearScanOptions;

/// True where the published file was found when this was built.
pub const AT_HAND: bool = cfg!(module_at_hand);

/// True where Debian's smallvec, log and rustc-hash are used: only then is a time worth printing.
pub const DEBIAN_CRATES: bool = cfg!(debian_crates);

/// What the module asks of a function.
pub(crate) trait Function {
    fn get_spillslot_size(&self, regclass: RegClass, for_vreg: VirtualReg) -> u32;
    fn block_insns(&self, block: BlockIx) -> Range<InstIx>;
}

#[derive(Clone, Debug)]
pub(crate) enum RegAllocError {
    OutOfRegisters(RegClass),
    Other(String),
}
