//! Says of a case and an answer whether the module agrees, and if not, which listed difference it is.

mod kind;
mod tally;

pub use kind::{classify, classify_claim, classify_entry, module_alone, Kind};
pub use tally::Tally;

/// True where the published module was found when this was built.
pub const MODULE_AT_HAND: bool = oracle::AT_HAND;

/// Panics of the module are caught and counted; their messages would only be noise.
pub fn silence_panics() {
    std::panic::set_hook(Box::new(|_| {}));
}
