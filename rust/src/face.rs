//! The C face of the archive over slices, as `include/temgurisk.h` declares it. This is the only
//! unsafe code of the crate.
//!
//! It takes any numbers and words, also those that no typed value packs into, and answers in
//! numbers. It is for comparisons; the functions at the root of the crate are for use.

/// True where the archive was found when this was built.
pub const AT_HAND: bool = cfg!(archive);

/// What both functions answer.
#[repr(C)]
#[derive(Clone, Copy, Debug, PartialEq, Eq)]
pub struct Answer {
    pub number: u32,
    pub place: u32,
    pub count: u32,
    pub total: u32,
}

/// The options; a strategy that is none of 1 to 7 is refused.
#[derive(Clone, Copy, Debug)]
pub struct Settings {
    pub strategy: u32,
    pub partial_split: bool,
    pub partial_split_near_end: bool,
}

/// The tables, as [`Tables`](crate::Tables) says, lent.
#[derive(Clone, Copy, Debug)]
pub struct Lent<'a> {
    pub instructions: u32,
    pub classes: &'a [u32],
    pub registers: &'a [u32],
    pub fragments: &'a [u32],
    pub intervals: &'a [u32],
    pub mentions: &'a [u32],
    pub safepoints: &'a [u32],
}

#[cfg(archive)]
extern "C" {
    fn temgurisk_assign(
        strategy: u32,
        partial_split: bool,
        partial_split_near_end: bool,
        instructions: u32,
        classes: *const u32,
        class_count: usize,
        registers: *const u32,
        register_count: usize,
        fragments: *const u32,
        fragment_count: usize,
        intervals: *const u32,
        interval_word_count: usize,
        mentions: *const u32,
        mention_count: usize,
        safepoints: *const u32,
        safepoint_count: usize,
        result: *mut u32,
        result_count: usize,
        work: *mut u32,
        work_count: usize,
    ) -> Answer;

    fn temgurisk_check(
        instructions: u32,
        classes: *const u32,
        class_count: usize,
        registers: *const u32,
        register_count: usize,
        fragments: *const u32,
        fragment_count: usize,
        intervals: *const u32,
        interval_word_count: usize,
        mentions: *const u32,
        mention_count: usize,
        safepoints: *const u32,
        safepoint_count: usize,
        words: *const u32,
        word_count: usize,
        count: u32,
        total: u32,
    ) -> Answer;
}

/// Assigns registers.
#[cfg(archive)]
pub fn assign(s: Settings, t: Lent, result: &mut [u32], work: &mut [u32]) -> Answer {
    // Every pointer goes with the length of its own slice. The archive keeps none of them, and is
    // proved to write inside the two lent areas only.
    unsafe {
        temgurisk_assign(
            s.strategy,
            s.partial_split,
            s.partial_split_near_end,
            t.instructions,
            t.classes.as_ptr(),
            t.classes.len(),
            t.registers.as_ptr(),
            t.registers.len(),
            t.fragments.as_ptr(),
            t.fragments.len(),
            t.intervals.as_ptr(),
            t.intervals.len(),
            t.mentions.as_ptr(),
            t.mentions.len(),
            t.safepoints.as_ptr(),
            t.safepoints.len(),
            result.as_mut_ptr(),
            result.len(),
            work.as_mut_ptr(),
            work.len(),
        )
    }
}

/// Checks a claim: `count` records in `words`, and the slot total.
#[cfg(archive)]
pub fn check(t: Lent, words: &[u32], count: u32, total: u32) -> Answer {
    // Every pointer goes with the length of its own slice, and nothing is written.
    unsafe {
        temgurisk_check(
            t.instructions,
            t.classes.as_ptr(),
            t.classes.len(),
            t.registers.as_ptr(),
            t.registers.len(),
            t.fragments.as_ptr(),
            t.fragments.len(),
            t.intervals.as_ptr(),
            t.intervals.len(),
            t.mentions.as_ptr(),
            t.mentions.len(),
            t.safepoints.as_ptr(),
            t.safepoints.len(),
            words.as_ptr(),
            words.len(),
            count,
            total,
        )
    }
}

#[cfg(not(archive))]
const MISSING: &str = "the archive is missing: run `./archive` and build again";

/// Without the archive nothing can be asked.
#[cfg(not(archive))]
pub fn assign(_: Settings, _: Lent, _: &mut [u32], _: &mut [u32]) -> Answer {
    panic!("{MISSING}")
}

/// As above.
#[cfg(not(archive))]
pub fn check(_: Lent, _: &[u32], _: u32, _: u32) -> Answer {
    panic!("{MISSING}")
}
