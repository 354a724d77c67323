//! Room for a run.

use crate::tables::Tables;

const MAX_RECORDS: usize = 16_384;
const RECORD_WORDS: usize = 2;
const WORK_PER_RECORD: usize = 8;
const WORK_BASE: usize = 256;
/// Records that a short program may need beyond those of its tables.
const SPARE_RECORDS: usize = 16;

/// A result area and a work area, to be lent again and again.
#[derive(Clone, Debug)]
pub struct Room {
    result: Vec<u32>,
    work: Vec<u32>,
}

impl Room {
    /// Room for so many records, 16,384 at most. A run needs one for each interval and one for each
    /// split.
    pub fn for_records(count: usize) -> Self {
        let count = count.min(MAX_RECORDS);
        let work = count * WORK_PER_RECORD + WORK_BASE;
        Room {
            result: vec![0; count * RECORD_WORDS],
            work: vec![0; work],
        }
    }

    /// What most programs need: a split belongs to a mention, a safepoint or a fragment.
    pub fn for_tables(tables: &Tables) -> Self {
        let parts = tables.mentions.len() + tables.safepoints.len() + tables.fragments.len();
        Room::for_records(tables.interval_count() + parts + SPARE_RECORDS)
    }

    /// The most that a run can use.
    pub fn most() -> Self {
        Room::for_records(MAX_RECORDS)
    }

    /// The result area and the work area.
    pub fn areas(&mut self) -> (&mut [u32], &mut [u32]) {
        (&mut self.result, &mut self.work)
    }
}

#[cfg(test)]
mod tests {
    use super::*;

    #[test]
    fn work_follows_the_records() {
        let mut room = Room::for_records(3);
        let (result, work) = room.areas();
        assert_eq!((result.len(), work.len()), (6, 280));
    }

    #[test]
    fn there_is_a_most() {
        let mut room = Room::for_records(usize::MAX);
        let (result, work) = room.areas();
        assert_eq!((result.len(), work.len()), (32_768, 131_328));
    }
}
