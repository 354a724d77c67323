//! What the harness sees of a run: which record was popped, whether starts tied, and the room.
//!
//! The module never says these. It reads a popped record through `Intervals::get` and then asks
//! `Location::is_none`, which it asks nowhere else. A record waits in the queue from the time it is
//! made until it is popped; those that a split spills are never queued. Each endless run splits
//! for ever.

#[cfg(feature = "watch")]
mod seen {
    use std::cell::RefCell;
    use std::collections::BTreeMap;

    pub(super) struct Seen {
        pub(super) got: usize,
        pub(super) popped: usize,
        pub(super) tie: bool,
        limit: usize,
        /// The start of each record, while it waits.
        starts: Vec<Option<u32>>,
        /// How many wait at each start.
        waiting: BTreeMap<u32, usize>,
    }

    impl Seen {
        const fn new(limit: usize) -> Self {
            Seen {
                got: 0,
                popped: 0,
                tie: false,
                limit,
                starts: Vec::new(),
                waiting: BTreeMap::new(),
            }
        }

        pub(super) fn clear(&mut self, limit: usize) {
            *self = Seen::new(limit);
        }

        /// A new record waits.
        pub(super) fn add(&mut self, start: u32) {
            self.starts.push(Some(start));
            *self.waiting.entry(start).or_insert(0) += 1;
        }

        /// A record waits no longer. True where another waits at its start.
        pub(super) fn remove(&mut self, record: usize) -> bool {
            let Some(start) = self.starts[record].take() else {
                return false;
            };
            let count = self.waiting.entry(start).or_insert(1);
            *count -= 1;
            *count > 0
        }

        pub(super) fn is_over_limit(&self) -> bool {
            self.starts.len() > self.limit
        }
    }

    thread_local! {
        static SEEN: RefCell<Seen> = const { RefCell::new(Seen::new(0)) };
    }

    pub(super) fn with<T>(f: impl FnOnce(&mut Seen) -> T) -> T {
        SEEN.with(|cell| f(&mut cell.borrow_mut()))
    }
}

/// Thrown when a split would make more records than there is room for.
pub(crate) struct Full {
    pub(crate) parent: usize,
}

/// A run begins, with room for so many records, on records with these starts.
pub(crate) fn begin(_limit: usize, _starts: impl Iterator<Item = u32>) {
    #[cfg(feature = "watch")]
    seen::with(|s| {
        s.clear(_limit);
        _starts.for_each(|start| s.add(start));
    });
}

/// `Intervals::get` was asked for a record.
#[inline(always)]
pub(crate) fn got(_record: usize) {
    #[cfg(feature = "watch")]
    seen::with(|s| s.got = _record);
}

/// The record that was got last has just been popped. Its start ties if another waits with it.
#[inline(always)]
pub(crate) fn popped() {
    #[cfg(feature = "watch")]
    seen::with(|s| {
        s.popped = s.got;
        s.tie |= s.remove(s.got);
    });
}

/// A record is spilled, and does not wait.
#[inline(always)]
pub(crate) fn spilled(_record: usize) {
    #[cfg(feature = "watch")]
    seen::with(|s| {
        s.remove(_record);
    });
}

/// A record is to be appended to the others.
#[inline(always)]
pub(crate) fn pushing(_start: u32, _parent: Option<usize>) {
    #[cfg(feature = "watch")]
    {
        let full = seen::with(|s| {
            s.add(_start);
            s.is_over_limit()
        });
        if full {
            std::panic::panic_any(Full {
                parent: _parent.unwrap_or(0),
            });
        }
    }
}

/// The record popped last, and whether starts tied.
pub(crate) fn end() -> (usize, bool) {
    #[cfg(feature = "watch")]
    return seen::with(|s| (s.popped, s.tie));
    #[cfg(not(feature = "watch"))]
    (0, false)
}
