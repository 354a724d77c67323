//! Small stand-ins for the three crates that the module uses. Results are the same, times are not.

/// Nothing is logged; the arguments are still type-checked.
pub(crate) mod log {
    #[derive(Clone, Copy)]
    pub(crate) enum Level {
        Debug,
        Trace,
    }

    macro_rules! quiet {
        ($($part:tt)*) => {
            if false {
                let _ = format!($($part)*);
            }
        };
    }
    macro_rules! log_enabled {
        ($level:expr) => {{
            let _ = $level;
            false
        }};
    }
    pub(crate) use {log_enabled, quiet as debug, quiet as trace};
}

pub(crate) mod rustc_hash {
    pub(crate) type FxHashMap<K, V> = std::collections::HashMap<K, V>;
}

pub(crate) mod smallvec {
    use std::ops::{Deref, DerefMut};

    pub(crate) trait Array {
        type Item;
    }

    impl<T, const N: usize> Array for [T; N] {
        type Item = T;
    }

    /// A vector on the heap, whatever its size.
    pub(crate) struct SmallVec<A: Array>(Vec<A::Item>);

    impl<A: Array> SmallVec<A> {
        pub(crate) fn new() -> Self {
            SmallVec(Vec::new())
        }

        pub(crate) fn with_capacity(count: usize) -> Self {
            SmallVec(Vec::with_capacity(count))
        }

        pub(crate) fn into_vec(self) -> Vec<A::Item> {
            self.0
        }
    }

    impl<A: Array> Default for SmallVec<A> {
        fn default() -> Self {
            SmallVec::new()
        }
    }

    impl<A: Array> Clone for SmallVec<A>
    where
        A::Item: Clone,
    {
        fn clone(&self) -> Self {
            SmallVec(self.0.clone())
        }
    }

    impl<A: Array> Deref for SmallVec<A> {
        type Target = Vec<A::Item>;
        fn deref(&self) -> &Self::Target {
            &self.0
        }
    }

    impl<A: Array> DerefMut for SmallVec<A> {
        fn deref_mut(&mut self) -> &mut Self::Target {
            &mut self.0
        }
    }
}
