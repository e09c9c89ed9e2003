// What the original's connections have in common: a statement that is kept or is not.

pub mod statement_cache {
    use std::ops::{Deref, DerefMut};

    pub enum MaybeCached<'a, T: 'a> {
        CannotCache(T),
        Cached(&'a mut T),
    }

    impl<T> Deref for MaybeCached<'_, T> {
        type Target = T;

        fn deref(&self) -> &T {
            match self {
                MaybeCached::CannotCache(statement) => statement,
                MaybeCached::Cached(statement) => statement,
            }
        }
    }

    impl<T> DerefMut for MaybeCached<'_, T> {
        fn deref_mut(&mut self) -> &mut T {
            match self {
                MaybeCached::CannotCache(statement) => statement,
                MaybeCached::Cached(statement) => statement,
            }
        }
    }

    pub enum PrepareForCache {
        No,
    }
}
