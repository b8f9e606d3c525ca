//! Iterators over pairs, in the order of their slots. None of them records a hit.

use crate::entries::{Drained, IntoPairs, Pairs, PairsMut};
use core::fmt;
use core::iter::FusedIterator;

/// Declares an iterator over pairs, of which `left` are still to come.
macro_rules! iterator {
    ($(#[$doc:meta])* $name:ident<$($life:lifetime)?>, $pairs:ty, $item:ty, $item_of:expr) => {
        $(#[$doc])*
        pub struct $name<$($life,)? K, V> {
            pairs: $pairs,
            left: usize,
        }

        impl<$($life,)? K, V> $name<$($life,)? K, V> {
            pub(crate) fn new(pairs: $pairs, left: usize) -> Self {
                $name { pairs, left }
            }
        }

        impl<$($life,)? K, V> Iterator for $name<$($life,)? K, V> {
            type Item = $item;

            fn next(&mut self) -> Option<$item> {
                let item = self.pairs.next().map($item_of)?;
                self.left -= 1;
                Some(item)
            }

            fn size_hint(&self) -> (usize, Option<usize>) {
                (self.left, Some(self.left))
            }
        }

        impl<$($life,)? K, V> DoubleEndedIterator for $name<$($life,)? K, V> {
            fn next_back(&mut self) -> Option<$item> {
                let item = self.pairs.next_back().map($item_of)?;
                self.left -= 1;
                Some(item)
            }
        }

        impl<$($life,)? K, V> ExactSizeIterator for $name<$($life,)? K, V> {}

        impl<$($life,)? K, V> FusedIterator for $name<$($life,)? K, V> {}

        impl<$($life,)? K, V> fmt::Debug for $name<$($life,)? K, V> {
            fn fmt(&self, formatter: &mut fmt::Formatter<'_>) -> fmt::Result {
                formatter.debug_struct(stringify!($name)).field("len", &self.left).finish()
            }
        }
    };
}

/// Declares that an iterator of references can be cloned.
macro_rules! cloned {
    ($name:ident) => {
        impl<K, V> Clone for $name<'_, K, V> {
            fn clone(&self) -> Self {
                $name::new(self.pairs.clone(), self.left)
            }
        }
    };
}

cloned!(Iter);
cloned!(Keys);
cloned!(Values);

iterator!(
    /// The pairs of a cache, by reference.
    Iter<'a>, Pairs<'a, K, V>, (&'a K, &'a V),
    |(key, value)| (key, value)
);

iterator!(
    /// The pairs of a cache, with values to write to.
    IterMut<'a>, PairsMut<'a, K, V>, (&'a K, &'a mut V),
    |(key, value)| (&*key, value)
);

iterator!(
    /// The pairs of a cache that is no more.
    IntoIter<>, IntoPairs<K, V>, (K, V),
    |pair| pair
);

iterator!(
    /// The keys of a cache.
    Keys<'a>, Pairs<'a, K, V>, &'a K,
    |(key, _)| key
);

iterator!(
    /// The values of a cache.
    Values<'a>, Pairs<'a, K, V>, &'a V,
    |(_, value)| value
);

iterator!(
    /// The values of a cache, to write to.
    ValuesMut<'a>, PairsMut<'a, K, V>, &'a mut V,
    |(_, value)| value
);

iterator!(
    /// The pairs that a cache had. Those that it doesn't return are dropped with it.
    Drain<'a>, Drained<'a, K, V>, (K, V),
    |pair| pair
);
