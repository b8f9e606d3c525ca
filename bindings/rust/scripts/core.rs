//! The calls of the erased core.

use crate::commands::{Command, Made, Refusal, Shares};
use crate::replies::{flag, stored, value, Calls};
use clock2q::proved::cache::{Cache, CacheError};
use clock2q::proved::rattle::Global;
use std::hash::BuildHasher;
use std::num::NonZeroUsize;

/// The core with its own values.
pub struct Core<S: BuildHasher>(Cache<u64, u64, S>);

impl<S: BuildHasher + Default> Core<S> {
    pub fn new(made: Made) -> Result<Self, Refusal> {
        let capacity = usize::try_from(made.capacity).unwrap_or(usize::MAX);
        let capacity = NonZeroUsize::new(capacity).ok_or(Refusal::Capacity)?;
        let cache = match made.shares {
            None => Cache::with_hasher(Global, capacity, S::default()),
            Some(Shares {
                small,
                window,
                history,
            }) => match history {
                Some(history) => {
                    Cache::with_history(Global, capacity, small, window, history, S::default())
                }
                None => Cache::with_policy(Global, capacity, small, window, S::default()),
            },
        };
        cache.map(Core).map_err(|refusal| match refusal {
            CacheError::Memory => Refusal::Memory,
            CacheError::Capacity => Refusal::Capacity,
            CacheError::Policy => Refusal::Policy,
        })
    }
}

impl<S: BuildHasher> Calls for Core<S> {
    fn call(&mut self, command: &Command) -> String {
        let cache = &mut self.0;
        match command {
            Command::Put(key, new) => value(cache.put(*key, *new)),
            Command::Get(key) => value(cache.get(key).copied()),
            Command::Peek(key) => value(cache.peek(key).copied()),
            Command::GetAt(slot, key) => value(cache.get_at(*slot as usize, key).copied()),
            Command::Set(key, new) => {
                value(cache.get_mut(key).map(|held| std::mem::replace(held, *new)))
            }
            Command::Contains(key) => flag(cache.contains(key)),
            Command::Remove(key) => flag(cache.remove(key)),
            Command::With(key, new) => cache.get_or_insert_with(*key, || *new).to_string(),
            Command::Try(key, new) => {
                let tried = cache.try_get_or_insert_with_mut(*key, || new.ok_or(()));
                stored(tried.ok().copied())
            }
            Command::Slot(key, new) => {
                let (slot, held) = cache.get_or_insert_mut(*key, || *new);
                format!("{slot} {held}")
            }
            Command::Retain(bits) => {
                let mut bits = bits.iter();
                cache.retain(|_, _| bits.next().copied().unwrap_or(true));
                "ok".to_string()
            }
            Command::Prefill(values) => {
                let mut values = values.iter().copied().peekable();
                let mut last = 0;
                cache.prefill(|| {
                    last = values.next().unwrap_or(last);
                    last
                });
                "ok".to_string()
            }
            Command::Clear => {
                cache.clear();
                "ok".to_string()
            }
            Command::Len => cache.len().to_string(),
            Command::IsEmpty => flag(cache.is_empty()),
            Command::Capacity => cache.capacity().to_string(),
        }
    }
}
