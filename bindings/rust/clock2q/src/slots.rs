//! The slots that the proved cache gives keys, of which it has the hashes alone.

use crate::proved::cache::{shares as usual, Cache, DefaultHashBuilder};
pub(crate) use crate::proved::directory::handle::Found;
use crate::proved::directory::handle::Handle;
use crate::proved::rattle::Global;
use crate::Refused;
use core::num::NonZeroUsize;

/// 2 to the 64th divided by the golden ratio: its products have high bits that are spread.
const SPREAD: u64 = 0x9E37_79B9_7F4A_7C15;

/// Returns a hash for the index, which takes its low bits and its top byte, however poor the hasher is. Different hashes
/// stay different.
#[inline]
fn spread(hash: u64) -> u64 {
    hash.wrapping_mul(SPREAD).swap_bytes()
}

/// Gives keys slots. The proved cache has keys of no bytes here, which it neither hashes nor compares: callers find the
/// key of a slot by looking at what they keep there, and a key that left is known by its hash.
pub(crate) struct Slots {
    cache: Cache<(), ()>,
    /// Those that were asked for.
    shares: Shares,
}

/// What a cache is asked to be like. What isn't said is as usual.
#[derive(Clone, Copy, Debug, Default)]
pub(crate) struct Shares {
    /// How many slots are for new keys, and for how many admissions each is young.
    pub(crate) small_and_window: Option<(usize, usize)>,
    /// How many keys that were evicted are remembered.
    pub(crate) history: Option<usize>,
}

impl Shares {
    pub(crate) fn of_policy(small: usize, window: usize) -> Shares {
        Shares {
            small_and_window: Some((small, window)),
            history: None,
        }
    }

    pub(crate) fn of_history(small: usize, window: usize, history: usize) -> Shares {
        Shares {
            small_and_window: Some((small, window)),
            history: Some(history),
        }
    }

    /// Returns Small's slots, the window and the history's keys for a capacity.
    fn at(&self, capacity: usize) -> (usize, usize, usize) {
        let usual = usual::Shares::usual(capacity);
        let (small, window) = self
            .small_and_window
            .unwrap_or((usual.small, usual.window));
        (small, window, self.history.unwrap_or(usual.history))
    }
}

/// What the first place of the index says of a key.
pub(crate) enum AtHome {
    /// It has this slot.
    Found(usize),
    /// It has none.
    Absent,
    /// Others have to be looked at.
    Unknown,
}

/// Returns a capacity that isn't 0.
pub(crate) fn some(capacity: usize) -> Result<NonZeroUsize, Refused> {
    NonZeroUsize::new(capacity).ok_or(Refused::Capacity)
}

impl Slots {
    pub(crate) fn new(capacity: usize) -> Result<Slots, Refused> {
        Slots::with_shares(capacity, Shares::default())
    }

    pub(crate) fn with_shares(capacity: usize, shares: Shares) -> Result<Slots, Refused> {
        let (small, window, history) = shares.at(capacity);
        let (some, hasher) = (some(capacity)?, DefaultHashBuilder::default());
        Ok(Slots {
            cache: Cache::with_history(Global, some, small, window, history, hasher)?,
            shares,
        })
    }

    /// Has more slots, with the shares that were asked for. Each key keeps its slot. If it is refused, nothing has changed.
    pub(crate) fn grow(&mut self, capacity: usize) -> Result<(), Refused> {
        let (small, window, history) = self.shares.at(capacity);
        Ok(self
            .cache
            .grow_with_history(some(capacity)?, small, window, history)?)
    }

    /// Makes one of this capacity and these shares, in which no key has a slot.
    pub(crate) fn empty_one(&self) -> Result<Slots, Refused> {
        Slots::with_shares(self.capacity(), self.shares)
    }

    /// Looks for a key of this hash, for which `is_it` returns true, in the first place of the index alone, where almost
    /// all are that have a slot. It needs few registers, so that its caller has none to save. Nothing changes.
    #[inline(always)]
    pub(crate) fn find_at_home(&self, hash: u64, is_it: impl FnOnce(usize) -> bool) -> AtHome {
        let mut home = self.cache.directory.index.handles(spread(hash));
        let metadata = home.view.read(home.slot, &mut home.reads);
        if !metadata.is(home.wanted) {
            return match metadata.ends_walk_for(home.wanted) {
                true => AtHome::Absent,
                false => AtHome::Unknown,
            };
        }
        match Handle::unpack(home.view.handle(home.slot, &mut home.handle_reads)) {
            Handle::Resident(slot) if is_it(slot as usize) => AtHome::Found(slot as usize),
            _ => AtHome::Unknown,
        }
    }

    /// Returns the slot of a key of this hash for which `is_it` returns true. Nothing changes.
    #[inline(always)]
    pub(crate) fn find(&self, hash: u64, mut is_it: impl FnMut(usize) -> bool) -> Option<usize> {
        let mut handles = self.cache.directory.index.handles(spread(hash));
        while let Ok(handle) = handles.peek_or_gap() {
            if let Handle::Resident(slot) = Handle::unpack(handle) {
                if is_it(slot as usize) {
                    return Some(slot as usize);
                }
            }
            handles.advance();
        }
        None
    }

    /// Returns the slot of a key of this hash for which `is_it` returns true, or else whether one of this hash left,
    /// and where it would go in the index. Nothing changes; what is returned holds until something does.
    #[inline(always)]
    pub(crate) fn look_up(&self, hash: u64, mut is_it: impl FnMut(usize) -> bool) -> Found {
        let mut handles = self.cache.directory.index.handles(spread(hash));
        let known = loop {
            match handles.peek_or_gap().map(Handle::unpack) {
                Ok(Handle::Resident(slot)) if is_it(slot as usize) => return Found::Resident(slot),
                Ok(Handle::Resident(_)) => handles.advance(),
                Ok(Handle::Remembered(_)) => break self.look_up_among_left(hash, is_it),
                Err(gap) if self.cache.directory.index.is_shared() => {
                    return Found::Absent(Some(gap));
                }
                Err(_) => break self.look_up_apart(hash),
            }
        };
        match known {
            Some(Handle::Resident(slot)) => Found::Resident(slot),
            Some(Handle::Remembered(place)) => Found::Remembered(place),
            None => Found::Absent(None),
        }
    }

    /// Does so if there is a key that left in the walk of this hash. In registers, since it is rare.
    #[cold]
    #[inline(never)]
    fn look_up_among_left(
        &self,
        hash: u64,
        mut is_it: impl FnMut(usize) -> bool,
    ) -> Option<Handle> {
        let (hash, directory) = (spread(hash), &self.cache.directory);
        let mut left = None;
        for handle in directory.index.handles(hash).map(Handle::unpack) {
            match handle {
                Handle::Resident(slot) if is_it(slot as usize) => return Some(handle),
                Handle::Remembered(place) if directory.history.keys.hash(place) == hash => {
                    left = Some(handle);
                }
                _ => {}
            }
        }
        left
    }

    /// Returns whether a key of this hash left, if those that did have an index of their own, as in the largest caches.
    #[cold]
    #[inline(never)]
    fn look_up_apart(&self, hash: u64) -> Option<Handle> {
        let (hash, directory) = (spread(hash), &self.cache.directory);
        let mut places = directory.index.own_places(hash);
        let found = places.find(|place| directory.history.keys.hash(*place) == hash);
        found.map(Handle::Remembered)
    }

    /// Returns whether a key of this hash left, given that none of this hash and of what the caller looked for has a slot.
    pub(crate) fn look_up_absent(&self, hash: u64) -> Found {
        self.look_up(hash, |_| false)
    }

    /// Gives a key of this hash a slot that another may lose, and returns it. Nothing has changed since `found` was
    /// returned for it.
    #[inline(always)]
    pub(crate) fn enter(&mut self, hash: u64, found: Found) -> usize {
        self.cache.insert(spread(hash), (), (), found) as usize
    }

    /// Records a hit of the key at this slot.
    #[inline]
    pub(crate) fn hit(&mut self, slot: usize) {
        self.cache.record_hit(slot as u32, &());
    }

    /// Takes the slot away from its key.
    pub(crate) fn remove(&mut self, slot: usize) {
        self.cache.remove_slot(slot);
    }

    /// Takes the slot away from the key that would lose it next, and returns it.
    pub(crate) fn evict(&mut self) -> Option<usize> {
        self.cache.evict().map(|((), slot)| slot)
    }

    /// Returns the slot that [`evict`](Slots::evict) would return.
    pub(crate) fn next_victim(&mut self) -> Option<usize> {
        self.cache.next_victim().map(|(_, slot)| slot)
    }

    /// Forgets a key of this hash that left, if `found` says that one did.
    pub(crate) fn forget(&mut self, hash: u64, found: &Found) {
        self.cache.forget(spread(hash), &(), found);
    }

    /// Takes all slots away, and forgets all keys.
    pub(crate) fn clear(&mut self) {
        self.cache.clear();
    }

    /// Returns how many keys have a slot.
    #[inline]
    pub(crate) fn len(&self) -> usize {
        self.cache.len()
    }

    #[inline]
    pub(crate) fn capacity(&self) -> usize {
        self.cache.capacity()
    }
}
