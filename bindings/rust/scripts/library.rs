//! The calls of the C library, with the values in an array by slot, as the header asks for.

use crate::commands::{Command, Made, Refusal, Shares};
use crate::replies::{flag, stored, value, Calls};
use std::ffi::c_void;
use std::ptr::null_mut;

#[repr(C)]
#[derive(Clone, Copy)]
struct Handle {
    at: *mut c_void,
}

#[repr(C)]
struct Place {
    slot: usize,
    last: u64,
    has_last: bool,
    evicted: bool,
}

#[repr(C)]
struct Found {
    slot: usize,
    is_found: bool,
}

#[link(name = "clock2q", kind = "static")]
extern "C" {
    fn clock2q_new(cache: *mut Handle, capacity: usize) -> u32;
    fn clock2q_with_policy(cache: *mut Handle, capacity: usize, small: usize, window: usize)
        -> u32;
    fn clock2q_with_history(
        cache: *mut Handle,
        capacity: usize,
        small: usize,
        window: usize,
        history: usize,
    ) -> u32;
    fn clock2q_enter_key(cache: *mut Handle, key: u64) -> Place;
    fn clock2q_find_key(cache: *mut Handle, key: u64) -> Found;
    fn clock2q_at(cache: *mut Handle, slot: usize, key: u64) -> bool;
    fn clock2q_contains(cache: *mut Handle, key: u64) -> bool;
    fn clock2q_peek_key(cache: *mut Handle, key: u64) -> Found;
    fn clock2q_remove(cache: *mut Handle, key: u64) -> bool;
    fn clock2q_clear(cache: *mut Handle);
    fn clock2q_len(cache: *mut Handle) -> usize;
    fn clock2q_capacity(cache: *mut Handle) -> usize;
    fn clock2q_release(cache: Handle);
}

/// A cache of the library, and what belongs to its slots.
pub struct Library {
    handle: Handle,
    /// The key that entered each slot last.
    keys: Vec<Option<u64>>,
    values: Vec<Option<u64>>,
}

impl Library {
    pub fn new(made: Made) -> Result<Library, Refusal> {
        let mut handle = Handle { at: null_mut() };
        let capacity = usize::try_from(made.capacity).unwrap_or(usize::MAX);
        // SAFETY: there is no cache at the pointer yet.
        let status = match made.shares {
            None => unsafe { clock2q_new(&mut handle, capacity) },
            Some(Shares {
                small,
                window,
                history,
            }) => match history {
                Some(history) => unsafe {
                    clock2q_with_history(&mut handle, capacity, small, window, history)
                },
                None => unsafe { clock2q_with_policy(&mut handle, capacity, small, window) },
            },
        };
        match status {
            0 => Ok(Library {
                handle,
                keys: vec![None; capacity],
                values: vec![None; capacity],
            }),
            1 => Err(Refusal::Memory),
            2 => Err(Refusal::Capacity),
            _ => Err(Refusal::Policy),
        }
    }

    /// Enters a key. Returns its slot, and whether it had one before.
    fn enter(&mut self, key: u64) -> (usize, bool) {
        // SAFETY: there is a cache, here and below, and no other call of it.
        let place = unsafe { clock2q_enter_key(&mut self.handle, key) };
        self.keys[place.slot] = Some(key);
        (
            place.slot,
            place.has_last && place.last == key && !place.evicted,
        )
    }

    /// Finds the slot of a key, with a hit.
    fn find(&mut self, key: u64) -> Option<usize> {
        let found = unsafe { clock2q_find_key(&mut self.handle, key) };
        found.is_found.then_some(found.slot)
    }

    fn peek(&mut self, key: u64) -> Option<usize> {
        let found = unsafe { clock2q_peek_key(&mut self.handle, key) };
        found.is_found.then_some(found.slot)
    }

    /// Enters a key with this value, unless it has a slot. Returns the slot.
    fn fetch(&mut self, key: u64, new: u64) -> usize {
        let (slot, is_resident) = self.enter(key);
        if !is_resident {
            self.values[slot] = Some(new);
        }
        slot
    }

    /// Removes each resident whose bit is false, in the order of slots.
    fn retain(&mut self, bits: &[bool]) {
        let mut bits = bits.iter();
        for slot in 0..self.keys.len() {
            let Some(key) = self.keys[slot] else { continue };
            if self.peek(key) == Some(slot) && bits.next() == Some(&false) {
                unsafe { clock2q_remove(&mut self.handle, key) };
            }
        }
    }
}

impl Calls for Library {
    fn call(&mut self, command: &Command) -> String {
        match command {
            Command::Put(key, new) => {
                let (slot, is_resident) = self.enter(*key);
                let before = self.values[slot].replace(*new);
                value(before.filter(|_| is_resident))
            }
            Command::Get(key) => value(self.find(*key).and_then(|slot| self.values[slot])),
            Command::Peek(key) => value(self.peek(*key).and_then(|slot| self.values[slot])),
            Command::GetAt(slot, key) => {
                let is_there = unsafe { clock2q_at(&mut self.handle, *slot as usize, *key) };
                value(is_there.then(|| self.values[*slot as usize]).flatten())
            }
            Command::Set(key, new) => value(
                self.find(*key)
                    .and_then(|slot| self.values[slot].replace(*new)),
            ),
            Command::Contains(key) => flag(unsafe { clock2q_contains(&mut self.handle, *key) }),
            Command::Remove(key) => flag(unsafe { clock2q_remove(&mut self.handle, *key) }),
            Command::With(key, new) => {
                let slot = self.fetch(*key, *new);
                self.values[slot].map_or_else(String::new, |held| held.to_string())
            }
            Command::Try(key, new) => {
                let slot = self
                    .find(*key)
                    .or_else(|| new.map(|new| self.fetch(*key, new)));
                stored(slot.and_then(|slot| self.values[slot]))
            }
            Command::Slot(key, new) => {
                let (slot, _) = self.enter(*key);
                format!("{slot} {}", self.values[slot].get_or_insert(*new))
            }
            Command::Retain(bits) => {
                self.retain(bits);
                "ok".to_string()
            }
            Command::Prefill(_) => unreachable!("the library has no such call"),
            Command::Clear => {
                unsafe { clock2q_clear(&mut self.handle) };
                self.keys.fill(None);
                self.values.fill(None);
                "ok".to_string()
            }
            Command::Len => unsafe { clock2q_len(&mut self.handle) }.to_string(),
            Command::IsEmpty => flag(unsafe { clock2q_len(&mut self.handle) } == 0),
            Command::Capacity => unsafe { clock2q_capacity(&mut self.handle) }.to_string(),
        }
    }
}

impl Drop for Library {
    fn drop(&mut self) {
        // SAFETY: nobody uses the cache from now on.
        unsafe { clock2q_release(self.handle) }
    }
}
