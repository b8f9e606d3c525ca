//! beside CALLS: makes random calls of the erased core and of the proved library at once. Each reply has to be the same:
//! slots, who had them, what leaves and what is found, which depend on all of the history. Status 101 if one isn't.

use clock2q::PageCache;
use std::ffi::c_void;
use std::ptr::null_mut;

#[repr(C)]
#[derive(Clone, Copy)]
struct Handle {
    at: *mut c_void,
}

#[repr(C)]
struct Taken {
    slot: usize,
    last: u64,
    has_last: bool,
    evicted: bool,
}

#[repr(C)]
struct Found {
    slot: usize,
    is_found: bool,
}

#[link(name = "clock2q", kind = "static")]
extern "C" {
    fn clock2q_with_history(
        cache: *mut Handle,
        capacity: usize,
        small: usize,
        window: usize,
        history: usize,
    ) -> u32;
    fn clock2q_enter_key(cache: *mut Handle, key: u64) -> Taken;
    fn clock2q_find_key(cache: *mut Handle, key: u64) -> Found;
    fn clock2q_at(cache: *mut Handle, slot: usize, key: u64) -> bool;
    fn clock2q_contains(cache: *mut Handle, key: u64) -> bool;
    fn clock2q_peek_key(cache: *mut Handle, key: u64) -> Found;
    fn clock2q_remove(cache: *mut Handle, key: u64) -> bool;
    fn clock2q_evict_key(cache: *mut Handle) -> Taken;
    fn clock2q_next_victim(cache: *mut Handle) -> Taken;
    fn clock2q_clear(cache: *mut Handle);
    fn clock2q_len(cache: *mut Handle) -> usize;
    fn clock2q_release(cache: Handle);
}

/// The capacity, Small's share, the window and how many keys are remembered.
const SHARES: [(usize, usize, usize, usize); 14] = [
    (1, 0, 0, 0),
    (2, 1, 1, 1),
    (3, 2, 1, 3),
    (7, 6, 6, 3),
    (10, 1, 1, 5),
    (10, 1, 1, 10),
    (40, 20, 20, 0),
    (40, 20, 20, 20),
    (100, 10, 5, 50),
    (100, 10, 5, 90),
    (1000, 100, 50, 500),
    (1000, 100, 50, 900),
    (10_000, 1000, 500, 5000),
    (100_000, 10_000, 5000, 50_000),
];

impl Found {
    fn slot(self) -> Option<usize> {
        self.is_found.then_some(self.slot)
    }
}

impl Taken {
    fn key_and_slot(self) -> Option<(u64, usize)> {
        self.has_last.then_some((self.last, self.slot))
    }
}

/// The two caches.
struct Beside {
    erased: PageCache,
    proved: Handle,
}

impl Beside {
    fn new((capacity, small, window, history): (usize, usize, usize, usize)) -> Beside {
        let mut proved = Handle { at: null_mut() };
        // SAFETY: there is no cache at the pointer yet.
        let made = unsafe { clock2q_with_history(&mut proved, capacity, small, window, history) };
        assert_eq!(made, 0);
        let erased = PageCache::with_history(capacity, small, window, history).expect("a cache");
        Beside { erased, proved }
    }

    fn enter(&mut self, key: u64) {
        // SAFETY: there is a cache, and no other call of it.
        let taken = unsafe { clock2q_enter_key(&mut self.proved, key) };
        let place = self.erased.enter(key);
        assert_eq!(place.slot, taken.slot);
        assert_eq!(place.last, taken.has_last.then_some(taken.last));
        assert_eq!(place.evicted, taken.evicted.then_some(taken.last));
    }

    fn call(&mut self, kind: u64, key: u64, slot: usize) {
        let (erased, proved) = (&mut self.erased, &mut self.proved);
        // SAFETY: as above.
        unsafe {
            match kind {
                0..=149 => self.enter(key),
                150..=219 => assert_eq!(erased.find(key), clock2q_find_key(proved, key).slot()),
                220..=229 => assert_eq!(erased.peek(key), clock2q_peek_key(proved, key).slot()),
                230..=234 => assert_eq!(erased.contains(key), clock2q_contains(proved, key)),
                235..=239 => assert_eq!(erased.is_at(slot, key), clock2q_at(proved, slot, key)),
                240..=249 => assert_eq!(erased.remove(key), clock2q_remove(proved, key)),
                250..=252 => assert_eq!(erased.evict(), clock2q_evict_key(proved).key_and_slot()),
                253 | 254 => {
                    let next = clock2q_next_victim(proved).key_and_slot();
                    assert_eq!(erased.next_victim(), next);
                }
                _ if key % 500 == 0 => {
                    erased.clear();
                    clock2q_clear(proved);
                }
                _ => assert_eq!(erased.len(), clock2q_len(proved)),
            }
        }
    }
}

impl Drop for Beside {
    fn drop(&mut self) {
        // SAFETY: there is a cache, which nobody uses from now on.
        unsafe { clock2q_release(self.proved) }
    }
}

fn main() {
    let calls = std::env::args().nth(1).and_then(|word| word.parse().ok());
    let calls: usize = calls.expect("beside CALLS");
    for shares in SHARES {
        let mut beside = Beside::new(shares);
        let mut state = 1 + shares.0 as u64;
        for _ in 0..calls / SHARES.len() {
            state ^= state << 13;
            state ^= state >> 7;
            state ^= state << 17;
            let (kind, drawn) = (state >> 56, state >> 8 & 0xFFFF_FFFF);
            let key = drawn % (3 * shares.0 as u64);
            beside.call(kind, key, drawn as usize % shares.0);
        }
    }
    println!("{calls} calls: the replies are the same");
}
