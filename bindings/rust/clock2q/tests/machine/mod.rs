//! A plain model of the machine that the core is proved to be.
#![allow(dead_code)] // no test uses all of it

use std::collections::VecDeque;

#[derive(Clone, Copy)]
pub struct Resident {
    pub key: u64,
    pub slot: usize,
    /// Whether it was hit since it was old, or since the hand passed it.
    is_hit: bool,
    /// Which admission to Small it was, unless it is old for good.
    admission: Option<usize>,
}

impl Resident {
    fn is_old(&self, window: usize, admissions: usize) -> bool {
        let is_past = |admission| admission + window <= admissions;
        self.admission.map_or(true, is_past)
    }
}

/// The machine by lists: no slot is linked, and no key hashed.
pub struct Model {
    pub capacity: usize,
    pub small_share: usize,
    pub window: usize,
    /// How many keys are remembered at most.
    pub limit: usize,
    /// The newest first.
    small: VecDeque<Resident>,
    /// That at the hand first.
    main: VecDeque<Resident>,
    /// The newest first.
    history: VecDeque<u64>,
    admissions: usize,
    /// The value of each slot that was made.
    pub values: Vec<u64>,
    free: Vec<usize>,
}

/// The slot of a key that was inserted, and the key that left for it.
pub type Inserted = (usize, Option<u64>);

impl Model {
    pub fn new((capacity, small_share, window): (usize, usize, usize)) -> Model {
        Model {
            capacity,
            small_share,
            window,
            limit: capacity / 2,
            small: VecDeque::new(),
            main: VecDeque::new(),
            history: VecDeque::new(),
            admissions: 0,
            values: Vec::new(),
            free: Vec::new(),
        }
    }

    pub fn residents(&self) -> impl Iterator<Item = &Resident> {
        self.small.iter().chain(&self.main)
    }

    pub fn slot(&self, key: u64) -> Option<usize> {
        let found = self.residents().find(|it| it.key == key);
        found.map(|it| it.slot)
    }

    /// Has these shares, none of them smaller than before. What is old stays so in a longer window.
    pub fn grow(&mut self, (capacity, small_share, window): (usize, usize, usize), limit: usize) {
        for it in self.small.iter_mut() {
            if it.is_old(self.window, self.admissions) {
                it.admission = None;
            }
        }
        self.capacity = capacity;
        self.small_share = small_share;
        self.window = window;
        self.limit = limit;
    }

    pub fn hit(&mut self, slot: usize) -> bool {
        let (admissions, window) = (self.admissions, self.window);
        if let Some(it) = self.main.iter_mut().find(|it| it.slot == slot) {
            it.is_hit = true;
            return true;
        }
        let Some(it) = self.small.iter_mut().find(|it| it.slot == slot) else {
            return false;
        };
        it.is_hit |= it.is_old(window, admissions);
        true
    }

    fn tail_goes_on(&self) -> bool {
        self.small
            .back()
            .is_some_and(|it| it.is_hit && it.is_old(self.window, self.admissions))
    }

    /// Has the hand pass those that were hit, and takes the first that wasn't.
    fn take_victim(&mut self) -> Resident {
        while let Some(mut first) = self.main.pop_front() {
            if !first.is_hit {
                return first;
            }
            first.is_hit = false;
            self.main.push_back(first);
        }
        unreachable!("Main isn't empty")
    }

    fn tail_to_main(&mut self) {
        if let Some(mut tail) = self.small.pop_back() {
            tail.is_hit = false;
            self.main.push_back(tail);
        }
    }

    fn remember(&mut self, key: u64) {
        self.history.push_front(key);
        self.history.truncate(self.limit);
    }

    fn forget(&mut self, key: u64) -> bool {
        let before = self.history.len();
        self.history.retain(|it| *it != key);
        self.history.len() < before
    }

    fn has_vacancy(&self) -> bool {
        self.values.len() < self.capacity || !self.free.is_empty()
    }

    fn take_vacancy(&mut self) -> usize {
        self.free.pop().unwrap_or_else(|| {
            self.values.push(0);
            self.values.len() - 1
        })
    }

    fn admit(&mut self, key: u64, slot: usize) {
        self.admissions += 1;
        let (is_hit, admission) = (false, Some(self.admissions));
        self.small.push_front(Resident {
            key,
            slot,
            is_hit,
            admission,
        });
    }

    fn append(&mut self, key: u64, slot: usize) {
        let (is_hit, admission) = (false, None);
        self.main.push_back(Resident {
            key,
            slot,
            is_hit,
            admission,
        });
    }

    pub fn insert(&mut self, key: u64, value: u64) -> Inserted {
        let is_known = self.forget(key);
        let fills = self.has_vacancy() && self.small_share <= self.small.len();
        let inserted = if is_known || fills || self.small_share == 0 {
            self.insert_to_main(key)
        } else {
            self.insert_to_small(key)
        };
        self.values[inserted.0] = value;
        inserted
    }

    fn insert_to_main(&mut self, key: u64) -> Inserted {
        if self.main.len() < self.capacity - self.small_share {
            let slot = self.take_vacancy();
            self.append(key, slot);
            return (slot, None);
        }
        let victim = self.take_victim();
        self.append(key, victim.slot);
        (victim.slot, Some(victim.key))
    }

    fn insert_to_small(&mut self, key: u64) -> Inserted {
        if self.has_vacancy() {
            let slot = self.take_vacancy();
            self.admit(key, slot);
            return (slot, None);
        }
        let left = if self.tail_goes_on() {
            let victim = self.take_victim();
            self.tail_to_main();
            victim
        } else {
            let tail = self.small.pop_back().expect("Small isn't empty");
            self.remember(tail.key);
            tail
        };
        self.admit(key, left.slot);
        (left.slot, Some(left.key))
    }

    pub fn next_victim(&self) -> Option<(u64, usize)> {
        let tail = self.small.back();
        let found = match tail {
            Some(tail) if self.main.is_empty() || !self.tail_goes_on() => Some(tail),
            _ => self.main.iter().find(|it| !it.is_hit).or(self.main.front()),
        };
        found.map(|it| (it.key, it.slot))
    }

    pub fn evict(&mut self) -> Option<(u64, usize)> {
        let leaves_main = !self.main.is_empty() && (self.small.is_empty() || self.tail_goes_on());
        let left = if leaves_main {
            let victim = self.take_victim();
            self.tail_to_main();
            victim
        } else {
            let tail = self.small.pop_back()?;
            self.remember(tail.key);
            tail
        };
        self.free.push(left.slot);
        Some((left.key, left.slot))
    }

    pub fn vacate(&mut self, slot: usize) {
        self.small.retain(|it| it.slot != slot);
        self.main.retain(|it| it.slot != slot);
        self.free.push(slot);
    }

    pub fn remove(&mut self, key: u64) -> bool {
        let found = self.slot(key);
        match found {
            Some(slot) => self.vacate(slot),
            None => drop(self.forget(key)),
        }
        found.is_some()
    }

    pub fn clear(&mut self) {
        let limit = self.limit;
        *self = Model::new((self.capacity, self.small_share, self.window));
        self.limit = limit;
    }

    /// The keys by ascending slot.
    pub fn entries(&self) -> Vec<(u64, usize, u64)> {
        let with_value = |it: &Resident| (it.key, it.slot, self.values[it.slot]);
        let mut entries: Vec<_> = self.residents().map(with_value).collect();
        entries.sort_by_key(|it| it.1);
        entries
    }
}
