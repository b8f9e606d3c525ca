"""The hidden lines that make programs of the examples in the sources, by the first line of each: those before it, and
those after it."""

GLOBAL = 'use clock2q::proved::rattle::Global;'
CACHE = 'use clock2q::proved::cache::{Cache, CacheError, Entered, MAX_CAPACITY, Occupant};'
DIRECTORY = 'use clock2q::proved::directory::{directory::Directory, handle::Handle, index::Index, keys::{Entry, Keys}, newcomer::Newcomer};'
HANDLES = 'use clock2q::proved::handles::{partition, Entry, Table, TableError};'
QUEUES = 'use clock2q::proved::queues::{order::Order, queues::Queues};'
UNUSED = '#![allow(unused)]'
TEN = ['let mut cache: Cache<u64, u64> = Cache::new(Global, 10.try_into()?)?;', 'cache.put(1, 10);']

EXAMPLES = {
    'pub fn read(&mut self, at: u32) -> T': (
        ['use clock2q::proved::count::Count;',
         'struct Cells<T> { items: Vec<T>, accesses: Count }',
         'impl<T: Copy> Cells<T> {'],
        ['}']),
    'struct Count {': (
        [UNUSED,
         'use clock2q::proved::count::GhostValue;',
         'macro_rules! counted { ($count:item $this:ident.$($set:tt)*) => {',
         '    $count impl Count { fn tick(&mut $this) { $this.$($set)* } }',
         '} }',
         'counted! {'],
        ['}']),
    'let mut table: Table<usize> = Table::with_capacity(rt.alloc(), 12)?;': ([UNUSED, GLOBAL, HANDLES], []),
    'let mut candidates = table.get(hash_of(key));': (
        [UNUSED, HANDLES,
         'fn find(table: &Table<usize>, keys: &[u64], key: u64) -> Option<usize> {',
         'let hash_of = |key: u64| key;'],
        ['None', '}']),
    'match table.insert(hash, handle, rehash) {': (
        [UNUSED, GLOBAL, HANDLES,
         'let (mut table, hash, handle, rehash) = (Table::<usize>::new(Global), 7, 70, |_| 7);'],
        []),
    'let table = &mut tables[partition(hash, 16)];': (
        [UNUSED, HANDLES, 'let (mut tables, hash) = ([0; 16], 7 << 50);'],
        ['*table = 1;']),
    'let mut order = Order::new(rt.alloc(), 2)?;': ([UNUSED, GLOBAL, QUEUES], []),
    'let mut queues = Queues::new(rt.alloc(), 4, 2)?;': ([UNUSED, GLOBAL, QUEUES], []),
    'let mut index = Index::new(rt.alloc(), 2, 1)?;': ([UNUSED, GLOBAL, DIRECTORY], []),
    'assert_eq!(rt; Handle::Resident(7).pack(), 7);': ([UNUSED, DIRECTORY], []),
    'let mut keys: Keys<u64, u64> = Keys::new(rt.alloc(), 2)?;': ([UNUSED, GLOBAL, DIRECTORY], []),
    'let mut directory: Directory<u64, u64> = Directory::new(rt.alloc(), 1, 2)?;': (
        [UNUSED, GLOBAL, DIRECTORY, 'let hash_of = |key: u64| key;'],
        []),
    'for (key, slot, value) in cache.iter() {': ([UNUSED, GLOBAL, CACHE] + TEN, []),
    'for key in cache.keys() {': ([UNUSED, GLOBAL, CACHE] + TEN, []),
    'for value in cache.values() {': ([UNUSED, GLOBAL, CACHE] + TEN, []),
    'let too_large = NonZeroUsize::new(MAX_CAPACITY + 1).ok_or("not zero")?;': (
        [UNUSED, GLOBAL, CACHE, 'use std::num::NonZeroUsize;'],
        []),
    'let (slot, occupant) = cache.put_slot(number, ());': (
        [UNUSED, GLOBAL, CACHE,
         'let mut cache: Cache<u64, ()> = Cache::new(Global, 10.try_into()?)?;',
         'let (number, mut frames) = (7, [0; 10]);',
         'let read = |number: u64| number * 2;',
         'let write = |number: u64, frame: &u64| assert_eq!(*frame, read(number));'],
        ['assert_eq!(frames[slot], 14);']),
    'let (slot, page, entered) = frames.enter(number, || None);': (
        [UNUSED, GLOBAL, CACHE,
         'let mut frames: Cache<u64, Option<u64>> = Cache::new(Global, 10.try_into()?)?;',
         'let number = 7;',
         'let read = |slot: usize, number: u64| {};',
         'let write = |slot: usize, number: Option<u64>| {};'],
        ['assert_eq!(*page, Some(7));']),
    'let mut cache: Cache<u64, u64> = Cache::new(rt.alloc(), capacity)?;': (
        [UNUSED, GLOBAL, CACHE, 'let capacity = 100.try_into()?;'],
        []),
    'let mut hasher = GivenHash::default();': (['use clock2q::proved::c::GivenHash;', 'use std::hash::Hasher;'], []),
    'let one = Token { hash: 7, number: 0 };': (['use clock2q::proved::c::Token;'], []),
}
