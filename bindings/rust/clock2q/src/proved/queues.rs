// Written by bindings/rust/erase from crates/clock2q_queues/src/lib.rt; change that, and run erase.
//! The queues of a cache, which hold numbers and no keys:
//!
//! - [`Queues`](queues::Queues): Small and Main, the two queues of the residents' slots;
//! - [`Order`](order::Order): the places of the remembered keys, the newest key's first, and the
//!   free places.
//!
//! They are linked lists whose links are numbers, so a step on one entry costs the same however many
//! there are. Constructors take all the memory that will ever be needed. `grown`, which returns a copy
//! with room for more, is one of them. No other call can fail.

mod entries;
mod links;
mod main_queue;
pub mod order;
pub mod queues;
mod ring;
mod small;
