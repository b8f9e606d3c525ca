// Written by bindings/rust/erase from crates/clock2q_pages/src/lib.rt; change that, and run erase.
//! Pages in frames: keys, each with a slot in their owner's own arrays.
//!
//! A frame is a slot of a cache whose keys are page numbers. The value of a slot is the page that
//! got it last, so a caller knows whether the frame still has the content of its page.

mod pages;

pub use crate::proved::pages::pages::{enter, find, is_in};
