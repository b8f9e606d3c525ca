//! What a call replies, as `clock2q` writes it.

use crate::commands::Command;

/// What has the calls of a cache.
pub trait Calls {
    /// Makes a call, and returns its line of reply.
    fn call(&mut self, command: &Command) -> String;
}

pub fn value(held: Option<u64>) -> String {
    held.map_or_else(|| "none".to_string(), |held| format!("some {held}"))
}

pub fn stored(held: Option<u64>) -> String {
    held.map_or_else(|| "failed".to_string(), |held| format!("ok {held}"))
}

pub fn flag(is_so: bool) -> String {
    is_so.to_string()
}
