// Written by bindings/rust/erase from crates/clock2q_c/src/version.rt; change that, and run erase.
//! The version of the library.

/// 10,000 times the major number, plus 100 times the minor one, plus the patch.
pub const VERSION: u32 = 300;

/// Returns the version of the library, [`VERSION`], which a program can compare with its header's.
///
/// # Cost
///
/// It needs no cache and reads no memory.
#[no_mangle]
pub extern "C" fn clock2q_version() -> u32 {
    VERSION
}
