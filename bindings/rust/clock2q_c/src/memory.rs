//! Where the memory of the caches comes from: the functions that C names by `clock2q_use_memory`, else `malloc` and
//! `free`. This is the one module with raw pointers and `unsafe` code.
#![allow(unsafe_code)]

use std::alloc::{GlobalAlloc, Layout};
use std::cell::Cell;
use std::ffi::c_void;
use std::mem::{align_of, size_of};
use std::ptr::null_mut;

type Take = unsafe extern "C" fn(usize) -> *mut c_void;
type GiveBack = unsafe extern "C" fn(*mut c_void);

/// The functions that take memory and give it back: `clock2q_memory` of the header, which says what they owe.
#[repr(C)]
#[derive(Clone, Copy)]
pub struct Memory {
    take: Take,
    give_back: GiveBack,
}

extern "C" {
    fn malloc(size: usize) -> *mut c_void;
    fn free(block: *mut c_void);
}

const USUAL: Memory = Memory {
    take: malloc,
    give_back: free,
};

thread_local! {
    static MEMORY: Cell<Memory> = const { Cell::new(USUAL) };
}

/// Has the caches that this thread makes from now on take their memory there, or from `malloc` again if `memory` is
/// null. Returns where they took it before.
#[no_mangle]
pub extern "C" fn clock2q_use_memory(memory: Option<&Memory>) -> Memory {
    MEMORY.replace(memory.copied().unwrap_or(USUAL))
}

/// What is kept before each block: where it goes back to, whichever thread frees it.
#[derive(Clone, Copy)]
struct Origin {
    give_back: GiveBack,
    /// The block as it was taken.
    block: *mut c_void,
}

/// The allocator of this library.
struct Chosen;

#[global_allocator]
static CHOSEN: Chosen = Chosen;

// SAFETY: a block that `take` returned has `size` bytes, of which `alloc` leaves room for an `Origin` and for aligning
// what comes after it. So what it returns is as large and as aligned as the layout says, and right after an `Origin`.
unsafe impl GlobalAlloc for Chosen {
    unsafe fn alloc(&self, layout: Layout) -> *mut u8 {
        let align = layout.align().max(align_of::<Origin>());
        let Some(size) = layout.size().checked_add(size_of::<Origin>() + align - 1) else {
            return null_mut();
        };
        let Memory { take, give_back } = MEMORY.get();
        // SAFETY: C's functions, or those that C named and vouches for.
        let block = unsafe { take(size) };
        if block.is_null() {
            return null_mut();
        }
        // SAFETY: see above.
        unsafe {
            let first = block.cast::<u8>().add(size_of::<Origin>());
            let start = first.add(first.align_offset(align));
            start
                .cast::<Origin>()
                .sub(1)
                .write(Origin { give_back, block });
            start
        }
    }

    unsafe fn dealloc(&self, start: *mut u8, _: Layout) {
        // SAFETY: `alloc` has written an origin before what it returned.
        unsafe {
            let Origin { give_back, block } = start.cast::<Origin>().sub(1).read();
            give_back(block);
        }
    }
}
