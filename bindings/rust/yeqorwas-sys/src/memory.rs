//! The three functions that the library takes memory by, over those of the C library.

use crate::yeq_memory;
use core::ffi::c_void;
use core::ptr::{addr_of_mut, null_mut};

extern "C" {
    fn malloc(size: usize) -> *mut c_void;
    fn realloc(at: *mut c_void, size: usize) -> *mut c_void;
    fn free(at: *mut c_void);
}

/// What a call that fails points to: never null.
static mut NOTHING: u8 = 0;

fn of(at: *mut c_void) -> yeq_memory {
    let done = at != null_mut();
    let nothing = addr_of_mut!(NOTHING).cast();
    yeq_memory { done, at: if done { at } else { nothing } }
}

#[no_mangle]
extern "C" fn rattle_alloc(size: usize, align: usize) -> yeq_memory {
    // SAFETY: malloc takes any size.
    of(unsafe { malloc(if size == 0 { align } else { size }) })
}

/// # Safety
/// `at` is a block that `rattle_alloc` or `rattle_realloc` gave.
#[no_mangle]
unsafe extern "C" fn rattle_realloc(at: *mut c_void, _kept: usize, size: usize, align: usize) -> yeq_memory {
    of(realloc(at, if size == 0 { align } else { size }))
}

/// # Safety
/// `at` is a block that `rattle_alloc` or `rattle_realloc` gave.
#[no_mangle]
unsafe extern "C" fn rattle_dealloc(at: *mut c_void) {
    free(at);
}
