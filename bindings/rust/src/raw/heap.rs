//! The three functions by which the library asks for memory, by the C library's. They are those of
//! bindings/c/heap.c.

use std::ffi::c_void;
use std::ptr::NonNull;

extern "C" {
    fn malloc(size: usize) -> *mut c_void;
    fn realloc(block: *mut c_void, size: usize) -> *mut c_void;
    fn free(block: *mut c_void);
}

#[repr(C)]
pub struct Answer {
    is_granted: bool,
    block: *mut c_void,
}

/// A refused request is answered with a place that is not null, and is never read.
fn granted(block: *mut c_void) -> Answer {
    let is_granted = !block.is_null();
    Answer {
        is_granted,
        block: if is_granted {
            block
        } else {
            NonNull::dangling().as_ptr()
        },
    }
}

fn size_of_block(size: usize, align: usize) -> usize {
    if size == 0 {
        align
    } else {
        size
    }
}

#[no_mangle]
extern "C" fn rattle_alloc(size: usize, align: usize) -> Answer {
    // SAFETY: malloc may be called with each size.
    granted(unsafe { malloc(size_of_block(size, align)) })
}

#[no_mangle]
unsafe extern "C" fn rattle_realloc(
    block: *mut c_void,
    _kept: usize,
    size: usize,
    align: usize,
) -> Answer {
    // SAFETY: the library gives a block that it got here and has not freed.
    granted(unsafe { realloc(block, size_of_block(size, align)) })
}

#[no_mangle]
unsafe extern "C" fn rattle_dealloc(block: *mut c_void) {
    // SAFETY: as above.
    unsafe { free(block) }
}
