//! The three heap functions that the archive needs, over the C library's.
use std::{ffi::c_void, ptr};

extern "C" {
    fn malloc(size: usize) -> *mut c_void;
    fn realloc(at: *mut c_void, size: usize) -> *mut c_void;
    fn free(at: *mut c_void);
}

/// Memory, or a refusal where `ok` is 0.
#[repr(C)]
pub(crate) struct Given {
    ok: u64,
    at: *mut c_void,
}

fn given(at: *mut c_void) -> Given {
    if at.is_null() {
        Given { ok: 0, at: ptr::NonNull::<u128>::dangling().as_ptr().cast() }
    } else {
        Given { ok: 1, at }
    }
}

fn asked(size: usize, least: usize) -> usize {
    if size == 0 {
        least
    } else {
        size
    }
}

#[no_mangle]
extern "C" fn rattle_alloc(size: usize, least: usize) -> Given {
    // SAFETY: `malloc` takes any size, and what it gives is no memory that is in use.
    given(unsafe { malloc(asked(size, least)) })
}

/// # Safety
///
/// `at` was given by one of these functions and not given back.
#[no_mangle]
unsafe extern "C" fn rattle_realloc(at: *mut c_void, _old_size: usize, size: usize, least: usize) -> Given {
    // SAFETY: by the caller, `at` is of `malloc` or `realloc`, and is not given back yet. The size is not 0, which might give it
    // back: `least` is an alignment, so at least 1.
    given(unsafe { realloc(at, asked(size, least)) })
}

/// # Safety
///
/// `at` was given by one of these functions and not given back.
#[no_mangle]
unsafe extern "C" fn rattle_dealloc(at: *mut c_void) {
    // SAFETY: by the caller, `at` is of `malloc` or `realloc`, and is given back once.
    unsafe { free(at) }
}
