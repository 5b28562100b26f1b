//! Counts what a program asks of the allocator, and says so at its end:
//! `LD_PRELOAD=./liballocations.so PROGRAM`.

use std::ffi::c_void;
use std::sync::atomic::{AtomicU64, Ordering};

unsafe extern "C" {
    fn __libc_malloc(size: usize) -> *mut c_void;
    fn __libc_calloc(count: usize, size: usize) -> *mut c_void;
    fn __libc_realloc(old: *mut c_void, size: usize) -> *mut c_void;
    fn __libc_memalign(align: usize, size: usize) -> *mut c_void;
    fn atexit(call: extern "C" fn()) -> i32;
}

static COUNT: AtomicU64 = AtomicU64::new(0);

/// Counts one; the first one sees to it that the count is told.
fn count() {
    if COUNT.fetch_add(1, Ordering::Relaxed) == 0 {
        unsafe { atexit(tell) };
    }
}

extern "C" fn tell() {
    let count = COUNT.load(Ordering::Relaxed);
    eprintln!("{count} allocations");
}

#[unsafe(no_mangle)]
extern "C" fn malloc(size: usize) -> *mut c_void {
    count();
    unsafe { __libc_malloc(size) }
}

#[unsafe(no_mangle)]
extern "C" fn calloc(number: usize, size: usize) -> *mut c_void {
    count();
    unsafe { __libc_calloc(number, size) }
}

#[unsafe(no_mangle)]
extern "C" fn realloc(old: *mut c_void, size: usize) -> *mut c_void {
    count();
    unsafe { __libc_realloc(old, size) }
}

#[unsafe(no_mangle)]
extern "C" fn aligned_alloc(align: usize, size: usize) -> *mut c_void {
    count();
    unsafe { __libc_memalign(align, size) }
}
