//! How much memory is taken at once. The linker sends every call for memory through here.

use std::ffi::c_void;
use std::sync::atomic::{AtomicUsize, Ordering::Relaxed};

static TAKEN: AtomicUsize = AtomicUsize::new(0);
static MOST: AtomicUsize = AtomicUsize::new(0);
static CALLS: AtomicUsize = AtomicUsize::new(0);

unsafe extern "C" {
    fn __real_malloc(size: usize) -> *mut c_void;
    fn __real_calloc(count: usize, size: usize) -> *mut c_void;
    fn __real_realloc(block: *mut c_void, size: usize) -> *mut c_void;
    fn __real_free(block: *mut c_void);
    fn malloc_usable_size(block: *mut c_void) -> usize;
}

fn count(block: *mut c_void) -> *mut c_void {
    // SAFETY: the block was just given out.
    let size = unsafe { malloc_usable_size(block) };
    let taken = TAKEN.fetch_add(size, Relaxed) + size;
    MOST.fetch_max(taken, Relaxed);
    CALLS.fetch_add(1, Relaxed);
    block
}

fn discount(block: *mut c_void) {
    // SAFETY: the block is about to be given back.
    TAKEN.fetch_sub(unsafe { malloc_usable_size(block) }, Relaxed);
}

#[unsafe(no_mangle)]
unsafe extern "C" fn __wrap_malloc(size: usize) -> *mut c_void {
    count(unsafe { __real_malloc(size) })
}

#[unsafe(no_mangle)]
unsafe extern "C" fn __wrap_calloc(number: usize, size: usize) -> *mut c_void {
    count(unsafe { __real_calloc(number, size) })
}

#[unsafe(no_mangle)]
unsafe extern "C" fn __wrap_realloc(block: *mut c_void, size: usize) -> *mut c_void {
    discount(block);
    count(unsafe { __real_realloc(block, size) })
}

#[unsafe(no_mangle)]
unsafe extern "C" fn __wrap_free(block: *mut c_void) {
    discount(block);
    unsafe { __real_free(block) }
}

/// The most bytes that are taken at once while something runs, beyond those taken before, and how often memory is asked for.
pub fn most(run: impl FnOnce()) -> (usize, usize) {
    let before = TAKEN.load(Relaxed);
    let calls = CALLS.load(Relaxed);
    MOST.store(before, Relaxed);
    run();
    (MOST.load(Relaxed) - before, CALLS.load(Relaxed) - calls)
}
