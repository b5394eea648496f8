//! How many bytes are allocated at once, by an allocator that counts while it is told to. It counts the bytes that are asked for,
//! not what the system's allocator takes for them.

use std::alloc::{GlobalAlloc, Layout, System};
use std::sync::atomic::{AtomicBool, AtomicIsize, Ordering::Relaxed};

/// The system's allocator, and a count.
pub struct Counting;

#[global_allocator]
static ALLOCATOR: Counting = Counting;

static COUNTS: AtomicBool = AtomicBool::new(false);

/// The bytes that are allocated and not freed since the counting began, and the most that were since the mark. What was allocated
/// before may be freed, so that a number may be below zero.
static HELD: AtomicIsize = AtomicIsize::new(0);
static MOST: AtomicIsize = AtomicIsize::new(0);

/// Counts from 0 on.
pub fn begin() {
    HELD.store(0, Relaxed);
    MOST.store(0, Relaxed);
    COUNTS.store(true, Relaxed);
}

/// Counts no more, so that an allocation costs what it costs without this module, but for one test.
pub fn end() {
    COUNTS.store(false, Relaxed);
}

/// Forgets the most bytes before this moment.
pub fn mark() {
    MOST.store(HELD.load(Relaxed), Relaxed);
}

/// The most bytes held at once since the mark; 0 where nothing is counted.
pub fn most() -> usize {
    MOST.load(Relaxed).max(0) as usize
}

fn change(by: isize) {
    if COUNTS.load(Relaxed) {
        let held = HELD.fetch_add(by, Relaxed) + by;
        MOST.fetch_max(held, Relaxed);
    }
}

// SAFETY: every call is the system allocator's, with the same arguments; a layout's size is at most `isize::MAX`.
unsafe impl GlobalAlloc for Counting {
    unsafe fn alloc(&self, layout: Layout) -> *mut u8 {
        change(layout.size() as isize);
        System.alloc(layout)
    }

    unsafe fn alloc_zeroed(&self, layout: Layout) -> *mut u8 {
        change(layout.size() as isize);
        System.alloc_zeroed(layout)
    }

    unsafe fn realloc(&self, old: *mut u8, layout: Layout, size: usize) -> *mut u8 {
        change(size as isize - layout.size() as isize);
        System.realloc(old, layout, size)
    }

    unsafe fn dealloc(&self, old: *mut u8, layout: Layout) {
        change(-(layout.size() as isize));
        System.dealloc(old, layout);
    }
}
