//! How much of the heap a program holds at most while it plays.

use std::alloc::{GlobalAlloc, Layout, System};
use std::sync::atomic::{AtomicBool, AtomicIsize, Ordering::Relaxed};

static IS_COUNTING: AtomicBool = AtomicBool::new(false);
static HELD: AtomicIsize = AtomicIsize::new(0);
static MOST: AtomicIsize = AtomicIsize::new(0);

/// The system's allocator, counting only while it is asked to, so that times are not disturbed.
pub struct Counting;

fn count(change: isize) {
    if IS_COUNTING.load(Relaxed) {
        let held = HELD.fetch_add(change, Relaxed) + change;
        MOST.fetch_max(held, Relaxed);
    }
}

// SAFETY: every call is handed on to the system's allocator as it came.
unsafe impl GlobalAlloc for Counting {
    unsafe fn alloc(&self, layout: Layout) -> *mut u8 {
        count(layout.size() as isize);
        unsafe { System.alloc(layout) }
    }

    unsafe fn dealloc(&self, place: *mut u8, layout: Layout) {
        count(-(layout.size() as isize));
        unsafe { System.dealloc(place, layout) }
    }
}

/// The most bytes of the heap that were held at once, beyond those held before.
pub fn most_held(action: impl FnOnce()) -> usize {
    HELD.store(0, Relaxed);
    MOST.store(0, Relaxed);
    IS_COUNTING.store(true, Relaxed);
    action();
    IS_COUNTING.store(false, Relaxed);
    MOST.load(Relaxed).max(0) as usize
}
