//! The system's allocator with a count beside it. It counts only while it is asked to, so that what is timed pays for no count.
use std::alloc::{GlobalAlloc, Layout, System};
use std::sync::atomic::{AtomicBool, AtomicUsize, Ordering::Relaxed};

pub struct Counting;

static ASKED: AtomicBool = AtomicBool::new(false);
static HELD: AtomicUsize = AtomicUsize::new(0);
static MOST: AtomicUsize = AtomicUsize::new(0);
static CALLS: AtomicUsize = AtomicUsize::new(0);

/// What some work did to the heap, in bytes.
#[derive(Clone, Copy, Default)]
pub struct Heap {
    /// The most that was held at once.
    pub most: usize,
    /// How often memory was asked for, growth of a block among it.
    pub calls: usize,
}

fn taken(length: usize) {
    if ASKED.load(Relaxed) {
        let held = HELD.fetch_add(length, Relaxed) + length;
        MOST.fetch_max(held, Relaxed);
        CALLS.fetch_add(1, Relaxed);
    }
}

fn given_back(length: usize) {
    if ASKED.load(Relaxed) {
        HELD.fetch_sub(length, Relaxed);
    }
}

// SAFETY: every call is handed on to the system's allocator as it came, and its answer handed back.
unsafe impl GlobalAlloc for Counting {
    unsafe fn alloc(&self, layout: Layout) -> *mut u8 {
        taken(layout.size());
        System.alloc(layout)
    }

    unsafe fn alloc_zeroed(&self, layout: Layout) -> *mut u8 {
        taken(layout.size());
        System.alloc_zeroed(layout)
    }

    unsafe fn realloc(&self, block: *mut u8, layout: Layout, length: usize) -> *mut u8 {
        taken(length);
        given_back(layout.size());
        System.realloc(block, layout, length)
    }

    unsafe fn dealloc(&self, block: *mut u8, layout: Layout) {
        given_back(layout.size());
        System.dealloc(block, layout);
    }
}

/// The bytes held now, of those that the work asked for.
pub fn held() -> usize {
    HELD.load(Relaxed)
}

/// Counts while `work` runs. The work gives back what it takes, or answers it.
pub fn counted<Answer>(work: impl FnOnce() -> Answer) -> (Answer, Heap) {
    for count in [&HELD, &MOST, &CALLS] {
        count.store(0, Relaxed);
    }
    ASKED.store(true, Relaxed);
    let answer = work();
    ASKED.store(false, Relaxed);
    (answer, Heap { most: MOST.load(Relaxed), calls: CALLS.load(Relaxed) })
}
