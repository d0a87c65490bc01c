//! Memory, for `bench`: what is allocated, where it is counted, and how deep the stack goes.

use std::alloc::{GlobalAlloc, Layout, System};
use std::sync::atomic::{AtomicBool, AtomicI64, AtomicU64, Ordering::Relaxed};

/// The program's allocator: the system's, with a look at whether to count.
struct Counting;

#[global_allocator]
static COUNTING: Counting = Counting;

static ON: AtomicBool = AtomicBool::new(false);
static HELD: AtomicI64 = AtomicI64::new(0);
static MOST: AtomicI64 = AtomicI64::new(0);
static MADE: AtomicU64 = AtomicU64::new(0);

#[cold]
fn count(bytes: i64) {
    let held = HELD.fetch_add(bytes, Relaxed) + bytes;
    MOST.fetch_max(held, Relaxed);
    MADE.fetch_add(u64::from(bytes > 0), Relaxed);
}

unsafe impl GlobalAlloc for Counting {
    unsafe fn alloc(&self, layout: Layout) -> *mut u8 {
        if ON.load(Relaxed) {
            count(layout.size() as i64);
        }
        unsafe { System.alloc(layout) }
    }

    unsafe fn dealloc(&self, at: *mut u8, layout: Layout) {
        if ON.load(Relaxed) {
            count(-(layout.size() as i64));
        }
        unsafe { System.dealloc(at, layout) }
    }

    unsafe fn alloc_zeroed(&self, layout: Layout) -> *mut u8 {
        if ON.load(Relaxed) {
            count(layout.size() as i64);
        }
        unsafe { System.alloc_zeroed(layout) }
    }

    unsafe fn realloc(&self, at: *mut u8, layout: Layout, size: usize) -> *mut u8 {
        if ON.load(Relaxed) {
            count(size as i64);
            count(-(layout.size() as i64));
        }
        unsafe { System.realloc(at, layout, size) }
    }
}

/// Bytes held, the most that were held, and how often some were asked for.
#[derive(Clone, Copy, Default)]
pub(super) struct Counts {
    pub held: i64,
    pub most: i64,
    pub made: u64,
}

/// Counts from here on.
pub(super) fn begin() {
    for n in [&HELD, &MOST] {
        n.store(0, Relaxed);
    }
    MADE.store(0, Relaxed);
    ON.store(true, Relaxed);
}

/// What was counted so far; the most from here on.
pub(super) fn counts() -> Counts {
    let held = HELD.load(Relaxed);
    Counts { held, most: MOST.swap(held, Relaxed), made: MADE.load(Relaxed) }
}

pub(super) fn end() {
    ON.store(false, Relaxed);
}

/// Bytes of stack that are looked at.
const DEEP: usize = 128 * 1024;
const MARK: u8 = 0xa5;

fn stack_pointer() -> usize {
    let at;
    unsafe { std::arch::asm!("mov {}, rsp", out(reg) at) };
    at
}

/// Marks the stack below its caller's.
#[inline(never)]
fn mark() {
    let mut room = [MARK; DEEP];
    std::hint::black_box(&mut room);
}

/// How many bytes of stack `run` takes: as deep as the marks below here are gone.
#[inline(never)]
pub(super) fn stack_of(run: impl FnOnce()) -> usize {
    mark();
    run();
    let top = stack_pointer();
    // what `mark` itself leaves below its marks is past the last byte looked at
    let low = top - DEEP + 1024;
    let untouched = (low..top).take_while(|at| unsafe { std::ptr::read_volatile(*at as *const u8) } == MARK);
    top - low - untouched.count()
}
