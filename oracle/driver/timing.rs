//! Times, for `rounds` and `bench`.

use super::generate::Rng;
use super::*;

pub(super) const CYCLE: f64 = 1.0;
pub(super) const PERIOD: f64 = 10.0;

/// Processor time of this thread so far. Others' work on the machine doesn't count, as it would in time passed.
pub(super) fn used() -> Duration {
    const THREAD: i32 = 3;
    let mut at = Timespec { sec: 0, nsec: 0 };
    assert_eq!(unsafe { clock_gettime(THREAD, &mut at) }, 0);
    Duration::new(at.sec as u64, at.nsec as u32)
}

/// The best time of several repetitions in nanoseconds, the two by turns.
#[derive(Clone, Copy)]
pub(super) struct Best(pub f64, pub f64);

impl Best {
    pub(super) fn new() -> Best {
        Best(f64::INFINITY, f64::INFINITY)
    }

    pub(super) fn take(&mut self, rust: Duration, ours: Duration, count: usize) {
        let each = |d: Duration| d.as_secs_f64() * 1e9 / count as f64;
        *self = Best(self.0.min(each(rust)), self.1.min(each(ours)));
    }

    pub(super) fn ratio(&self) -> f64 {
        self.0 / self.1
    }
}

/// Words, some of their bits, and other tags; both cases.
pub(super) fn some_names(count: usize) -> Vec<String> {
    let mut names: Vec<String> = (0..count)
        .map(|i| match i % 4 {
            0 => format!("Line{}.Motor{i:03}.Speed", i % 7),
            1 => format!("line{}.motor{i:03}.Current", i % 7),
            2 => format!("Line{}.Status{i:03}", i % 7),
            _ => format!("Line{}.Status{:03}.{}", (i - 1) % 7, i - 1, i % 32),
        })
        .collect();
    names.sort();
    names
}

/// Tags in an order of chance, always the same.
pub(super) fn shuffled(count: usize) -> Vec<usize> {
    let mut tags: Vec<usize> = (0..count).collect();
    let mut r = Rng::new(1);
    for i in (1..count).rev() {
        tags.swap(i, r.below(i as u64 + 1) as usize);
    }
    tags
}

/// Tier calls of chance, always the same: tags, and tiers 0 to 3.
pub(super) fn some_calls(tags: usize, count: usize) -> Vec<(usize, u8)> {
    let mut r = Rng::new(1);
    (0..count).map(|_| (r.below(tags as u64) as usize, r.below(4) as u8)).collect()
}
