//! `oracle rounds [TAGS] [ROUNDS]`: `set_tier` and `cycle_tags` of the Rust and those of the Rattle library, from its
//! archive, on the same table. In each case the two go through the same calls; the lists, ticks and boundaries of the
//! first rounds are compared, then both are timed by turns, in processor time of this thread.

use super::timing::{Best, CYCLE, PERIOD, shuffled, some_calls, some_names, used};
use super::*;
use std::hint::black_box;

// ------------------------------------------------------------------------------------------ the archive

/// In seconds.
#[repr(C)]
#[derive(Clone, Copy)]
struct Options {
    cycle: f64,
    period: f64,
    grace: f64,
}

/// The last boundary, if there was one, and the index of the next slice.
#[repr(C)]
#[derive(Clone, Copy)]
struct LeafCycle {
    last: f64,
    index: u64,
    begun: bool,
}

/// `code` is 0, or 100 for memory that is no board; `listed` is how many tags the round reads.
#[repr(C)]
#[derive(Clone, Copy)]
struct LeafRound {
    code: u64,
    tick: f64,
    last: f64,
    index: u64,
    listed: u64,
    begun: bool,
    boundary: bool,
}

#[rustfmt::skip]
unsafe extern "C" {
    safe fn leaf_size(count: usize) -> usize;
    fn leaf_create(
        mem: *mut u8, mem_len: usize,
        names: *const u8, names_len: usize,
        ends: *const u32, ends_len: usize,
        settings: *const u8, settings_len: usize,
        groups: *const u8, groups_len: usize,
    ) -> u32;
    fn leaf_set_tier(mem: *mut u8, mem_len: usize, tag: u16, tier: u8, grace: f64, clock: f64) -> u32;
    fn leaf_cycle_tags(mem: *mut u8, mem_len: usize, options: Options, cycle: LeafCycle, clock: f64) -> LeafRound;
    fn leaf_asked(mem: *const u8, mem_len: usize, out: *mut u8, out_len: usize) -> u32;
    fn leaf_order(mem: *const u8, mem_len: usize, out: *mut u8, out_len: usize) -> u32;
    fn leaf_graces(mem: *const u8, mem_len: usize, out: *mut u8, out_len: usize) -> u32;
    fn leaf_tier(mem: *const u8, mem_len: usize, tag: usize) -> u32;
}

type Look = unsafe extern "C" fn(*const u8, usize, *mut u8, usize) -> u32;

/// A board in memory that is lent to the library, and what is kept beside it.
struct Ours {
    board: Vec<u8>,
    tags: usize,
    options: Options,
    cycle: LeafCycle,
}

impl Ours {
    fn new(head: &Head) -> Ours {
        let names = head.names.concat();
        let ends: Vec<u32> = head
            .names
            .iter()
            .scan(0, |end, name| {
                *end += name.len() as u32;
                Some(*end)
            })
            .collect();
        // four cells a tag: the band's bits, the group's number and 1, its rate, and whether a description is set
        let mut settings = Vec::new();
        for setting in &head.settings {
            let (group, rate) = setting.group.map_or((0, 0), |(group, rate)| (group + 1, rate));
            for cell in [setting.band.unwrap_or(0.0).to_bits(), group, rate, u64::from(setting.description)] {
                settings.extend(cell.to_le_bytes());
            }
        }
        let mut board = vec![0; leaf_size(ends.len())];
        #[rustfmt::skip]
        let code = unsafe {
            leaf_create(
                board.as_mut_ptr(), board.len(),
                names.as_ptr(), names.len(),
                ends.as_ptr(), ends.len(),
                settings.as_ptr(), settings.len(),
                std::ptr::dangling(), 0,
            )
        };
        assert_eq!(code, 0, "a board");
        let options = Options { cycle: head.cycle, period: head.period, grace: head.grace };
        Ours { board, tags: ends.len(), options, cycle: LeafCycle { last: 0.0, index: 0, begun: false } }
    }

    fn set_tier(&mut self, tag: usize, tier: u8, clock: f64) {
        let b = &mut self.board;
        let code = unsafe { leaf_set_tier(b.as_mut_ptr(), b.len(), tag as u16, tier, self.options.grace, clock) };
        debug_assert_eq!(code, 0);
    }

    fn round(&mut self, clock: f64) -> LeafRound {
        let b = &mut self.board;
        let round = unsafe { leaf_cycle_tags(b.as_mut_ptr(), b.len(), self.options, self.cycle, clock) };
        debug_assert_eq!(round.code, 0);
        self.cycle = LeafCycle { last: round.last, index: round.index, begun: round.begun };
        round
    }

    /// The tags of a list, which has its count and then each tag, two bytes each.
    fn list(&self, look: Look) -> Vec<usize> {
        let mut out = vec![0; 2 + 2 * self.tags];
        let code = unsafe { look(self.board.as_ptr(), self.board.len(), out.as_mut_ptr(), out.len()) };
        assert_eq!(code, 0, "a look");
        let half = |at: usize| usize::from(u16::from_le_bytes([out[at], out[at + 1]]));
        (1..=half(0)).map(|i| half(2 * i)).collect()
    }

    fn tier(&self, tag: usize) -> u8 {
        unsafe { leaf_tier(self.board.as_ptr(), self.board.len(), tag) as u8 }
    }

    /// Tags and tiers in table order, and the tags in grace.
    fn tiers(&self) -> (Vec<(usize, u8)>, Vec<usize>) {
        let order = self.list(leaf_order).into_iter().map(|k| (k, self.tier(k)));
        (order.collect(), self.list(leaf_graces))
    }
}

// ------------------------------------------------------------------------------------------ the two

struct Both {
    names: Vec<String>,
    index: HashMap<String, usize>,
    rust: Arc<PlcWorker>,
    ours: Ours,
    now: f64,
}

impl Both {
    fn new(head: &Head) -> Both {
        let index = head.names.iter().cloned().zip(0..).collect();
        Both { names: head.names.clone(), index, rust: make(head), ours: Ours::new(head), now: 0.0 }
    }

    fn rust_set(&self, tag: usize, tier: u8) {
        self.rust.set_tier(&self.names[tag], (tier > 0).then_some(tier));
    }

    fn set_tier(&mut self, tag: usize, tier: u8) {
        CLOCK.store(self.now.to_bits(), Ordering::Relaxed);
        self.rust_set(tag, tier);
        self.ours.set_tier(tag, tier, self.now);
    }

    fn rust_round(&self, now: f64) -> (Vec<String>, f64, bool) {
        self.rust.shared.cycle_tags(&mut lock(&self.rust.shared.inner), now)
    }

    /// A round of both; how many tags it lists, or what differs.
    fn round(&mut self) -> Result<usize, String> {
        let (tags, tick, boundary) = self.rust_round(self.now);
        let want: Vec<usize> = tags.iter().map(|t| self.index[t]).collect();
        let round = self.ours.round(self.now);
        let got = self.ours.list(leaf_asked);
        let counted = round.listed == got.len() as u64;
        if want == got && counted && tick.to_bits() == round.tick.to_bits() && boundary == round.boundary {
            return Ok(want.len());
        }
        let ours = (got, round.tick, round.boundary);
        Err(format!("round at {}: Rust {:?}, ours {ours:?}", self.now, (want, tick, boundary)))
    }

    /// Whether the tables are the same.
    fn same_tables(&self) -> bool {
        let inner = lock(&self.rust.shared.inner);
        let tiers = inner.tiers.iter().map(|(name, tier)| (self.index[name], *tier)).collect();
        let graces = inner.grace.keys().map(|name| self.index[name]).collect();
        self.ours.tiers() == (tiers, graces)
    }
}

// ------------------------------------------------------------------------------------------ the cases

#[derive(Clone, Copy, PartialEq)]
enum Tiers {
    One,
    /// In groups of 250, 500, 1000 and 2000 ms.
    Grouped,
    Half,
    /// Half in each, and before each round one tag changes.
    Changing,
    Two,
}

const CASES: [(&str, Tiers); 5] = [
    ("all in tier 1", Tiers::One),
    ("all in tier 1, in four groups", Tiers::Grouped),
    ("half in tier 1, half in tier 2", Tiers::Half),
    ("the same, a tier call before each", Tiers::Changing),
    ("all in tier 2", Tiers::Two),
];

/// Rounds compared in each case before it is timed.
const COMPARED: usize = 5_000;
const REPETITIONS: usize = 9;

fn say(best: &Best, what: &str) {
    println!("{what:<46} {:>9.0} {:>9.0} {:>12.2}", best.0, best.1, best.ratio());
}

fn differs(what: &str, how: &str) -> ! {
    println!("{what}: differs: {how}");
    std::process::exit(1);
}

fn time_set_tier(names: &[String], what: &str, grace: f64, calls: usize) {
    let mut both = Both::new(&plain(names, CYCLE, PERIOD, grace));
    both.now = 5.0;
    CLOCK.store(both.now.to_bits(), Ordering::Relaxed);
    let some = some_calls(names.len(), calls);
    let mut best = Best::new();
    for _ in 0..REPETITIONS {
        let begun = used();
        for (tag, tier) in &some {
            both.rust_set(*tag, *tier);
        }
        let rust = used() - begun;
        let begun = used();
        for (tag, tier) in &some {
            both.ours.set_tier(*tag, *tier, both.now);
        }
        best.take(rust, used() - begun, calls);
        if !both.same_tables() {
            differs(what, "the tables are not the same");
        }
    }
    say(&best, what);
}

/// How many tags the rounds compared have listed.
fn time_rounds(names: &[String], what: &str, tiers: Tiers, rounds: usize) -> usize {
    let n = names.len();
    let mut head = plain(names, CYCLE, PERIOD, 0.0);
    if tiers == Tiers::Grouped {
        for (k, setting) in head.settings.iter_mut().enumerate() {
            let group = k as u64 % 4;
            setting.group = Some((group, 250 << group));
        }
    }
    let mut both = Both::new(&head);
    let tags = shuffled(n);
    for (i, tag) in tags.iter().enumerate() {
        let tier = match tiers {
            Tiers::One | Tiers::Grouped => 1,
            Tiers::Two => 2,
            Tiers::Half | Tiers::Changing => 1 + (i % 2) as u8,
        };
        both.set_tier(*tag, tier);
    }
    let step = if tiers == Tiers::Grouped { 0.25 } else { CYCLE };
    // one tag after the other changes to the other tier, then each back again
    let change = |i: usize| (tags[i % n], 1 + ((i % n + i / n + 1) % 2) as u8);
    let mut listed = 0;
    for i in 0..COMPARED {
        if tiers == Tiers::Changing {
            let (tag, tier) = change(i);
            both.set_tier(tag, tier);
        }
        listed += both.round().unwrap_or_else(|how| differs(what, &how));
        both.now += step;
    }
    let mut best = Best::new();
    for _ in 0..REPETITIONS {
        let from = both.now;
        let (mut rust_listed, mut ours_listed) = (0, 0);
        let begun = used();
        let mut now = from;
        for i in 0..rounds {
            if tiers == Tiers::Changing {
                let (tag, tier) = change(i);
                both.rust_set(tag, tier);
            }
            rust_listed += black_box(both.rust_round(now)).0.len();
            now += step;
        }
        let rust = used() - begun;
        let begun = used();
        now = from;
        for i in 0..rounds {
            if tiers == Tiers::Changing {
                let (tag, tier) = change(i);
                both.ours.set_tier(tag, tier, now);
            }
            ours_listed += black_box(both.ours.round(now)).listed as usize;
            now += step;
        }
        best.take(rust, used() - begun, rounds);
        both.now = now;
        if rust_listed != ours_listed || !both.same_tables() {
            differs(what, "after the rounds that were timed");
        }
    }
    say(&best, &format!("round, {what}"));
    listed
}

pub(super) fn run(count: usize, rounds: usize) {
    assert!(leaf_size(count) > 0 && rounds > 0, "as many tags as a directory can have, 1 or more rounds");
    let names = some_names(count);
    let calls = rounds * 10;
    println!(
        "{count} tags, cycle {CYCLE} s, period {PERIOD} s; ns each, the best of {REPETITIONS} times {rounds} rounds or \
         {calls} calls"
    );
    println!("{:<46} {:>9} {:>9} {:>12}", "", "Rust", "ours", "Rust / ours");
    time_set_tier(&names, "set_tier, mixed tiers, no grace", 0.0, calls);
    time_set_tier(&names, "set_tier, mixed tiers, grace 10 s", 10.0, calls);
    let mut listed = 0;
    for (what, tiers) in CASES {
        listed += time_rounds(&names, what, tiers, rounds);
    }
    println!("compared: {} rounds, {listed} tags listed, 0 differ", COMPARED * CASES.len());
}
