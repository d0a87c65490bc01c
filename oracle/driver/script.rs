//! The script of `oracle bench`: one controller and one clock, which host_rust.rs hands to the Rust's worker and host_ours.rs to
//! the exported functions. Both hosts do the least that a host can do: they read each list and each change that they are
//! given, and make a value for each tag that is asked for.

use super::sizes::Counts;
use super::timing::used;
use super::*;
use wordzike::ffi::{Error, Reply, Value as Cells};

pub(super) const CONNECT: u64 = 1;
pub(super) const VERSION: u64 = 2;
pub(super) const READ: u64 = 3;
pub(super) const WRITE: u64 = 4;
pub(super) const READ_BACK: u64 = 5;
pub(super) const DESCRIBE: u64 = 6;
pub(super) const WAIT: u64 = 7;
pub(super) const VALUES: u64 = 8;
pub(super) const STATUS: u64 = 9;
pub(super) const META: u64 = 10;
pub(super) const INFO: u64 = 11;
pub(super) const OUTCOME: u64 = 12;
pub(super) const STOPPED: u64 = 14;

pub(super) const NOTHING: Reply = Reply {
    code: 0,
    kind: 0,
    count: 0,
    tag: 0,
    what: 0,
    value: Cells { kind: 0, word: 0 },
    error: Error { kind: 0, message: 0 },
    seconds: 0.0,
};

/// Rounds, or writes, before the time is taken.
const WARM: u64 = 20;
/// Wall time of the first round, in ms.
pub(super) const BEGINNING: i64 = 1_700_000_000_000;

// ------------------------------------------------------------------------------------------ the script

/// What stands at the controller's tags.
#[derive(Clone, Copy, PartialEq)]
pub(super) enum Values {
    /// Integers, each another in every round.
    Ints,
    /// Floats, each in every round at least its band away from the last.
    Floats,
    /// Floats that move in every round, by less than their band.
    Within,
    /// Integers that stay.
    Still,
}

impl Values {
    /// The value at a place of a read's list: so neither host has to look a tag up.
    #[inline(always)]
    pub(super) fn at(self, round: u64, place: usize) -> Val {
        match self {
            Values::Ints => Val::Int((round * 1000) as i64 + place as i64),
            Values::Floats => Val::Float(round as f64 * 2.5 + place as f64),
            Values::Within => Val::Float((round % 2) as f64 * 0.25 + place as f64),
            Values::Still => Val::Int(place as i64),
        }
    }

    pub(super) fn band(self) -> Option<f64> {
        matches!(self, Values::Floats | Values::Within).then_some(0.5)
    }
}

#[derive(Clone, Copy, PartialEq)]
pub(super) enum Job {
    /// A wait is waited to its end: rounds, a cycle apart.
    Rounds,
    /// Each wait ends at once, for a write: no time passes, and no round comes.
    Writes,
    /// All up to the first wait.
    Start,
}

/// What both sides are given.
pub(super) struct Plan {
    pub head: Head,
    /// The first tier calls.
    pub calls: Vec<(usize, u8)>,
    pub values: Values,
    pub job: Job,
}

/// What a wait comes to.
pub(super) enum Next {
    Round,
    Write(usize, i64),
    Stop,
}

/// The controller and the clock, as far as both sides have run.
pub(super) struct Desk {
    pub values: Values,
    job: Job,
    tags: usize,
    /// The wait at which the time begins, and the one at which all ends.
    from: u64,
    until: u64,
    pub turn: u64,
    pub clock: f64,
    begun: Duration,
    pub took: Duration,
    /// Tags asked for, changes told, and a sum over both, so that each was read.
    pub asked: u64,
    pub told: u64,
    pub sum: u64,
    /// All that was asked and told, where the two sides are compared.
    pub seen: Option<Vec<u64>>,
    /// Whether allocations are counted, and what was counted where the time begins and at the end.
    sized: bool,
    pub sizes: [Counts; 2],
}

impl Desk {
    pub(super) fn new(plan: &Plan, count: u64) -> Desk {
        let start = plan.job == Job::Start;
        Desk {
            values: plan.values,
            job: plan.job,
            tags: plan.head.names.len(),
            from: if start { u64::MAX } else { WARM },
            until: if start { 0 } else { WARM + count },
            turn: 0,
            clock: 0.0,
            begun: Duration::ZERO,
            took: Duration::ZERO,
            asked: 0,
            told: 0,
            sum: 0,
            seen: None,
            sized: false,
            sizes: [Counts::default(); 2],
        }
    }

    /// One that keeps all that is asked and told.
    pub(super) fn seeing(self) -> Desk {
        Desk { seen: Some(Vec::new()), ..self }
    }

    /// One that has allocations counted.
    pub(super) fn sizing(self) -> Desk {
        Desk { sized: true, ..self }
    }

    /// Before a worker or an engine is made.
    pub(super) fn begin(&mut self) {
        if self.sized {
            sizes::begin();
        }
        self.begun = used();
    }

    pub(super) fn wall(&self) -> i64 {
        BEGINNING + (self.clock * 1000.0) as i64
    }

    pub(super) fn wait(&mut self, seconds: f64) -> Next {
        if self.turn == self.from {
            self.begun = used();
            self.sizes[0] = sizes::counts();
        }
        if self.turn == self.until {
            self.took = used() - self.begun;
            self.sizes[1] = sizes::counts();
            sizes::end();
            return Next::Stop;
        }
        self.turn += 1;
        if self.job == Job::Writes {
            return Next::Write(self.turn as usize % self.tags, self.turn as i64);
        }
        self.clock += seconds;
        Next::Round
    }

    pub(super) fn see(&mut self, reply: &Reply, list: impl Iterator<Item = u64>) {
        let Some(seen) = &mut self.seen else { return };
        let Reply { kind, count, tag, what, value, error, seconds, .. } = *reply;
        seen.extend([kind, count, tag, what, value.kind, value.word, error.kind, error.message, seconds.to_bits()]);
        seen.extend(list);
    }
}

/// The two cells of a value.
pub(super) fn cells(v: Val) -> Cells {
    let (kind, word) = match v {
        Val::Null => (0, 0),
        Val::Bool(b) => (1, u64::from(b)),
        Val::Int(i) => (2, i as u64),
        Val::Float(f) => (3, f.to_bits()),
    };
    Cells { kind, word }
}
