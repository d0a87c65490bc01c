//! Full turns, by what a host can see: the lists to read, the boundary rounds, and the table.
//!
//! In S boundary rounds in a row the slices name each slot of tier 2 once, if no tier call is accepted and no grace runs
//! out after the first of them.

use std::ops::RangeInclusive;
use wordzike::{Engine, Options, Quality, Reply, Request, State};

/// S: boundary rounds in a turn.
pub fn slices(options: &Options) -> usize {
    if options.cycle > 0.0 { ((options.period / options.cycle).round_ties_even() as usize).max(1) } else { 1 }
}

/// A round as the host sees it.
///
/// The slice isn't told apart in the list. A tag of the list that is in tier 1 was due. One that is in tier 2 is of the
/// slice, or new in tier 2; it can be new only if a tier call was accepted since the round before. So the slice is seen
/// where none was (`settled`), but for its slots that are held back as missing: the engine drops those from the list.
/// Which boundary round dropped a slot isn't seen, so one that is never listed counts as named if its entry was missing
/// at one of the turn's boundary rounds.
#[derive(Clone, Debug)]
pub struct Round {
    pub list: Vec<u32>,
    /// Tags with their tiers, when the round had been worked out.
    pub table: Vec<(u32, u32)>,
    /// The tags of tier 2 that were missing then.
    pub missing: Vec<u32>,
    /// Tier calls accepted up to then.
    pub calls: u64,
    pub settled: bool,
}

impl Round {
    pub fn tier(&self, tag: u32) -> u32 {
        self.table.iter().find(|(t, _)| *t == tag).map_or(0, |(_, tier)| *tier)
    }

    /// Slices are taken at boundaries alone, so a settled list with a slot of tier 2 is that of a boundary round.
    fn surely_boundary(&self) -> bool {
        self.settled && self.list.iter().any(|tag| self.tier(*tag) == 2)
    }
}

/// A full turn.
#[derive(Clone, Debug, PartialEq)]
pub struct Turn {
    /// Slots in tier 2.
    pub tier2: usize,
    /// Slots that the slices named, with those held back.
    pub named: usize,
    pub held: usize,
    /// Slots of tier 2 that were not named exactly once, and slots of tier 3 or none that were listed.
    pub wrong: Vec<u32>,
}

/// How far the current turn has come with a slot.
#[derive(Clone, Copy, Debug, PartialEq, Eq)]
pub enum Mark {
    NotInTier2,
    ToCome,
    Named,
    HeldBack,
    NamedAgain,
}

pub struct Turns {
    slices: usize,
    /// Boundary rounds of the current turn so far.
    rounds: usize,
    first: Option<Round>,
    /// By tag: how often slices named it, and whether it was missing at a boundary round.
    named: Vec<u32>,
    held: Vec<bool>,
    strays: Vec<u32>,
}

impl Turns {
    pub fn new(slices: usize, tags: usize) -> Turns {
        Turns { slices, rounds: 0, first: None, named: vec![0; tags], held: vec![false; tags], strays: Vec::new() }
    }

    pub fn slices(&self) -> usize {
        self.slices
    }

    pub fn rounds(&self) -> usize {
        self.rounds
    }

    /// Takes a boundary round; gives the turn that it completes.
    pub fn boundary(&mut self, round: Round) -> Option<Turn> {
        let goes_on = self.first.as_ref().is_some_and(|f| f.calls == round.calls && f.table == round.table);
        if self.rounds == self.slices || !goes_on {
            self.drop();
            if !round.settled {
                return None;
            }
        }
        self.count(&round);
        self.rounds += 1;
        self.first.get_or_insert(round);
        (self.rounds == self.slices).then(|| self.turn())
    }

    /// The current turn is given up: it can't be seen whether the rounds stay in a row.
    pub fn drop(&mut self) {
        self.rounds = 0;
        self.first = None;
        self.named.fill(0);
        self.held.fill(false);
        self.strays.clear();
    }

    fn count(&mut self, round: &Round) {
        for tag in &round.list {
            match round.tier(*tag) {
                1 => {}
                2 => self.named[*tag as usize] += 1,
                _ => self.strays.push(*tag),
            }
        }
        for tag in &round.missing {
            self.held[*tag as usize] = true;
        }
    }

    pub fn mark(&self, tag: u32) -> Mark {
        let in_tier2 = self.first.as_ref().is_some_and(|f| f.tier(tag) == 2);
        match (in_tier2, self.named[tag as usize], self.held[tag as usize]) {
            (false, _, _) => Mark::NotInTier2,
            (_, 1, _) => Mark::Named,
            (_, 0, true) => Mark::HeldBack,
            (_, 0, false) => Mark::ToCome,
            _ => Mark::NamedAgain,
        }
    }

    fn turn(&self) -> Turn {
        let marks: Vec<Mark> = (0..self.named.len() as u32).map(|tag| self.mark(tag)).collect();
        let count = |mark| marks.iter().filter(|m| **m == mark).count();
        let right = |mark: &Mark| matches!(mark, Mark::NotInTier2 | Mark::Named | Mark::HeldBack);
        let mut wrong: Vec<u32> = (0..marks.len()).filter(|tag| !right(&marks[*tag])).map(|tag| tag as u32).collect();
        wrong.extend(&self.strays);
        Turn {
            tier2: marks.len() - count(Mark::NotInTier2),
            named: count(Mark::Named) + count(Mark::NamedAgain) + count(Mark::HeldBack),
            held: count(Mark::HeldBack),
            wrong,
        }
    }
}

/// The full turns of a run.
#[derive(Clone, Debug, Default)]
pub struct Tally {
    pub full: u64,
    /// Slots named in a turn, and slots in tier 2, least and most.
    pub named: Option<RangeInclusive<usize>>,
    pub tier2: Option<RangeInclusive<usize>>,
    pub wrong: u64,
}

impl Tally {
    pub fn add(&mut self, turn: &Turn) {
        let widen = |range: &mut Option<RangeInclusive<usize>>, n: usize| {
            *range = Some(range.as_ref().map_or(n..=n, |r| n.min(*r.start())..=n.max(*r.end())));
        };
        self.full += 1;
        self.wrong += u64::from(!turn.wrong.is_empty());
        widen(&mut self.named, turn.named);
        widen(&mut self.tier2, turn.tier2);
    }
}

/// Finds the rounds, and the boundaries among them, in what an engine asks for.
pub struct Watch {
    pub turns: Turns,
    /// A round that reads nothing and is no boundary isn't seen.
    pub rounds: u64,
    pub boundaries: u64,
    /// The round whose boundary isn't known yet, and the statistics' last round when it began.
    round: Option<(Round, Option<(f64, i64)>)>,
    /// Tier calls accepted up to the last round.
    calls: u64,
}

impl Watch {
    pub fn new(options: &Options, tags: usize) -> Watch {
        Watch { turns: Turns::new(slices(options), tags), rounds: 0, boundaries: 0, round: None, calls: 0 }
    }

    /// Takes a reply, with the engine as it is after it and the tier calls accepted so far.
    pub fn replied(&mut self, engine: &Engine, calls: u64, reply: &Reply) -> Option<Turn> {
        match reply {
            Reply::Request(Request::Read(list)) => self.begin(engine, calls, list.clone()),
            Reply::Request(Request::Describe(_)) => self.begin_empty(engine, calls),
            // otherwise it is the version that a connect asks for
            Reply::Request(Request::Version) if engine.state() == State::Connected => {
                self.begin_empty(engine, calls);
                return self.boundary();
            }
            Reply::Request(Request::Connect) => self.round = None,
            _ => {}
        }
        None
    }

    /// The answer to a read was that the connection is lost. No version follows, so it isn't always seen whether the
    /// round was a boundary; the slice index has moved on if it was.
    pub fn read_lost(&mut self) -> Option<Turn> {
        if self.round.as_ref().is_some_and(|(round, _)| round.surely_boundary()) {
            return self.boundary();
        }
        self.turns.drop();
        None
    }

    /// Description and version belong to the round of the last read, unless that has ended: then to one with an empty
    /// list, for which no read was asked. The statistics tell of a round when it has ended.
    fn begin_empty(&mut self, engine: &Engine, calls: u64) {
        let last = engine.stats().round;
        if self.round.as_ref().is_none_or(|(_, before)| *before != last) {
            self.begin(engine, calls, Vec::new());
        }
    }

    fn begin(&mut self, engine: &Engine, calls: u64, list: Vec<u32>) {
        let table = engine.table();
        let missing = |tag: u32| {
            engine.tag(tag).is_ok_and(|look| look.entry.is_some_and(|entry| entry.quality == Quality::Missing))
        };
        let held = table.iter().filter(|(tag, tier)| *tier == 2 && missing(*tag)).map(|(tag, _)| *tag).collect();
        let round = Round { list, missing: held, table, calls, settled: calls == self.calls };
        self.round = Some((round, engine.stats().round));
        self.calls = calls;
        self.rounds += 1;
    }

    fn boundary(&mut self) -> Option<Turn> {
        let (round, _) = self.round.take()?;
        self.boundaries += 1;
        self.turns.boundary(round)
    }
}
