//! One board: an engine over a part of the station's tags, what it has told, and the request that it waits on.

use super::directory::Directory;
use super::station::{Given, Micros, SECOND, Station, TEXTS};
use super::turns::{Tally, Turn, Watch};
use wordzike::{
    Answer, Engine, Entry, Error, Event, Group, Options, Outcome, Quality, Refusal, Reply, Request, State, Value,
};

/// The wall time at which the simulated clock is 0.
const WALL: i64 = 1_800_000_000_000;

pub fn seconds(now: Micros) -> f64 {
    now as f64 / SECOND as f64
}

pub fn wall(now: Micros) -> i64 {
    WALL + (now / 1000) as i64
}

/// What came of a run, counted.
#[derive(Clone, Debug, Default)]
pub struct Totals {
    pub changes: u64,
    pub bad: u64,
    /// Descriptions asked for, and those that there are.
    pub asked: u64,
    pub described: u64,
    pub written: u64,
    pub refused: u64,
    pub lost: u64,
    /// Writes that a lost connection took with it, and those that the stop left.
    pub failed: u64,
    pub left: u64,
    /// Writes that the engine didn't take, with 31 or 32.
    pub not_taken: u64,
    pub losses: u64,
    pub failed_connects: u64,
    pub turns: Tally,
}

pub struct Board {
    pub title: &'static str,
    pub directory: Directory,
    pub engine: Engine,
    pub watch: Watch,
    pub totals: Totals,
    /// What was told of each tag.
    pub told: Vec<Option<Entry>>,
    /// The last list to read.
    pub list: Vec<u32>,
    /// What happened since the notes were last taken.
    pub notes: Vec<String>,
    /// The line to the station.
    line: usize,
    /// Tier calls and loads that were accepted.
    calls: u64,
    /// The request that the station works on, and when its answer comes. None once the engine has stopped.
    waits: Option<(Micros, Request)>,
}

impl Board {
    pub fn new(
        title: &'static str,
        line: usize,
        directory: Directory,
        options: Options,
        groups: &[Group],
    ) -> Result<Board, Refusal> {
        let engine = Engine::new(&directory.names, options, &directory.settings(None), groups)?;
        Ok(Board {
            title,
            line,
            engine,
            watch: Watch::new(&options, directory.len()),
            totals: Totals::default(),
            told: vec![None; directory.len()],
            list: Vec::new(),
            notes: Vec::new(),
            calls: 0,
            waits: None,
            directory,
        })
    }

    /// When the next answer comes.
    pub fn due(&self) -> Option<Micros> {
        self.waits.as_ref().map(|(due, _)| *due)
    }

    /// Puts the tags that the panel list names into their tiers.
    pub fn load(&mut self, panel: &[u8]) -> Result<(), Refusal> {
        self.calls += 1;
        self.engine.load(0.0, panel)
    }

    pub fn begin(&mut self, now: Micros, station: &mut Station) -> Result<(), Refusal> {
        self.step(now, station, Answer::Begin)
    }

    /// The station's answer to the request that is waited on.
    pub fn answer(&mut self, now: Micros, station: &mut Station) -> Result<(), Refusal> {
        let Some((_, request)) = self.waits.take() else { return Ok(()) };
        let given = station.answer(now, self.line, &request, &self.directory);
        match (&given, &request) {
            (Given::Lost, Request::Read(_)) => {
                let turn = self.watch.read_lost();
                self.lost();
                self.full(turn);
            }
            (Given::Lost, _) => self.lost(),
            (Given::NotOpened, _) => {
                self.totals.failed_connects += 1;
                self.notes.push("the connect failed".to_owned());
            }
            _ => {}
        }
        let settings = if let Given::Version(v) = given { self.directory.settings(v) } else { Vec::new() };
        self.step(now, station, given.answer(&settings))
    }

    fn lost(&mut self) {
        self.totals.losses += 1;
        self.notes.push("the connection was lost".to_owned());
    }

    /// Steps until the engine asks for something: events are taken at once.
    fn step(&mut self, now: Micros, station: &mut Station, answer: Answer<'_>) -> Result<(), Refusal> {
        let mut answer = answer;
        loop {
            let reply = self.engine.step(seconds(now), wall(now), answer)?;
            let turn = self.watch.replied(&self.engine, self.calls, &reply);
            self.full(turn);
            match reply {
                Reply::Event(Event::Stopped(tags)) => {
                    self.totals.left += tags.len() as u64;
                    self.notes.push("stopped".to_owned());
                    return Ok(());
                }
                Reply::Event(event) => self.event(event),
                Reply::Request(request) => {
                    if let Request::Read(list) = &request {
                        self.list.clone_from(list);
                    }
                    self.waits = Some((now + station.takes(&request), request));
                    return Ok(());
                }
            }
            answer = Answer::Taken;
        }
    }

    fn event(&mut self, event: Event) {
        match event {
            Event::Values(changes) => changes.into_iter().for_each(|(tag, entry)| self.changed(tag, entry)),
            Event::Status(state) => {
                let version = self.engine.version().map_or("no version".to_owned(), |v| format!("version {v}"));
                let with = if state == State::Connected { version } else { String::new() };
                self.notes.push(format!("{} {with}", word(state)).trim_end().to_owned());
            }
            Event::Meta => self.notes.push("the station's tag table has changed".to_owned()),
            Event::Info(tags) => {
                let has =
                    |tag: &&u32| self.engine.tag(**tag).is_ok_and(|look| matches!(look.description, Some(Some(_))));
                self.totals.asked += tags.len() as u64;
                self.totals.described += tags.iter().filter(has).count() as u64;
            }
            Event::Outcome(tag, outcome) => self.outcome(tag, outcome),
            Event::Failed(tags) => {
                self.totals.failed += tags.len() as u64;
                self.notes.push(format!("{} queued writes went with the connection", tags.len()));
            }
            Event::Stopped(_) => {}
        }
    }

    fn changed(&mut self, tag: u32, entry: Entry) {
        self.totals.changes += 1;
        let before = self.told[tag as usize].replace(entry).map(|e| e.quality);
        let name = self.directory.name(tag);
        match entry.quality {
            Quality::Missing => self.notes.push(format!("{name} is missing: {}", text(entry.error))),
            Quality::Bad => self.totals.bad += 1,
            Quality::Good if before == Some(Quality::Missing) => self.notes.push(format!("{name} is back")),
            _ => {}
        }
    }

    fn outcome(&mut self, tag: u32, outcome: Outcome) {
        let name = self.directory.name(tag);
        let (count, note) = match outcome {
            Outcome::Written(Value::Null) => (&mut self.totals.written, format!("{name} written, not read back")),
            Outcome::Written(value) => (&mut self.totals.written, format!("{name} written, reads {}", shown(value))),
            Outcome::Refused(error) => (&mut self.totals.refused, format!("{name} refused: {}", text(Some(error)))),
            Outcome::Lost => (&mut self.totals.lost, format!("the write to {name} was lost")),
            other => return self.notes.push(format!("the write to {name} ended: {other:?}")),
        };
        *count += 1;
        self.notes.push(note);
    }

    fn full(&mut self, turn: Option<Turn>) {
        let Some(turn) = turn else { return };
        self.totals.turns.add(&turn);
        let (rounds, names) = (self.watch.turns.slices(), |tag: &u32| self.directory.name(*tag).to_owned());
        if turn.wrong.is_empty() {
            let held = if turn.held > 0 { format!(", {} held back as missing", turn.held) } else { String::new() };
            self.notes.push(format!("full turn: {} in tier 2, each named once in {rounds} rounds{held}", turn.tier2));
        } else {
            let wrong: Vec<String> = turn.wrong.iter().map(names).collect();
            self.notes.push(format!("WRONG TURN, NOT NAMED EXACTLY ONCE: {}", wrong.join(" ")));
        }
    }

    pub fn set_tier(&mut self, now: Micros, tag: u32, tier: u32) -> Result<(), Refusal> {
        self.engine.set_tier(seconds(now), tag, tier)?;
        self.calls += 1;
        Ok(())
    }

    /// Queues a write. A wait ends with it, so that it goes out at once. Only a connected engine takes a write, so the
    /// wait before a new connect is never ended here.
    pub fn write(&mut self, now: Micros, tag: u32, value: Value) -> Result<(), Refusal> {
        match self.engine.write(tag, value) {
            Ok(()) => self.end_wait(now),
            Err(refusal) if matches!(refusal.number(), 31 | 32) => {
                self.totals.not_taken += 1;
                self.notes.push(format!("no write to {}: {}", self.directory.name(tag), refusal.words()));
            }
            Err(refusal) => return Err(refusal),
        }
        Ok(())
    }

    pub fn stop(&mut self, now: Micros) {
        self.engine.stop();
        self.end_wait(now);
    }

    fn end_wait(&mut self, now: Micros) {
        if let Some((due, Request::Wait(_))) = &mut self.waits {
            *due = now;
        }
    }
}

pub fn word(state: State) -> &'static str {
    match state {
        State::Connecting => "connecting",
        State::Connected => "connected",
        State::Disconnected => "disconnected",
        State::Stopped => "stopped",
    }
}

pub fn shown(value: Value) -> String {
    match value {
        Value::Null => "-".to_owned(),
        Value::Bool(on) => if on { "1" } else { "0" }.to_owned(),
        Value::Int(n) => n.to_string(),
        Value::Float(x) => format!("{x:.1}"),
        _ => "?".to_owned(),
    }
}

fn text(error: Option<Error>) -> &'static str {
    error.and_then(|e| TEXTS.get(e.message as usize).copied()).unwrap_or("no reason given")
}
