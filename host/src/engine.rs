//! The engine.

use crate::ffi;
use crate::refusal::Refusal;
use crate::values::{Entry, Error, Group, Options, Setting, Value, changes, put, records, result_cells, tags};
use std::fmt;

/// The number of the interface that this crate is written for.
pub const INTERFACE: u64 = 2;
/// Names in a directory, at most.
pub const TAGS: usize = 120;
/// Groups, at most.
pub const GROUPS: usize = 16;
const LIST: usize = TAGS * 72;
const PANEL: usize = 1 + 2 * TAGS;

/// The number of the archive's interface. It is [`INTERFACE`], or this crate was linked with another archive than it is
/// written for.
pub fn interface() -> u64 {
    ffi::interface()
}

/// Bytes of an engine over so many names: 3,142 and 266 for each. 0 for a number of names that no directory has.
pub fn memory_size(count: usize) -> usize {
    u32::try_from(count).map_or(0, |count| ffi::memory_size(count) as usize)
}

/// What the host answers to a request, or to an event.
#[derive(Clone, Copy, Debug, PartialEq)]
pub enum Answer<'a> {
    /// To a new engine.
    Begin,
    /// To [`Request::Connect`]: there is a connection.
    Opened,
    /// To [`Request::Connect`]: there is none.
    NotOpened,
    /// To [`Request::Version`]: the version, and a setting for each tag. The settings take effect on a connect and
    /// where the version has changed.
    Version(Option<u64>, &'a [Setting]),
    /// To [`Request::Read`] and [`Request::ReadBack`]: a result for each tag. A short list covers the first tags only.
    Results(&'a [Result<Value, Error>]),
    /// To [`Request::Read`], [`Request::Write`] and [`Request::ReadBack`]: the connection was lost.
    Lost,
    /// To [`Request::Write`]: it went through.
    Written,
    /// To [`Request::Write`]: the driver refused it.
    Refused(Error),
    /// To [`Request::Describe`]: the number of each description. A short list covers the first tags only.
    Descriptions(&'a [Option<u32>]),
    /// To [`Request::Describe`]: they could not be read.
    NotDescribed,
    /// To [`Request::Wait`]: the time is over, or the host ends it early.
    Waited,
    /// To every event but [`Event::Stopped`].
    Taken,
}

/// What the engine asks for. A tag is its rank in the directory.
#[derive(Clone, Debug, PartialEq)]
pub enum Request {
    /// Open the connection.
    Connect,
    /// The version of the controller's tags.
    Version,
    /// Read these tags.
    Read(Vec<u32>),
    /// Write a value to a tag.
    Write(u32, Value),
    /// Read these tags after a write: the tag itself and, for a bit, its word.
    ReadBack(Vec<u32>),
    /// The descriptions of these tags.
    Describe(Vec<u32>),
    /// Wait so many seconds. A host may end a wait early, as when a write was queued.
    Wait(f64),
}

/// What the engine tells.
#[derive(Clone, Debug, PartialEq)]
pub enum Event {
    /// Tags with their new entries, in tag order.
    Values(Vec<(u32, Entry)>),
    /// The state of the connection has changed.
    Status(State),
    /// The controller's tags have changed.
    Meta,
    /// The descriptions of these tags are known.
    Info(Vec<u32>),
    /// A write to a tag has ended.
    Outcome(u32, Outcome),
    /// A lost connection took these writes with it, in queue order.
    Failed(Vec<u32>),
    /// The end, with the writes that were left, in queue order. No answer is taken any more.
    Stopped(Vec<u32>),
}

/// How a write ended.
#[derive(Clone, Copy, Debug, PartialEq)]
#[non_exhaustive]
pub enum Outcome {
    /// It went through; the value read back.
    Written(Value),
    /// The driver refused it.
    Refused(Error),
    /// The connection was lost.
    Lost,
}

/// What a step gives.
#[derive(Clone, Debug, PartialEq)]
#[allow(missing_docs)]
pub enum Reply {
    Request(Request),
    Event(Event),
}

/// The state of the connection.
#[derive(Clone, Copy, Debug, PartialEq, Eq, Hash)]
#[allow(missing_docs)]
pub enum State {
    Connecting,
    Connected,
    Disconnected,
    Stopped,
}

/// The statistics of the rounds.
#[derive(Clone, Copy, Debug, PartialEq)]
pub struct Stats {
    /// How long the last round took in milliseconds, and the wall time of its end.
    pub round: Option<(f64, i64)>,
    /// Reads of the last round.
    pub reads: u64,
    /// Tags of the last round.
    pub tags: u64,
    /// Rounds that took longer than their tick.
    pub overruns: u64,
    /// Attempts to connect again.
    pub reconnects: u64,
    /// Changes of a version that wasn't null.
    pub reloads: u64,
}

/// What is known of a group.
#[derive(Clone, Copy, Debug, PartialEq)]
pub struct GroupStats {
    /// Its number and rate.
    pub group: Group,
    /// Its tags in tier 1 now.
    pub tags: u64,
    /// Milliseconds between its last two readings.
    pub period: Option<f64>,
}

/// What is known of a tag.
#[derive(Clone, Copy, Debug, PartialEq)]
pub struct Tag {
    /// 1 to 3, or 0 for none; a tag in grace has 2.
    pub tier: u32,
    /// The last entry, told or withheld.
    pub entry: Option<Entry>,
    /// None where it isn't known; otherwise its number, or that there is none.
    pub description: Option<Option<u32>>,
}

/// An engine. It does no input and output: [`step`](Engine::step) says what to do next, and takes what came of it.
///
/// Clock readings are seconds that never fall; wall times are milliseconds. Each call that is refused leaves the engine
/// as it was.
#[derive(Clone)]
pub struct Engine {
    memory: Box<[u8]>,
    /// The list of the last answer, kept for its room.
    list: Vec<u8>,
}

impl fmt::Debug for Engine {
    fn fmt(&self, f: &mut fmt::Formatter<'_>) -> fmt::Result {
        f.debug_struct("Engine").field("state", &self.state()).finish_non_exhaustive()
    }
}

impl Engine {
    /// An engine over a directory of names in rising byte order, with a setting for each, and the configured groups.
    /// Refused with 1 to 4 and 11 to 14.
    pub fn new(
        names: &[impl AsRef<[u8]>],
        options: Options,
        settings: &[Setting],
        groups: &[Group],
    ) -> Result<Engine, Refusal> {
        let mut joined = Vec::new();
        let mut ends = Vec::new();
        for name in names {
            joined.extend_from_slice(name.as_ref());
            ends.push(u32::try_from(joined.len()).unwrap_or(u32::MAX));
        }
        let (mut list, mut configured) = (Vec::new(), Vec::new());
        put(&mut list, settings.iter().map(|s| s.cells()));
        put(&mut configured, groups.iter().map(|g| [u64::from(g.number), g.rate.into()]));
        let mut memory = vec![0; memory_size(names.len())].into_boxed_slice();
        Refusal::check(ffi::create(&mut memory, &joined, &ends, options.handed(), &list, &configured).into())?;
        Ok(Engine { memory, list })
    }

    /// Puts a tag into a tier, 1 to 3, or takes it out, with 0. Refused with 21 to 24.
    pub fn set_tier(&mut self, clock: f64, tag: u32, tier: u32) -> Result<(), Refusal> {
        Refusal::check(ffi::set_tier(&mut self.memory, clock, tag, tier).into())
    }

    /// Loads a panel list, as [`panel`](Engine::panel) gives it. Refused with 21, 22 and 51 to 56.
    pub fn load(&mut self, clock: f64, list: &[u8]) -> Result<(), Refusal> {
        Refusal::check(ffi::load(&mut self.memory, clock, list).into())
    }

    /// Queues a write. Refused with 23, 31, 32 and 42.
    pub fn write(&mut self, tag: u32, value: Value) -> Result<(), Refusal> {
        let [kind, word] = value.words();
        Refusal::check(ffi::write(&mut self.memory, tag, kind, word).into())
    }

    /// Asks for the stop. Steps go on until [`Event::Stopped`].
    pub fn stop(&mut self) {
        ffi::stop(&mut self.memory);
    }

    /// Takes an answer, and gives the next request or event. Refused with 14, 21, 22, 41 and 42.
    ///
    /// ```
    /// use wordzike::{Answer, Engine, Options, Reply, Request, Setting};
    /// let mut engine = Engine::new(&["Speed"], Options::default(), &[Setting::default()], &[])?;
    /// assert_eq!(engine.step(5.0, 0, Answer::Waited).unwrap_err().number(), 41);
    /// assert_eq!(engine.step(5.0, 0, Answer::Begin)?, Reply::Request(Request::Connect));
    /// # Ok::<(), wordzike::Refusal>(())
    /// ```
    pub fn step(&mut self, clock: f64, wall: i64, answer: Answer<'_>) -> Result<Reply, Refusal> {
        let answer = answer.put(&mut self.list);
        let mut out = [0; LIST];
        let reply = ffi::step(&mut self.memory, clock, wall, answer, &self.list, &mut out);
        Refusal::check(reply.code)?;
        Ok(Reply::of(&reply, &out))
    }

    /// The state of the connection.
    pub fn state(&self) -> State {
        State::of(ffi::state(&self.memory).state)
    }

    /// The version of the controller's tags, as last answered.
    pub fn version(&self) -> Option<u64> {
        let look = ffi::state(&self.memory);
        (look.known != 0).then_some(look.version)
    }

    /// The statistics of the rounds.
    pub fn stats(&self) -> Stats {
        let look = ffi::stats(&self.memory);
        Stats {
            round: (look.timed != 0).then_some((look.ms, look.ts)),
            reads: look.reads,
            tags: look.tags,
            overruns: look.overruns,
            reconnects: look.reconnects,
            reloads: look.reloads,
        }
    }

    /// How many tags are in tiers 1, 2 and 3; those in grace are in tier 2.
    pub fn tier_counts(&self) -> [u64; 3] {
        let look = ffi::tier_counts(&self.memory);
        [look.tier1, look.tier2, look.tier3]
    }

    /// The groups: configured ones first, then by first reading.
    pub fn group_stats(&self) -> Vec<GroupStats> {
        let mut out = [0; GROUPS * 40];
        let look = ffi::group_stats(&self.memory, &mut out);
        records(&out, look.count)
            .map(|[number, rate, tags, timed, period]| GroupStats {
                group: Group { number: number as u32, rate: rate as u32 },
                tags,
                period: (timed != 0).then(|| f64::from_bits(period)),
            })
            .collect()
    }

    /// Tags with their tiers, in order of entry.
    pub fn table(&self) -> Vec<(u32, u32)> {
        let mut out = [0; TAGS * 16];
        let look = ffi::table(&self.memory, &mut out);
        records(&out, look.count).map(|[tag, tier]| (tag as u32, tier as u32)).collect()
    }

    /// The panel list: a count byte, then the tags' bytes, then the tiers', in order of entry.
    pub fn panel(&self) -> Vec<u8> {
        let mut out = [0; PANEL];
        let look = ffi::panel(&self.memory, &mut out);
        out[..look.count as usize].to_vec()
    }

    /// What is known of a tag. Refused with 23.
    pub fn tag(&self, tag: u32) -> Result<Tag, Refusal> {
        let look = ffi::tag(&self.memory, tag);
        Refusal::check(look.code)?;
        Ok(Tag {
            tier: look.tier as u32,
            entry: Entry::of(look.entry),
            description: match look.description {
                0 => None,
                1 => Some(None),
                n => Some(Some((n - 2) as u32)),
            },
        })
    }

    /// The engine's bytes, as many as [`memory_size`] says. What they hold is its own affair.
    pub fn memory(&self) -> &[u8] {
        &self.memory
    }
}

impl Answer<'_> {
    /// Its kind, number and message; the records of its list go into `list`.
    fn put(self, list: &mut Vec<u8>) -> [u64; 3] {
        list.clear();
        match self {
            Answer::Begin => [0, 0, 0],
            Answer::Opened => [1, 0, 0],
            Answer::NotOpened => [2, 0, 0],
            Answer::Version(version, settings) => {
                put(list, settings.iter().map(|s| s.cells()));
                version.map_or([3, 0, 0], |number| [4, number, 0])
            }
            Answer::Results(results) => {
                put(list, results.iter().map(|r| result_cells(*r)));
                [5, 0, 0]
            }
            Answer::Lost => [6, 0, 0],
            Answer::Written => [7, 0, 0],
            Answer::Refused(error) => {
                let [number, message] = error.words();
                [8, number, message]
            }
            Answer::Descriptions(found) => {
                put(list, found.iter().map(|d| [d.map_or(0, |n| u64::from(n) + 1)]));
                [9, 0, 0]
            }
            Answer::NotDescribed => [10, 0, 0],
            Answer::Waited => [11, 0, 0],
            Answer::Taken => [12, 0, 0],
        }
    }
}

impl Reply {
    fn of(reply: &ffi::Reply, out: &[u8]) -> Reply {
        let tags = || tags(out, reply.count);
        let tag = reply.tag as u32;
        let request = match reply.kind {
            1 => Request::Connect,
            2 => Request::Version,
            3 => Request::Read(tags()),
            4 => Request::Write(tag, Value::of(reply.value)),
            5 => Request::ReadBack(tags()),
            6 => Request::Describe(tags()),
            7 => Request::Wait(reply.seconds),
            8 => return Reply::Event(Event::Values(told(out, reply.count))),
            9 => return Reply::Event(Event::Status(State::of(reply.what))),
            10 => return Reply::Event(Event::Meta),
            11 => return Reply::Event(Event::Info(tags())),
            12 => return Reply::Event(Event::Outcome(tag, Outcome::of(reply))),
            13 => return Reply::Event(Event::Failed(tags())),
            14 => return Reply::Event(Event::Stopped(tags())),
            kind => panic!("the engine has no reply {kind}"),
        };
        Reply::Request(request)
    }
}

fn told(out: &[u8], count: u64) -> Vec<(u32, Entry)> {
    changes(out, count).map(|(tag, entry)| (tag, Entry::of(entry).expect("a change has an entry"))).collect()
}

impl Outcome {
    fn of(reply: &ffi::Reply) -> Outcome {
        match (reply.what, Error::of(reply.error)) {
            (0, _) => Outcome::Written(Value::of(reply.value)),
            (1, Some(error)) => Outcome::Refused(error),
            _ => Outcome::Lost,
        }
    }
}

impl State {
    fn of(number: u64) -> State {
        match number {
            0 => State::Connecting,
            1 => State::Connected,
            2 => State::Disconnected,
            _ => State::Stopped,
        }
    }
}
