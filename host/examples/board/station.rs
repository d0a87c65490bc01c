//! The command station, made up: slots, blocks, points and boosters that drift, tags that go missing for a while, a line
//! to each board that breaks now and then. All of it comes from a seed and the simulated clock.

use super::directory::{BLOCKS, BOOSTERS, Device, Directory, POINTS, SLOTS};
use super::random::Random;
use wordzike::{Answer, Error, ErrorKind, Request, Setting, Value};

/// Microseconds of the simulated clock.
pub type Micros = u64;
pub const SECOND: Micros = 1_000_000;
const MILLI: Micros = 1000;
/// From one move of the layout to the next.
const MOVE: Micros = 50 * MILLI;

/// The texts of errors; an error carries its number here.
pub const TEXTS: [&str; 5] =
    ["no such tag", "locked for service", "no answer from the decoder", "a detector takes no writes", "out of range"];

fn error(kind: ErrorKind, message: u32) -> Error {
    Error { kind, message }
}

/// What the station answers to a request. It owns its lists, where the engine's `Answer` borrows them.
pub enum Given {
    Opened,
    NotOpened,
    Version(Option<u64>),
    Results(Vec<Result<Value, Error>>),
    Lost,
    Written,
    Refused(Error),
    Descriptions(Vec<Option<u32>>),
    NotDescribed,
    Waited,
}

impl Given {
    pub fn answer<'a>(&'a self, settings: &'a [Setting]) -> Answer<'a> {
        match self {
            Given::Opened => Answer::Opened,
            Given::NotOpened => Answer::NotOpened,
            Given::Version(version) => Answer::Version(*version, settings),
            Given::Results(results) => Answer::Results(results),
            Given::Lost => Answer::Lost,
            Given::Written => Answer::Written,
            Given::Refused(error) => Answer::Refused(*error),
            Given::Descriptions(found) => Answer::Descriptions(found),
            Given::NotDescribed => Answer::NotDescribed,
            Given::Waited => Answer::Waited,
        }
    }
}

#[derive(Clone, Copy)]
struct Slot {
    speed: f64,
    target: f64,
}

/// A device that cannot be read until its time is over.
struct Absence {
    device: Device,
    error: Error,
    until: Micros,
}

/// The line to one board.
struct Line {
    next_loss: Micros,
    /// Connects that will fail.
    failing: u64,
}

pub struct Station {
    random: Random,
    moved: Micros,
    slots: [Slot; SLOTS],
    blocks: u32,
    points: u32,
    currents: [f64; BOOSTERS],
    absent: Vec<Absence>,
    next_absence: Micros,
    version: Option<u64>,
    next_version: Micros,
    lines: [Line; 2],
}

impl Station {
    pub fn new(seed: u64) -> Station {
        let mut random = Random::new(seed);
        let mut slot = || if random.once_in(4) { random.between(10, 90) as f64 } else { 0.0 };
        let slots = std::array::from_fn(|_| slot()).map(|target| Slot { speed: target, target });
        let lines =
            std::array::from_fn(|_| Line { next_loss: random.between(20, 60) * SECOND, failing: random.between(0, 1) });
        Station {
            slots,
            lines,
            blocks: random.next() as u32 & 0x0011_2411,
            points: random.next() as u32 & 0xffff,
            currents: std::array::from_fn(|_| 1.5 + random.about(0.5)),
            absent: Vec::new(),
            next_absence: 4 * SECOND,
            version: None,
            next_version: 3 * SECOND,
            moved: 0,
            random,
        }
    }

    /// Everything up to this time.
    pub fn advance(&mut self, now: Micros) {
        while self.moved + MOVE <= now {
            self.moved += MOVE;
            self.move_trains();
            self.change_absences();
            if self.moved >= self.next_version {
                self.version = Some(self.version.unwrap_or(0) + 1);
                self.next_version = self.moved + self.random.between(45, 90) * SECOND;
            }
        }
    }

    fn move_trains(&mut self) {
        for slot in &mut self.slots {
            slot.speed += (slot.target - slot.speed) * 0.04;
            if slot.target > 0.0 {
                slot.speed = (slot.speed + self.random.about(0.12)).clamp(0.0, 99.0);
            }
        }
        for current in &mut self.currents {
            *current = (*current + self.random.about(0.01)).clamp(0.2, 4.5);
        }
        // the station's own trains: one gets another speed
        if self.random.once_in(25) {
            let n = self.random.below(SLOTS);
            self.slots[n].target = if self.random.once_in(3) { self.random.between(10, 95) as f64 } else { 0.0 };
        }
        // a train leaves its block for the next one
        if self.random.once_in(8) {
            let n = self.random.below(BLOCKS);
            let occupied = self.blocks >> n & 1;
            self.blocks &= !(1 << n);
            self.blocks |= occupied << ((n + 1) % BLOCKS);
        }
    }

    fn change_absences(&mut self) {
        let now = self.moved;
        self.absent.retain(|a| a.until > now);
        if now < self.next_absence {
            return;
        }
        let device = match self.random.below(5) {
            0 => Device::Block(self.random.below(BLOCKS)),
            1 => Device::Point(self.random.below(POINTS)),
            _ => Device::Slot(self.random.below(SLOTS)),
        };
        let error = if self.random.once_in(2) { error(ErrorKind::NotFound, 0) } else { error(ErrorKind::Access, 1) };
        let until = now + self.random.between(8, 30) * SECOND;
        self.absent.push(Absence { device, error, until });
        self.next_absence = now + self.random.between(3, 12) * SECOND;
    }

    /// How long an answer takes. One read in sixty is slow, so that rounds overrun.
    pub fn takes(&mut self, request: &Request) -> Micros {
        let ms = match request {
            Request::Connect => self.random.between(40, 200),
            Request::Version => self.random.between(2, 4),
            Request::Read(tags) => {
                let slow = if self.random.once_in(60) { self.random.between(300, 900) } else { 0 };
                4 + tags.len() as u64 * 2 / 3 + self.random.between(0, 5) + slow
            }
            Request::Write(..) => self.random.between(15, 60),
            Request::ReadBack(_) => self.random.between(4, 8),
            Request::Describe(tags) => 5 + tags.len() as u64,
            Request::Wait(seconds) => return (seconds * SECOND as f64).ceil() as Micros,
        };
        ms * MILLI
    }

    /// The answer to a request of the board at one end of a line.
    pub fn answer(&mut self, now: Micros, line: usize, request: &Request, tags: &Directory) -> Given {
        self.advance(now);
        match request {
            Request::Connect => self.connect(line),
            Request::Version => Given::Version(self.version),
            Request::Read(_) | Request::Write(..) | Request::ReadBack(_) if self.breaks(now, line, request) => {
                Given::Lost
            }
            Request::Read(list) | Request::ReadBack(list) => {
                Given::Results(list.iter().map(|tag| self.read(tags.device(*tag))).collect())
            }
            Request::Write(tag, value) => self.write(tags.device(*tag), *value),
            Request::Describe(_) if self.random.once_in(8) => Given::NotDescribed,
            Request::Describe(list) => Given::Descriptions(list.iter().map(|tag| self.description(*tag)).collect()),
            Request::Wait(_) => Given::Waited,
        }
    }

    fn connect(&mut self, line: usize) -> Given {
        let line = &mut self.lines[line];
        if line.failing == 0 {
            return Given::Opened;
        }
        line.failing -= 1;
        Given::NotOpened
    }

    /// A line breaks when its time has come, and once in a while under a write.
    fn breaks(&mut self, now: Micros, line: usize, request: &Request) -> bool {
        let writing = !matches!(request, Request::Read(_));
        if now < self.lines[line].next_loss && !(writing && self.random.once_in(40)) {
            return false;
        }
        self.lines[line] =
            Line { next_loss: now + self.random.between(20, 60) * SECOND, failing: self.random.between(0, 2) };
        true
    }

    fn absence(&self, device: Device) -> Option<Error> {
        self.absent.iter().find(|a| a.device == device).map(|a| a.error)
    }

    fn read(&mut self, device: Device) -> Result<Value, Error> {
        if let Some(error) = self.absence(device) {
            return Err(error);
        }
        if matches!(device, Device::Slot(_)) && self.random.once_in(400) {
            return Err(error(ErrorKind::Other(7), 2));
        }
        Ok(self.value(device))
    }

    fn value(&self, device: Device) -> Value {
        let bit = |word: u32, n: usize| Value::Bool(word >> n & 1 == 1);
        match device {
            // every fifth decoder knows whole speed steps alone
            Device::Slot(n) if n % 5 == 4 => Value::Int(self.slots[n].speed.round() as i64),
            Device::Slot(n) => Value::Float(self.slots[n].speed),
            Device::Blocks => Value::Int(self.blocks.into()),
            Device::Block(n) => bit(self.blocks, n),
            Device::Booster(n) => Value::Float(self.currents[n]),
            Device::Points => Value::Int(self.points.into()),
            Device::Point(n) => bit(self.points, n),
        }
    }

    fn write(&mut self, device: Device, value: Value) -> Given {
        if let Some(error) = self.absence(device) {
            return Given::Refused(error);
        }
        match (device, value) {
            (Device::Slot(n), Value::Float(speed)) if (0.0..=95.0).contains(&speed) => self.slots[n].target = speed,
            (Device::Slot(n), Value::Int(speed @ 0..=95)) => self.slots[n].target = speed as f64,
            (Device::Point(n), Value::Bool(thrown)) => {
                self.points = self.points & !(1 << n) | u32::from(thrown) << n;
            }
            (Device::Block(_) | Device::Blocks, _) => return Given::Refused(error(ErrorKind::Other(4), 3)),
            _ => return Given::Refused(error(ErrorKind::Other(9), 4)),
        }
        Given::Written
    }

    /// Two tags of three have one.
    fn description(&self, tag: u32) -> Option<u32> {
        (!tag.is_multiple_of(3)).then_some(1000 + tag)
    }
}
