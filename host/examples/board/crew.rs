//! Who works the layout: throttles that take and release slots, and the operator at the board.

use super::board::Board;
use super::directory::{BLOCKS, Device, POINTS, SLOTS};
use super::random::Random;
use super::station::{Micros, SECOND};
use wordzike::{Refusal, Value};

const THROTTLES: usize = 10;
/// Blocks in a section of the track.
const SECTION: usize = 6;

pub struct Crew {
    random: Random,
    /// The slot that each throttle has.
    throttles: [Option<usize>; THROTTLES],
    /// The section whose blocks are watched closely.
    section: Option<usize>,
    next: Micros,
}

/// The panel lists at the start: a count, the tags, their tiers. Slots are polled by turns, but for a few expresses
/// (tier 1) and some that are parked (tier 3); of the track the boosters are watched.
pub fn panels(slots: &Board, track: &Board) -> [Vec<u8>; 2] {
    let slot = |tag: u32| match slots.directory.device(tag) {
        Device::Slot(n) if n % 40 == 20 => 1,
        Device::Slot(n) if n % 40 == 7 => 3,
        _ => 2,
    };
    let part = |tag: u32| if matches!(track.directory.device(tag), Device::Booster(_)) { 1 } else { 2 };
    [panel(slots.directory.len(), slot), panel(track.directory.len(), part)]
}

fn panel(tags: usize, tier: impl Fn(u32) -> u8) -> Vec<u8> {
    let mut list = vec![tags as u8];
    list.extend(0..tags as u8);
    list.extend((0..tags as u32).map(tier));
    list
}

impl Crew {
    pub fn new(seed: u64) -> Crew {
        Crew { random: Random::new(seed ^ 0x6372_6577), throttles: [None; THROTTLES], section: None, next: SECOND }
    }

    pub fn due(&self) -> Micros {
        self.next
    }

    /// One thing is done, and the time of the next is set: some come close together, then there is a pause.
    pub fn act(&mut self, now: Micros, slots: &mut Board, track: &mut Board) -> Result<(), Refusal> {
        let pause = if self.random.once_in(2) { 70_000 } else { self.random.between(3, 7) * SECOND };
        self.next = now + pause;
        match self.random.below(12) {
            0..=3 => self.throttle(now, slots),
            4 | 5 => self.new_speed(now, slots),
            6..=8 => self.throw_points(now, track),
            9 => self.watch_section(now, track),
            10 => self.poll_again(now, slots),
            _ => self.try_block(now, track),
        }
    }

    /// A throttle takes a slot, or releases the one that it has.
    fn throttle(&mut self, now: Micros, slots: &mut Board) -> Result<(), Refusal> {
        let i = self.random.below(THROTTLES);
        match self.throttles[i].take() {
            None => self.take(now, slots, i),
            Some(n) => self.release(now, slots, i, n),
        }
    }

    fn take(&mut self, now: Micros, slots: &mut Board, i: usize) -> Result<(), Refusal> {
        let n = self.random.below(SLOTS);
        if self.throttles.contains(&Some(n)) {
            return Ok(());
        }
        self.throttles[i] = Some(n);
        let tag = slots.directory.tag_of(Device::Slot(n));
        slots.notes.push(format!("throttle {i} takes {}", slots.directory.name(tag)));
        slots.set_tier(now, tag, 1)?;
        let speed = self.random.between(10, 95);
        slots.write(now, tag, speed_of(n, speed))
    }

    /// Most slots are polled by turns again. Some are parked or leave the board, after their grace.
    fn release(&mut self, now: Micros, slots: &mut Board, i: usize, n: usize) -> Result<(), Refusal> {
        let (tier, to) = match self.random.below(5) {
            0 => (3, "to be parked"),
            1 => (0, "to leave the board"),
            _ => (2, "to the turns"),
        };
        let tag = slots.directory.tag_of(Device::Slot(n));
        slots.notes.push(format!("throttle {i} releases {} {to}", slots.directory.name(tag)));
        slots.write(now, tag, speed_of(n, 0))?;
        slots.set_tier(now, tag, tier)
    }

    /// A throttle in use sets another speed, once in a while one that the decoder can't run.
    fn new_speed(&mut self, now: Micros, slots: &mut Board) -> Result<(), Refusal> {
        let Some(n) = self.throttles[self.random.below(THROTTLES)] else { return Ok(()) };
        let speed = if self.random.once_in(6) { 120 } else { self.random.between(0, 95) };
        slots.write(now, slots.directory.tag_of(Device::Slot(n)), speed_of(n, speed))
    }

    /// A route is set: a few points at once.
    fn throw_points(&mut self, now: Micros, track: &mut Board) -> Result<(), Refusal> {
        for _ in 0..self.random.between(2, 6) {
            let tag = track.directory.tag_of(Device::Point(self.random.below(POINTS)));
            track.write(now, tag, Value::Bool(self.random.once_in(2)))?;
        }
        Ok(())
    }

    /// The blocks of a section are watched closely, or no longer: then they are polled by turns, or not at all once
    /// their grace is over.
    fn watch_section(&mut self, now: Micros, track: &mut Board) -> Result<(), Refusal> {
        let (section, tier) = match self.section.take() {
            Some(section) => (section, if self.random.once_in(2) { 3 } else { 2 }),
            None => (self.random.below(BLOCKS / SECTION), 1),
        };
        self.section = (tier == 1).then_some(section);
        let how = if tier == 1 { "is watched" } else { "is no longer watched" };
        track.notes.push(format!("section {section} {how}"));
        for n in section * SECTION..(section + 1) * SECTION {
            track.set_tier(now, track.directory.tag_of(Device::Block(n)), tier)?;
        }
        Ok(())
    }

    /// A slot that is parked or left the board is polled again.
    fn poll_again(&mut self, now: Micros, slots: &mut Board) -> Result<(), Refusal> {
        let table = slots.engine.table();
        let polled = |tag: &u32| table.iter().any(|(t, tier)| t == tag && *tier < 3);
        let tags = 0..slots.directory.len() as u32;
        let Some(tag) = tags.into_iter().find(|tag| !polled(tag)) else { return Ok(()) };
        slots.notes.push(format!("{} is polled again", slots.directory.name(tag)));
        slots.set_tier(now, tag, 2)
    }

    /// Somebody writes to a detector.
    fn try_block(&mut self, now: Micros, track: &mut Board) -> Result<(), Refusal> {
        let tag = track.directory.tag_of(Device::Block(self.random.below(BLOCKS)));
        track.write(now, tag, Value::Bool(true))
    }

    /// The end of the day: every slot in use gets speed 0, and these writes still go out before the stop.
    pub fn close(&mut self, now: Micros, slots: &mut Board) -> Result<(), Refusal> {
        for n in self.throttles.into_iter().flatten() {
            slots.write(now, slots.directory.tag_of(Device::Slot(n)), speed_of(n, 0))?;
        }
        Ok(())
    }
}

/// Every fifth decoder knows whole speed steps alone.
fn speed_of(slot: usize, speed: u64) -> Value {
    if slot % 5 == 4 { Value::Int(speed as i64) } else { Value::Float(speed as f64) }
}
