//! A run: two boards, the station between them and the layout, the crew, and a simulated clock. What comes earliest is
//! handled first.

use super::board::Board;
use super::crew::{Crew, panels};
use super::directory::{BLOCK_GROUP, Directory, EXPRESS_GROUP};
use super::picture::Screen;
use super::station::{Micros, SECOND, Station};
use std::io::{self, Write};
use std::time::{Duration, Instant};
use wordzike::{Options, Refusal};

pub const SLOT_OPTIONS: Options = Options { cycle: 0.5, period: 4.0, grace: 6.0 };
pub const TRACK_OPTIONS: Options = Options { cycle: 0.5, period: 2.5, grace: 4.0 };

pub struct Plan {
    pub end: Micros,
    pub seed: u64,
    /// From one picture to the next.
    pub every: Micros,
    /// At the pace of the wall clock.
    pub pace: bool,
}

/// Why a run ended early.
#[derive(Debug)]
pub enum Trouble {
    Output(io::Error),
    /// The engine refused a call that it must take.
    Refused(Refusal),
}

impl From<io::Error> for Trouble {
    fn from(error: io::Error) -> Trouble {
        Trouble::Output(error)
    }
}

impl From<Refusal> for Trouble {
    fn from(refusal: Refusal) -> Trouble {
        Trouble::Refused(refusal)
    }
}

/// What comes next.
#[derive(Clone, Copy, PartialEq, Eq)]
enum Next {
    Slots,
    Track,
    Crew,
    Picture,
    Close,
}

struct Run {
    station: Station,
    slots: Board,
    track: Board,
    crew: Crew,
    /// The next picture, and the end of the day. None once it has come.
    picture: Option<Micros>,
    close: Option<Micros>,
}

/// Runs to the end, and gives the boards as they are then.
pub fn run<W: Write>(plan: &Plan, screen: &mut Screen<W>) -> Result<[Board; 2], Trouble> {
    let mut run = Run::new(plan)?;
    let begun = Instant::now();
    while let Some((now, next)) = run.next() {
        if plan.pace {
            std::thread::sleep(Duration::from_micros(now).saturating_sub(begun.elapsed()));
        }
        run.handle(now, next, plan, screen)?;
        run.show_notes(now, screen)?;
    }
    screen.picture([&run.slots, &run.track], plan.end)?;
    Ok([run.slots, run.track])
}

impl Run {
    fn new(plan: &Plan) -> Result<Run, Refusal> {
        let mut run = Run {
            station: Station::new(plan.seed),
            slots: Board::new("slots", 0, Directory::slots(), SLOT_OPTIONS, &[EXPRESS_GROUP])?,
            track: Board::new("track", 1, Directory::track(), TRACK_OPTIONS, &[BLOCK_GROUP])?,
            crew: Crew::new(plan.seed),
            picture: Some(plan.every),
            close: Some(plan.end),
        };
        let [slots, track] = panels(&run.slots, &run.track);
        run.slots.load(&slots)?;
        run.track.load(&track)?;
        run.slots.begin(0, &mut run.station)?;
        run.track.begin(0, &mut run.station)?;
        Ok(run)
    }

    /// The earliest, and of two at the same time the one that stands first here. The crew and the pictures end with the
    /// day; the engines are answered until they have stopped.
    fn next(&self) -> Option<(Micros, Next)> {
        let crew = self.close.map(|_| self.crew.due());
        let all = [
            (self.slots.due(), Next::Slots),
            (self.track.due(), Next::Track),
            (self.close, Next::Close),
            (crew, Next::Crew),
            (self.picture, Next::Picture),
        ];
        all.into_iter().filter_map(|(due, next)| due.map(|due| (due, next))).min_by_key(|(due, _)| *due)
    }

    fn handle<W: Write>(
        &mut self,
        now: Micros,
        next: Next,
        plan: &Plan,
        screen: &mut Screen<W>,
    ) -> Result<(), Trouble> {
        match next {
            Next::Slots => self.slots.answer(now, &mut self.station)?,
            Next::Track => self.track.answer(now, &mut self.station)?,
            Next::Crew => self.crew.act(now, &mut self.slots, &mut self.track)?,
            Next::Picture => {
                screen.picture([&self.slots, &self.track], now)?;
                self.picture = Some(now + plan.every);
            }
            Next::Close => {
                (self.close, self.picture) = (None, None);
                self.crew.close(now, &mut self.slots)?;
                self.slots.stop(now);
                self.track.stop(now);
            }
        }
        Ok(())
    }

    fn show_notes<W: Write>(&mut self, now: Micros, screen: &mut Screen<W>) -> io::Result<()> {
        for board in [&mut self.slots, &mut self.track] {
            for note in board.notes.drain(..) {
                screen.note(now, board.title, &note)?;
            }
        }
        Ok(())
    }
}

/// A whole number of seconds.
pub fn whole(seconds: u64) -> Micros {
    seconds.saturating_mul(SECOND)
}
