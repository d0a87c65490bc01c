//! The operator's board as text of 100 columns and 40 lines.

use super::board::{Board, seconds, shown, wall, word};
use super::directory::Device;
use super::station::Micros;
use super::turns::Mark;
use std::collections::VecDeque;
use std::io::{self, Write};
use wordzike::{Entry, Quality, Value};

const WIDTH: usize = 100;
/// Notes that stay on a terminal's screen.
const RECENT: usize = 5;

/// Where pictures and notes go. A terminal gets one picture over the other, with colours; all else gets plain text.
pub struct Screen<W: Write> {
    out: W,
    paint: Paint,
    recent: VecDeque<String>,
}

impl<W: Write> Screen<W> {
    pub fn new(out: W, terminal: bool) -> Screen<W> {
        Screen { out, paint: Paint(terminal), recent: VecDeque::new() }
    }

    pub fn note(&mut self, now: Micros, title: &str, note: &str) -> io::Result<()> {
        let line = format!("{:9.3}  {title}  {note}", seconds(now));
        if !self.paint.0 {
            writeln!(self.out, "{line}")?;
            return self.out.flush();
        }
        self.recent.push_back(cut(line));
        if self.recent.len() > RECENT {
            self.recent.pop_front();
        }
        Ok(())
    }

    pub fn picture(&mut self, [slots, track]: [&Board; 2], now: Micros) -> io::Result<()> {
        let mut lines = vec![heading(&self.paint, slots, track, now)];
        lines.extend(slot_lines(&self.paint, slots, now));
        lines.extend(track_lines(&self.paint, track, now));
        lines.extend(engine_lines(&self.paint, slots));
        lines.extend(engine_lines(&self.paint, track));
        lines.push(LEGEND.to_owned());
        lines.extend(self.recent.iter().cloned());
        let [before, end, behind] = if self.paint.0 { ["\x1b[H", "\x1b[K\n", "\x1b[J"] } else { ["\n", "\n", "\n"] };
        let text: String = lines.iter().map(|line| format!("{}{end}", line.trim_end())).collect();
        write!(self.out, "{before}{text}{behind}")?;
        self.out.flush()
    }

    pub fn line(&mut self, line: &str) -> io::Result<()> {
        writeln!(self.out, "{line}")
    }

    pub fn flush(&mut self) -> io::Result<()> {
        self.out.flush()
    }

    /// A clear screen, where there is one.
    pub fn clear(&mut self) -> io::Result<()> {
        if self.paint.0 { self.out.write_all(b"\x1b[2J") } else { Ok(()) }
    }
}

const LEGEND: &str =
    "tier * 1, - 3; b bad, m missing, s stale; age in s; turn # named, m held back, . to come, ! twice";

/// Colours, if any.
struct Paint(bool);

impl Paint {
    fn with(&self, code: &str, text: &str) -> String {
        if self.0 && !code.is_empty() { format!("\x1b[{code}m{text}\x1b[0m") } else { text.to_owned() }
    }
}

fn heading(paint: &Paint, slots: &Board, track: &Board, now: Micros) -> String {
    let state = |b: &Board| format!("{} {}", b.title, word(b.engine.state()));
    paint.with("1", &format!("Club layout  {:.1} s   {}   {}", seconds(now), state(slots), state(track)))
}

/// Tier, value, quality and age of a tag, in a given width for the value. An empty place where it is not on the board.
fn cell(paint: &Paint, board: &Board, tag: u32, now: Micros, width: usize) -> String {
    let tier = board.engine.tag(tag).map_or(0, |look| look.tier);
    let mark = [' ', '*', ' ', '-'][tier as usize % 4];
    let Some(entry) = board.told[tag as usize].filter(|_| tier > 0) else {
        return format!("{mark}{:>width$}   ", if tier > 0 { "?" } else { "" });
    };
    let (quality, colour) = match entry.quality {
        Quality::Good => (' ', if tier == 1 { "1" } else { "" }),
        Quality::Bad => ('b', "33"),
        Quality::Missing => ('m', "35"),
        Quality::Stale => ('s', "2"),
        _ => ('?', ""),
    };
    paint.with(colour, &format!("{mark}{:>width$}{quality}{:>2}", value(&entry), age(&entry, now)))
}

fn value(entry: &Entry) -> String {
    match entry.value {
        Value::Bool(on) => if on { "#" } else { "." }.to_owned(),
        value => shown(value),
    }
}

/// Seconds, or from 100 on minutes with a letter as far as two places go.
fn age(entry: &Entry, now: Micros) -> String {
    match (wall(now) - entry.time) / 1000 {
        seconds @ 0..=99 => seconds.to_string(),
        seconds @ 100..=599 => format!("{}m", seconds / 60),
        _ => "..".to_owned(),
    }
}

/// Eight slots a line.
fn slot_lines(paint: &Paint, board: &Board, now: Micros) -> Vec<String> {
    let slot = |tag: u32| {
        let Device::Slot(n) = board.directory.device(tag) else { return String::new() };
        format!("{:03}{} ", n + 1, cell(paint, board, tag, now, 4))
    };
    board.directory.by_name.chunks(8).map(|tags| tags.iter().map(|tag| slot(*tag)).collect()).collect()
}

fn track_lines(paint: &Paint, board: &Board, now: Micros) -> Vec<String> {
    let row = |label: &str, devices: &[Device], width: usize| {
        let one = |device: &Device| {
            let tag = board.directory.tag_of(*device);
            format!("{}{} ", short(*device), cell(paint, board, tag, now, width))
        };
        format!("{label:<8}{}", devices.iter().map(one).collect::<String>())
    };
    let numbered = |device: fn(usize) -> Device, from: usize, to: usize| (from..to).map(device).collect::<Vec<_>>();
    let mut currents = numbered(Device::Booster, 0, 4);
    currents.extend([Device::Blocks, Device::Points]);
    vec![
        row("blocks", &numbered(Device::Block, 0, 8), 1),
        row("", &numbered(Device::Block, 8, 16), 1),
        row("", &numbered(Device::Block, 16, 24), 1),
        row("points", &numbered(Device::Point, 0, 8), 1),
        row("", &numbered(Device::Point, 8, 16), 1),
        row("amps", &currents, 5),
    ]
}

fn short(device: Device) -> String {
    match device {
        Device::Slot(n) => format!("{:03}", n + 1),
        Device::Block(n) => format!("{n:02}"),
        Device::Booster(n) => n.to_string(),
        Device::Point(n) => format!("{n:02}"),
        Device::Blocks => "blocks".to_owned(),
        Device::Points => "points".to_owned(),
    }
}

fn engine_lines(paint: &Paint, board: &Board) -> Vec<String> {
    let stats = board.engine.stats();
    let round = stats.round.map_or("-".to_owned(), |(ms, _)| format!("{ms:.1}"));
    let [one, two, three] = board.engine.tier_counts();
    let version = board.engine.version().map_or("-".to_owned(), |v| v.to_string());
    let mut lines = vec![
        format!(
            "{}   {}   version {version}   round {round} ms   tags {}   overruns {}   reconnects {}   reloads {}",
            board.title,
            word(board.engine.state()),
            stats.tags,
            stats.overruns,
            stats.reconnects,
            stats.reloads
        ),
        cut(format!("  tiers {one} / {two} / {three}   groups: {}", groups(board))),
        cut(format!("  last list: {}", list(board))),
    ];
    lines[0] = paint.with("1", &lines[0]);
    lines.extend(turn_lines(paint, board));
    lines
}

fn groups(board: &Board) -> String {
    let one = |g: &wordzike::GroupStats| {
        let period = g.period.map_or("-".to_owned(), |ms| format!("{ms:.1}"));
        format!("{} of {} ms: {} tags, last {period}", g.group.number, g.group.rate, g.tags)
    };
    board.engine.group_stats().iter().map(one).collect::<Vec<_>>().join("; ")
}

/// The last list to read; slots that follow each other as a range.
fn list(board: &Board) -> String {
    let mut parts: Vec<(Device, Device)> = Vec::new();
    for tag in &board.list {
        let device = board.directory.device(*tag);
        match (parts.last_mut(), device) {
            (Some((_, Device::Slot(last))), Device::Slot(n)) if n == *last + 1 => *last = n,
            _ => parts.push((device, device)),
        }
    }
    let name = |device: Device| match device {
        Device::Block(n) => format!("b{n:02}"),
        Device::Point(n) => format!("p{n:02}"),
        Device::Booster(n) => format!("amps{n}"),
        other => short(other),
    };
    let part = |(from, to): &(Device, Device)| {
        if from == to { name(*from) } else { format!("{}-{}", name(*from), name(*to)) }
    };
    parts.iter().map(part).collect::<Vec<_>>().join(" ")
}

/// The current turn, with a mark for each tag in the order of the slices, sixty a line.
fn turn_lines(paint: &Paint, board: &Board) -> Vec<String> {
    let turns = &board.watch.turns;
    let marks: Vec<Mark> = board.directory.by_name.iter().map(|tag| turns.mark(*tag)).collect();
    let count = |which: &[Mark]| marks.iter().filter(|m| which.contains(m)).count();
    let head = format!(
        "  turn: {} of {} boundary rounds, {} of {} named; {} full turns",
        turns.rounds(),
        turns.slices(),
        count(&[Mark::Named, Mark::HeldBack, Mark::NamedAgain]),
        marks.len() - count(&[Mark::NotInTier2]),
        board.totals.turns.full
    );
    let row = |marks: &[Mark]| format!("  {}", marks.iter().map(|m| mark(paint, *m)).collect::<String>());
    std::iter::once(head).chain(marks.chunks(60).map(row)).collect()
}

fn mark(paint: &Paint, mark: Mark) -> String {
    match mark {
        Mark::NotInTier2 => "_".to_owned(),
        Mark::ToCome => ".".to_owned(),
        Mark::Named => paint.with("32", "#"),
        Mark::HeldBack => paint.with("35", "m"),
        Mark::NamedAgain => paint.with("1;31", "!"),
    }
}

fn cut(line: String) -> String {
    if line.chars().count() <= WIDTH {
        return line;
    }
    line.chars().take(WIDTH - 2).chain("..".chars()).collect()
}
