//! Random inputs for the round lister, for `lists`: good ones, and damaged ones.

use super::generate::Rng;
use super::names::{beside, rising};
use super::*;

// ------------------------------------------------------------------------------------------ good inputs

/// The greatest time, in ms.
const LIMIT: u64 = 1_000_000_000_000;
const DAY: u64 = 86_400_000;
const HOUR: u64 = 3_600_000;

/// What an input is to be like.
#[derive(Clone, Copy, PartialEq, Eq, PartialOrd, Ord, Debug)]
pub(super) enum Kind {
    Small,
    Mid,
    Full,
    /// All tags in tier 2, regular rounds over several turns.
    Turns,
    /// Many tier changes with a grace, rounds aimed at their ends.
    Graces,
    /// Options and times at their limits.
    Edges,
    /// A few lines only.
    Tiny,
    /// Lines of no plan.
    Noise,
    /// Up to 100,000 rounds, about a megabyte.
    Long,
}

/// Below which of 1000 an input is of which kind.
const KINDS: [(u64, Kind); 9] = [
    (238, Kind::Small),
    (388, Kind::Mid),
    (488, Kind::Full),
    (608, Kind::Turns),
    (778, Kind::Graces),
    (888, Kind::Edges),
    (968, Kind::Tiny),
    (998, Kind::Noise),
    (1000, Kind::Long),
];

/// How the time goes on from round to round.
#[derive(Clone, Copy)]
enum Pace {
    Regular,
    /// A half, a third or a quarter of a cycle.
    Parts,
    Irregular,
    Aimed,
    Leaps,
    Still,
}

/// An input as it is made; a line is kept without its line feed.
struct Making {
    r: Rng,
    lines: Vec<Vec<u8>>,
    kind: Kind,
    cycle: u64,
    grace: u64,
    now: u64,
    /// The last boundary, or near it.
    last: Option<u64>,
    /// The tier of each tag, grace as 2; or near it.
    tiers: Vec<u64>,
    /// Where graces end.
    ends: Vec<u64>,
    /// Chance of zeros before a number.
    zeros: u64,
}

impl Making {
    fn push(&mut self, letter: char, numbers: &[u64]) {
        let mut line = letter.to_string();
        for n in numbers {
            let width = if self.r.chance(self.zeros) { self.r.range(1, 15) as usize } else { 0 };
            let _ = write!(line, " {n:0width$}");
        }
        self.lines.push(line.into_bytes());
    }

    /// A cycle, or a second where there is none.
    fn unit(&self) -> u64 {
        if self.cycle > 0 { self.cycle } else { 1000 }
    }

    fn options(&mut self) {
        let r = &mut self.r;
        let edges = self.kind == Kind::Edges;
        self.cycle = match r.below(if edges { 6 } else { 12 }) {
            0 => 0,
            1 => r.of(&[1, 1, 2, 3, 7]),
            2 => r.of(&[HOUR, HOUR, HOUR - 1]),
            3 => r.range(1, HOUR),
            4 => r.range(1, 5000),
            5 => r.of(&[100, 250, 333, 500, 1001, 999]),
            _ => 1000,
        };
        let unit = self.unit();
        let r = &mut self.r;
        let period = match r.below(if edges { 10 } else { 16 }) {
            0 => 0,
            1 => DAY,
            2 => r.of(&[DAY - 1, DAY, 1]),
            3 => r.range(0, DAY),
            4 => unit * 5 / 2,
            5 => unit * 7 / 2,
            6 => unit / 2,
            7 => unit * 3 / 2,
            // beside a tie
            8 => (unit * (2 * r.below(9) + 1) / 2).saturating_add_signed(r.of(&[-1, 0, 1])),
            9 => unit * 2 / 5,
            10 => unit,
            11 => unit * 2,
            12 => unit * 30,
            13 => unit * r.range(100, 140),
            _ => unit * r.range(1, 9),
        };
        self.grace = match r.below(if self.kind == Kind::Graces { 6 } else { 9 }) {
            0 => unit,
            1 => unit * 5 / 2,
            2 => r.range(1, 5 * unit),
            3 => r.of(&[1, DAY, DAY - 1, unit / 2]),
            4 => unit * r.range(1, 9),
            5 => 10_000,
            _ => 0,
        }
        .min(DAY);
        let options = [self.cycle, period.min(DAY), self.grace];
        self.push('o', &options);
    }

    fn names(&mut self, count: u64) {
        let names = rising(&mut self.r, count);
        self.lines.extend(names.iter().map(|n| [b"n ", &n[..]].concat()));
        self.tiers = vec![0; names.len()];
    }

    fn set(&mut self, tag: usize, tier: u64) {
        self.push('s', &[self.now, tag as u64, tier]);
        let away = tier == 0 || tier == 3;
        if away && self.grace > 0 && self.tiers[tag] == 1 {
            self.ends.push(self.now + self.grace);
            self.tiers[tag] = 2;
        } else {
            self.tiers[tag] = tier;
        }
    }

    /// A tier for a random tag.
    fn call(&mut self) {
        let tag = self.r.below(self.tiers.len() as u64) as usize;
        let tier = match (self.kind, self.tiers[tag]) {
            // into grace, or asked again within it
            (Kind::Graces, 1) => self.r.of(&[0, 3, 0, 3, 2]),
            (Kind::Graces, _) => self.r.of(&[1, 1, 1, 0, 3, 2]),
            _ => self.r.of(&[0, 1, 1, 2, 2, 2, 3]),
        };
        self.set(tag, tier);
    }

    fn round(&mut self) {
        self.push('c', &[self.now]);
        if self.last.is_none_or(|l| 2 * (self.now - l) >= self.cycle) {
            self.last = Some(self.now);
        }
    }

    fn go_on(&mut self, pace: Pace) {
        let unit = self.unit();
        let now = self.now;
        let r = &mut self.r;
        let to = match pace {
            Pace::Regular => now + unit,
            Pace::Parts => now + unit / r.range(2, 4) + r.below(2),
            Pace::Irregular => now + r.below(3 * unit + 1),
            Pace::Aimed => {
                let last = self.last.unwrap_or(now);
                self.ends.retain(|e| *e + 1 >= now);
                let n = self.ends.len() as u64;
                let at = match r.below(6) {
                    0 => last + unit / 2,
                    1 => last + unit,
                    2 => last + unit * 2,
                    _ if n > 0 => self.ends[r.below(n) as usize],
                    _ => last + unit / 2,
                };
                at.saturating_add_signed(r.of(&[-1, 0, 0, 1]))
            }
            Pace::Leaps => now + (r.next() >> r.range(25, 60)),
            Pace::Still => now,
        };
        self.now = to.clamp(now, LIMIT.max(now));
    }

    fn rounds(&mut self, count: u64, calls: u64) {
        let most = match self.kind {
            Kind::Turns => Pace::Regular,
            Kind::Graces => self.r.of(&[Pace::Aimed, Pace::Aimed, Pace::Parts, Pace::Irregular]),
            Kind::Long => self.r.of(&[Pace::Regular, Pace::Regular, Pace::Parts, Pace::Irregular]),
            _ => self.r.of(&[Pace::Regular, Pace::Parts, Pace::Irregular, Pace::Aimed, Pace::Leaps]),
        };
        let other = match self.kind {
            Kind::Turns | Kind::Long => self.r.of(&[0, 0, 30]),
            _ => 200,
        };
        for _ in 0..count {
            while self.r.chance(calls) {
                self.call();
                if self.r.chance(100) {
                    self.go_on(Pace::Irregular);
                }
            }
            self.round();
            let all = [Pace::Regular, Pace::Parts, Pace::Irregular, Pace::Aimed, Pace::Still];
            let pace = if self.r.chance(other) { self.r.of(&all) } else { most };
            self.go_on(pace);
        }
    }

    /// A tier for most of the tags, in random order.
    fn fill(&mut self) {
        let n = self.tiers.len();
        let mut tags: Vec<usize> = (0..n).collect();
        for i in (1..n).rev() {
            tags.swap(i, self.r.below(i as u64 + 1) as usize);
        }
        let (from, some) = match self.kind {
            Kind::Turns => (vec![2], 1000),
            _ => {
                let mixes: [&[u64]; 5] = [&[1], &[2], &[1, 2], &[1, 2, 3], &[1, 1, 1, 2, 2, 3, 0]];
                let mix = self.r.of(&mixes);
                (mix.to_vec(), self.r.of(&[1000, 900, 500]))
            }
        };
        for tag in tags {
            if self.r.chance(some) {
                let tier = self.r.of(&from);
                self.set(tag, tier);
            }
        }
    }

    fn good(&mut self) {
        self.options();
        let r = &mut self.r;
        let count = match self.kind {
            Kind::Small | Kind::Tiny => r.range(1, 6),
            Kind::Mid => r.range(5, 40),
            Kind::Full => r.of(&[120, 119, r.clone().range(100, 120)]),
            Kind::Turns => r.of(&[120, 120, r.clone().range(1, 120)]),
            Kind::Graces => r.range(1, 12),
            Kind::Edges => r.of(&[1, 2, 9, 120]),
            Kind::Noise | Kind::Long => r.range(1, 120),
        };
        self.names(count);
        if self.kind == Kind::Edges {
            let before = self.unit() * self.r.range(0, 20) + self.r.below(3);
            self.now = self.r.of(&[0, 0, 1, LIMIT - before.min(LIMIT), LIMIT - 1, LIMIT]);
        } else if self.r.chance(300) {
            self.now = self.r.next() >> self.r.range(25, 60);
        }
        if self.r.chance(850) {
            self.fill();
        }
        let r = &mut self.r;
        match self.kind {
            Kind::Tiny => {
                let n = r.below(4);
                self.rounds(n, 300);
                let n = self.r.below(self.lines.len() as u64 + 1) as usize;
                self.lines.truncate(n);
            }
            Kind::Long => {
                let calls = r.of(&[0, 0, 10, 300]);
                let n = r.range(70_000, 100_000);
                self.rounds(n, calls);
            }
            Kind::Turns => {
                let n = if r.chance(100) { r.range(300, 900) } else { r.range(20, 150) };
                let calls = r.of(&[0, 0, 20, 100]);
                self.rounds(n, calls);
            }
            Kind::Graces => {
                let n = r.range(20, 100);
                let calls = r.of(&[300, 500, 700]);
                self.rounds(n, calls);
            }
            _ => {
                let n = r.range(1, 60);
                let calls = r.of(&[0, 100, 300, 600, 850]);
                self.rounds(n, calls);
            }
        }
    }

    /// Lines of no plan, some of them good.
    fn noise(&mut self) {
        let r = &mut self.r;
        let letters: &[&[u8]] = &[
            b"0123456789 \nonsc",
            b"\n",
            b"\n\n\n o",
            b"osnc 01\n",
            b" ",
            b"\0\t\r\n o",
            &[0, 9, 10, 13, 32, 111, 127, 128, 195, 169, 255],
        ];
        let letters = r.of(letters);
        let n = r.range(0, 300);
        let all: Vec<u8> = if r.chance(300) {
            (0..n).map(|_| r.next() as u8).collect()
        } else {
            (0..n).map(|_| r.of(letters)).collect()
        };
        self.lines.extend(all.split(|b| *b == b'\n').map(<[u8]>::to_vec));
    }
}

// ------------------------------------------------------------------------------------------ damage

/// Numbers that are none, and such as would pass for others where digits are lost.
fn odd_number(r: &mut Rng, old: &str) -> String {
    let n: u128 = old.parse().unwrap_or(0);
    match r.below(26) {
        0 | 1 => String::new(),
        2 => format!("{n:016}"),
        3 => format!("{n:0width$}", width = r.range(17, 40) as usize),
        4 => "9".repeat(r.range(14, 17) as usize),
        5 => (n + (1 << 64)).to_string(),
        6 => (n + (1 << 32)).to_string(),
        7 => (n + (1 << 16)).to_string(),
        8 => (n + 256).to_string(),
        9 => format!("-{n}"),
        10 => format!("+{n}"),
        11 => format!("{n}.0"),
        12 => format!("{n}e0"),
        13 => format!("0x{n}"),
        14 => format!("{n}_"),
        15 => format!("\u{661}{n}"),
        16 => format!("{n}{}", r.of(&["a", "/", ":", ";", "\0", "\x0b", "\u{7f}", "\u{a0}"])),
        17 => format!("{}{n}", r.of(&["a", "/", ":", "\0", "'"])),
        18 => (n + 10u128.pow(15)).to_string(),
        19 => (10u128.pow(15) - 1).to_string(),
        20 => format!("\t{n}"),
        21 => format!("{n:015}"),
        22 => "0".repeat(r.range(1, 16) as usize),
        // what stands beside the digits
        23 | 24 => {
            let mut digits = old.as_bytes().to_vec();
            let k = r.below(digits.len() as u64 + 1) as usize;
            digits.insert(k, r.of(b"/:"));
            String::from_utf8_lossy(&digits).into_owned()
        }
        _ => n.wrapping_sub(1).to_string(),
    }
}

/// A number within the form, and at or over the edge of what is accepted.
fn edge_number(r: &mut Rng, letter: u8, field: usize, tags: u64) -> u64 {
    match (letter, field) {
        (b'o', 1) => r.of(&[HOUR, HOUR + 1, HOUR + 1, HOUR * 1000, 0, 1, 999_999_999_999_999]),
        (b'o', _) => r.of(&[DAY, DAY + 1, DAY + 1, DAY * 1000, 0, 1, 999_999_999_999_999]),
        (b's', 2) => r.of(&[tags, tags, tags + 1, tags.saturating_sub(1), 119, 120, 255, 256, 65535, 65536, 1 << 32]),
        (b's', 3) => r.of(&[4, 4, 5, 3, 0, 255, 256, 257, 258, 65536, 65537, (1 << 32) + 1]),
        _ => r.of(&[LIMIT, LIMIT + 1, LIMIT + 1, LIMIT - 1, LIMIT * 2, 999_999_999_999_999, 0]),
    }
}

/// A name that is none, or like another.
fn odd_name(r: &mut Rng, mut name: Vec<u8>) -> Vec<u8> {
    match r.below(10) {
        0 => Vec::new(),
        1 => vec![b'x'; 41],
        2 => [&name[..], &b"~".repeat(41 - name.len().min(40))].concat(),
        3 | 4 => beside(r, &name),
        _ => {
            let odd: &[&[u8]] = &[b"!", b"~", b" ", b"\x1f", b"\x7f", b"\x7f", b"\0", b"\t", b"\r", b"\x80", b"\xff"];
            let odd = if r.chance(200) { r.of(&["\u{e9}", "\u{80}", "\u{10348}"]).as_bytes() } else { r.of(odd) };
            let k = r.below(name.len() as u64 + 1) as usize;
            name.splice(k..k, odd.iter().copied());
            name
        }
    }
}

/// A length at which room may run out.
fn a_length(r: &mut Rng) -> usize {
    match r.below(8) {
        0 => 100_000,
        1 => r.range(4090, 4100) as usize,
        2 => r.range(250, 260) as usize,
        3 => r.range(126, 130) as usize,
        4 => r.of(&[65_535, 65_536, 65_537, 8192]),
        5 => r.of(&[64, 4096]),
        _ => r.range(43, 67) as usize,
    }
}

fn options_in(line: &[u8]) -> Option<[u64; 3]> {
    let rest = std::str::from_utf8(line).ok()?.strip_prefix("o ")?;
    let numbers: Vec<u64> = rest.split(' ').map_while(|t| t.parse().ok()).collect();
    numbers.try_into().ok()
}

/// One thing wrong, or at least odd. `tags` is how many there are.
fn damage(r: &mut Rng, lines: &mut Vec<Vec<u8>>, tags: u64) {
    if lines.is_empty() {
        lines.push(r.of(&[&b""[..], b" ", b"c 0", b"o 1000 3000 0"]).to_vec());
        return;
    }
    let n = lines.len() as u64;
    let named = |l: &Vec<u8>| l.starts_with(b"n ");
    let first = lines.iter().position(named);
    let names = lines.iter().filter(|l| named(l)).count();
    let calls = (first.unwrap_or(0) + names).min(lines.len() - 1);
    // a name, the options, or most often one of the calls
    let i = match (r.below(10), first) {
        (0, _) => r.below(n) as usize,
        (1, _) => 0,
        (2 | 3, Some(f)) => f + r.below(names as u64) as usize,
        _ => calls + r.below((lines.len() - calls) as u64) as usize,
    };
    let letter = lines[i].first().copied().unwrap_or(0);
    match r.below(20) {
        _ if letter == b'n' && r.chance(700) => {
            let name = lines[i][lines[i].len().min(2)..].to_vec();
            lines[i].truncate(2);
            let more = odd_name(r, name);
            lines[i].extend(more);
        }
        _ if letter != b'n' && r.chance(400) => {
            let text = String::from_utf8_lossy(&lines[i]).into_owned();
            let mut fields: Vec<String> = text.split(' ').map(str::to_owned).collect();
            let k = r.below(fields.len() as u64) as usize;
            fields[k] = match (k, r.below(2)) {
                (0, 0) => r.of(&["", "C", "S", "O", "N", "x", "cc", "c\0", "o", "n", "s", "c", "\u{feff}c"]).to_owned(),
                (0, _) => fields[k].clone() + r.of(&[" ", "\t", "  ", ""]),
                (_, 0) => edge_number(r, letter, k, tags).to_string(),
                _ => odd_number(r, &fields[k]),
            };
            lines[i] = fields.join(" ").into_bytes();
        }
        // in the bytes
        0 => {
            let k = r.below(lines[i].len() as u64 + 1) as usize;
            lines[i].insert(k, r.of(&[0, 9, 13, 32, 32, 48, 127, 128, 255]));
        }
        1 if !lines[i].is_empty() => {
            let k = r.below(lines[i].len() as u64) as usize;
            lines[i][k] = if r.chance(500) { r.next() as u8 } else { lines[i][k] ^ (1 << r.below(8)) };
        }
        2 if !lines[i].is_empty() => {
            let k = r.below(lines[i].len() as u64) as usize;
            lines[i].remove(k);
        }
        3 => lines[i].push(b'\r'),
        4 => lines.iter_mut().for_each(|l| l.push(b'\r')),
        5 => lines[i].push(r.of(b" \t0")),
        6 => {
            for b in &mut lines[i] {
                if *b == b' ' {
                    *b = b'\t';
                }
            }
        }
        // too long: a line that is good as far as it goes, or from some place on
        7 => {
            let length = a_length(r);
            let fill = r.of(b"0x 9.");
            if let Some([a, b, c]) = options_in(&lines[i]) {
                lines[i] = format!("o {a:015} {b:015} {c:015}").into_bytes();
            }
            let length = length.max(lines[i].len() + 1);
            lines[i].resize(length, fill);
        }
        8 => {
            let length = a_length(r) + r.of(&[0, lines[i].len()]);
            let fill = vec![r.of(b"0x 9."); length.saturating_sub(lines[i].len())];
            lines[i].splice(0..0, fill);
        }
        // in the lines
        9 => lines.insert(i, Vec::new()),
        10 => {
            lines.remove(i);
        }
        11 => {
            let again = lines[i].clone();
            lines.insert(i, again);
        }
        12 => {
            let k = r.below(n) as usize;
            lines.swap(i, k);
        }
        13 => lines.insert(i, r.of(&[&b"o 1000 3000 0"[..], b"o 0 0 0", b"o 1000 3000"]).to_vec()),
        14 => lines.insert(i, b"n ~~~~".to_vec()),
        15 => {
            let at = r.below(calls as u64 + 1) as usize;
            lines.insert(at, r.of(&[&b"c 0"[..], b"s 0 0 1"]).to_vec());
        }
        // more than 120 names
        16 => {
            let more = (119..125).map(|k| format!("n ~~~~~{k:03}").into_bytes());
            let at = calls.max(1);
            let left = 121usize.saturating_sub(names).clamp(1, 6);
            lines.splice(at..at, more.take(left));
        }
        17 => {
            let mut text = lines.join(&b'\n');
            text.truncate(r.below(text.len() as u64 + 1) as usize);
            *lines = text.split(|b| *b == b'\n').map(<[u8]>::to_vec).collect();
        }
        18 => {
            let extra = r.range(0, 40);
            lines.push((0..extra).map(|_| r.next() as u8).collect());
        }
        // back in time
        _ => {
            if let Some(k) = lines.iter().rposition(|l| l.starts_with(b"c ")) {
                let text = String::from_utf8_lossy(&lines[k][2..]).into_owned();
                let back = text.parse::<u64>().unwrap_or(1).saturating_sub(r.of(&[1, 1, 1000]));
                lines.insert(k + 1, format!("c {back}").into_bytes());
            }
        }
    }
}

/// The input of a seed, and what it was to be like.
pub(super) fn an_input(seed: u64) -> (Vec<u8>, Kind) {
    let mut r = Rng::new(seed);
    let k = r.below(1000);
    let kind = KINDS.iter().find(|(below, _)| k < *below).expect("a kind").1;
    let zeros = r.of(&[0, 0, 0, 50, 500]);
    let damages = match kind {
        Kind::Long => r.of(&[0, 0, 1]),
        _ => r.of(&[0, 0, 0, 0, 1, 1, 1, 1, 2, 3]),
    };
    let mut m = Making {
        r,
        lines: Vec::new(),
        kind,
        cycle: 0,
        grace: 0,
        now: 0,
        last: None,
        tiers: Vec::new(),
        ends: Vec::new(),
        zeros,
    };
    if kind == Kind::Noise {
        m.noise();
    } else {
        m.good();
    }
    let Making { mut r, mut lines, tiers, .. } = m;
    for _ in 0..damages {
        damage(&mut r, &mut lines, tiers.len() as u64);
    }
    let mut text = lines.join(&b'\n');
    if !lines.is_empty() && !r.chance(60) {
        text.push(b'\n');
    }
    (text, kind)
}
