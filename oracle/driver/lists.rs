//! Document 01's round lister on the Rust's `set_tier` and `cycle_tags` (`oracle lister`), and a program held to it
//! (`oracle lists SEED COUNT PROGRAM`): random inputs, good and damaged, each given to a fresh process of the program,
//! what it prints compared byte for byte.

use super::generate::Rng;
use super::inputs::{Kind, an_input};
use super::*;
use std::io::Read as _;
use std::os::fd::AsRawFd as _;
use std::process::{Child, ChildStdin, Command, ExitStatus, Stdio};
use std::sync::mpsc;
use std::thread;

// ------------------------------------------------------------------------------------------ the lister

const HEADER: &str = "ms b n tags\n";

/// Where a listing ends; `Refused` has document 01's number of the check.
#[derive(Clone, Copy, PartialEq, Eq, PartialOrd, Ord, Debug)]
enum End {
    Whole,
    NoFeed,
    NotText,
    Form,
    OutOfPlace,
    Refused(u8),
}

impl End {
    fn text(self) -> String {
        let refused = |n: u8| match n {
            1 => "no name or too many",
            2 => "length of a name",
            3 => "byte of a name",
            4 => "name not above the last",
            11 => "cycle",
            12 => "period",
            13 => "grace",
            21 => "time above the limit",
            22 => "time below the last",
            23 => "tag",
            _ => "tier",
        };
        match self {
            End::Whole => "the end of the input".into(),
            End::NoFeed => "last line without its line feed".into(),
            End::NotText => "bytes that are no text".into(),
            End::Form => "line of another form".into(),
            End::OutOfPlace => "line out of its place".into(),
            End::Refused(n) => format!("refused {n}, {}", refused(n)),
        }
    }
}

/// What listings met.
#[derive(Default)]
struct Met {
    /// Inputs with a round.
    inputs: u64,
    /// Lines taken.
    lines: u64,
    rounds: u64,
    boundaries: u64,
    /// Tags listed.
    tags: u64,
    graces: u64,
    new: u64,
    /// Of the new tags, those at rounds that are no boundary.
    new_between: u64,
}

/// `oracle lister`.
pub(super) fn lister() {
    let mut text = Vec::new();
    std::io::stdin().lock().read_to_end(&mut text).expect("input");
    let _ = std::io::stdout().write_all(listed(&text).as_bytes());
}

/// What the lister prints.
pub(super) fn listed(text: &[u8]) -> String {
    expected(text, &mut Met::default()).0
}

fn expected(text: &[u8], met: &mut Met) -> (String, End) {
    let mut out = String::from(HEADER);
    let end = list_rounds(text, &mut out, met);
    met.inputs += u64::from(out.len() > HEADER.len());
    (out, end.err().unwrap_or(End::Whole))
}

fn list_rounds(text: &[u8], out: &mut String, met: &mut Met) -> Result<(), End> {
    fn number(t: &str) -> Result<u64, End> {
        let good = (1..=15).contains(&t.len()) && t.bytes().all(|b| b.is_ascii_digit());
        good.then(|| t.parse().ok()).flatten().ok_or(End::Form)
    }
    fn seconds(t: &str) -> Result<f64, End> {
        Ok(number(t)? as f64 / 1000.0)
    }
    fn time(ms: u64, last: f64) -> Result<f64, End> {
        let now = ms as f64 / 1000.0;
        if now > CLOCK_LIMIT {
            return Err(End::Refused(21));
        }
        if now < last {
            return Err(End::Refused(22));
        }
        Ok(now)
    }
    let mut options: Option<(f64, f64, f64)> = None;
    let mut names: Vec<String> = Vec::new();
    let mut worker: Option<Arc<PlcWorker>> = None;
    let mut last = 0.0f64;
    for line in text.split_inclusive(|b| *b == b'\n') {
        let line = line.strip_suffix(b"\n").ok_or(End::NoFeed)?; // a line without its feed is of another form
        let line = std::str::from_utf8(line).map_err(|_| End::NotText)?;
        let words: Vec<&str> = line.split(' ').collect();
        match words[..] {
            ["o", c, p, g] => {
                let (c, p, g) = (seconds(c)?, seconds(p)?, seconds(g)?);
                if options.is_some() {
                    return Err(End::OutOfPlace);
                }
                if !(c == 0.0 || (0.001..=3600.0).contains(&c)) {
                    return Err(End::Refused(11));
                }
                if p > 86400.0 {
                    return Err(End::Refused(12));
                }
                if g > 86400.0 {
                    return Err(End::Refused(13));
                }
                options = Some((c, p, g));
            }
            ["n", name] => {
                if options.is_none() || worker.is_some() {
                    return Err(End::OutOfPlace);
                }
                if names.len() >= 120 {
                    return Err(End::Refused(1));
                }
                if !(1..=40).contains(&name.len()) {
                    return Err(End::Refused(2));
                }
                if !name.bytes().all(|b| (33..=126).contains(&b)) {
                    return Err(End::Refused(3));
                }
                if names.last().is_some_and(|l| l.as_str() >= name) {
                    return Err(End::Refused(4));
                }
                names.push(name.to_owned());
            }
            ["s", ms, ref rest @ ..] | ["c", ms, ref rest @ ..] => {
                let ms = number(ms)?;
                let call = match (words[0], rest) {
                    ("s", [tag, tier]) => Some((number(tag)?, number(tier)?)),
                    ("c", []) => None,
                    _ => return Err(End::Form),
                };
                let (c, p, g) = options.ok_or(End::OutOfPlace)?;
                if names.is_empty() {
                    return Err(End::Refused(1));
                }
                let w = worker.get_or_insert_with(|| make(&plain(&names, c, p, g)));
                let now = time(ms, last)?;
                if let Some((tag, tier)) = call {
                    let name = names.get(tag as usize).ok_or(End::Refused(23))?;
                    if tier > 3 {
                        return Err(End::Refused(24));
                    }
                    last = now;
                    CLOCK.store(now.to_bits(), Ordering::Relaxed);
                    w.set_tier(name, (tier > 0).then_some(tier as u8));
                } else {
                    last = now;
                    CLOCK.store(now.to_bits(), Ordering::Relaxed);
                    let mut inner = lock(&w.shared.inner);
                    let (graces, new) = (inner.grace.len(), inner.new_tier2.len());
                    let (tags, _, boundary) = w.shared.cycle_tags(&mut inner, now);
                    met.rounds += 1;
                    met.boundaries += u64::from(boundary);
                    met.tags += tags.len() as u64;
                    met.graces += (graces - inner.grace.len()) as u64;
                    met.new += new as u64;
                    met.new_between += if boundary { 0 } else { new as u64 };
                    let _ = write!(out, "{ms} {} {}", u8::from(boundary), tags.len());
                    for tag in tags {
                        let at = names.binary_search(&tag).expect("a tag");
                        let _ = write!(out, " {at}");
                    }
                    out.push('\n');
                }
            }
            _ => return Err(End::Form),
        }
        met.lines += 1;
    }
    Ok(())
}

// ------------------------------------------------------------------------------------------ the program

/// After this long without an end of its output a program is stopped.
const PATIENCE: Duration = Duration::from_secs(60);

const UNENDED: &str = "it did not end";

unsafe extern "C" {
    fn ioctl(fd: i32, request: u64, ...) -> i32;
}

const FIONREAD: u64 = 0x541b;

/// Hands an input over, whole or, with a seed, in random pieces, each after the last was read (or a while has passed);
/// how many pieces.
fn hand_over(mut to: ChildStdin, input: &[u8], pieces: Option<u64>) -> u64 {
    let Some(seed) = pieces else {
        let _ = to.write_all(input);
        return 0;
    };
    let mut r = Rng::new(seed);
    let longest = r.of(&[1, 3, 20, 64, 300, 4096, 5000]);
    let (mut from, mut count) = (0, 0);
    while from < input.len() {
        let n = if count < 2000 { r.range(1, longest) as usize } else { input.len() };
        let end = (from + n).min(input.len());
        if to.write_all(&input[from..end]).is_err() {
            break; // it reads no more
        }
        (from, count) = (end, count + 1);
        for _ in 0..2000 {
            let mut left = 0i32;
            if unsafe { ioctl(to.as_raw_fd(), FIONREAD, &mut left) } != 0 || left == 0 {
                break;
            }
            thread::yield_now();
        }
    }
    count
}

fn ended(child: &mut Child) -> Option<ExitStatus> {
    let begun = Instant::now();
    for k in 0.. {
        if let Ok(Some(status)) = child.try_wait() {
            return Some(status);
        }
        if begun.elapsed() > PATIENCE {
            break;
        }
        if k < 100 { thread::yield_now() } else { thread::sleep(Duration::from_micros(100)) }
    }
    None
}

/// What a program prints on an input; how it ends, where not as it should; in how many pieces it read.
fn printed(program: &str, input: &Arc<Vec<u8>>, pieces: Option<u64>) -> (Vec<u8>, Option<String>, u64) {
    let mut command = Command::new(program);
    command.stdin(Stdio::piped()).stdout(Stdio::piped()).stderr(Stdio::null());
    let mut child = command.spawn().unwrap_or_else(|e| {
        eprintln!("{program}: {e}");
        std::process::exit(2);
    });
    let to = child.stdin.take().expect("a pipe");
    let mut from = child.stdout.take().expect("a pipe");
    let text = Arc::clone(input);
    let writer = thread::spawn(move || hand_over(to, &text, pieces));
    let (out, got) = mpsc::channel();
    thread::spawn(move || {
        let mut all = Vec::new();
        let _ = from.read_to_end(&mut all);
        let _ = out.send(all);
    });
    let out = got.recv_timeout(PATIENCE);
    let status = if out.is_ok() { ended(&mut child) } else { None };
    let wrong = match status {
        Some(s) if s.success() => None,
        Some(s) => Some(format!("it ended with {s}")),
        None => {
            let _ = child.kill();
            let _ = child.wait();
            return (out.unwrap_or_default(), Some(UNENDED.into()), 0);
        }
    };
    (out.unwrap_or_default(), wrong, writer.join().unwrap_or(0))
}

// ------------------------------------------------------------------------------------------ the comparison

struct Difference {
    want: String,
    got: Vec<u8>,
    wrong: Option<String>,
}

impl Difference {
    fn say(&self) {
        let want: Vec<&[u8]> = self.want.as_bytes().split_inclusive(|b| *b == b'\n').collect();
        let got: Vec<&[u8]> = self.got.split_inclusive(|b| *b == b'\n').collect();
        let at = want.iter().zip(&got).take_while(|(w, g)| w == g).count();
        let line = |all: &[&[u8]]| all.get(at).map_or("nothing".into(), |l| cut(l));
        if at < want.len() || at < got.len() {
            println!(
                "    line {} of what is printed\n        Rust:    {}\n        program: {}",
                at + 1,
                line(&want),
                line(&got)
            );
        }
        if let Some(wrong) = &self.wrong {
            println!("    {wrong}");
        }
    }
}

fn cut(line: &[u8]) -> String {
    let text = line[..line.len().min(300)].escape_ascii();
    if line.len() > 300 { format!("{text}.. ({} bytes)", line.len()) } else { text.to_string() }
}

fn difference(program: &str, input: &Arc<Vec<u8>>, pieces: Option<u64>) -> Option<Difference> {
    let (want, _) = expected(input, &mut Met::default());
    let (got, wrong, _) = printed(program, input, pieces);
    (got != want.as_bytes() || wrong.is_some()).then_some(Difference { want, got, wrong })
}

/// The lines without some names and their calls, the tags behind them renumbered.
fn without_names(lines: &[Vec<u8>], from: u64, to: u64) -> Vec<Vec<u8>> {
    let mut names = 0;
    let kept = lines.iter().filter_map(|line| {
        if line.starts_with(b"n ") {
            names += 1;
            return (names <= from || names > to).then(|| line.clone());
        }
        let text = std::str::from_utf8(line).unwrap_or("");
        let words: Vec<&str> = text.trim_end().split(' ').collect();
        match words[..] {
            ["s", at, tag, tier] => match tag.parse::<u64>() {
                Ok(t) if t >= to => Some(format!("s {at} {} {tier}\n", t - (to - from)).into_bytes()),
                Ok(t) if t >= from => None,
                _ => Some(line.clone()),
            },
            _ => Some(line.clone()),
        }
    });
    kept.collect()
}

/// Fewer lines that still differ.
fn shrunken(program: &str, input: &[u8], pieces: Option<u64>) -> Arc<Vec<u8>> {
    let begun = Instant::now();
    let mut lines: Vec<Vec<u8>> = input.split_inclusive(|b| *b == b'\n').map(<[u8]>::to_vec).collect();
    // by turns runs of lines and runs of names, ever shorter ones
    let mut size = lines.len().div_ceil(2);
    while size > 0 {
        let mut dropped = false;
        for names in [false, true] {
            let mut i = 0;
            while begun.elapsed().as_secs() < 60 {
                let count = if names { lines.iter().filter(|l| l.starts_with(b"n ")).count() } else { lines.len() };
                if i >= count {
                    break;
                }
                let end = (i + size).min(count);
                let less = match names {
                    true => without_names(&lines, i as u64, end as u64),
                    false => [&lines[..i], &lines[end..]].concat(),
                };
                if difference(program, &Arc::new(less.concat()), pieces).is_some() {
                    (lines, dropped) = (less, true);
                } else {
                    i = end;
                }
            }
        }
        size = if size == 1 { usize::from(dropped) } else { size.div_ceil(2) };
    }
    Arc::new(lines.concat())
}

/// `oracle lists SEED`: the input of a seed.
pub(super) fn show(seed: u64) {
    let _ = std::io::stdout().write_all(&an_input(seed).0);
}

/// `oracle lists SEED COUNT PROGRAM`.
pub(super) fn run(first: u64, count: u64, program: &str) {
    let begun = Instant::now();
    let mut met = Met::default();
    let mut kinds: BTreeMap<Kind, u64> = BTreeMap::new();
    let mut ends: BTreeMap<End, u64> = BTreeMap::new();
    let (mut bytes, mut longest, mut answers) = (0u64, 0u64, 0u64);
    let (mut in_pieces, mut pieces) = (0u64, 0u64);
    let (mut differ, mut unended) = (0u64, 0);
    for seed in first..first + count {
        let (input, kind) = an_input(seed);
        let length = input.len() as u64;
        let input = Arc::new(input);
        let how = (seed % 3 == 0).then_some(seed);
        let (want, end) = expected(&input, &mut met);
        let (got, wrong, read) = printed(program, &input, how);
        *kinds.entry(kind).or_default() += 1;
        *ends.entry(end).or_default() += 1;
        (bytes, longest, answers) = (bytes + length, longest.max(length), answers + want.len() as u64);
        (in_pieces, pieces) = (in_pieces + u64::from(read > 0), pieces + read);
        if got == want.as_bytes() && wrong.is_none() {
            continue;
        }
        differ += 1;
        unended += u64::from(wrong.as_deref() == Some(UNENDED));
        if unended > 2 {
            println!("seed {seed}: for the third time it did not end; no more are tried");
            std::process::exit(1);
        }
        if differ > 10 {
            continue;
        }
        let manner = if how.is_some() { ", in pieces" } else { "" };
        println!("seed {seed} differs ({kind:?}, {length} bytes{manner})");
        if differ == 1 {
            Difference { want, got, wrong }.say();
            let less = shrunken(program, &input, how);
            let lines: Vec<&[u8]> = less.split_inclusive(|b| *b == b'\n').collect();
            println!("    shrunken to {} lines:", lines.len());
            lines.iter().take(200).for_each(|l| println!("        {}", cut(l)));
            if let Some(d) = difference(program, &less, how) {
                d.say();
            }
        }
    }
    let kinds: Vec<String> = kinds.iter().map(|(k, n)| format!("{k:?} {n}").to_lowercase()).collect();
    println!("inputs: {}", kinds.join(", "));
    println!(
        "    {bytes} bytes, the longest {longest}; {in_pieces} in pieces, {pieces} of these; {answers} bytes expected"
    );
    println!("they end at");
    for (end, n) in &ends {
        println!("{n:>9} {}", end.text());
    }
    println!("met");
    for (n, what) in [
        (met.inputs, "inputs with a round"),
        (met.lines, "lines taken"),
        (met.rounds, "rounds"),
        (met.boundaries, "of them boundaries"),
        (met.tags, "tags listed"),
        (met.graces, "graces run out"),
        (met.new, "tags new in tier 2"),
        (met.new_between, "of them between boundaries"),
    ] {
        println!("{n:>9} {what}");
    }
    println!("{count} inputs, {differ} differ, {:.1} s", begun.elapsed().as_secs_f64());
    if differ > 0 {
        std::process::exit(1);
    }
}
