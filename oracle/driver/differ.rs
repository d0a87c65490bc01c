//! The exported functions under the oracle's histories. `oracle port` traces a history through them; `oracle differ` generates
//! histories, compares the two traces line by line, counts what was met, and makes the first that differs as small as it
//! can. Answers and calls go through the wrapper in host/, so that is compared too. Each call that is refused, and each
//! look, must leave every byte of the engine as it was.

use super::*;
use wordzike::{self as wz, Engine, Event as Told, Outcome, Quality, Reply, Request, State};

/// What the engine waits for, as crates/heads numbers it, and the reply that comes with it.
const PHASES: [(&str, &str); 25] = [
    ("Begin", ""),
    ("Connect", "connect"),
    ("OpenVersion", "version"),
    ("Version", "version"),
    ("Read", "read"),
    ("Describe", "describe"),
    ("Write", "write"),
    ("ReadBack", "readback"),
    ("Wait", "wait"),
    ("Backoff", "wait"),
    ("OpenFailedTold", "event failed"),
    ("OpenMetaTold", "event meta"),
    ("ConnectedTold", "event status connected"),
    ("MetaTold", "event meta"),
    ("ValuesTold", "event values"),
    ("InfoTold", "event info"),
    ("RefusedTold", "event outcome"),
    ("LostTold", "event outcome"),
    ("OutcomeTold", "event outcome"),
    ("BackTold", "event values"),
    ("FailedTold", "event failed"),
    ("StaleTold", "event values"),
    ("DisconnectedTold", "event status disconnected"),
    ("ConnectingTold", "event status connecting"),
    ("Stopped", "stopped"),
];
/// The cell of the head that has it.
const PHASE_CELL: usize = 13;
const CALLS: [&str; 6] = ["tier", "load", "write", "stop", "look", "answer"];

// ------------------------------------------------------------------------------------------ the oracle's types and the wrapper's

impl From<Val> for wz::Value {
    fn from(v: Val) -> wz::Value {
        match v {
            Val::Null => wz::Value::Null,
            Val::Bool(b) => wz::Value::Bool(b),
            Val::Int(i) => wz::Value::Int(i),
            Val::Float(f) => wz::Value::Float(f),
        }
    }
}

impl From<wz::Value> for Val {
    fn from(v: wz::Value) -> Val {
        match v {
            wz::Value::Null => Val::Null,
            wz::Value::Bool(b) => Val::Bool(b),
            wz::Value::Int(i) => Val::Int(i),
            wz::Value::Float(f) => Val::Float(f),
            v => panic!("histories have no value {v:?}"),
        }
    }
}

impl From<Er> for wz::Error {
    fn from(e: Er) -> wz::Error {
        let kind = match e.kind {
            0 => wz::ErrorKind::NotFound,
            1 => wz::ErrorKind::Access,
            k => wz::ErrorKind::Other((k - 2) as u16),
        };
        wz::Error { kind, message: e.message }
    }
}

impl From<wz::Error> for Er {
    fn from(e: wz::Error) -> Er {
        let kind = match e.kind {
            wz::ErrorKind::NotFound => 0,
            wz::ErrorKind::Access => 1,
            wz::ErrorKind::Other(code) => u32::from(code) + 2,
        };
        Er { kind, message: e.message }
    }
}

/// A number that is out of range stays so.
fn narrow(n: u64) -> u32 {
    n.try_into().unwrap_or(u32::MAX)
}

fn group_of((number, rate): (u64, u64)) -> wz::Group {
    wz::Group { number: narrow(number), rate: narrow(rate) }
}

fn setting_of(s: &Setting) -> wz::Setting {
    wz::Setting { deadband: s.band.unwrap_or(0.0), group: s.group.map(group_of), described: s.description }
}

fn result_of(r: &Res) -> Result<wz::Value, wz::Error> {
    match *r {
        Res::Val(v) => Ok(v.into()),
        Res::Err(e) => Err(e.into()),
    }
}

fn value_text(v: wz::Value) -> String {
    Val::from(v).text()
}

fn error_text(e: wz::Error) -> String {
    Er::from(e).text()
}

fn state_text(s: State) -> &'static str {
    match s {
        State::Connecting => "connecting",
        State::Connected => "connected",
        State::Disconnected => "disconnected",
        State::Stopped => "stopped",
    }
}

fn told_entry(e: &wz::Entry) -> String {
    let quality = match e.quality {
        Quality::Good => "good",
        Quality::Bad => "bad",
        Quality::Missing => "missing",
        Quality::Stale => "stale",
        q => panic!("histories have no quality {q:?}"),
    };
    format!("{},{quality},{},{}", value_text(e.value), e.time, e.error.map_or("-".into(), error_text))
}

fn tags_text(tags: &[u32]) -> String {
    tags.iter().map(|t| format!(" {t}")).collect()
}

fn reply_text(reply: &Reply) -> String {
    match reply {
        Reply::Request(Request::Connect) => "connect".into(),
        Reply::Request(Request::Version) => "version".into(),
        Reply::Request(Request::Read(tags)) => format!("read{}", tags_text(tags)),
        Reply::Request(Request::Write(tag, value)) => format!("write {tag} {}", value_text(*value)),
        Reply::Request(Request::ReadBack(tags)) => format!("readback{}", tags_text(tags)),
        Reply::Request(Request::Describe(tags)) => format!("describe{}", tags_text(tags)),
        Reply::Request(Request::Wait(seconds)) => format!("wait {}", hex(*seconds)),
        Reply::Event(Told::Values(changes)) => {
            changes.iter().fold("event values".into(), |t, (tag, e)| format!("{t} {tag},{}", told_entry(e)))
        }
        Reply::Event(Told::Status(state)) => format!("event status {}", state_text(*state)),
        Reply::Event(Told::Meta) => "event meta".into(),
        Reply::Event(Told::Info(tags)) => format!("event info{}", tags_text(tags)),
        Reply::Event(Told::Outcome(tag, Outcome::Written(v))) => format!("event outcome {tag} ok {}", value_text(*v)),
        Reply::Event(Told::Outcome(tag, Outcome::Refused(e))) => {
            format!("event outcome {tag} error {}", error_text(*e))
        }
        Reply::Event(Told::Outcome(tag, Outcome::Lost)) => format!("event outcome {tag} comm lost"),
        Reply::Event(Told::Outcome(_, outcome)) => panic!("histories have no outcome {outcome:?}"),
        Reply::Event(Told::Failed(tags)) => format!("event failed disconnected{}", tags_text(tags)),
        Reply::Event(Told::Stopped(tags)) => format!("stopped{}", tags_text(tags)),
    }
}

// ------------------------------------------------------------------------------------------ what was met

#[derive(Default)]
pub(super) struct Met {
    /// How often the engine came to each phase, and the calls that were made there.
    phases: [u64; PHASES.len()],
    calls: [[u64; CALLS.len()]; PHASES.len()],
    refused: BTreeMap<(u64, &'static str), u64>,
    told: BTreeMap<String, u64>,
}

impl Met {
    fn tell(&mut self, what: &str) {
        *self.told.entry(what.into()).or_default() += 1;
    }

    /// The phases that were not come to.
    pub(super) fn not_met(&self) -> Vec<&'static str> {
        let none = PHASES.iter().zip(self.phases).filter(|(_, n)| *n == 0);
        none.map(|((name, _), _)| *name).collect()
    }

    fn print(&self, inside: &BTreeMap<String, u64>) {
        println!("{:<17}{:>10}{}", "phase", "met", CALLS.map(|c| format!("{c:>10}")).concat());
        for (k, (name, _)) in PHASES.iter().enumerate() {
            println!("{name:<17}{:>10}{}", self.phases[k], self.calls[k].map(|n| format!("{n:>10}")).concat());
        }
        for (what, n) in &self.told {
            println!("{n:>10} {what}");
        }
        for ((number, call), n) in &self.refused {
            println!("{n:>10} refused with {number}: {call}");
        }
        for (what, n) in inside.iter().filter(|(what, _)| what.starts_with("met: ")) {
            println!("{n:>10} {}", &what[5..]);
        }
    }
}

// ------------------------------------------------------------------------------------------ a history through the functions

struct Port<'a> {
    engine: Engine,
    tags: usize,
    /// The settings handed in last.
    handed: Vec<wz::Setting>,
    /// The engine before the line.
    before: Vec<u8>,
    out: String,
    met: &'a mut Met,
}

/// The text of a history, traced through the exported functions.
pub(super) fn port_text(text: &str, met: &mut Met) -> String {
    let mut lines = text.lines().map(str::to_owned);
    let head = Head::parse(&mut lines);
    assert!(head.chunk.is_none(), "reads are not cut into runs yet (change request N1)");
    let handed: Vec<wz::Setting> = head.settings.iter().map(setting_of).collect();
    let groups: Vec<wz::Group> = head.groups.iter().copied().map(group_of).collect();
    let options = wz::Options { cycle: head.cycle, period: head.period, grace: head.grace };
    let mut out = head.text();
    let engine = match Engine::new(&head.names, options, &handed, &groups) {
        Ok(engine) => engine,
        Err(refusal) => {
            let _ = writeln!(out, "= refused {}", refusal.number());
            return out;
        }
    };
    let before = engine.memory().to_vec();
    met.phases[0] += 1;
    let mut port = Port { engine, tags: head.names.len(), handed, before, out, met };
    for line in lines.filter(|l| !l.is_empty() && !l.starts_with(['#', '='])) {
        port.line(&line);
    }
    port.out
}

fn phase_in(memory: &[u8]) -> usize {
    let cell = &memory[8 * PHASE_CELL..8 * PHASE_CELL + 8];
    u64::from_le_bytes(cell.try_into().expect("eight bytes")) as usize
}

impl Port<'_> {
    fn phase(&self) -> usize {
        phase_in(self.engine.memory())
    }

    fn say(&mut self, line: &str) {
        let _ = writeln!(self.out, "= {line}");
    }

    fn line(&mut self, line: &str) {
        let _ = writeln!(self.out, "{line}");
        self.before.copy_from_slice(self.engine.memory());
        let words: Vec<&str> = line.split(' ').collect();
        let call = match words[..] {
            ["call", call, ..] => CALLS.iter().copied().find(|c| *c == call).unwrap_or_else(|| bad("call", line)),
            _ => "answer",
        };
        let at = CALLS.iter().position(|c| *c == call).expect("a call");
        self.met.calls[self.phase()][at] += 1;
        let done = match words[..] {
            ["call", "look", ref what @ ..] => return self.look(what),
            ["call", ref rest @ ..] => self.call(rest).map(|()| "ok".to_owned()),
            ["answer", clock, now, ref rest @ ..] => self.answer(unhex(clock), num(now), &Ans::parse(rest)),
            _ => bad("line", line),
        };
        match done {
            Ok(text) => self.say(&text),
            Err(refusal) => self.refused(refusal, call),
        }
    }

    fn refused(&mut self, refusal: wz::Refusal, call: &'static str) {
        *self.met.refused.entry((refusal.number(), call)).or_default() += 1;
        self.say(&format!("refused {}", refusal.number()));
        self.unchanged();
    }

    fn unchanged(&mut self) {
        if self.engine.memory() != self.before {
            self.say("the engine was written to");
        }
    }

    fn call(&mut self, words: &[&str]) -> Result<(), wz::Refusal> {
        match words {
            ["tier", at, tag, tier] => self.engine.set_tier(unhex(at), narrow(num(tag)), narrow(num(tier))),
            ["load", at, bytes] => self.engine.load(unhex(at), &parse_bytes(bytes)),
            ["write", tag, value] => self.engine.write(narrow(num(tag)), Val::parse(value).into()),
            ["stop"] => {
                self.engine.stop();
                Ok(())
            }
            _ => bad("call", &words.join(" ")),
        }
    }

    fn answer(&mut self, clock: f64, now: i64, answer: &Ans) -> Result<String, wz::Refusal> {
        let reply = self.step(clock, now, answer)?;
        let text = reply_text(&reply);
        let (name, with) = PHASES[self.phase()];
        assert!(text.starts_with(with), "phase {name} with {text}: PHASES is not the engine's any more");
        self.met.phases[self.phase()] += 1;
        match &reply {
            Reply::Event(Told::Values(changes)) => {
                for (_, e) in changes {
                    self.met.tell(&format!("{name}: a value {:?}", e.quality));
                }
            }
            Reply::Event(Told::Outcome(_, Outcome::Written(wz::Value::Null))) => {
                self.met.tell("an outcome ok with null")
            }
            Reply::Event(Told::Failed(tags) | Told::Stopped(tags)) => {
                let (from, _) = PHASES[phase_in(&self.before)];
                self.met.tell(&format!("{name} after {from}: {}", some(tags.len())));
            }
            _ => {}
        }
        Ok(text)
    }

    fn step(&mut self, clock: f64, now: i64, answer: &Ans) -> Result<Reply, wz::Refusal> {
        use wz::Answer as To;
        let waited = PHASES[self.phase()].1;
        let named = match answer {
            Ans::Read(_) => "read",
            Ans::Readback(_) => "readback",
            Ans::Write(_) => "write",
            _ => waited,
        };
        let engine = &mut self.engine;
        if named != waited && ["read", "readback", "write"].contains(&waited) {
            // the functions have one kind for results, and one for a loss; here another that isn't waited for stands for it
            return engine.step(clock, now, To::Begin);
        }
        match answer {
            Ans::Begin => engine.step(clock, now, To::Begin),
            Ans::Connect(ok) => engine.step(clock, now, if *ok { To::Opened } else { To::NotOpened }),
            Ans::Version(version, settings) => {
                let handed = settings.as_ref().map(|s| s.iter().map(setting_of).collect());
                let handed = handed.unwrap_or_else(|| self.handed.clone());
                let reply = engine.step(clock, now, To::Version(*version, &handed))?;
                self.handed = handed;
                Ok(reply)
            }
            Ans::Read(Some(results)) | Ans::Readback(Some(results)) => {
                let results: Vec<_> = results.iter().map(result_of).collect();
                engine.step(clock, now, To::Results(&results))
            }
            Ans::Read(None) | Ans::Readback(None) | Ans::Write(Err(())) => engine.step(clock, now, To::Lost),
            Ans::Write(Ok(None)) => engine.step(clock, now, To::Written),
            Ans::Write(Ok(Some(e))) => engine.step(clock, now, To::Refused((*e).into())),
            Ans::Describe(Some(found)) => engine.step(clock, now, To::Descriptions(found)),
            Ans::Describe(None) => engine.step(clock, now, To::NotDescribed),
            Ans::Waited => engine.step(clock, now, To::Waited),
            Ans::Taken => engine.step(clock, now, To::Taken),
        }
    }

    fn look(&mut self, what: &[&str]) {
        match what {
            ["all"] => {
                for one in ["state", "stats", "tiers", "groups", "table", "panel"] {
                    let text = self.look_text(one);
                    self.say(&text);
                }
                for tag in 0..self.tags as u32 {
                    let text = self.tag_text(tag).expect("a tag of the directory");
                    if !text.ends_with(" - - -") {
                        self.say(&text);
                    }
                }
            }
            ["tag", tag] => match self.tag_text(narrow(num(tag))) {
                Ok(text) => self.say(&text),
                Err(refusal) => self.refused(refusal, "look"),
            },
            [one] => {
                let text = self.look_text(one);
                self.say(&text);
            }
            _ => bad("look", &what.join(" ")),
        }
        self.unchanged();
    }

    fn look_text(&self, what: &str) -> String {
        let e = &self.engine;
        match what {
            "state" => {
                let version = e.version().map_or("-".into(), |v| v.to_string());
                format!("state {} version {version}", state_text(e.state()))
            }
            "stats" => {
                let s = e.stats();
                let (ms, ts) = s.round.map_or(("-".into(), "-".into()), |(ms, ts)| (hex(ms), ts.to_string()));
                format!(
                    "stats cycle_ms {ms} ok_ts {ts} reads {} tags {} overruns {} reconnects {} reloads {}",
                    s.reads, s.tags, s.overruns, s.reconnects, s.reloads
                )
            }
            "tiers" => {
                let [one, two, three] = e.tier_counts();
                format!("tiers {one} {two} {three}")
            }
            "groups" => e.group_stats().iter().fold("groups".into(), |t, g| {
                let period = g.period.map_or("-".into(), hex);
                format!("{t} {}:{}:{}:{period}", g.group.number, g.group.rate, g.tags)
            }),
            "table" => e.table().iter().fold("table".into(), |t, (tag, tier)| format!("{t} {tag}:{tier}")),
            "panel" => format!("panel {}", bytes_text(&e.panel())),
            _ => bad("look", what),
        }
    }

    /// The Rust doesn't tell a description not known from one known to be none.
    fn tag_text(&self, tag: u32) -> Result<String, wz::Refusal> {
        let x = self.engine.tag(tag)?;
        let tier = if x.tier == 0 { "-".into() } else { x.tier.to_string() };
        let entry = x.entry.map_or("-".into(), |e| told_entry(&e));
        let description = x.description.flatten().map_or("-".into(), |d| d.to_string());
        Ok(format!("tag {tag} {tier} {entry} {description}"))
    }
}

// ------------------------------------------------------------------------------------------ comparing

/// The first line that differs: its number, the Rust's and ours.
pub(super) fn first_difference(rust: &str, port: &str) -> Option<(usize, String, String)> {
    if rust == port {
        return None;
    }
    let (mut a, mut b) = (rust.lines(), port.lines());
    for number in 1.. {
        let (x, y) = (a.next(), b.next());
        if x != y {
            return Some((number, x.unwrap_or("(none)").into(), y.unwrap_or("(none)").into()));
        }
    }
    unreachable!("texts that differ have a line that does")
}

/// Both traces of a history.
fn both(lines: &[String]) -> (String, String) {
    let text = lines.join("\n");
    (replay_text(&text, false), port_text(&text, &mut Met::default()))
}

fn still(lines: &[String]) -> bool {
    let (rust, port) = both(lines);
    rust != port
}

/// A history as short as it gets by leaving out lines, then tags, then settings. An answer that no longer fits is refused by
/// both, so every choice of lines is a history.
fn shrink(text: &str) -> Vec<String> {
    let mut lines: Vec<String> = text.lines().filter(|l| !l.starts_with('=')).map(str::to_owned).collect();
    let droppable = |l: &String| ["call ", "answer ", "group "].iter().any(|p| l.starts_with(p));
    let mut step = lines.len();
    while step > 0 {
        let mut from = 0;
        let mut shorter = false;
        while from < lines.len() {
            let end = (from + step).min(lines.len());
            let kept = lines.iter().enumerate().filter(|(k, l)| !(from..end).contains(k) || !droppable(l));
            let fewer: Vec<String> = kept.map(|(_, l)| l.clone()).collect();
            if fewer.len() < lines.len() && still(&fewer) {
                lines = fewer;
                shorter = true;
            } else {
                from = end;
            }
        }
        if !(shorter && step == 1) {
            step /= 2;
        }
    }
    while let Some(fewer) = without_last_tag(&lines).filter(|l| still(l)) {
        lines = fewer;
    }
    for k in 0..lines.len() {
        for word in 0..lines[k].split(' ').count() {
            let mut plainer = lines.clone();
            let words = lines[k].split(' ').enumerate();
            let words = words.map(|(i, w)| if i == word && w.matches(',').count() == 2 { "-,-,0" } else { w });
            plainer[k] = words.collect::<Vec<_>>().join(" ");
            if plainer[k] != lines[k] && still(&plainer) {
                lines = plainer;
            }
        }
    }
    lines
}

/// The history without its last name and the settings of it.
fn without_last_tag(lines: &[String]) -> Option<Vec<String>> {
    let last = lines.iter().rposition(|l| l.starts_with("name "))?;
    let count = lines.iter().filter(|l| l.starts_with("name ")).count();
    if count == 1 {
        return None;
    }
    let mut fewer = lines.to_vec();
    fewer.remove(last);
    for line in &mut fewer {
        let mut words: Vec<&str> = line.split(' ').collect();
        let settings = words.iter().filter(|w| w.matches(',').count() == 2).count();
        if settings == count && matches!(words[..], ["settings", ..] | ["answer", _, _, "version", ..]) {
            words.pop();
            *line = words.join(" ");
        }
    }
    Some(fewer)
}

/// Prints the first difference of a history, and the smallest history that shows one, with the Rust's trace.
fn show(text: &str) {
    let lines = shrink(text);
    let (rust, port) = both(&lines);
    if let Some((number, x, y)) = first_difference(&rust, &port) {
        println!(
            "smallest history, with the Rust's trace; in line {number} the Rust has\n    {x}\nand here it is\n    {y}"
        );
    }
    print!("{rust}");
}

/// Traces the history on standard input.
pub(super) fn port() {
    let text = std::io::read_to_string(std::io::stdin()).expect("a text");
    print!("{}", port_text(&text, &mut Met::default()));
}

/// What a run has met so far.
#[derive(Default)]
struct Run {
    met: Met,
    inside: BTreeMap<String, u64>,
    histories: u64,
    answers: u64,
    differ: u64,
}

impl Run {
    /// Whether both traces of a history are the same; prints what isn't.
    fn is_same(&mut self, seed: u64, n: u64, profile: &str) -> bool {
        let (head, source) = generate::new(seed, n, profile);
        let (text, counts, answers) = run_history(head, Box::new(source), Manner::default());
        for (what, k) in counts {
            *self.inside.entry(what).or_default() += k;
        }
        self.answers += answers;
        self.histories += 1;
        let Some((number, x, y)) = first_difference(&text, &port_text(&text, &mut self.met)) else {
            return true;
        };
        println!("seed {seed} profile {profile} differs in line {number}\n    the Rust: {x}\n    here:     {y}");
        self.differ += 1;
        if self.differ == 1 {
            show(&text);
        }
        false
    }
}

/// Histories of seeds from `first` on, `count` for each profile, of about `n` answers each.
pub(super) fn run(first: u64, count: u64, n: u64, profiles: &[&str]) {
    let begun = Instant::now();
    let mut run = Run::default();
    for profile in profiles {
        let mut wrong = 0;
        for seed in first..first + count {
            wrong += u32::from(!run.is_same(seed, n, profile));
            if wrong == 5 {
                println!("no more of this profile");
                break;
            }
        }
    }
    run.met.print(&run.inside);
    let Run { histories, answers, differ, .. } = run;
    println!("{histories} histories, {answers} answers, {differ} differ, {:.1} s", begun.elapsed().as_secs_f64());
    if differ > 0 {
        std::process::exit(1);
    }
}
