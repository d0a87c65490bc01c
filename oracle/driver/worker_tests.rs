//! The oracle's driver. It stands where worker.rs expects its tests, so that it can reach the private hooks. The
//! worker's `run` is called on this thread; each of its callbacks is a place where the host is waited on, and there
//! the lines of a history are taken: calls first, then the answer. Only the outcomes that one `fail_writes` call tells
//! are gathered into one event first (`outcome`). See FORMAT.md.

use super::*;
use crate::rules::Setting;
use ciplink::{ErrorKind, TagError};
use std::cell::RefCell;
use std::collections::{BTreeMap, BTreeSet};
use std::fmt::Write as _;
use std::io::{BufRead, Write as _};
use std::panic::{AssertUnwindSafe, catch_unwind, resume_unwind};
use std::sync::atomic::{AtomicI64, AtomicU64};

#[cfg(feature = "capi")]
#[path = "bench.rs"]
mod bench;
#[cfg(feature = "capi")]
#[path = "differ.rs"]
mod differ;
#[path = "gen.rs"]
mod generate;
#[cfg(feature = "capi")]
#[path = "host_ours.rs"]
mod host_ours;
#[cfg(feature = "capi")]
#[path = "host_rust.rs"]
mod host_rust;
#[path = "inputs.rs"]
mod inputs;
#[cfg(feature = "leaves")]
#[path = "leaves.rs"]
mod leaves;
#[path = "lists.rs"]
mod lists;
#[path = "names.rs"]
mod names;
#[cfg(feature = "capi")]
#[path = "record.rs"]
mod record;
#[cfg(feature = "capi")]
#[path = "refusals.rs"]
mod refusals;
#[cfg(feature = "leaves")]
#[path = "rounds.rs"]
mod rounds;
#[cfg(feature = "capi")]
#[path = "script.rs"]
mod script;
#[cfg(feature = "capi")]
#[path = "sizes.rs"]
mod sizes;
#[cfg(feature = "capi")]
#[path = "tape.rs"]
mod tape;
#[path = "timing.rs"]
mod timing;

const PLC: &str = "plc";
const CLOCK_LIMIT: f64 = 1e9;
const QUEUE: usize = 32;
const LOST: &str = "lost";
/// The texts that `fail_writes` is called with.
const DISCONNECTED: &str = "PLC disconnected";
const STOPPING: &str = "server stopping";

// ------------------------------------------------------------------------------------------ the two clocks

static CLOCK: AtomicU64 = AtomicU64::new(0);
/// Wall time in ms that values.rs sees, negative: the real one.
static WALL: AtomicI64 = AtomicI64::new(-1);

fn clock() -> f64 {
    f64::from_bits(CLOCK.load(Ordering::Relaxed))
}

#[repr(C)]
pub struct Timespec {
    sec: i64,
    nsec: i64,
}

unsafe extern "C" {
    fn syscall(number: i64, ...) -> i64;
}

#[cfg(target_arch = "x86_64")]
const SYS_CLOCK_GETTIME: i64 = 228;
#[cfg(target_arch = "aarch64")]
const SYS_CLOCK_GETTIME: i64 = 113;

/// Stands before libc's, so that `now_ms` in the unchanged values.rs reads the history's wall time.
#[unsafe(no_mangle)]
pub unsafe extern "C" fn clock_gettime(id: i32, at: *mut Timespec) -> i32 {
    let wall = WALL.load(Ordering::Relaxed);
    if id == 0 && wall >= 0 {
        unsafe {
            (*at).sec = wall / 1000;
            (*at).nsec = wall % 1000 * 1_000_000;
        }
        return 0;
    }
    unsafe { syscall(SYS_CLOCK_GETTIME, i64::from(id), at) as i32 }
}

// ------------------------------------------------------------------------------------------ values in text

#[derive(Clone, Copy, Debug)]
enum Val {
    Null,
    Bool(bool),
    Int(i64),
    Float(f64),
}

/// kind 0 NotFound, 1 Access, code + 2 another.
#[derive(Clone, Copy, Debug)]
struct Er {
    kind: u32,
    message: u32,
}

#[derive(Clone, Copy, Debug)]
enum Res {
    Val(Val),
    Err(Er),
}

fn bad<T>(what: &str, text: &str) -> T {
    panic!("history: {what}: {text:?}")
}

fn hex(v: f64) -> String {
    format!("{:016x}", v.to_bits())
}

fn unhex(t: &str) -> f64 {
    if t.len() != 16 {
        bad::<()>("float", t);
    }
    f64::from_bits(u64::from_str_radix(t, 16).unwrap_or_else(|_| bad("float", t)))
}

fn num<T: std::str::FromStr>(t: &str) -> T {
    t.parse().unwrap_or_else(|_| bad("number", t))
}

impl Val {
    fn parse(t: &str) -> Val {
        match t.split_at(t.len().min(1)) {
            ("n", "") => Val::Null,
            ("b", "0") => Val::Bool(false),
            ("b", "1") => Val::Bool(true),
            ("i", rest) => Val::Int(num(rest)),
            ("f", rest) => Val::Float(unhex(rest)),
            _ => bad("value", t),
        }
    }

    fn text(self) -> String {
        match self {
            Val::Null => "n".into(),
            Val::Bool(b) => format!("b{}", u8::from(b)),
            Val::Int(i) => format!("i{i}"),
            Val::Float(f) => format!("f{}", hex(f)),
        }
    }

    fn finite(self) -> bool {
        !matches!(self, Val::Float(f) if !f.is_finite())
    }

    fn of_json(v: &Json) -> Val {
        match v {
            Json::Null => Val::Null,
            Json::Bool(b) => Val::Bool(*b),
            Json::Number(n) => match n.as_i64() {
                Some(i) => Val::Int(i),
                None => Val::Float(n.as_f64().expect("a float")),
            },
            _ => panic!("no such value in the domain: {v}"),
        }
    }

    fn driver(self) -> Option<Value> {
        match self {
            Val::Null => None,
            Val::Bool(b) => Some(Value::Bool(b)),
            Val::Int(i) => Some(Value::LInt(i)),
            Val::Float(f) => Some(Value::LReal(f)),
        }
    }

    /// A write's value; the Rust has no null there, an empty `Bytes` stands for it.
    fn to_write(self) -> Value {
        self.driver().unwrap_or(Value::Bytes(Vec::new()))
    }

    fn of_write(v: &Value) -> Val {
        match v {
            Value::Bool(b) => Val::Bool(*b),
            Value::LInt(i) => Val::Int(*i),
            Value::LReal(f) => Val::Float(*f),
            Value::Bytes(b) if b.is_empty() => Val::Null,
            _ => panic!("no such write value: {v:?}"),
        }
    }
}

impl Er {
    fn parse(t: &str) -> Er {
        let (kind, message) = t.strip_prefix('e').and_then(|r| r.split_once(':')).unwrap_or_else(|| bad("error", t));
        let kind: u32 = num(kind);
        if kind > 65537 {
            bad::<()>("error kind", t);
        }
        Er { kind, message: num(message) }
    }

    fn text(self) -> String {
        format!("e{}:{}", self.kind, self.message)
    }

    fn driver(self) -> TagError {
        TagError {
            kind: match self.kind {
                0 => ErrorKind::NotFound,
                1 => ErrorKind::Access,
                k => ErrorKind::Other((k - 2) as u16),
            },
            message: self.message.to_string(),
        }
    }

    fn of_texts(kind: &str, message: &str) -> Er {
        Er { kind: num(kind.strip_prefix('k').unwrap_or_else(|| bad("kind", kind))), message: num(message) }
    }
}

impl Res {
    fn parse(t: &str) -> Res {
        if t.starts_with('e') { Res::Err(Er::parse(t)) } else { Res::Val(Val::parse(t)) }
    }

    fn text(self) -> String {
        match self {
            Res::Val(v) => v.text(),
            Res::Err(e) => e.text(),
        }
    }

    fn driver(self, tag: &str) -> TagResult {
        let (value, error) = match self {
            Res::Val(v) => (v.driver(), None),
            Res::Err(e) => (None, Some(e.driver())),
        };
        TagResult { tag: tag.to_owned(), value, data_type: None, error }
    }
}

fn setting_text(s: &Setting) -> String {
    format!(
        "{},{},{}",
        s.band.map_or("-".into(), hex),
        s.group.map_or("-".into(), |(g, r)| format!("{g}:{r}")),
        u8::from(s.description)
    )
}

fn settings_text(all: &[Setting]) -> String {
    let texts: Vec<String> = all.iter().map(setting_text).collect();
    texts.join(" ")
}

fn parse_setting(t: &str) -> Setting {
    let parts: Vec<&str> = t.split(',').collect();
    let [band, group, description] = parts[..] else {
        return bad("setting", t);
    };
    Setting {
        band: (band != "-").then(|| unhex(band)),
        group: (group != "-").then(|| {
            let (g, r) = group.split_once(':').unwrap_or_else(|| bad("group", t));
            (num(g), num(r))
        }),
        description: match description {
            "0" => false,
            "1" => true,
            _ => bad("description", t),
        },
    }
}

fn bytes_text(bytes: &[u8]) -> String {
    if bytes.is_empty() {
        return "-".into();
    }
    bytes.iter().map(|b| format!("{b:02x}")).collect()
}

fn parse_bytes(t: &str) -> Vec<u8> {
    if t == "-" {
        return Vec::new();
    }
    (0..t.len() / 2).map(|i| u8::from_str_radix(&t[2 * i..2 * i + 2], 16).unwrap_or_else(|_| bad("bytes", t))).collect()
}

fn entry_text(e: &Entry) -> String {
    let error = match &e.error {
        Json::Null => "-".to_owned(),
        o => Er::of_texts(o["kind"].as_str().expect("kind"), o["message"].as_str().expect("message")).text(),
    };
    format!("{},{},{},{}", Val::of_json(&e.value).text(), e.quality, e.t, error)
}

// ------------------------------------------------------------------------------------------ the host

/// What the worker waits for.
#[derive(Clone, Debug)]
enum Ask {
    /// Before `run` is called.
    Begin,
    Connect,
    Version,
    Read(Vec<usize>),
    Write(usize, Val),
    Readback(Vec<usize>),
    Describe(Vec<usize>),
    Wait(f64),
    Event(String),
    /// After `run` returned, with the tags of the writes that the stop failed.
    End(Vec<usize>),
}

#[derive(Clone, Debug)]
enum Ans {
    Begin,
    Connect(bool),
    Version(Option<u64>, Option<Vec<Setting>>),
    Read(Option<Vec<Res>>),
    Write(Result<Option<Er>, ()>),
    Readback(Option<Vec<Res>>),
    Describe(Option<Vec<Option<u32>>>),
    Waited,
    Taken,
}

/// Tags in a line, each behind a space.
fn list(tags: &[usize]) -> String {
    tags.iter().map(|t| format!(" {t}")).collect()
}

impl Ask {
    fn name(&self) -> &'static str {
        match self {
            Ask::Begin => "begin",
            Ask::Connect => "connect",
            Ask::Version => "version",
            Ask::Read(_) => "read",
            Ask::Write(..) => "write",
            Ask::Readback(_) => "readback",
            Ask::Describe(_) => "describe",
            Ask::Wait(_) => "wait",
            Ask::Event(e) => match e.split(' ').next() {
                Some("values") => "values",
                Some("status") => "status",
                Some("meta") => "meta",
                Some("info") => "info",
                Some("failed") => "failed",
                _ => "outcome",
            },
            Ask::End(_) => "end",
        }
    }

    fn text(&self) -> Option<String> {
        Some(match self {
            Ask::Begin => return None,
            Ask::Connect => "connect".into(),
            Ask::Version => "version".into(),
            Ask::Read(tags) => format!("read{}", list(tags)),
            Ask::Write(tag, value) => format!("write {tag} {}", value.text()),
            Ask::Readback(tags) => format!("readback{}", list(tags)),
            Ask::Describe(tags) => format!("describe{}", list(tags)),
            Ask::Wait(s) => format!("wait {}", hex(*s)),
            Ask::Event(e) => format!("event {e}"),
            Ask::End(tags) => format!("stopped{}", list(tags)),
        })
    }
}

impl Ans {
    fn parse(words: &[&str]) -> Ans {
        let results = |rest: &[&str]| -> Option<Vec<Res>> {
            (rest != ["lost"]).then(|| rest.iter().map(|t| Res::parse(t)).collect())
        };
        match words {
            ["begin"] => Ans::Begin,
            ["connect", "ok"] => Ans::Connect(true),
            ["connect", "failed"] => Ans::Connect(false),
            ["version", v, rest @ ..] => Ans::Version(
                (*v != "-").then(|| num(v)),
                (rest != ["same"]).then(|| rest.iter().map(|t| parse_setting(t)).collect()),
            ),
            ["read", rest @ ..] => Ans::Read(results(rest)),
            ["write", "ok"] => Ans::Write(Ok(None)),
            ["write", "lost"] => Ans::Write(Err(())),
            ["write", e] => Ans::Write(Ok(Some(Er::parse(e)))),
            ["readback", rest @ ..] => Ans::Readback(results(rest)),
            ["describe", "failed"] => Ans::Describe(None),
            ["describe", rest @ ..] => Ans::Describe(Some(rest.iter().map(|t| (*t != "-").then(|| num(t))).collect())),
            ["waited"] => Ans::Waited,
            ["taken"] => Ans::Taken,
            _ => bad("answer", &words.join(" ")),
        }
    }

    fn fits(&self, ask: &Ask) -> bool {
        matches!(
            (self, ask),
            (Ans::Begin, Ask::Begin)
                | (Ans::Connect(_), Ask::Connect)
                | (Ans::Version(..), Ask::Version)
                | (Ans::Read(_), Ask::Read(_))
                | (Ans::Write(_), Ask::Write(..))
                | (Ans::Readback(_), Ask::Readback(_))
                | (Ans::Describe(_), Ask::Describe(_))
                | (Ans::Waited, Ask::Wait(_))
                | (Ans::Taken, Ask::Event(_))
        )
    }
}

/// Where the lines of a history come from; None ends it.
trait Source {
    fn next(&mut self, ask: &Ask, host: &Host) -> Option<String>;
}

/// What stands before the calls and answers.
#[derive(Clone)]
struct Head {
    cycle: f64,
    period: f64,
    grace: f64,
    names: Vec<String>,
    settings: Vec<Setting>,
    groups: Vec<(u64, u64)>,
    /// Change request N1: tags a read. None is the Rust with the planner off.
    chunk: Option<usize>,
}

/// Reply bytes of a tag in the catalog that `chunk` uses.
const CHUNK_REPLY: usize = 10_010;

impl Head {
    fn text(&self) -> String {
        let mut t = format!("options {} {} {}\n", hex(self.cycle), hex(self.period), hex(self.grace));
        for name in &self.names {
            let _ = writeln!(t, "name {name}");
        }
        let _ = writeln!(t, "settings {}", settings_text(&self.settings));
        for (g, r) in &self.groups {
            let _ = writeln!(t, "group {g} {r}");
        }
        if let Some(k) = self.chunk {
            let _ = writeln!(t, "chunk {k}");
        }
        t.push_str("start\n");
        t
    }

    /// With `chunk`, each tag is a string of a size that lets just that many into a packet, so that the worker's own
    /// planner cuts the list into runs of that length and `execute` runs them.
    fn catalog(&self) -> Catalog {
        if self.chunk.is_none() {
            return Catalog::default();
        }
        let node = crate::plc::Node {
            type_name: "S".into(),
            kind: crate::plc::Kind::String,
            dims: Vec::new(),
            member: false,
            instance_id: None,
            structure_size: Some(CHUNK_REPLY as u64 - 10),
        };
        let tags = self.names.iter().map(|n| (n.clone(), node.clone())).collect();
        Catalog::new(Json::Null, tags, IndexMap::new())
    }

    fn parse(lines: &mut dyn Iterator<Item = String>) -> Head {
        let mut head = Head {
            cycle: 0.0,
            period: 0.0,
            grace: 0.0,
            names: Vec::new(),
            settings: Vec::new(),
            groups: Vec::new(),
            chunk: None,
        };
        for line in lines {
            let words: Vec<&str> = line.split(' ').collect();
            match words[..] {
                ["options", c, p, g] => {
                    (head.cycle, head.period, head.grace) = (unhex(c), unhex(p), unhex(g));
                }
                ["name", name] => head.names.push(name.to_owned()),
                ["settings", ref rest @ ..] => {
                    head.settings = rest.iter().map(|t| parse_setting(t)).collect();
                }
                ["group", g, r] => head.groups.push((num(g), num(r))),
                ["chunk", k] => head.chunk = Some(num(k)),
                ["start"] => {
                    assert!(
                        head.chunk.is_none() || !head.names.iter().any(|n| n.ends_with('}')),
                        "with chunk no name ends with a brace: the planner reads it as a count"
                    );
                    assert_eq!(head.names.len(), head.settings.len(), "settings per name");
                    assert!(head.names.windows(2).all(|w| w[0] < w[1]), "names rise");
                    return head;
                }
                _ if line.is_empty() || line.starts_with(['#', '=']) => {}
                _ => bad("head", &line),
            }
        }
        bad("head", "no start line")
    }
}

struct Host {
    source: Option<Box<dyn Source>>,
    worker: Arc<PlcWorker>,
    rules: Arc<Rules>,
    head: Head,
    index: HashMap<String, usize>,
    out: String,
    manner: Manner,
    answers: u64,
    /// Number of the place, from 1.
    place: u64,
    counts: BTreeMap<String, u64>,
    /// Tags in grace as the last answer was taken.
    graces: Vec<String>,
    /// Tags of the writes that the `fail_writes` call under way has failed so far.
    failed: Vec<usize>,
    /// Writes accepted while such a list was told, kept out of the worker's queue until `fail_writes` has returned.
    aside: VecDeque<WriteRequest>,
}

/// How a history is run.
#[derive(Clone, Copy, Default)]
struct Manner {
    /// Print as it comes, not at the end.
    live: bool,
    /// Comment lines with the private state.
    inner: bool,
    /// Each outcome that `fail_writes` tells is an event of its own.
    single: bool,
}

thread_local! {
    static HOST: RefCell<Option<Host>> = const { RefCell::new(None) };
}

/// Thrown where the history ends while the worker waits.
struct Ended;

fn with_host<T>(f: impl FnOnce(&mut Host) -> T) -> T {
    HOST.with(|h| f(h.borrow_mut().as_mut().expect("a host")))
}

fn place(ask: &Ask) -> Ans {
    let answer = with_host(|h| {
        assert!(h.failed.is_empty(), "outcomes not told yet");
        h.put_back();
        h.at(ask)
    });
    match answer {
        Some(answer) => answer,
        None => resume_unwind(Box::new(Ended)),
    }
}

fn tell(event: String) {
    place(&Ask::Event(event));
}

fn ranks(tags: &[&str]) -> Vec<Option<usize>> {
    with_host(|h| tags.iter().map(|t| h.index.get(*t).copied()).collect())
}

fn rank(tag: &str) -> usize {
    ranks(&[tag])[0].expect("a tag of the directory")
}

fn event_text(event: &Event) -> String {
    match event {
        Event::Values(_, changes) => {
            changes.iter().fold("values".into(), |t, (tag, e)| format!("{t} {},{}", rank(tag), entry_text(e)))
        }
        Event::Status(_, state) => format!("status {state}"),
        Event::Meta(_) => "meta".into(),
        Event::Info(_, tags) => tags.iter().fold("info".into(), |t, tag| format!("{t} {}", rank(tag))),
    }
}

fn outcome_text(tag: usize, r: &WriteResult) -> String {
    if r.ok {
        assert!(r.error.is_none() && r.kind.is_none());
        return format!("outcome {tag} ok {}", Val::of_json(&r.value).text());
    }
    assert!(r.value.is_null());
    let kind = r.kind.as_deref().expect("a kind");
    let error = r.error.as_deref().expect("a text");
    match (kind, error) {
        ("comm", LOST) => format!("outcome {tag} comm lost"),
        ("comm", DISCONNECTED) => format!("outcome {tag} comm disconnected"),
        ("comm", STOPPING) => format!("outcome {tag} comm stopping"),
        _ => format!("outcome {tag} error {}", Er::of_texts(kind, error).text()),
    }
}

/// A write's outcome. `fail_writes` pops one write after the other until none is left, so the outcome that finds the
/// queue empty is the last of its call. At a loss and after a connect all are told there, in one event: the worker
/// has not gone on yet. A write accepted at that place would still be met by the same loop; it is set aside, and stands
/// in the queue again when the worker next reaches the host. At the stop the list is told with the end.
fn outcome(tag: usize, r: &WriteResult) {
    let text = outcome_text(tag, r);
    let error = r.error.as_deref();
    let gathered = matches!(error, Some(DISCONNECTED | STOPPING));
    if !gathered || with_host(|h| h.manner.single) {
        return tell(text);
    }
    let told = with_host(|h| {
        h.failed.push(tag);
        let last = lock(&h.worker.shared.writes).is_empty();
        (last && error == Some(DISCONNECTED)).then(|| std::mem::take(&mut h.failed))
    });
    if let Some(tags) = told {
        tell(format!("failed disconnected{}", list(&tags)));
        with_host(Host::set_aside);
    }
}

/// How many writes, for the counts.
fn some(n: usize) -> &'static str {
    match n {
        0 => "no write",
        1 => "1 write",
        2..QUEUE => "2 to 31 writes",
        _ => "32 writes",
    }
}

impl Host {
    fn new(head: Head, source: Box<dyn Source>, worker: Arc<PlcWorker>, manner: Manner) -> Host {
        Host {
            source: Some(source),
            rules: Arc::clone(&worker.shared.rules),
            worker,
            index: head.names.iter().cloned().zip(0..).collect(),
            out: String::new(),
            head,
            manner,
            answers: 0,
            place: 0,
            counts: BTreeMap::new(),
            graces: Vec::new(),
            failed: Vec::new(),
            aside: VecDeque::new(),
        }
    }

    fn count(&mut self, what: String) {
        *self.counts.entry(what).or_default() += 1;
    }

    fn say(&mut self, line: &str) {
        self.out.push_str("= ");
        self.out.push_str(line);
        self.out.push('\n');
    }

    /// After a list of failed writes was taken, still inside `fail_writes`.
    fn set_aside(&mut self) {
        self.aside = std::mem::take(&mut *lock(&self.worker.shared.writes));
        if !self.aside.is_empty() {
            self.count("met: writes accepted while failed ones were told".into());
        }
    }

    fn put_back(&mut self) {
        if !self.aside.is_empty() {
            let mut writes = lock(&self.worker.shared.writes);
            assert!(writes.is_empty(), "nobody else queues writes");
            *writes = std::mem::take(&mut self.aside);
        }
    }

    fn flush(&mut self) {
        if self.manner.live {
            let _ = std::io::stdout().write_all(self.out.as_bytes());
            let _ = std::io::stdout().flush();
            self.out.clear();
        }
    }

    fn at(&mut self, ask: &Ask) -> Option<Ans> {
        self.place += 1;
        if let Some(text) = ask.text() {
            self.say(&text);
        }
        self.count(format!("place {}", ask.name()));
        if let Ask::Event(e) = ask {
            let mut words = e.split(' ');
            match words.next() {
                Some("outcome") => {
                    let rest: Vec<&str> = words.skip(1).collect();
                    let n = if rest[0] == "comm" { 2 } else { 1 };
                    self.count(format!("outcome {}", rest[..n].join(" ")));
                }
                Some("values") => {
                    for w in words {
                        let q = w.split(',').nth(2).unwrap_or("").to_owned();
                        self.count(format!("value event {q}"));
                    }
                }
                Some("failed") => {
                    self.count(format!("failed disconnected, {}", some(words.count() - 1)));
                }
                _ => {}
            }
        }
        if let Ask::End(tags) = ask {
            self.count(format!("stopped, {}", some(tags.len())));
        }
        self.cover(ask);
        if self.manner.inner {
            self.comment_inner();
        }
        loop {
            self.flush();
            let mut source = self.source.take().expect("a source");
            let line = source.next(ask, self);
            self.source = Some(source);
            let line = line?;
            if line.is_empty() || line.starts_with(['#', '=']) {
                continue;
            }
            self.out.push_str(&line);
            self.out.push('\n');
            let words: Vec<&str> = line.split(' ').collect();
            match words[..] {
                ["call", ref rest @ ..] => {
                    self.count(format!("{} at {}", rest[0], ask.name()));
                    self.call(rest);
                    if self.manner.inner && rest[0] != "look" {
                        self.comment_inner();
                    }
                }
                ["answer", at, now, ref rest @ ..] => {
                    let at = unhex(at);
                    let now: i64 = num(now);
                    let mut answer = Ans::parse(rest);
                    match self.check_answer(ask, at, &answer) {
                        Err(n) => {
                            self.count(format!("refused {n} step"));
                            self.say(&format!("refused {n}"));
                        }
                        Ok(()) => {
                            if rest.last() == Some(&"lost") || rest.last() == Some(&"failed") {
                                self.count(format!("{} lost or failed", ask.name()));
                            }
                            CLOCK.store(at.to_bits(), Ordering::Relaxed);
                            assert!(now >= 0, "the Rust has no wall time below 0");
                            WALL.store(now, Ordering::Relaxed);
                            self.answers += 1;
                            let mut inner = lock(&self.worker.shared.inner);
                            // the planner keeps a plan per set of tags, in the order it met them first
                            // (ORACLE_KEEP_PLANS shows what that does)
                            if std::env::var_os("ORACLE_KEEP_PLANS").is_none() {
                                inner.plans.clear();
                            }
                            self.graces = inner.grace.keys().cloned().collect();
                            drop(inner);
                            if let Ans::Version(_, s) = &mut answer {
                                if let Some(s) = s.take() {
                                    self.rules.hand(s);
                                }
                            }
                            return Some(answer);
                        }
                    }
                }
                _ => bad("line", &line),
            }
        }
    }

    /// Counts what the history reaches inside the worker.
    fn cover(&mut self, ask: &Ask) {
        let worker = Arc::clone(&self.worker);
        let inner = lock(&worker.shared.inner);
        let mut met: Vec<&str> = Vec::new();
        if self.graces.iter().any(|t| !inner.grace.contains_key(t)) {
            met.push("a grace ran out");
        }
        if inner.missing.values().any(|at| *at > clock()) {
            met.push("a missing mark stands");
        }
        if inner.cache.iter().any(|(t, e)| !inner.published.get(t).is_some_and(|p| p.same(e))) {
            met.push("cached differs from published");
        }
        if let Ask::Read(tags) = ask {
            let tier = |n| tags.iter().filter(|t| inner.tiers.get(&self.head.names[**t]) == Some(&n)).count();
            if tier(2) > 0 && tier(1) > 0 {
                met.push("a read of tiers 1 and 2");
            }
            let all2 = inner.tiers.values().filter(|t| **t == 2).count();
            if tier(2) > 0 && tier(2) < all2 {
                met.push("a read of part of tier 2");
            }
        }
        if worker.shared.stop.load(Ordering::SeqCst) {
            met.push("a place after stop");
        }
        for m in met {
            self.count(format!("met: {m}"));
        }
    }

    fn check_clock(at: f64) -> Result<(), u32> {
        if !at.is_finite() || at < 0.0 || at > CLOCK_LIMIT {
            return Err(21);
        }
        if at < clock() {
            return Err(22);
        }
        Ok(())
    }

    /// Document 01's table, not the Rust's: 21, 22, 41, 14, 42.
    fn check_answer(&self, ask: &Ask, at: f64, answer: &Ans) -> Result<(), u32> {
        Self::check_clock(at)?;
        if !answer.fits(ask) {
            return Err(41);
        }
        if let Ans::Version(_, Some(s)) = answer {
            let wrong =
                |s: &Setting| s.band.is_some_and(|b| !b.is_finite()) || s.group.is_some_and(|(g, r)| g > 15 || r == 0);
            if s.len() != self.head.names.len() || s.iter().any(wrong) {
                return Err(14);
            }
            assert!(s.iter().all(|s| s.group.is_none_or(|(_, r)| r >> 32 == 0)));
        }
        if let (Ans::Read(Some(results)) | Ans::Readback(Some(results)), Ask::Read(tags) | Ask::Readback(tags)) =
            (answer, ask)
        {
            let covered = results.iter().take(tags.len());
            if covered.into_iter().any(|r| matches!(r, Res::Val(v) if !v.finite())) {
                return Err(42);
            }
        }
        Ok(())
    }

    fn call(&mut self, words: &[&str]) {
        let done = match words {
            ["look", rest @ ..] => return self.look(rest),
            ["tier", at, tag, tier] => self.tier(unhex(at), num(tag), num(tier)),
            ["load", at, bytes] => self.load(unhex(at), &parse_bytes(bytes)),
            ["write", tag, value] => self.write(num(tag), Val::parse(value)),
            ["stop"] => {
                // PlcWorker::stop without the join: the flag, then the waiting thread would see it
                self.worker.shared.stop.store(true, Ordering::SeqCst);
                Ok(())
            }
            _ => bad("call", &words.join(" ")),
        };
        match done {
            Ok(()) => self.say("ok"),
            Err(n) => {
                self.count(format!("refused {n} {}", words[0]));
                self.say(&format!("refused {n}"));
            }
        }
    }

    fn tier(&mut self, at: f64, tag: u64, tier: u64) -> Result<(), u32> {
        Self::check_clock(at)?;
        let name = self.head.names.get(tag as usize).ok_or(23u32)?;
        if tier > 3 {
            return Err(24);
        }
        CLOCK.store(at.to_bits(), Ordering::Relaxed);
        self.worker.set_tier(name, (tier > 0).then_some(tier as u8));
        Ok(())
    }

    fn load(&mut self, at: f64, bytes: &[u8]) -> Result<(), u32> {
        Self::check_clock(at)?;
        let n = usize::from(*bytes.first().ok_or(51u32)?);
        if bytes.len() != 1 + 2 * n {
            return Err(51);
        }
        let (tags, tiers) = bytes[1..].split_at(n);
        for i in 0..n {
            if usize::from(tags[i]) >= self.head.names.len() {
                return Err(53);
            }
            if tags[..i].contains(&tags[i]) {
                return Err(54);
            }
            if !(1..=3).contains(&tiers[i]) {
                return Err(55);
            }
        }
        if self.worker.subscriptions() > 0 {
            return Err(56);
        }
        CLOCK.store(at.to_bits(), Ordering::Relaxed);
        for (tag, tier) in tags.iter().zip(tiers) {
            self.worker.set_tier(&self.head.names[usize::from(*tag)], Some(*tier));
        }
        Ok(())
    }

    fn write(&mut self, tag: u64, value: Val) -> Result<(), u32> {
        let tag = tag as usize;
        let name = self.head.names.get(tag).ok_or(23u32)?;
        if self.worker.state() != "connected" {
            // the Rust answers `refused` through the write's own callback; shown below
            let seen = Arc::new(Mutex::new(None));
            let keep = Arc::clone(&seen);
            self.worker.write(name, value.to_write(), Box::new(move |r| *lock(&keep) = Some(r)));
            let r = lock(&seen).take().expect("refused at once");
            assert_eq!(r, WriteResult::failed("PLC not connected", "refused"));
            return Err(31);
        }
        if lock(&self.worker.shared.writes).len() >= QUEUE {
            return Err(32);
        }
        if !value.finite() {
            return Err(42);
        }
        self.worker.write(name, value.to_write(), Box::new(move |r| outcome(tag, &r)));
        Ok(())
    }

    fn look(&mut self, what: &[&str]) {
        let all = what == ["all"];
        let w = Arc::clone(&self.worker);
        let mut known = all;
        if all || what == ["state"] {
            let version = w.version();
            let version = version.as_u64().map_or("-".into(), |v| v.to_string());
            self.say(&format!("state {} version {version}", w.state()));
            known = true;
        }
        if all || what == ["stats"] {
            let s = w.stats();
            assert_eq!(s.group_fallbacks, 0);
            self.say(&format!(
                "stats cycle_ms {} ok_ts {} reads {} tags {} overruns {} reconnects {} reloads {}",
                s.last_cycle_ms.map_or("-".into(), hex),
                s.last_ok_ts.map_or("-".into(), |t| t.to_string()),
                s.reads_per_cycle,
                s.tags_per_cycle,
                s.overruns,
                s.reconnects,
                s.reloads
            ));
            known = true;
        }
        if all || what == ["tiers"] {
            let c = w.tier_counts();
            self.say(&format!("tiers {} {} {}", c["tier1"], c["tier2"], c["tier3"]));
            known = true;
        }
        if all || what == ["groups"] {
            let text = w.group_stats().iter().fold("groups".into(), |t, (name, g)| {
                let period = g["last_period_ms"].as_f64().map_or("-".into(), hex);
                format!("{t} {name}:{}:{}:{period}", g["rate_ms"], g["tags"])
            });
            self.say(&text);
            known = true;
        }
        if all || what == ["table"] {
            let text =
                w.tiers().iter().fold("table".into(), |t, (tag, tier)| format!("{t} {}:{tier}", self.index[tag]));
            self.say(&text);
            known = true;
        }
        if all || what == ["panel"] {
            let bytes = panel(&w, &self.index);
            self.say(&format!("panel {}", bytes_text(&bytes)));
            known = true;
        }
        if let ["tag", t] = what {
            let t: usize = num(t);
            if t >= self.head.names.len() {
                self.say("refused 23");
            } else {
                let text = self.tag_text(t);
                self.say(&text);
            }
            known = true;
        }
        if all {
            for t in 0..self.head.names.len() {
                let text = self.tag_text(t);
                if !text.ends_with(" - - -") {
                    self.say(&text);
                }
            }
        }
        if !known {
            bad::<()>("look", &what.join(" "));
        }
    }

    fn tag_text(&self, t: usize) -> String {
        let name = &self.head.names[t];
        let w = &self.worker;
        format!(
            "tag {t} {} {} {}",
            w.tiers().get(name).map_or("-".into(), u8::to_string),
            w.snapshot(name).map_or("-".into(), |e| entry_text(&e)),
            w.description(name).unwrap_or_else(|| "-".into())
        )
    }

    /// The worker's private state, for finding where a port goes wrong.
    fn comment_inner(&mut self) {
        let w = Arc::clone(&self.worker);
        let at = |t: &String| self.index[t];
        let inner = lock(&w.shared.inner);
        let mut t = format!(
            "# clock {:?} last_cycle {:?} slice {} queue {} stop {}\n",
            clock(),
            inner.last_cycle,
            inner.slice,
            lock(&w.shared.writes).len(),
            w.shared.stop.load(Ordering::SeqCst)
        );
        let tiers: Vec<_> = inner.tiers.iter().map(|(n, v)| (at(n), *v)).collect();
        let grace: Vec<_> = inner.grace.iter().map(|(n, v)| (at(n), *v)).collect();
        let _ = writeln!(t, "# tiers {tiers:?} grace {grace:?}");
        let last: BTreeMap<_, _> = inner.last_read.iter().map(|(n, v)| (at(n), *v)).collect();
        let missing: BTreeMap<_, _> = inner.missing.iter().map(|(n, v)| (at(n), *v)).collect();
        let new: BTreeSet<_> = inner.new_tier2.iter().map(at).collect();
        let want: BTreeSet<_> = inner.want_descriptions.iter().map(at).collect();
        let _ = writeln!(t, "# last {last:?} missing {missing:?} new {new:?} want {want:?}");
        let known: BTreeMap<_, _> = lock(&w.shared.descriptions).iter().map(|(n, d)| (at(n), d.clone())).collect();
        let cache: BTreeMap<_, _> = inner.cache.iter().map(|(n, e)| (at(n), entry_text(e))).collect();
        let published: BTreeMap<_, _> = inner.published.iter().map(|(n, e)| (at(n), entry_text(e))).collect();
        let _ = writeln!(t, "# known {known:?}\n# cache {cache:?}\n# published {published:?}");
        drop(inner);
        self.out.push_str(&t);
    }
}

fn panel(w: &PlcWorker, index: &HashMap<String, usize>) -> Vec<u8> {
    let table = w.tiers();
    let mut bytes = vec![table.len() as u8];
    bytes.extend(table.keys().map(|n| index[n] as u8));
    bytes.extend(table.values());
    bytes
}

// ------------------------------------------------------------------------------------------ the driver and the clock

struct Script {
    catalog: Catalog,
    size: usize,
    /// The last write went through, so the next read is its read-back.
    written: bool,
}

impl Plc for Script {
    fn open(&mut self) -> Result<(), String> {
        match place(&Ask::Connect) {
            Ans::Connect(true) => Ok(()),
            _ => Err(LOST.into()),
        }
    }

    fn close(&mut self) {}

    fn read(&mut self, tags: &[&str]) -> Result<Vec<TagResult>, String> {
        let found = ranks(tags);
        let asked: Vec<usize> = found.iter().copied().flatten().collect();
        let ask = if std::mem::take(&mut self.written) {
            // a word outside the directory isn't read (document 01, rule 8): it can stand only last
            assert!(found.iter().take(asked.len()).all(Option::is_some) && found.len() <= 2);
            Ask::Readback(asked.clone())
        } else {
            assert_eq!(asked.len(), tags.len());
            Ask::Read(asked.clone())
        };
        let (Ans::Read(results) | Ans::Readback(results)) = place(&ask) else {
            panic!("not a read answer");
        };
        let mut results = results.ok_or(LOST)?;
        if asked.len() < tags.len() {
            results.truncate(asked.len()); // no result for the word that isn't read
        }
        let name = |i: usize| tags.get(i).copied().unwrap_or("");
        Ok(results.iter().enumerate().map(|(i, r)| r.driver(name(i))).collect())
    }

    fn write(&mut self, tag: &str, value: &Value) -> Result<TagResult, String> {
        let Ans::Write(result) = place(&Ask::Write(rank(tag), Val::of_write(value))) else {
            panic!("not a write answer");
        };
        let error = result.map_err(|()| LOST.to_owned())?;
        self.written = error.is_none();
        Ok(TagResult { tag: tag.to_owned(), value: None, data_type: None, error: error.map(Er::driver) })
    }

    fn catalog(&mut self) -> Catalog {
        self.catalog.clone()
    }

    fn version(&mut self) -> Json {
        match place(&Ask::Version) {
            Ans::Version(v, _) => v.map_or(Json::Null, |v| json!(v)),
            _ => panic!("not a version answer"),
        }
    }

    fn connection_size(&self) -> usize {
        self.size
    }

    fn describes(&self) -> bool {
        true
    }

    fn descriptions(&mut self, tags: &[&str]) -> Result<Vec<Option<String>>, String> {
        let asked = tags.iter().map(|t| rank(t)).collect();
        let Ans::Describe(found) = place(&Ask::Describe(asked)) else {
            panic!("not a describe answer");
        };
        Ok(found.ok_or(LOST)?.into_iter().map(|d| d.map(|n| n.to_string())).collect())
    }
}

struct ScriptTime;

impl FakeTime for ScriptTime {
    fn now(&self) -> f64 {
        clock()
    }

    fn wait(&self, shared: &Shared, seconds: f64) -> bool {
        place(&Ask::Wait(seconds));
        shared.stop.load(Ordering::SeqCst)
    }
}

fn make(head: &Head) -> Arc<PlcWorker> {
    let rules = Arc::new(Rules::scripted(&head.names, head.settings.clone(), &head.groups));
    let catalog = head.catalog();
    // what an empty packet takes, then the replies, then less than one more
    let size = 8 + planner::VERSION_REPLY + head.chunk.unwrap_or(0) * CHUNK_REPLY + CHUNK_REPLY / 2;
    let factory: Factory = Arc::new(move |_: &PlcConfig| {
        Ok(Box::new(Script { catalog: catalog.clone(), size, written: false }) as Box<dyn Plc>)
    });
    let cfg = PlcConfig { name: PLC.into(), ..PlcConfig::default() };
    let worker = PlcWorker::new(
        cfg,
        factory,
        WorkerOptions {
            cycle: head.cycle,
            tier2_period: head.period,
            grace_s: head.grace,
            planner: head.chunk.is_some(),
            whole_max_bytes: 1500,
        },
        rules,
        Arc::new(|event| tell(event_text(&event))),
    );
    {
        let mut hooks = lock(&worker.shared.hooks);
        hooks.backoff = vec![1.0, 2.0, 5.0, 10.0];
        hooks.time = Some(Arc::new(ScriptTime));
    }
    Arc::new(worker)
}

/// Runs a history; the text of it with its trace, the counts, and the number of answers.
fn run_history(head: Head, source: Box<dyn Source>, manner: Manner) -> (String, BTreeMap<String, u64>, u64) {
    let worker = make(&head);
    CLOCK.store(0, Ordering::Relaxed);
    WALL.store(0, Ordering::Relaxed);
    let text = head.text();
    let mut host = Host::new(head, source, Arc::clone(&worker), manner);
    host.out = text;
    HOST.with(|h| *h.borrow_mut() = Some(host));
    let end = catch_unwind(AssertUnwindSafe(|| {
        place(&Ask::Begin);
        worker.shared.run();
        let left = with_host(|h| std::mem::take(&mut h.failed));
        place(&Ask::End(left));
    }));
    let mut host = HOST.with(|h| h.borrow_mut().take()).expect("the host is back");
    host.flush();
    if let Err(e) = end {
        if !e.is::<Ended>() {
            println!("{}", host.out);
            eprintln!("the worker panicked at place {}", host.place);
            resume_unwind(e);
        }
    }
    (host.out, host.counts, host.answers)
}

struct Lines<I>(I);

impl<I: Iterator<Item = String>> Source for Lines<I> {
    fn next(&mut self, _: &Ask, _: &Host) -> Option<String> {
        self.0.next()
    }
}

fn replay_text(text: &str, single: bool) -> String {
    let mut lines: std::vec::IntoIter<String> = text.lines().map(str::to_owned).collect::<Vec<_>>().into_iter();
    let head = Head::parse(&mut lines);
    let manner = Manner { single, ..Manner::default() };
    run_history(head, Box::new(Lines(lines)), manner).0
}

// ------------------------------------------------------------------------------------------ the program

const USAGE: &str = "\
oracle gen SEED N [PROFILE] | replay [--inner] | batch FIRST COUNT N [PROFILE] | cases
oracle lister | lists SEED [COUNT PROGRAM]
--single, with the first three: each outcome that fail_writes tells is an event of its own
built with the leaves' archive also: leaves SEED COUNT | rounds [TAGS] [ROUNDS]
built with the entry points' archive also: port | differ FIRST COUNT N [PROFILE ...]
| bench [ROUNDS] | bench rust|ours CASE TAGS COUNT
| record PART ..., a part being refusals, board, backoff, again, PROFILE:FIRST:COUNT:N or a file with a history";

impl PlcWorker {
    /// The oracle's entry, here because this module is private to worker.rs.
    pub fn oracle_main() {
        let args: Vec<String> = std::env::args().skip(1).collect();
        let flag = |name: &str| args.iter().any(|a| a == name);
        let manner = Manner { live: true, inner: flag("--inner"), single: flag("--single") };
        let words: Vec<&str> = args.iter().map(String::as_str).filter(|a| !a.starts_with("--")).collect();
        let known = args.iter().all(|a| !a.starts_with("--") || a == "--inner" || a == "--single");
        let profile = |rest: &[&str]| rest.first().copied().unwrap_or("mixed").to_owned();
        match words[..] {
            ["gen", seed, n, ref rest @ ..] if known => {
                let (head, source) = generate::new(num(seed), num(n), &profile(rest));
                run_history(head, Box::new(source), manner);
            }
            ["replay"] if known => {
                let mut lines =
                    std::io::stdin().lock().lines().map(|l| l.expect("a line of text")).collect::<Vec<_>>().into_iter();
                let head = Head::parse(&mut lines);
                run_history(head, Box::new(Lines(lines)), manner);
            }
            ["batch", first, count, n, ref rest @ ..] if known => {
                batch(num(first), num(count), num(n), &profile(rest), manner.single);
            }
            ["lister"] if known => lists::lister(),
            ["lists", seed] if known => lists::show(num(seed)),
            ["lists", seed, count, program] if known => lists::run(num(seed), num(count), program),
            ["cases"] if known => cases(),
            #[cfg(feature = "leaves")]
            ["leaves", seed, count] if known => leaves::run(num(seed), num(count)),
            #[cfg(feature = "leaves")]
            ["rounds", ref rest @ ..] if known => {
                let number = |k: usize, otherwise: usize| rest.get(k).map_or(otherwise, |t| num(t));
                rounds::run(number(0, 120), number(1, 20_000));
            }
            #[cfg(feature = "capi")]
            ["port"] if known => differ::port(),
            #[cfg(feature = "capi")]
            ["differ", first, count, n, ref profiles @ ..] if known => {
                let profiles = if profiles.is_empty() { &generate::PROFILES[..] } else { profiles };
                differ::run(num(first), num(count), num(n), profiles);
            }
            #[cfg(feature = "capi")]
            ["record", ref parts @ ..] if known => record::run(parts),
            #[cfg(feature = "capi")]
            ["bench", side @ ("rust" | "ours"), case, tags, count] if known => {
                bench::one(side, case, num(tags), num(count));
            }
            #[cfg(feature = "capi")]
            ["bench", ref rest @ ..] if known && rest.len() < 2 => bench::run(rest.first().map_or(3000, |t| num(t))),
            _ => {
                eprintln!("{USAGE}");
                std::process::exit(2);
            }
        }
    }
}

/// Generates histories, replays each and compares; prints how often each thing was met. Lists of failed writes are held
/// to the queue, and each history that can be is replayed in the form of `--single`.
fn batch(first: u64, count: u64, n: u64, profile: &str, single: bool) {
    let begun = Instant::now();
    let mut counts: BTreeMap<String, u64> = BTreeMap::new();
    let (mut answers, mut bytes) = (0, 0);
    let (mut differ, mut unqueued, mut apart) = (0, 0, 0);
    let (mut with_lists, mut left_out) = (0, 0);
    for seed in first..first + count {
        let (head, source) = generate::new(seed, n, profile);
        let manner = Manner { single, ..Manner::default() };
        let (text, c, a) = run_history(head, Box::new(source), manner);
        for (k, v) in c {
            *counts.entry(k).or_default() += v;
        }
        answers += a;
        bytes += text.len();
        let wrong = |what: &mut u64, text: &str| {
            *what += 1;
            println!("seed {seed} profile {profile}: {text}");
        };
        if replay_text(&text, single) != text {
            wrong(&mut differ, "the replay differs");
        }
        if single {
            continue;
        }
        if !lists_the_queue(&text) {
            wrong(&mut unqueued, "a list of failed writes is not the queue");
        }
        match singles(&text) {
            Some(other) => {
                with_lists += u64::from(other != text);
                if replay_text(&other, true) != other {
                    wrong(&mut apart, "with single outcomes it differs");
                }
            }
            None => left_out += 1,
        }
    }
    for (k, v) in &counts {
        println!("{v:>9} {k}");
    }
    if !single {
        println!("{unqueued} with a list that is not the queue");
        println!(
            "{with_lists} with lists replayed with single outcomes, {apart} differ, {left_out} more have no such form"
        );
    }
    println!(
        "{count} histories, {answers} answers, {bytes} bytes, {differ} replays differ, {:.1} s",
        begun.elapsed().as_secs_f64()
    );
    if differ + unqueued + apart > 0 {
        std::process::exit(1);
    }
}

/// Whether writes go out in the order in which they were accepted, and each list of failed writes names all that are
/// queued as it is told. What is accepted at its place isn't told next, but with a later list.
fn lists_the_queue(text: &str) -> bool {
    let mut queue: VecDeque<&str> = VecDeque::new();
    let mut at_list = false;
    let mut lines = text.lines().peekable();
    while let Some(line) = lines.next() {
        let next = lines.peek().copied().unwrap_or("");
        let words: Vec<&str> = line.split(' ').collect();
        match words[..] {
            ["call", "write", tag, _] if next == "= ok" => queue.push_back(tag),
            ["=", "write", tag, _] if queue.pop_front() != Some(tag) => return false,
            ["=", "event", "failed", "disconnected"] => return false,
            ["=", "event", "failed", "disconnected", ref tags @ ..] | ["=", "stopped", ref tags @ ..] => {
                if std::mem::take(&mut queue) != tags {
                    return false;
                }
                at_list = true;
            }
            ["answer", ..] if !next.starts_with("= refused") => {
                if at_list && next.starts_with("= event failed") {
                    return false;
                }
                at_list = false;
            }
            _ => {}
        }
    }
    true
}

/// A history in the form of `--single`: the outcomes of a list come one by one, all but the last taken at once, and the
/// calls at its place are made at the last. Writes accepted there would be failed by the same loop; they move on to the
/// event of the stale values, the only place after it that accepts any. None where there is no such event.
fn singles(text: &str) -> Option<String> {
    let mut out: Vec<String> = Vec::new();
    let (mut at, mut now) = ("0000000000000000", "0");
    let mut failed = false;
    // the calls of `write` at the place of a list, with their answers
    let mut writes: Vec<String> = Vec::new();
    let mut lines = text.lines().peekable();
    while let Some(line) = lines.next() {
        let refused = lines.peek().is_some_and(|l| l.starts_with("= refused"));
        let words: Vec<&str> = line.split(' ').collect();
        match words[..] {
            ["=", "event", "failed", "disconnected", ref tags @ ..] => {
                for (k, tag) in tags.iter().enumerate() {
                    if k > 0 {
                        out.push(format!("answer {at} {now} taken"));
                    }
                    out.push(format!("= event outcome {tag} comm disconnected"));
                }
                failed = true;
                continue;
            }
            ["=", "stopped", ref tags @ ..] => {
                for tag in tags {
                    out.push(format!("= event outcome {tag} comm stopping"));
                    out.push(format!("answer {at} {now} taken"));
                }
                out.push("= stopped".into());
                continue;
            }
            ["call", "write", ..] if failed => {
                writes.push(line.into());
                writes.push(lines.next()?.into());
                continue;
            }
            ["call", "tier" | "load", t, ..] if !refused => at = t,
            ["answer", t, n, ..] if !refused => {
                (at, now) = (t, n);
                failed = false;
                if writes.iter().any(|l| l == "= ok") {
                    out.push(line.into());
                    out.push(lines.next().filter(|l| l.starts_with("= event values"))?.into());
                    out.append(&mut writes);
                    continue;
                }
                out.append(&mut writes);
            }
            _ => {}
        }
        out.push(line.into());
    }
    out.append(&mut writes);
    Some(out.join("\n") + "\n")
}

fn plain(names: &[String], cycle: f64, period: f64, grace: f64) -> Head {
    Head {
        cycle,
        period,
        grace,
        names: names.to_vec(),
        settings: vec![Setting { band: None, group: None, description: false }; names.len()],
        groups: Vec::new(),
        chunk: None,
    }
}

/// Document 01's cases at the edges, as far as they touch the worker.
fn cases() {
    let mut failed = 0;
    let mut check = |what: String, got: String, want: &str| {
        let mark = if got == want { "ok  " } else { "DIFF" };
        failed += u32::from(got != want);
        println!("{mark} {what}: {got}{}", if got == want { String::new() } else { format!(" (document: {want})") });
    };
    let names: Vec<String> = (0..7).map(|i| format!("T{i}")).collect();
    let rounds = |count: usize, cycle: f64, period: f64, n: usize| -> Vec<usize> {
        CLOCK.store(0, Ordering::Relaxed);
        let w = make(&plain(&names[..count], cycle, period, 0.0));
        for name in &names[..count] {
            w.set_tier(name, Some(2));
        }
        let mut sizes = Vec::new();
        for i in 0..n {
            let now = i as f64 * cycle.max(1.0);
            // the first round would list the new tags too
            lock(&w.shared.inner).new_tier2.clear();
            let (tags, _, boundary) = w.shared.cycle_tags(&mut lock(&w.shared.inner), now);
            assert!(boundary);
            sizes.push(tags.len());
        }
        sizes
    };
    for (period, cycle, want) in [(30.0, 1.0, "30"), (2.5, 1.0, "2"), (3.5, 1.0, "4"), (0.4, 1.0, "1"), (5.0, 0.0, "1")]
    {
        let at = rounds(1, cycle, period, 100);
        let hits: Vec<usize> = (0..100).filter(|i| at[*i] == 1).collect();
        let got = hits[1] - hits[0];
        assert!(hits.windows(2).all(|w| w[1] - w[0] == got) && hits[0] == 0);
        check(format!("S for {period}, {cycle}"), got.to_string(), want);
    }
    check("7 tags, S 3".into(), format!("{:?}", rounds(7, 1.0, 3.0, 3)), "[3, 3, 1]");
    check("4 tags, S 3".into(), format!("{:?}", rounds(4, 1.0, 3.0, 3)), "[2, 2, 0]");
    let entry = |v: Json| Entry { value: v, quality: "good", t: 0, error: Json::Null };
    let band = |b: Option<f64>, old: Json, new: Json| -> String {
        let mut head = plain(&names[..1], 1.0, 1.0, 0.0);
        head.settings[0].band = b;
        let w = make(&head);
        let (old, new) = (entry(old), entry(new));
        if old.same(&new) {
            "same".into()
        } else if w.shared.within_deadband("T0", &old, &new) {
            "withheld".into()
        } else {
            "sent".into()
        }
    };
    check("band 0.5, 10.0, 10.25".into(), band(Some(0.5), json!(10.0), json!(10.25)), "withheld");
    check("band 0.5, 10.0, 10.5".into(), band(Some(0.5), json!(10.0), json!(10.5)), "sent");
    check("band 0, 1, 1.0".into(), band(Some(0.0), json!(1), json!(1.0)), "sent");
    check("no band, 1, 1.0".into(), band(None, json!(1), json!(1.0)), "sent");
    check("0.0, -0.0".into(), band(Some(0.0), json!(0.0), json!(-0.0)), "same");
    check(
        "band 1, 9007199254740992, 9007199254740993".into(),
        band(Some(1.0), json!(9007199254740992i64), json!(9007199254740993i64)),
        "withheld",
    );
    check("round1(12.25)".into(), format!("{}", round1(12.25)), "12.2");
    {
        CLOCK.store(0, Ordering::Relaxed);
        let w = make(&plain(&names[..1], 0.5, 0.5, 0.0));
        w.set_tier("T0", Some(1));
        let asked = |now: f64| !w.shared.cycle_tags(&mut lock(&w.shared.inner), now).0.is_empty();
        assert!(asked(5.0));
        let r = Er { kind: 0, message: 1 };
        let results = HashMap::from([("T0".to_owned(), Res::Err(r).driver("T0"))]);
        HOST.with(|h| assert!(h.borrow().is_none()));
        // apply tells the change: a host that takes it
        struct Take;
        impl Source for Take {
            fn next(&mut self, _: &Ask, _: &Host) -> Option<String> {
                Some(format!("answer {} 0 taken", hex(clock())))
            }
        }
        let head = plain(&names[..1], 0.5, 0.5, 0.0);
        let host = Host::new(head, Box::new(Take), Arc::clone(&w), Manner::default());
        HOST.with(|h| *h.borrow_mut() = Some(host));
        w.shared.apply(results, 5.0, true);
        HOST.with(|h| *h.borrow_mut() = None);
        let seen: Vec<String> = [5.5, 14.0, 14.5, 15.0].iter().map(|now| format!("{now}:{}", asked(*now))).collect();
        check("missing at start 5.0".into(), seen.join(" "), "5.5:false 14:false 14.5:false 15:true");
    }
    let out = lists::listed(
        b"o 1000 3000 0\nn A\nn C\nn b\nn d\ns 0 0 1\ns 0 1 2\ns 0 2 2\ns 0 3 2\nc 0\nc 400\nc 500\nc 1500\nc 2500\n",
    );
    check(
        "round lister".into(),
        out.replace('\n', "|"),
        "ms b n tags|0 1 4 0 2 1 3|400 0 0|500 1 2 0 1|1500 1 2 0 3|2500 1 2 0 2|",
    );
    println!("{failed} differ");
    if failed > 0 {
        std::process::exit(1);
    }
}
