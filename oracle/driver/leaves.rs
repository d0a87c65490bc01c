//! `oracle leaves SEED COUNT`: the leaves of the Rattle library, from their archive, against the Rust itself, on edge
//! and random inputs. `round1`, `rate`, `within_deadband`, `Entry::same`, `merge` and `split_bit` are the Rust's own,
//! the number of slices is cut from `cycle_tags` by build.sh; orders, rounding and conversion are the standard
//! library's, which the Rust uses. Four leaves have no counterpart there and are held to a plain reference written from
//! document 01: `check_directory` and `is_clock` (its checks 1 to 4 and 21), `sort_key` (how many names are smaller in
//! lower case) and `word_of` (rule 8: the tag of the bit's word, if the directory has it).

use super::generate::Rng;
use super::names::{a_name, beside, rising};
use super::*;
use crate::rules::split_bit;
use std::cmp::Ordering as Order;
use std::fmt::Debug;

#[path = "slices.rs"]
mod slices;

// ------------------------------------------------------------------------------------------ the archive

/// An entry, or none. held: 0 none, 1 good, 2 bad, 3 missing, 4 stale. kind: 0 null, 1 bool, 2 integer, 3 float, with
/// the flag or the bits in `word`. error: 0 none, 1 NotFound, 2 Access, 3 + code another.
#[repr(C)]
#[derive(Clone, Copy, Default)]
struct EntryWords {
    held: u64,
    kind: u64,
    word: u64,
    t: u64,
    error: u64,
    message: u64,
}

unsafe extern "C" {
    safe fn leaf_round_ties_even(x: f64) -> f64;
    safe fn leaf_slices(period: f64, cycle: f64) -> u64;
    safe fn leaf_round1(v: f64) -> f64;
    safe fn leaf_from_i64(n: i64) -> f64;
    safe fn leaf_rate_seconds(ms: u32) -> f64;
    safe fn leaf_is_clock(x: f64) -> bool;
    fn leaf_check_directory(names: *const u8, names_len: usize, ends: *const u32, ends_len: usize) -> u8;
    fn leaf_compare(a: *const u8, a_len: usize, b: *const u8, b_len: usize) -> u8;
    fn leaf_compare_lower(a: *const u8, a_len: usize, b: *const u8, b_len: usize) -> u8;
    fn leaf_split_bit(name: *const u8, len: usize) -> usize;
    fn leaf_sort_key(names: *const u8, names_len: usize, ends: *const u32, ends_len: usize, tag: usize) -> usize;
    fn leaf_word_of(names: *const u8, names_len: usize, ends: *const u32, ends_len: usize, tag: usize) -> usize;
    safe fn leaf_same(a: EntryWords, b: EntryWords) -> bool;
    safe fn leaf_merge(old: EntryWords, result: EntryWords, t: i64) -> EntryWords;
    safe fn leaf_within_deadband(band: f64, published: EntryWords, new: EntryWords) -> bool;
}

type OfDirectory = unsafe extern "C" fn(*const u8, usize, *const u32, usize, usize) -> usize;
type OfNames = unsafe extern "C" fn(*const u8, usize, *const u8, usize) -> u8;

/// Names joined in one buffer, and the end place of each.
struct Directory {
    names: Vec<u8>,
    ends: Vec<u32>,
}

impl Debug for Directory {
    fn fmt(&self, f: &mut std::fmt::Formatter<'_>) -> std::fmt::Result {
        write!(f, "names \"{}\" ends {:?}", self.names.escape_ascii(), self.ends)
    }
}

/// A tag of a good directory.
struct Tag {
    directory: Arc<Directory>,
    list: Arc<Vec<String>>,
    tag: usize,
}

impl Debug for Tag {
    fn fmt(&self, f: &mut std::fmt::Formatter<'_>) -> std::fmt::Result {
        write!(f, "tag {} of {:?}", self.tag, self.list)
    }
}

impl Directory {
    fn new(list: &[Vec<u8>]) -> Directory {
        let mut d = Directory { names: Vec::new(), ends: Vec::new() };
        for name in list {
            d.names.extend_from_slice(name);
            d.ends.push(d.names.len() as u32);
        }
        d
    }

    /// The names of a good directory.
    fn list(&self) -> Vec<String> {
        let mut from = 0;
        self.ends
            .iter()
            .map(|end| {
                let name = &self.names[from..*end as usize];
                from = *end as usize;
                String::from_utf8(name.to_vec()).expect("ASCII")
            })
            .collect()
    }

    fn checked(&self) -> u8 {
        let (n, e) = (&self.names, &self.ends);
        unsafe { leaf_check_directory(n.as_ptr(), n.len(), e.as_ptr(), e.len()) }
    }

    fn ask(&self, f: OfDirectory, tag: usize) -> usize {
        let (n, e) = (&self.names, &self.ends);
        unsafe { f(n.as_ptr(), n.len(), e.as_ptr(), e.len(), tag) }
    }
}

fn order_of(f: OfNames, a: &str, b: &str) -> u8 {
    unsafe { f(a.as_ptr(), a.len(), b.as_ptr(), b.len()) }
}

/// An order as the archive numbers it.
fn number(order: Order) -> u8 {
    (order as i8 + 1) as u8
}

// ------------------------------------------------------------------------------------------ comparing

/// A float as a result: bit for bit, any NaN like any other.
struct F(f64);

impl PartialEq for F {
    fn eq(&self, other: &F) -> bool {
        self.0.to_bits() == other.0.to_bits() || (self.0.is_nan() && other.0.is_nan())
    }
}

impl Debug for F {
    fn fmt(&self, f: &mut std::fmt::Formatter<'_>) -> std::fmt::Result {
        write!(f, "{:?} ({})", self.0, hex(self.0))
    }
}

#[derive(Default)]
struct Report {
    differ: u64,
}

impl Report {
    fn line<I: Debug, T: PartialEq + Debug>(
        &mut self,
        name: &str,
        inputs: impl IntoIterator<Item = I>,
        mut rust: impl FnMut(&I) -> T,
        mut leaf: impl FnMut(&I) -> T,
    ) {
        let (mut compared, mut differ) = (0u64, 0u64);
        let mut first = None;
        for input in inputs {
            let (want, got) = (rust(&input), leaf(&input));
            compared += 1;
            if want != got {
                differ += 1;
                first.get_or_insert_with(|| format!("    {input:?}: Rust {want:?}, leaf {got:?}"));
            }
        }
        println!("{name:<28} {compared:>10} compared {differ:>8} differ");
        if let Some(first) = first {
            println!("{first}");
        }
        self.differ += differ;
    }
}

// ------------------------------------------------------------------------------------------ numbers

fn ulps(mut v: f64, by: i64) -> f64 {
    for _ in 0..by.abs() {
        v = if by < 0 { v.next_down() } else { v.next_up() };
    }
    v
}

/// Every power of two, and what stands beside it; ties; special values; both signs.
fn edge_floats() -> Vec<f64> {
    let mut t = vec![0.0, f64::NAN, f64::INFINITY, f64::MAX, f64::MIN_POSITIVE, 5e-324, 0.1, 12.25, 1e9, 1e300];
    t.extend([f64::from_bits(0x7ff0_0000_0000_0001), f64::from_bits(0x7fff_ffff_ffff_ffff)]);
    for e in 0..52 {
        t.push(f64::from_bits(1 << e)); // below the normal ones
    }
    for e in 1..2047u64 {
        t.push(f64::from_bits(e << 52));
    }
    for k in 0..40 {
        t.extend([f64::from(k) + 0.5, f64::from(k), f64::from(k) / 20.0, f64::from(k) + 0.25]);
    }
    for e in 46..56 {
        let big = (1u64 << e) as f64;
        for k in -4..=4 {
            t.extend([big + f64::from(k) / 2.0, big / 10.0 + f64::from(k) / 20.0]);
        }
    }
    for b in [9.223372036854775807e18, 1.8446744073709552e19, CLOCK_LIMIT, 3600.0, 86400.0, 0.001] {
        t.push(b);
    }
    let mut all = Vec::new();
    for v in t {
        for by in -3..=3 {
            let v = ulps(v, by);
            all.extend([v, -v]);
        }
    }
    all
}

fn a_float(r: &mut Rng) -> f64 {
    let v = match r.below(10) {
        0..=2 => f64::from_bits(r.next()),
        3 => f64::from_bits(r.next() & 0x000f_ffff_ffff_ffff),
        // a tie, of any size that has one
        4 | 5 => {
            let bits = r.range(1, 52);
            ulps((r.next() >> (64 - bits)) as f64 + 0.5, r.range(0, 4) as i64 - 2)
        }
        // a tie once it is multiplied by ten
        6 | 7 => {
            let bits = r.range(1, 51);
            ulps(((r.next() >> (64 - bits)) as f64 + 0.5) / 10.0, r.range(0, 4) as i64 - 2)
        }
        8 => r.unit() * 1e4,
        _ => {
            let bits = r.range(40, 64);
            ulps((r.next() >> (64 - bits)) as f64, r.range(0, 2) as i64 - 1)
        }
    };
    if r.chance(500) { -v } else { v }
}

fn floats(r: &mut Rng, count: u64) -> impl Iterator<Item = f64> {
    edge_floats().into_iter().chain((0..count).map(|_| a_float(r)))
}

/// Period and cycle within document 01's ranges: cycle 0 or 0.001 to 3,600, period 0 to 86,400.
fn a_turn(r: &mut Rng) -> (f64, f64) {
    let cycle = match r.below(8) {
        0 => r.of(&[0.0, -0.0, 0.001, 3600.0, 0.001f64.next_up(), 3600f64.next_down()]),
        1 => r.range(1, 3_600_000) as f64 / 1000.0,
        2 => r.of(&[1.0, 0.1, 0.2, 0.3, 0.7, 0.25, 0.5, 10.0]),
        3 => 0.001 + r.unit() * 0.01,
        _ => 0.001 + r.unit() * 3599.999,
    };
    let unit = if cycle > 0.0 { cycle } else { 1.0 };
    let period = match r.below(8) {
        0 => r.of(&[0.0, -0.0, 86400.0, 86400f64.next_down(), 5e-324, 1.0, 2.5, 3.5, 0.4]),
        1 => r.range(0, 86_400_000) as f64 / 1000.0,
        // at a tie, or near one
        2..=5 => {
            let n = r.below((86400.0 / unit) as u64 + 1) as f64;
            ulps(unit * (n + r.of(&[0.5, 0.5, 0.0])), r.range(0, 6) as i64 - 3)
        }
        _ => r.unit() * 86400.0,
    };
    (period.clamp(0.0, 86400.0), cycle)
}

fn slices_of(period: f64, cycle: f64) -> u64 {
    let options = WorkerOptions { cycle, tier2_period: period, grace_s: 0.0, planner: false, whole_max_bytes: 0 };
    slices::Worker { options }.slices() as u64
}

fn an_integer(r: &mut Rng) -> i64 {
    const MAX: i64 = i64::MAX;
    match r.below(6) {
        0 => r.of(&[0, 1, -1, MAX, i64::MIN, MAX - 1, -MAX, MAX - 511, MAX - 512, MAX - 513]),
        // at a tie of the conversion, or near one
        1 | 2 => {
            let e = r.range(1, 10);
            let odd = ((r.next() >> (64 - 53)) | (1 << 52)) as i64;
            let v = (odd << e) + (1 << (e - 1)) + r.range(0, 4) as i64 - 2;
            if r.chance(500) { v } else { -v }
        }
        3 => (1i64 << r.range(0, 62)).wrapping_add(r.range(0, 8) as i64 - 4),
        4 => r.range(0, 20) as i64 - 10,
        _ => (r.next() as i64) >> r.below(64),
    }
}

// ------------------------------------------------------------------------------------------ names

/// The names of a good directory.
fn a_directory(r: &mut Rng) -> Vec<Vec<u8>> {
    let count = match r.below(6) {
        0 => 120,
        1 => r.range(100, 120),
        2 => 1,
        _ => r.range(1, 20),
    };
    rising(r, count)
}

/// A good directory, or one with a thing or two wrong.
fn maybe_damaged(r: &mut Rng) -> Directory {
    let mut list = a_directory(r);
    let damages = r.of(&[0, 1, 1, 1, 2, 3]);
    // in the names
    for _ in 0..damages {
        let n = list.len() as u64;
        if n == 0 {
            break;
        }
        let i = r.below(n) as usize;
        match r.below(40) {
            0 => list.clear(),
            1 => {
                while list.len() < 121 {
                    list.push(vec![126; 40]);
                }
            }
            2 => {
                let more = r.range(121, 130) as usize;
                list = (0..more).map(|k| format!("n{k:03}").into_bytes()).collect();
            }
            3..=5 => list[i].clear(),
            6..=8 => list[i].resize(41, b'x'),
            9..=20 => {
                let byte = r.of(&[32, 127, 0, 255, 128, 10, 31, 160, 33, 126]);
                let k = r.below(list[i].len() as u64 + 1) as usize;
                list[i].insert(k, byte);
            }
            21..=27 => {
                let j = r.below(n) as usize;
                list.swap(i, j);
            }
            28..=33 => {
                let again = list[i].clone();
                list.insert(i, again);
            }
            _ => list[i] = beside(r, &list[i]),
        }
    }
    let mut d = Directory::new(&list);
    // in the end places
    if damages > 0 && r.chance(400) && !d.ends.is_empty() {
        let i = r.below(d.ends.len() as u64) as usize;
        let last = d.ends.len() - 1;
        let length = d.names.len() as u32;
        match r.below(9) {
            0 => d.ends[i] = r.of(&[u32::MAX, 1 << 31, length + 1, length + 40]),
            1 => d.ends[last] = d.ends[last].saturating_sub(1),
            2 => d.ends[last] += 1,
            3 => d.ends[i] = if i == 0 { 0 } else { d.ends[i - 1] },
            4 => d.ends[i] = if i == 0 { 0 } else { d.ends[i - 1].saturating_sub(1) },
            5 => d.names.push(r.of(&[b'x', 0, 127])),
            6 => {
                d.names.pop();
            }
            7 => {
                d.ends.pop();
            }
            _ => d.ends[i] = r.below(u64::from(length) + 2) as u32,
        }
    }
    d
}

fn two_names(r: &mut Rng) -> (String, String) {
    let a = a_name(r, true);
    let b = if r.chance(700) { String::from_utf8(beside(r, a.as_bytes())).expect("ASCII") } else { a_name(r, true) };
    (a, b)
}

/// At least so many tags, of good directories.
fn tags(r: &mut Rng, count: u64) -> impl Iterator<Item = Tag> {
    let mut left = count as i64;
    std::iter::from_fn(move || {
        (left > 0).then(|| {
            let directory = Arc::new(Directory::new(&a_directory(r)));
            let list = Arc::new(directory.list());
            left -= list.len() as i64;
            (0..list.len()).map(move |tag| Tag { directory: Arc::clone(&directory), list: Arc::clone(&list), tag })
        })
    })
    .flatten()
}

/// Document 01's checks 1 to 4, by the lowest number met.
fn check_directory(d: &Directory) -> u8 {
    if d.ends.is_empty() || d.ends.len() > 120 {
        return 1;
    }
    let mut from = 0u32;
    for end in &d.ends {
        let falls_back = *end < from;
        let passes = u64::from(*end) > d.names.len() as u64;
        if falls_back || passes || !(1..=40).contains(&(end - from)) {
            return 2;
        }
        from = *end;
    }
    if u64::from(from) != d.names.len() as u64 {
        return 2;
    }
    if d.names.iter().any(|b| !(33..=126).contains(b)) {
        return 3;
    }
    let list = d.list();
    if list.iter().zip(&list[1..]).any(|(a, b)| a.as_bytes() >= b.as_bytes()) {
        return 4;
    }
    0
}

// ------------------------------------------------------------------------------------------ entries

const QUALITIES: [&str; 4] = ["good", "bad", "missing", "stale"];

/// What counts of an entry's words: held, kind, the value's bits, t, error, message.
#[derive(PartialEq, Eq)]
struct Seen([u64; 6]);

impl Debug for Seen {
    fn fmt(&self, f: &mut std::fmt::Formatter<'_>) -> std::fmt::Result {
        let [held, kind, word, t, error, message] = self.0;
        let value = match kind {
            0 => "null".into(),
            1 => format!("bool {word}"),
            2 => format!("integer {}", word as i64),
            3 => format!("float {:?} ({word:016x})", f64::from_bits(word)),
            _ => format!("kind {kind}"),
        };
        let quality = held.checked_sub(1).and_then(|k| QUALITIES.get(k as usize));
        write!(f, "[{} {value}, t {}, error {error}:{message}]", quality.unwrap_or(&"none"), t as i64)
    }
}

impl Debug for EntryWords {
    fn fmt(&self, f: &mut std::fmt::Formatter<'_>) -> std::fmt::Result {
        self.seen().fmt(f)
    }
}

impl EntryWords {
    fn value(&self) -> Val {
        match self.kind {
            0 => Val::Null,
            1 => Val::Bool(self.word != 0),
            2 => Val::Int(self.word as i64),
            _ => Val::Float(f64::from_bits(self.word)),
        }
    }

    fn put(&mut self, v: Val) {
        match v {
            Val::Null => self.kind = 0,
            Val::Bool(b) => (self.kind, self.word) = (1, u64::from(b)),
            Val::Int(i) => (self.kind, self.word) = (2, i as u64),
            Val::Float(f) => (self.kind, self.word) = (3, f.to_bits()),
        }
    }

    fn error(&self) -> Option<Er> {
        (self.error > 0).then(|| Er { kind: self.error as u32 - 1, message: self.message as u32 })
    }

    /// As a read result, in the Rust's type; a value beside an error is handed over too.
    fn result(&self) -> TagResult {
        TagResult {
            tag: "T".into(),
            value: self.value().driver(),
            data_type: None,
            error: self.error().map(Er::driver),
        }
    }

    /// In the Rust's type; None if none is held.
    fn entry(&self) -> Option<Entry> {
        let (_, _, error) = to_value(&self.result());
        Some(Entry {
            value: self.value().driver().map_or(Json::Null, |v| crate::values::jsonable(&v)),
            quality: QUALITIES[self.held.checked_sub(1)? as usize],
            t: self.t as i64,
            error,
        })
    }

    fn of_entry(e: &Entry) -> EntryWords {
        let quality = QUALITIES.iter().position(|q| *q == e.quality).expect("a quality");
        let mut w = EntryWords { held: quality as u64 + 1, t: e.t as u64, ..EntryWords::default() };
        w.put(Val::of_json(&e.value));
        if let Json::Object(o) = &e.error {
            let text = |k: &str| o[k].as_str().expect("a text");
            let er = Er::of_texts(text("kind"), text("message"));
            (w.error, w.message) = (u64::from(er.kind) + 1, u64::from(er.message));
        }
        w
    }

    fn seen(&self) -> Seen {
        let word = if self.kind == 0 { 0 } else { self.word };
        let message = if self.error == 0 { 0 } else { self.message };
        Seen([self.held, self.kind, word, self.t, self.error, message])
    }
}

fn edge_values() -> Vec<Val> {
    const BIG: i64 = 1 << 53;
    let mut t = vec![Val::Null, Val::Bool(false), Val::Bool(true)];
    t.extend([0, 1, -1, 2, BIG - 1, BIG, BIG + 1, BIG + 2, -BIG - 1, i64::MAX, i64::MIN, i64::MAX - 512].map(Val::Int));
    t.extend([0.0, -0.0, 1.0, -1.0, 0.5, 1.5, f64::MAX, f64::MIN, 5e-324, 1e-310].map(Val::Float));
    t.extend([BIG, i64::MAX, i64::MIN].map(|i| Val::Float(i as f64)));
    t
}

fn a_finite(r: &mut Rng) -> f64 {
    loop {
        let v = match r.below(4) {
            0 => a_float(r),
            1 => r.of(&[0.0, -0.0, 1.0, -1.0, 10.0, 10.25, 10.5]),
            2 => r.range(0, 400) as f64 / 8.0 - 25.0,
            _ => 10.0 + r.unit(),
        };
        if v.is_finite() {
            return v;
        }
    }
}

fn a_value(r: &mut Rng) -> Val {
    match r.below(10) {
        0 => Val::Null,
        1 => Val::Bool(r.chance(500)),
        2..=4 => Val::Int(an_integer(r)),
        _ => Val::Float(a_finite(r)),
    }
}

/// A value like another, or of another kind and the same size.
fn value_beside(r: &mut Rng, v: Val) -> Val {
    let near = match v {
        _ if r.chance(300) => v,
        Val::Null => Val::Bool(false),
        Val::Bool(b) if r.chance(500) => Val::Bool(!b),
        Val::Bool(b) => Val::Int(i64::from(b)),
        Val::Int(i) if r.chance(400) => Val::Float(i as f64),
        Val::Int(i) => Val::Int(i.wrapping_add(r.range(0, 4) as i64 - 2)),
        Val::Float(f) if r.chance(200) => Val::Int(f as i64),
        Val::Float(f) if r.chance(300) => Val::Float(-f),
        Val::Float(f) if r.chance(400) => Val::Float(f + r.of(&[0.25, 0.5, 1.0, -0.5, -1.0, 1e300])),
        Val::Float(f) => Val::Float(ulps(f, r.range(0, 4) as i64 - 2)),
    };
    if near.finite() { near } else { v }
}

fn an_entry(r: &mut Rng) -> EntryWords {
    let mut e = EntryWords::default();
    if r.chance(250) {
        // what doesn't count, unless it is set below
        (e.word, e.message) = (r.next(), r.next() >> 32);
    }
    e.put(a_value(r));
    e.held = if r.chance(500) { 1 } else { r.range(1, 4) };
    if r.chance(400) {
        e.error = r.of(&[1, 1, 2, 2, 3, 4, 5, 3 + 65535, 3 + 65534]);
        e.message = r.of(&[0, 1, 2, 77, u64::from(u32::MAX), 1 << 31]);
    }
    e.t = an_integer(r) as u64;
    e
}

/// An entry like another: most often alike in all, or in all but one thing.
fn entry_beside(r: &mut Rng, a: &EntryWords) -> EntryWords {
    let mut e = *a;
    match r.below(8) {
        0 => {}
        1 | 2 => e.put(value_beside(r, a.value())),
        3 => e.held = r.range(1, 4),
        4 => e.error = r.of(&[0, 1, 2, 3, 4]),
        5 => e.message = r.of(&[0, 1, a.message ^ 1, a.message ^ (1 << 16)]),
        6 => e.put(a_value(r)),
        _ => return an_entry(r),
    }
    e.t = if r.chance(500) { a.t } else { an_integer(r) as u64 };
    e
}

/// Each edge value against each, for some qualities and errors.
fn edge_pairs() -> Vec<(EntryWords, EntryWords)> {
    let mut t = Vec::new();
    for a in edge_values() {
        for b in edge_values() {
            for (qa, qb) in [(1, 1), (1, 2), (2, 2), (3, 3), (4, 4), (4, 1)] {
                for (ea, eb) in [(0, 0), (0, 1), (1, 1), (1, 2), (3, 3), (3, 4)] {
                    let mut x = EntryWords { held: qa, error: ea, ..EntryWords::default() };
                    let mut y = EntryWords { held: qb, error: eb, t: 1, ..EntryWords::default() };
                    x.put(a);
                    y.put(b);
                    t.push((x, y));
                }
            }
        }
    }
    t
}

fn entry_pairs(r: &mut Rng, count: u64) -> impl Iterator<Item = (EntryWords, EntryWords)> {
    let random = (0..count).map(|_| {
        let a = an_entry(r);
        let b = entry_beside(r, &a);
        (a, b)
    });
    edge_pairs().into_iter().chain(random)
}

/// A band: often the distance of the two, or beside it.
fn a_band(r: &mut Rng, a: &EntryWords, b: &EntryWords) -> f64 {
    let number = |e: &EntryWords| match e.value() {
        Val::Int(i) => i as f64,
        Val::Float(f) => f,
        _ => 0.0,
    };
    let distance = (number(b) - number(a)).abs();
    let band = match r.below(8) {
        0 => r.of(&[0.0, -0.0, 0.5, 1.0, -1.0, 5e-324, f64::MAX, f64::MIN]),
        1..=4 => ulps(distance, r.range(0, 4) as i64 - 2),
        5 => distance / 2.0,
        6 => distance * 2.0,
        _ => a_finite(r),
    };
    if band.is_finite() { band } else { f64::MAX }
}

// ------------------------------------------------------------------------------------------ the comparison

pub(super) fn run(seed: u64, count: u64) {
    let begun = Instant::now();
    let mut report = Report::default();
    let r = &mut Rng::new(seed);
    let r2 = &mut Rng::new(!seed);

    report.line("round_ties_even", floats(r, count), |x| F(x.round_ties_even()), |x| F(leaf_round_ties_even(*x)));
    report.line(
        "slices",
        (0..count).map(|_| a_turn(r)),
        |(period, cycle)| slices_of(*period, *cycle),
        |(period, cycle)| leaf_slices(*period, *cycle),
    );
    let some = [0.0, -0.0, 1.0, 0.5, 5e-324, 1e-300, f64::INFINITY, f64::NAN, -1.0];
    report.line(
        "slices, any numbers",
        floats(r, count).map(|x| (x, if r2.chance(500) { a_float(r2) } else { r2.of(&some) })),
        |(period, cycle)| slices_of(*period, *cycle),
        |(period, cycle)| leaf_slices(*period, *cycle),
    );
    report.line("round1", floats(r, count), |x| F(round1(*x)), |x| F(leaf_round1(*x)));
    report.line("from_i64", (0..count).map(|_| an_integer(r)), |n| F(*n as f64), |n| F(leaf_from_i64(*n)));

    let names = ["T".to_owned()];
    let worker = make(&plain(&names, 1.0, 1.0, 0.0));
    let shared = &worker.shared;
    // puts a setting in force, as a version answer at a connect does
    let set = |setting: Setting| {
        shared.rules.hand(vec![setting]);
        shared.rules.set_types(PLC, &[], &Map::new());
        lock(&shared.inner).groups.clear();
    };
    let none = Setting { band: None, group: None, description: false };
    let rates = [1, 2, 3, 999, 1000, 1001, u32::MAX, u32::MAX - 1, 1 << 31];
    report.line(
        "rate_seconds",
        rates.into_iter().chain((0..count).map(|_| (r.next() >> 32) as u32 >> r.below(32))),
        |ms| {
            set(Setting { group: Some((0, u64::from(*ms))), ..none });
            F(shared.rate(&mut lock(&shared.inner), "T"))
        },
        |ms| F(leaf_rate_seconds(*ms)),
    );
    report.line(
        "is_clock",
        floats(r, count / 2).chain((0..count / 2).map(|_| r2.unit() * 1.1e9)),
        |x| x.is_finite() && *x >= 0.0 && *x <= 1_000_000_000.0,
        |x| leaf_is_clock(*x),
    );

    let mut met = [0u64; 5];
    report.line(
        "check_directory",
        (0..count / 10 + 1).map(|_| maybe_damaged(r)),
        |d| {
            let n = check_directory(d);
            met[usize::from(n)] += 1;
            n
        },
        Directory::checked,
    );
    println!("    good {}, refused 1 to 4: {:?}", met[0], &met[1..]);
    report.line(
        "compare",
        (0..count).map(|_| two_names(r)),
        |(a, b)| number(a.cmp(b)),
        |(a, b)| order_of(leaf_compare, a, b),
    );
    report.line(
        "compare_lower",
        (0..count).map(|_| two_names(r)),
        |(a, b)| number(a.to_lowercase().cmp(&b.to_lowercase())),
        |(a, b)| order_of(leaf_compare_lower, a, b),
    );
    let forms =
        ["", ".", "..", "a.", ".5", "a.5", "a..5", "a.b.5", "5.5", "a.5x", "a.x5", "a.5.", "a.05", "a/5", "a.:"];
    report.line(
        "split_bit",
        forms.into_iter().map(str::to_owned).chain((0..count).map(|_| a_name(r, true))),
        |n| split_bit(n).map_or(0, |(word, _)| word.len()),
        |n| unsafe { leaf_split_bit(n.as_ptr(), n.len()) },
    );
    report.line(
        "sort_key",
        tags(r, count / 10 + 1),
        |t| {
            let own = t.list[t.tag].to_lowercase();
            t.list.iter().filter(|n| n.to_lowercase() < own).count()
        },
        |t| t.directory.ask(leaf_sort_key, t.tag),
    );
    let mut with_word = 0u64;
    report.line(
        "word_of",
        tags(r, count / 10 + 1),
        |t| {
            let word = split_bit(&t.list[t.tag]).and_then(|(word, _)| t.list.iter().position(|n| n == word));
            with_word += u64::from(word.is_some());
            word.unwrap_or(usize::MAX)
        },
        |t| t.directory.ask(leaf_word_of, t.tag),
    );
    println!("    with a word {with_word}");

    let entry = |w: &EntryWords| w.entry().expect("an entry");
    report.line("same", entry_pairs(r, count), |(a, b)| entry(a).same(&entry(b)), |(a, b)| leaf_same(*a, *b));
    report.line(
        "merge",
        entry_pairs(r, count).map(|(mut old, result)| {
            if r2.chance(200) {
                old.held = 0;
            }
            (old, result, an_integer(r2))
        }),
        |(old, result, t)| EntryWords::of_entry(&merge(old.entry().as_ref(), &result.result(), *t)).seen(),
        |(old, result, t)| leaf_merge(*old, *result, *t).seen(),
    );
    let mut withheld = 0u64;
    report.line(
        "within_deadband",
        entry_pairs(r, count).map(|(published, new)| (a_band(r2, &published, &new), published, new)),
        |(band, published, new)| {
            // an absent band is 0
            set(Setting { band: (*band != 0.0 || published.t % 2 == 0).then_some(*band), ..none });
            let within = shared.within_deadband("T", &entry(published), &entry(new));
            withheld += u64::from(within);
            within
        },
        |(band, published, new)| leaf_within_deadband(*band, *published, *new),
    );
    println!("    withheld {withheld}");

    println!("seed {seed}: {} differ, {:.1} s", report.differ, begun.elapsed().as_secs_f64());
    if report.differ > 0 {
        std::process::exit(1);
    }
}
