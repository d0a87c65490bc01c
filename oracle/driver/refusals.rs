//! Calls for `oracle record` that no history has: creation's refusals, lent memory and lists of other lengths, panel lists. Beside
//! each is the number that document 01's table gives it (100, for memory that is no engine's, is docs/DECISIONS.md's).

use wordzike::{GROUPS, TAGS, ffi, memory_size};

const NAN: f64 = f64::NAN;
const LIST: usize = TAGS * 72;

/// What creation is given; as it stands it is good.
#[derive(Clone)]
struct Given {
    names: Vec<u8>,
    ends: Vec<u32>,
    options: [f64; 3],
    settings: Vec<u64>,
    groups: Vec<u64>,
}

fn joined(names: &[&str]) -> Given {
    let mut at = 0;
    let ends = names.iter().map(|n| {
        at += n.len() as u32;
        at
    });
    Given {
        ends: ends.collect(),
        names: names.concat().into_bytes(),
        options: [1.0, 4.0, 2.0],
        settings: vec![0; 4 * names.len()],
        groups: vec![],
    }
}

/// Two tags; the second has a deadband, group 3 at 500 ms, and a set description.
fn two() -> Given {
    Given { settings: [[0; 4], [0.5f64.to_bits(), 4, 500, 1]].concat(), groups: vec![3, 500], ..joined(&["A", "B"]) }
}

fn bytes(cells: &[u64]) -> Vec<u8> {
    cells.iter().flat_map(|c| c.to_le_bytes()).collect()
}

fn want(number: u64, got: u64, what: &str) {
    assert_eq!(number, got, "{what}: document 01 has {number}, and here it is {got}");
}

fn create_in(mem: &mut [u8], g: &Given) -> u64 {
    let [cycle, period, grace] = g.options;
    let options = ffi::Options { cycle, period, grace };
    ffi::create(mem, &g.names, &g.ends, options, &bytes(&g.settings), &bytes(&g.groups)).into()
}

/// A creation that is refused, in memory of so many bytes, leaves what was there.
fn refuse_in(size: usize, number: u64, given: &Given) {
    let mut mem = vec![0x5a; size];
    want(number, create_in(&mut mem, given), "creation");
    assert!(mem.iter().all(|b| *b == 0x5a), "creation refused with {number} wrote");
}

fn refuse(number: u64, change: impl Fn(&mut Given)) {
    let mut given = two();
    change(&mut given);
    refuse_in(memory_size(given.ends.len()), number, &given);
}

/// A creation that is not.
fn accept(given: &Given, what: &str) {
    want(0, create_in(&mut vec![0; memory_size(given.ends.len())], given), what);
}

fn names(names: &[&str]) -> impl Fn(&mut Given) {
    let given = joined(names);
    move |g| *g = given.clone()
}

fn directories() {
    let long: Vec<String> = (0..121).map(|k| format!("{k:040}")).collect();
    let long: Vec<&str> = long.iter().map(String::as_str).collect();
    refuse(1, names(&[]));
    refuse(1, names(&long));
    refuse(2, names(&["A", ""]));
    refuse(2, names(&[&"A".repeat(41)]));
    refuse(2, |g| g.ends = vec![2, 1]);
    refuse(2, |g| g.ends = vec![1, 3]);
    refuse(2, |g| g.ends = vec![1, u32::MAX]);
    refuse(2, |g| g.names.push(b'C'));
    refuse(3, names(&["A", "B "]));
    refuse(3, names(&["A", "B\x7f"]));
    refuse(4, names(&["A", "A"]));
    refuse(4, names(&["B", "A"]));
    refuse(4, names(&["AA", "A"]));
    // several: the first in the table's order
    refuse(1, |g| (g.ends, g.options) = (vec![], [NAN; 3]));
    refuse(2, |g| (g.names, g.ends) = (b"B A".to_vec(), vec![1, 1]));
    refuse(4, |g| (g.names, g.options) = (b"BA".to_vec(), [NAN; 3]));
    accept(&joined(&long[..120]), "120 names of 40 bytes");
    accept(&joined(&["!", "~"]), "the lowest and the highest byte");
}

fn options() {
    for cycle in [NAN, f64::INFINITY, -1.0, 0.0009, 3600.5] {
        refuse(11, |g| g.options[0] = cycle);
    }
    for other in [NAN, f64::INFINITY, -0.5, 86400.5] {
        refuse(12, |g| g.options[1] = other);
        refuse(13, |g| g.options[2] = other);
    }
    refuse(11, |g| g.options = [-1.0, -1.0, -1.0]);
    refuse(12, |g| (g.options, g.settings) = ([0.0, -1.0, -1.0], vec![]));
    for good in [[0.0, 0.0, 0.0], [0.001, 86400.0, 86400.0], [3600.0, 0.0, 0.0]] {
        accept(&Given { options: good, ..two() }, "options at their limits");
    }
}

fn settings() {
    refuse(14, |g| g.settings.truncate(4));
    refuse(14, |g| g.settings.extend([0; 4]));
    refuse(14, |g| g.settings.push(0));
    for band in [NAN, f64::INFINITY, f64::NEG_INFINITY] {
        refuse(14, |g| g.settings[4] = band.to_bits());
    }
    for (group, rate) in [(17, 500), (u64::MAX, 500), (4, 0), (4, 1 << 32)] {
        refuse(14, |g| (g.settings[5], g.settings[6]) = (group, rate));
    }
    for (group, rate) in [(16, 500), (3, 0), (3, 1 << 32)] {
        refuse(14, |g| g.groups = vec![group, rate]);
    }
    refuse(14, |g| g.groups = [3, 500].repeat(17));
    refuse(14, |g| g.groups.push(3));
    accept(&Given { groups: [3, 500].repeat(16), ..two() }, "16 groups");
    let last = Given {
        settings: [[0; 4], [0, 16, u32::MAX.into(), 7]].concat(),
        groups: vec![15, 1, 0, u32::MAX.into()],
        ..two()
    };
    accept(&last, "group 15, and the greatest rate");
    let beside =
        Given { settings: [[0; 4], [0, 4, 1 << 63 | 500, 1]].concat(), groups: vec![3, 1 << 32 | 500], ..two() };
    accept(&beside, "bytes beside a rate, which are not looked at");
}

/// Sizes of memory about those of engines: no bytes, those for no name, between two, one byte less and more.
fn no_sizes() -> Vec<usize> {
    let [one, two, five, most] = [1, 2, 5, TAGS].map(memory_size);
    let about = [one, two, five, most].map(|size| [size - 1, size + 1]).concat();
    [vec![0, one - (two - one), (one + two) / 2, (two + five) / 2], about].concat()
}

/// Creation looks at the number of names first, then at the memory, then at all else.
fn sizes() {
    let most: Vec<String> = (0..=TAGS).map(|k| format!("T{k:03}")).collect();
    let most: Vec<&str> = most.iter().map(String::as_str).collect();
    let all = [1, 2, 5, TAGS].map(memory_size);
    let bad = |n: usize| Given { names: vec![], options: [NAN; 3], settings: vec![], ..joined(&most[..n]) };
    for n in [1, 2, 5, TAGS] {
        for size in no_sizes().into_iter().chain(all).filter(|size| *size != memory_size(n)) {
            refuse_in(size, 100, &bad(n));
        }
        refuse_in(memory_size(n) - 1, 100, &joined(&most[..n]));
        refuse_in(memory_size(n), 2, &bad(n));
        accept(&joined(&most[..n]), "memory for so many names");
    }
    for size in no_sizes().into_iter().chain(all) {
        refuse_in(size, 1, &bad(0));
        refuse_in(size, 1, &bad(TAGS + 1));
    }
}

/// Memory that is no engine's, for every call but creation; it comes before all else, a list without room too.
fn other_memory() {
    for size in no_sizes() {
        let mem = &mut vec![0; size][..];
        let out = &mut [0; 16][..];
        want(100, ffi::set_tier(mem, NAN, 0, 9).into(), "set_tier");
        want(100, ffi::load(mem, NAN, &[]).into(), "load");
        want(100, ffi::write(mem, 9, 3, NAN.to_bits()).into(), "write");
        want(100, ffi::stop(mem).into(), "stop");
        want(100, ffi::step(mem, NAN, 0, [99, 0, 0], &[], out).code, "step");
        want(100, ffi::state(mem).code, "state");
        want(100, ffi::stats(mem).code, "stats");
        want(100, ffi::tier_counts(mem).code, "tier_counts");
        want(100, ffi::group_stats(mem, out).code, "group_stats");
        want(100, ffi::table(mem, out).code, "table");
        want(100, ffi::panel(mem, out).code, "panel");
        want(100, ffi::tag(mem, 9).code, "tag");
    }
}

/// Room about that which a list asks for, with the number that it is answered with.
fn around(room: usize) -> [(usize, u64); 4] {
    [(0, 43), (room - 1, 43), (room, 0), (room + 10, 0)]
}

/// Lists with less room than asked for, and with just enough and more.
fn room(mem: &mut [u8]) {
    for size in [0, LIST - 1] {
        want(43, ffi::step(mem, NAN, 0, [99, 0, 0], &[], &mut [0; LIST][..size]).code, "step");
    }
    want(21, ffi::step(mem, NAN, 0, [0, 0, 0], &[], &mut [0; LIST]).code, "step");
    want(41, ffi::step(mem, 0.0, 0, [99, 0, 0], &[], &mut [0; LIST + 8]).code, "step");
    let out = &mut [0; 2048];
    for (size, number) in around(GROUPS * 40) {
        want(number, ffi::group_stats(mem, &mut out[..size]).code, "group_stats");
    }
    for (size, number) in around(TAGS * 16) {
        want(number, ffi::table(mem, &mut out[..size]).code, "table");
    }
    for (size, number) in around(1 + 2 * TAGS) {
        want(number, ffi::panel(mem, &mut out[..size]).code, "panel");
    }
}

/// Tier calls and panel lists: the clock first, then the list, then the engine's tiers.
fn lists(mem: &mut [u8]) {
    for (clock, number) in [(NAN, 21), (f64::INFINITY, 21), (-0.5, 21), (1e9 + 1.0, 21), (5.0, 0), (5.0, 0), (4.5, 22)]
    {
        want(number, ffi::set_tier(mem, clock, 1, 0).into(), "set_tier");
    }
    want(22, ffi::set_tier(mem, 4.0, 2, 4).into(), "set_tier");
    want(23, ffi::set_tier(mem, 5.0, 2, 4).into(), "set_tier");
    want(24, ffi::set_tier(mem, 5.0, 1, 4).into(), "set_tier");
    let bad: [(&[u8], u64); 13] = [
        (&[], 51),
        (&[0, 0], 51),
        (&[1, 0], 51),
        (&[2, 0, 1, 1], 51),
        (&[1, 0, 1, 1], 51),
        (&[1, 2, 1], 53),
        (&[1, 2, 4], 53),
        (&[2, 0, 0, 1, 1], 54),
        (&[2, 0, 0, 1, 0], 54),
        (&[1, 0, 0], 55),
        (&[2, 0, 1, 4, 1], 55),
        (&[2, 0, 2, 0, 1], 55),
        (&[2, 2, 0, 1, 4], 53),
    ];
    for (list, number) in bad {
        want(number, ffi::load(mem, 5.0, list).into(), &format!("load {list:?}"));
        want(22, ffi::load(mem, 4.0, list).into(), "load");
    }
    want(0, ffi::load(mem, 6.0, &[2, 1, 0, 1, 2]).into(), "load");
    want(56, ffi::load(mem, 6.0, &[0]).into(), "load");
    want(55, ffi::load(mem, 6.0, &[1, 0, 0]).into(), "load");
    want(23, ffi::tag(mem, 2).code, "tag");
    want(0, ffi::tag(mem, 1).code, "tag");
}

/// Writes before and after the connection; results that are not finite; settings in an answer; an error that stands for nothing;
/// a read-back with a value beside its error.
fn steps(mem: &mut [u8], given: &Given) {
    let handed = bytes(&given.settings);
    let step = |mem: &mut [u8], answer: [u64; 3], list: &[u8], number: u64, kind: u64| {
        let r = ffi::step(mem, 7.0, 1000, answer, list, &mut [0; LIST]);
        want(number, r.code, &format!("step {answer:?}"));
        assert_eq!(kind, r.kind, "step {answer:?}");
    };
    want(23, ffi::write(mem, 2, 3, NAN.to_bits()).into(), "write");
    want(31, ffi::write(mem, 1, 3, NAN.to_bits()).into(), "write");
    step(mem, [12, 0, 0], &[], 41, 0);
    step(mem, [0, 0, 0], &[], 0, 1);
    step(mem, [1, 0, 0], &[], 0, 2);
    step(mem, [4, 7, 0], &handed[8..], 14, 0);
    step(mem, [4, 7, 0], &handed, 0, 9);
    for k in 0..32 {
        want(42, ffi::write(mem, 1, 3, f64::INFINITY.to_bits()).into(), "write");
        want(0, ffi::write(mem, k % 2, u64::from(k % 5), u64::from(k)).into(), "write");
    }
    want(32, ffi::write(mem, 1, 3, NAN.to_bits()).into(), "write");
    step(mem, [12, 0, 0], &[], 0, 3);
    let nan = bytes(&[2, 5, 0, 0, 3, NAN.to_bits(), 0, 0]);
    step(mem, [5, 0, 0], &nan, 42, 0);
    let ignored = bytes(&[2, 5, 0, 0, 3, NAN.to_bits(), 1, 9, 3, NAN.to_bits(), 0, 0]);
    step(mem, [5, 0, 0], &ignored, 0, 8);
    step(mem, [12, 0, 0], &[], 0, 6);
    step(mem, [9, 0, 0], &bytes(&[6]), 0, 11);
    step(mem, [12, 0, 0], &[], 0, 2);
    step(mem, [4, 7, 0], &handed, 0, 4);
    step(mem, [8, 0, 0], &[], 41, 0);
    step(mem, [8, 65539, 0], &[], 41, 0);
    step(mem, [8, 65538, u64::from(u32::MAX)], &[], 0, 12);
    step(mem, [12, 0, 0], &[], 0, 4);
    step(mem, [7, 0, 0], &[], 0, 5);
    let beside = bytes(&[3, 1.5f64.to_bits(), 5, 9]);
    let told = ffi::step(mem, 7.0, 1000, [5, 0, 0], &beside, &mut [0; LIST]);
    assert_eq!([0, 12, 0, 0], [told.code, told.kind, told.value.kind, told.value.word], "a value beside an error does not count");
    step(mem, [12, 0, 0], &[], 0, 8);
    step(mem, [12, 0, 0], &[], 0, 4);
    step(mem, [8, 1, 7], &[], 0, 12);
    want(0, ffi::stop(mem).into(), "stop");
    step(mem, [12, 0, 0], &[], 0, 4);
    step(mem, [6, 0, 0], &[], 0, 12);
    step(mem, [12, 0, 0], &[], 0, 14);
    step(mem, [12, 0, 0], &[], 41, 0);
    want(0, ffi::set_tier(mem, 1e9, 1, 0).into(), "set_tier at the last clock reading");
    want(0, ffi::state(mem).code, "state");
    want(0, ffi::stats(mem).code, "stats");
}

pub(super) fn run() {
    directories();
    options();
    settings();
    sizes();
    other_memory();
    let given = two();
    let mut mem = vec![0; memory_size(2)];
    want(0, create_in(&mut mem, &given), "create");
    room(&mut mem);
    lists(&mut mem);
    steps(&mut mem, &given);
}
