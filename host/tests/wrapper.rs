//! The wrapper's own conversions; `oracle/differ.sh` compares whole histories through it.

use wordzike::*;

const OPTIONS: Options = Options { cycle: 1.0, period: 2.0, grace: 3.0 };

/// An engine over three tags, the first in tier 1, at its first read.
fn reading() -> Engine {
    let settings = [Setting { group: Some(Group { number: 2, rate: 500 }), ..Setting::default() }; 3];
    let mut engine = Engine::new(&["A", "A.3", "b"], OPTIONS, &settings, &[Group { number: 7, rate: 250 }]).unwrap();
    engine.load(5.0, &[2, 0, 2, 1, 3]).unwrap();
    for answer in [Answer::Begin, Answer::Opened, Answer::Version(Some(u64::MAX), &settings)] {
        engine.step(5.0, -7, answer).unwrap();
    }
    assert_eq!(engine.step(5.0, -7, Answer::Taken), Ok(Reply::Request(Request::Read(vec![0]))));
    engine
}

/// The number that the header has behind `#define NAME`.
fn defined(name: &str) -> u64 {
    let header = include_str!("../../include/wordzike.h");
    let numbers =
        header.lines().filter_map(|line| line.strip_prefix("#define ")?.strip_prefix(name)?.strip_prefix(' '));
    let mut numbers = numbers.filter_map(|rest| rest.split(' ').next()?.parse().ok());
    numbers.next().unwrap_or_else(|| panic!("the header has no number {name}"))
}

#[test]
fn the_interface_is_the_archives_and_the_headers() {
    assert_eq!(interface(), INTERFACE);
    assert_eq!(defined("WZ_INTERFACE"), INTERFACE);
    assert_eq!(["WZ_TAGS", "WZ_GROUPS"].map(defined), [TAGS, GROUPS].map(|n| n as u64));
}

#[test]
fn an_engine_has_memory_by_the_number_of_its_names() {
    assert_eq!([1, 10, 60, TAGS].map(memory_size), [3408, 5802, 19102, 35062]);
    assert_eq!([0, TAGS + 1, 1 << 32, (1 << 32) + 1, usize::MAX].map(memory_size), [0; 5]);
    let names: Vec<String> = (0..=TAGS).map(|k| format!("T{k:03}")).collect();
    let engine = |n: usize| Engine::new(&names[..n], OPTIONS, &vec![Setting::default(); n], &[]);
    for n in 1..=TAGS {
        assert_eq!(engine(n).unwrap().memory().len(), memory_size(n));
    }
    assert_eq!([0, TAGS + 1].map(|n| number(engine(n))), [1, 1]);
}

#[test]
fn rooms_are_the_archives() {
    let lists = [1, TAGS].map(|n| [ffi::list_size(n as u32), ffi::table_size(n as u32)]);
    assert_eq!(lists, [[72 * TAGS as u64, 16 * TAGS as u64]; 2]);
    assert_eq!([ffi::group_stats_size(), ffi::panel_size()], [40 * GROUPS as u64, 1 + 2 * TAGS as u64]);
}

fn number<T: std::fmt::Debug>(refused: Result<T, Refusal>) -> u64 {
    refused.unwrap_err().number()
}

#[test]
fn values_and_errors_come_back_as_they_went_in() {
    let errors = [ErrorKind::NotFound, ErrorKind::Access, ErrorKind::Other(0), ErrorKind::Other(u16::MAX)];
    let errors = errors.map(|kind| Err(Error { kind, message: u32::MAX }));
    let values = [Value::Null, Value::Bool(true), Value::Int(i64::MIN), Value::Float(-0.0)].map(Ok);
    for result in errors.into_iter().chain(values) {
        let mut engine = reading();
        let told = engine.step(5.25, i64::MIN, Answer::Results(&[result])).unwrap();
        let Reply::Event(Event::Values(changes)) = told else { panic!("a first reading is told") };
        let [(0, entry)] = changes[..] else { panic!("one change") };
        assert_eq!((entry.value, entry.error), (result.unwrap_or(Value::Null), result.err()));
        assert_eq!(entry.time, i64::MIN);
        assert_eq!(engine.tag(0).unwrap().entry, Some(entry));
    }
}

#[test]
fn looks() {
    let mut engine = reading();
    assert_eq!((engine.state(), engine.version()), (State::Connected, Some(u64::MAX)));
    assert_eq!(engine.stats().round, None);
    assert_eq!(engine.tier_counts(), [1, 0, 1]);
    assert_eq!(engine.table(), [(0, 1), (2, 3)]);
    assert_eq!(engine.panel(), [2, 0, 2, 1, 3]);
    let groups: Vec<_> =
        engine.group_stats().iter().map(|g| (g.group.number, g.group.rate, g.tags, g.period)).collect();
    assert_eq!(groups, [(7, 250, 0, None), (2, 500, 1, None)]);
    assert_eq!(engine.tag(1).unwrap(), Tag { tier: 0, entry: None, description: None });
    engine.step(5.25, 0, Answer::Results(&[])).unwrap();
    engine.step(5.25, 0, Answer::Descriptions(&[Some(u32::MAX), None])).unwrap();
    assert_eq!([0, 2].map(|tag| engine.tag(tag).unwrap().description), [Some(Some(u32::MAX)), Some(None)]);
}

#[test]
fn refusals() {
    let mut engine = reading();
    let before = engine.memory().to_vec();
    assert_eq!(number(Engine::new(&["B", "A"], OPTIONS, &[Setting::default(); 2], &[])), 4);
    assert_eq!(number(engine.set_tier(f64::NAN, 9, 9)), 21);
    assert_eq!(number(engine.load(5.0, &[1, 0, 1])), 56);
    assert_eq!(number(engine.write(0, Value::Float(f64::INFINITY))), 42);
    assert_eq!(number(engine.step(5.0, 0, Answer::Taken)), 41);
    assert_eq!(number(engine.tag(3)), 23);
    assert_eq!(engine.memory(), before);
    assert_eq!(engine.tag(3).unwrap_err().to_string(), "refused with 23: no such tag");
}

#[test]
fn the_stop_takes_queued_writes_with_it() {
    let mut engine = reading();
    engine.write(2, Value::Null).unwrap();
    engine.write(0, Value::Int(1)).unwrap();
    engine.stop();
    assert_eq!(engine.step(6.0, 0, Answer::Lost), Ok(Reply::Event(Event::Stopped(vec![2, 0]))));
    assert_eq!(engine.state(), State::Stopped);
}

/// An engine over one tag, at its first read, with as many writes queued as there can be.
fn full() -> Engine {
    let settings = [Setting::default()];
    let mut engine = Engine::new(&["A"], OPTIONS, &settings, &[]).unwrap();
    engine.set_tier(5.0, 0, 1).unwrap();
    for answer in [Answer::Begin, Answer::Opened, Answer::Version(None, &settings), Answer::Taken] {
        engine.step(5.0, 0, answer).unwrap();
    }
    for n in 0..32 {
        engine.write(0, Value::Int(n)).unwrap();
    }
    assert_eq!(number(engine.write(0, Value::Null)), 32);
    engine
}

#[test]
fn more_writes_are_left_than_an_engine_has_tags() {
    let mut engine = full();
    assert_eq!(engine.step(5.0, 0, Answer::Lost), Ok(Reply::Event(Event::Failed(vec![0; 32]))));
    let mut engine = full();
    engine.stop();
    assert_eq!(engine.step(5.0, 0, Answer::Lost), Ok(Reply::Event(Event::Stopped(vec![0; 32]))));
}
