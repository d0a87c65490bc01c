//! The example host: its bookkeeping of turns, and whole runs of it.

#[path = "../examples/board/main.rs"]
#[allow(dead_code)]
mod example;

use example::options::parse;
use example::picture::Screen;
use example::run::{Plan, run, whole};
use example::turns::{Mark, Round, Tally, Turn, Turns, Watch, slices};
use wordzike::{Answer, Engine, Error, ErrorKind, Event, Group, Options, Reply, Request, Setting, Value};

/// A boundary round over a table in which tag 0 is in tier 1, 1 to 4 are in tier 2 and 5 is in tier 3.
fn round(list: &[u32]) -> Round {
    let table = vec![(0, 1), (1, 2), (2, 2), (3, 2), (4, 2), (5, 3)];
    Round { list: list.to_vec(), table, missing: Vec::new(), calls: 0, settled: true }
}

fn turn(rounds: &[Round]) -> Option<Turn> {
    let mut turns = Turns::new(2, 6);
    rounds.iter().map(|round| turns.boundary(round.clone())).last().flatten()
}

#[test]
fn boundary_rounds_in_a_turn() {
    let s = |period, cycle| slices(&Options { cycle, period, grace: 0.0 });
    assert_eq!([s(30.0, 1.0), s(2.5, 1.0), s(3.5, 1.0), s(0.4, 1.0), s(5.0, 0.0)], [30, 2, 4, 1, 1]);
}

#[test]
fn a_full_turn_names_each_slot_once() {
    let full = Turn { tier2: 4, named: 4, held: 0, wrong: vec![] };
    assert_eq!(turn(&[round(&[0, 1, 2]), round(&[3, 4])]), Some(full));
    assert_eq!(turn(&[round(&[0, 1, 2])]), None);
}

#[test]
fn a_slot_named_twice_not_at_all_or_out_of_turn_is_found() {
    let wrong = |rounds: &[Round]| turn(rounds).unwrap().wrong;
    assert_eq!(wrong(&[round(&[0, 1, 2]), round(&[0, 2, 3, 4])]), [2]);
    assert_eq!(wrong(&[round(&[1, 2]), round(&[3])]), [4]);
    assert_eq!(wrong(&[round(&[1, 2]), round(&[3, 4, 5])]), [5]);
}

#[test]
fn a_slot_held_back_as_missing_counts_as_named() {
    let held = Round { missing: vec![4], ..round(&[0, 3]) };
    let full = Turn { tier2: 4, named: 4, held: 1, wrong: vec![] };
    assert_eq!(turn(&[round(&[1, 2]), held]), Some(full));
}

#[test]
fn a_tier_call_or_a_grace_begins_another_turn() {
    let mut turns = Turns::new(2, 6);
    let called = Round { calls: 1, ..round(&[3, 4]) };
    assert_eq!(turns.boundary(round(&[1, 2])), None);
    assert_eq!(turns.boundary(called.clone()), None);
    assert_eq!((turns.rounds(), turns.mark(1), turns.mark(3)), (1, Mark::ToCome, Mark::Named));
    // tag 4 ran out of grace
    let graced = Round { table: vec![(0, 1), (1, 2), (2, 2), (3, 2), (4, 3), (5, 3)], ..called.clone() };
    assert_eq!(turns.boundary(graced), None);
    // a slot may be new in tier 2: its round begins no turn
    assert_eq!(turns.boundary(Round { calls: 2, settled: false, ..round(&[1, 2, 4]) }), None);
    assert_eq!(turns.rounds(), 0);
}

#[test]
fn tallies() {
    let mut tally = Tally::default();
    for (named, wrong) in [(7, vec![]), (5, vec![3])] {
        tally.add(&Turn { tier2: 7, named, held: 0, wrong });
    }
    assert_eq!((tally.full, tally.wrong, tally.named, tally.tier2), (2, 1, Some(5..=7), Some(7..=7)));
}

/// Four slots in tier 2, two slices, all read at once; the lists that are asked for, and the turns that are seen.
struct Small {
    engine: Engine,
    watch: Watch,
    settings: [Setting; 4],
    calls: u64,
    clock: f64,
    turns: Vec<Turn>,
}

impl Small {
    fn new() -> Small {
        let options = Options { cycle: 1.0, period: 2.0, grace: 5.0 };
        let settings = [Setting::default(); 4];
        let mut engine = Engine::new(&["A", "C", "b", "d"], options, &settings, &[]).unwrap();
        engine.load(0.0, &[4, 0, 1, 2, 3, 2, 2, 2, 2]).unwrap();
        Small { engine, watch: Watch::new(&options, 4), settings, calls: 1, clock: 0.0, turns: Vec::new() }
    }

    fn step(&mut self, answer: Answer<'_>) -> Reply {
        let reply = self.engine.step(self.clock, 0, answer).unwrap();
        self.turns.extend(self.watch.replied(&self.engine, self.calls, &reply));
        reply
    }

    /// Goes on to the next round that reads, and gives its list.
    fn until_read(&mut self, mut reply: Reply) -> Vec<u32> {
        loop {
            let settings = self.settings;
            reply = match reply {
                Reply::Request(Request::Read(list)) => return list,
                Reply::Request(Request::Connect) => self.step(Answer::Opened),
                Reply::Request(Request::Version) => self.step(Answer::Version(None, &settings)),
                Reply::Request(Request::Describe(_)) => self.step(Answer::NotDescribed),
                Reply::Request(Request::Wait(seconds)) => {
                    self.clock += seconds;
                    self.step(Answer::Waited)
                }
                Reply::Event(Event::Stopped(_)) | Reply::Request(_) => panic!("{reply:?}"),
                Reply::Event(_) => self.step(Answer::Taken),
            };
        }
    }

    fn read(&mut self, list: &[u32], missing: &[u32]) -> Vec<u32> {
        let absent = Err(Error { kind: ErrorKind::NotFound, message: 0 });
        let one = |tag: &u32| if missing.contains(tag) { absent } else { Ok(Value::Int(i64::from(*tag))) };
        let results: Vec<_> = list.iter().map(one).collect();
        let reply = self.step(Answer::Results(&results));
        self.until_read(reply)
    }
}

#[test]
fn rounds_and_turns_are_seen_in_an_engine() {
    let mut small = Small::new();
    let begun = small.step(Answer::Begin);
    // all are new in tier 2: the slice is A and b, the others stand behind it
    let mut list = small.until_read(begun);
    assert_eq!(list, [0, 2, 1, 3]);
    for expected in [[1, 3], [0, 2], [1, 3]] {
        list = small.read(&list, &[]);
        assert_eq!(list, expected);
    }
    // the round of all four began no turn, the next two are one
    let full = Turn { tier2: 4, named: 4, held: 0, wrong: vec![] };
    assert_eq!(small.turns, std::slice::from_ref(&full));
    // a list that is lost with a slot of tier 2 in it was a boundary's
    small.turns.extend(small.watch.read_lost());
    let lost = small.step(Answer::Lost);
    list = small.until_read(lost);
    assert_eq!(list, [0, 2]);
    small.read(&list, &[]);
    assert_eq!(small.turns, [full.clone(), full]);
}

#[test]
fn empty_boundary_rounds_are_seen() {
    let mut small = Small::new();
    let begun = small.step(Answer::Begin);
    let mut list = small.until_read(begun);
    // all are missing from the second round on, so that for ten seconds no list is asked for
    for _ in 0..3 {
        list = small.read(&list, &[0, 1, 2, 3]);
    }
    assert!(small.clock > 10.0);
    assert!(small.turns.len() >= 4);
    assert!(small.turns.iter().all(|turn| turn.wrong.is_empty() && turn.named == 4));
    assert!(small.turns.iter().any(|turn| turn.held == 4));
}

/// A read of a round that is no boundary is answered so late that the next round follows in the same step; that one is a
/// boundary, and has nothing to read.
#[test]
fn a_version_is_not_taken_for_that_of_the_read_before() {
    let options = Options { cycle: 1.0, period: 1.0, grace: 0.0 };
    let settings = [Setting { group: Some(Group { number: 0, rate: 250 }), described: true, ..Setting::default() }];
    let mut engine = Engine::new(&["A"], options, &settings, &[]).unwrap();
    let mut watch = Watch::new(&options, 1);
    engine.set_tier(0.0, 0, 1).unwrap();
    let absent = [Err(Error { kind: ErrorKind::NotFound, message: 0 })];
    let version = Answer::Version(None, &settings);
    let first = [Answer::Begin, Answer::Opened, version, Answer::Taken, Answer::Results(&[]), version];
    let answers = first.map(|answer| (0.0, answer)).into_iter();
    let late = [(0.25, Answer::Waited), (1.25, Answer::Results(&absent)), (1.25, Answer::Taken)];
    let mut replies = Vec::new();
    for (clock, answer) in answers.chain(late) {
        let reply = engine.step(clock, (clock * 1000.0) as i64, answer).unwrap();
        watch.replied(&engine, 1, &reply);
        replies.push(reply);
    }
    assert_eq!(replies[6], Reply::Request(Request::Read(vec![0])));
    assert_eq!(replies[8], Reply::Request(Request::Version));
    assert_eq!((watch.rounds, watch.boundaries), (3, 2));
}

#[test]
fn a_lost_read_of_due_tags_alone_ends_the_turn() {
    let mut small = Small::new();
    for tag in 0..4 {
        small.engine.set_tier(0.0, tag, 1).unwrap();
    }
    let begun = small.step(Answer::Begin);
    let mut list = small.until_read(begun);
    list = small.read(&list, &[]);
    assert_eq!((list.len(), small.watch.turns.rounds()), (4, 0));
    list = small.read(&list, &[]);
    assert_eq!((list.len(), small.watch.turns.rounds()), (4, 1));
    assert_eq!(small.watch.read_lost(), None);
    assert_eq!(small.watch.turns.rounds(), 0);
}

fn output(seed: u64, seconds: u64) -> (String, [u64; 4]) {
    let mut out = Vec::new();
    let plan = Plan { end: whole(seconds), seed, every: whole(60), pace: false };
    let boards = run(&plan, &mut Screen::new(&mut out, false)).unwrap();
    let [slots, track] = boards.map(|board| board.totals.turns);
    (String::from_utf8(out).unwrap(), [slots.full, track.full, slots.wrong, track.wrong])
}

#[test]
fn whole_runs_have_correct_full_turns() {
    for seed in 1..=8 {
        let (text, [slots, track, wrong_slots, wrong_track]) = output(seed, 300);
        assert!(slots >= 5 && track >= 5, "seed {seed}: {slots} and {track} full turns");
        assert_eq!((wrong_slots, wrong_track), (0, 0), "seed {seed}");
        assert!(!text.contains("WRONG"), "seed {seed}");
        assert!(text.matches("stopped\n").count() >= 2, "seed {seed}");
    }
}

#[test]
fn one_seed_gives_one_output() {
    assert_eq!(output(3, 60), output(3, 60));
    assert_ne!(output(3, 60).0, output(4, 60).0);
}

#[test]
fn pictures_are_plain_text_of_100_columns_and_40_lines() {
    let (text, _) = output(2, 130);
    assert!(!text.contains('\x1b'));
    assert!(text.lines().all(|line| line.len() <= 100), "{:?}", text.lines().find(|line| line.len() > 100));
    let pictures: Vec<&str> = text.split("\n\n").filter(|part| part.starts_with("Club layout")).collect();
    assert_eq!(pictures.len(), 3);
    assert!(pictures.iter().all(|picture| picture.lines().count() <= 40));
}

#[test]
fn options() {
    let words = |text: &str| parse(text.split_whitespace().map(str::to_owned).collect::<Vec<_>>());
    let choice = words("--seed 9 --pace --seconds 5").unwrap();
    assert_eq!((choice.seed, choice.seconds, choice.every, choice.pace, choice.help), (9, 5, 30, true, false));
    for bad in ["--sed 9", "--seed", "--seed x", "--seconds 0", "5"] {
        assert!(words(bad).is_err(), "{bad}");
    }
}
