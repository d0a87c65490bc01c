//! `oracle bench`: the exported functions against the Rust's worker. Both are given the same plan, by host_rust.rs and host_ours.rs. In each case all
//! that they ask and tell is compared first; then they are timed by turns, in processor time of this thread. What is
//! printed is Markdown, for docs/PERFORMANCE.md.

use super::host_ours::{Handed, Lent};
use super::script::{Desk, Job, Plan, Values};
use super::timing::{Best, CYCLE, PERIOD, shuffled, some_calls, some_names, used};
use super::*;

/// Rounds compared before a case is timed.
const COMPARED: u64 = 3_000;
const REPETITIONS: usize = 7;
const MOST: usize = wordzike::TAGS;

#[derive(Clone, Copy, PartialEq)]
enum Tiers {
    One,
    /// By turns tier 1 and tier 2.
    Half,
    Two,
    /// Tier 1, in groups of 250, 500, 1000 and 2000 ms.
    Grouped,
}

#[derive(Clone, Copy)]
struct Case {
    name: &'static str,
    what: &'static str,
    tiers: Tiers,
    values: Values,
    job: Job,
}

const fn rounds_of(name: &'static str, what: &'static str, tiers: Tiers, values: Values) -> Case {
    Case { name, what, tiers, values, job: Job::Rounds }
}

const ROUNDS: [Case; 7] = [
    rounds_of("ints", "all changing, integers", Tiers::One, Values::Ints),
    rounds_of("floats", "all changing, floats past their band", Tiers::One, Values::Floats),
    rounds_of("within", "all moving within their band, none told", Tiers::One, Values::Within),
    rounds_of("still", "none changing", Tiers::One, Values::Still),
    rounds_of("half", "half in tier 1, half in tier 2, all changing", Tiers::Half, Values::Ints),
    rounds_of("two", "all in tier 2, all changing", Tiers::Two, Values::Ints),
    rounds_of("groups", "in groups of 250 to 2000 ms, all changing", Tiers::Grouped, Values::Ints),
];

const WRITES: Case = Case {
    name: "writes",
    what: "a write with its read-back",
    tiers: Tiers::One,
    values: Values::Ints,
    job: Job::Writes,
};
const START: Case = Case {
    name: "start",
    what: "from creation to the first wait: tier calls, connect, a round, descriptions",
    tiers: Tiers::One,
    values: Values::Ints,
    job: Job::Start,
};

fn plan(case: &Case, names: &[String]) -> Plan {
    let mut head = plain(names, CYCLE, PERIOD, 0.0);
    for (k, setting) in head.settings.iter_mut().enumerate() {
        setting.band = case.values.band();
        let group = k as u64 % 4;
        setting.group = (case.tiers == Tiers::Grouped).then_some((group, 250 << group));
    }
    let tier = |i: usize| match case.tiers {
        Tiers::One | Tiers::Grouped => 1,
        Tiers::Half => 1 + (i % 2) as u8,
        Tiers::Two => 2,
    };
    let calls = shuffled(names.len()).into_iter().enumerate().map(|(i, tag)| (tag, tier(i))).collect();
    Plan { head, calls, values: case.values, job: case.job }
}

// ------------------------------------------------------------------------------------------ comparing and timing

fn differs(what: &str, how: &str) -> ! {
    println!("{what}: differs: {how}");
    std::process::exit(1);
}

/// The two, and how much was compared so far.
struct Both {
    lent: Lent,
    rounds: u64,
    /// Tags asked for, and changes told.
    asked: u64,
    told: u64,
}

impl Both {
    fn new() -> Both {
        Both { lent: Lent::new(), rounds: 0, asked: 0, told: 0 }
    }

    /// All that both ask and tell must be the same, word for word.
    fn compare(&mut self, case: &Case, plan: &Plan) {
        let count = if case.job == Job::Start { 1 } else { COMPARED };
        let desk = || Desk::new(plan, count).seeing();
        let rust = host_rust::run(plan, desk());
        let ours = self.lent.run(plan, &mut Handed::new(&plan.head), desk());
        let (Some(a), Some(b)) = (&rust.seen, &ours.seen) else { unreachable!("both were seen") };
        if a != b {
            let at = a.iter().zip(b).position(|(x, y)| x != y).unwrap_or(a.len().min(b.len()));
            let from = at.saturating_sub(20);
            let near = |all: &[u64]| format!("{:?}", &all[from..all.len().min(at + 10)]);
            differs(case.what, &format!("cell {at}, from {from} on Rust {}, ours {}", near(a), near(b)));
        }
        self.rounds += count;
        self.asked += ours.asked;
        self.told += ours.told;
    }

    /// The best time of each, for one round (or write, or start).
    fn time(&mut self, case: &Case, names: &[String], count: u64) -> Best {
        let plan = plan(case, names);
        self.compare(case, &plan);
        let mut handed = Handed::new(&plan.head);
        let mut best = Best::new();
        for _ in 0..REPETITIONS {
            let rust = host_rust::run(&plan, Desk::new(&plan, count));
            let ours = self.lent.run(&plan, &mut handed, Desk::new(&plan, count));
            if (rust.asked, rust.told) != (ours.asked, ours.told) {
                differs(case.what, "in the rounds that were timed");
            }
            best.take(rust.took, ours.took, count as usize);
        }
        best
    }

    /// Starts, several in each repetition.
    fn time_starts(&mut self, names: &[String], count: usize) -> Best {
        let plan = plan(&START, names);
        self.compare(&START, &plan);
        let mut handed = Handed::new(&plan.head);
        let mut best = Best::new();
        for _ in 0..REPETITIONS {
            let rust = (0..count).map(|_| host_rust::run(&plan, Desk::new(&plan, 0)).took).sum();
            let ours = (0..count).map(|_| self.lent.run(&plan, &mut handed, Desk::new(&plan, 0)).took).sum();
            best.take(rust, ours, count);
        }
        best
    }

    /// The table as `wz_table` gives it.
    fn table(&mut self) -> Vec<(u64, u64)> {
        let Lent { mem, out } = &mut self.lent;
        let look = unsafe { tape::__real_wz_table(mem.as_ptr(), mem.len(), out.as_mut_ptr(), out.len()) };
        let rows = out[..16 * look.count as usize].chunks_exact(16);
        let half = |b: &[u8]| u64::from_le_bytes(b.try_into().expect("eight bytes"));
        rows.map(|r| (half(&r[..8]), half(&r[8..]))).collect()
    }

    fn time_calls(&mut self, names: &[String], grace: f64, count: usize) -> Best {
        let head = plain(names, CYCLE, PERIOD, grace);
        let worker = host_rust::worker(&head, host_rust::rules(&head));
        self.lent.create(&Handed::new(&head));
        let now = 5.0f64;
        CLOCK.store(now.to_bits(), Ordering::Relaxed);
        let calls = some_calls(names.len(), count);
        let mut best = Best::new();
        for _ in 0..REPETITIONS {
            let begun = used();
            for (tag, tier) in &calls {
                worker.set_tier(&names[*tag], (*tier > 0).then_some(*tier));
            }
            let rust = used() - begun;
            let begun = used();
            for (tag, tier) in &calls {
                self.lent.set_tier(now, *tag, *tier);
            }
            best.take(rust, used() - begun, count);
            let rank = |name: &String| names.binary_search(name).expect("a name") as u64;
            let table: Vec<_> = worker.tiers().iter().map(|(name, tier)| (rank(name), u64::from(*tier))).collect();
            if table != self.table() {
                differs("tier calls", "the tables are not the same");
            }
        }
        best
    }
}

// ------------------------------------------------------------------------------------------ printing

/// A whole number with a comma before each three digits.
fn commas(n: f64) -> String {
    let digits = format!("{n:.0}");
    let first = digits.len() % 3;
    let mut text = digits[..first].to_owned();
    for three in digits.as_bytes()[first..].chunks(3) {
        if !text.is_empty() {
            text.push(',');
        }
        text.extend(three.iter().map(|b| char::from(*b)));
    }
    text
}

fn row(tags: usize, what: &str, best: Best) {
    let (rust, ours) = (1e9 / best.0, 1e9 / best.1);
    println!(
        "| {tags} | {what} | {} | {} | {:.2} | {:.3} | {:.1} |",
        commas(rust),
        commas(ours),
        best.0 / 1e3,
        best.1 / 1e3,
        best.ratio()
    );
}

/// Least squares: a, b and R² of y = a + b x.
fn fit(points: &[(f64, f64)]) -> (f64, f64, f64) {
    let n = points.len() as f64;
    let mean = |f: &dyn Fn(&(f64, f64)) -> f64| points.iter().map(f).sum::<f64>() / n;
    let (x, y) = (mean(&|p| p.0), mean(&|p| p.1));
    let (xx, xy, yy) = (mean(&|p| (p.0 - x).powi(2)), mean(&|p| (p.0 - x) * (p.1 - y)), mean(&|p| (p.1 - y).powi(2)));
    let b = xy / xx;
    (y - b * x, b, xy * xy / (xx * yy))
}

fn say_fit(who: &str, points: &[(f64, f64)]) {
    let (a, b, r2) = fit(points);
    let logs: Vec<(f64, f64)> = points.iter().map(|(x, y)| (x.ln(), y.ln())).collect();
    let (_, exponent, _) = fit(&logs);
    println!("- {who}: {a:.2} + {b:.4} n µs, R² {r2:.4}; as a power of n the exponent is {exponent:.2}");
}

// ------------------------------------------------------------------------------------------ the parts of the table

fn speed(both: &mut Both, rounds: u64) {
    println!("| Tags | What | Rust, /s | Ours, /s | Rust, µs each | Ours, µs each | Ours / Rust |");
    println!("|---|---|---|---|---|---|---|");
    for tags in [30, MOST] {
        let names = some_names(tags);
        for case in &ROUNDS {
            row(tags, &format!("round, {}", case.what), both.time(case, &names, rounds));
        }
    }
    let short: Vec<String> = (0..MOST).map(|i| format!("T{i:03}")).collect();
    row(MOST, "round, all changing, integers, names of 4 bytes", both.time(&ROUNDS[0], &short, rounds));
    let names = some_names(MOST);
    let calls = 20 * rounds as usize;
    row(MOST, "tier call, tiers 0 to 3 mixed, no grace", both.time_calls(&names, 0.0, calls));
    row(MOST, "tier call, tiers 0 to 3 mixed, grace 10 s", both.time_calls(&names, 10.0, calls));
    row(MOST, WRITES.what, both.time(&WRITES, &names, 4 * rounds));
    row(MOST, START.what, both.time_starts(&names, rounds as usize / 20));
}

fn host(rounds: u64) {
    let plan = plan(&ROUNDS[0], &some_names(MOST));
    let mut best = Best::new();
    for _ in 0..REPETITIONS {
        best.take(host_rust::alone(&plan, rounds), host_ours::alone(&plan, rounds), rounds as usize);
    }
    println!(
        "\nOf a round of {MOST} tags, all changing, the hosts' own part is {:.2} µs (Rust) and {:.2} µs (ours).",
        best.0 / 1e3,
        best.1 / 1e3
    );
}

fn growth(both: &mut Both, rounds: u64) {
    println!("\n| Tags, all changing | Rust, µs a round | Ours, µs a round | Ours / Rust |\n|---|---|---|---|");
    let (mut rust, mut ours) = (Vec::new(), Vec::new());
    for tags in (10..=MOST).step_by(10) {
        let best = both.time(&ROUNDS[0], &some_names(tags), rounds);
        rust.push((tags as f64, best.0 / 1e3));
        ours.push((tags as f64, best.1 / 1e3));
        println!("| {tags} | {:.2} | {:.3} | {:.1} |", best.0 / 1e3, best.1 / 1e3, best.ratio());
    }
    println!();
    say_fit("Rust", &rust);
    say_fit("Ours", &ours);
}

/// Rounds over which memory is looked at.
const SIZED: u64 = 100;

/// The memory of both, for each row of the table: the Rust's, then ours.
fn memory_of(lent: &mut Lent, tags: usize) -> [[usize; 2]; 4] {
    let plan = plan(&ROUNDS[0], &some_names(tags));
    let mut handed = Handed::new(&plan.head);
    let desk = || Desk::new(&plan, SIZED).sizing();
    let [rust, rust_end] = host_rust::run(&plan, desk()).sizes;
    let [ours, ours_end] = lent.run(&plan, &mut handed, desk()).sizes;
    let rust_stack = sizes::stack_of(|| drop(host_rust::run(&plan, Desk::new(&plan, SIZED))));
    let our_stack = sizes::stack_of(|| drop(lent.run(&plan, &mut handed, Desk::new(&plan, SIZED))));
    let each = |from: u64, to: u64| ((to - from) as f64 / SIZED as f64).round() as usize;
    [
        [rust.held as usize, lent.mem.len()],
        [(rust_end.most - rust.held) as usize, lent.out.len() + handed.size()],
        [each(rust.made, rust_end.made), each(ours.made, ours_end.made)],
        [rust_stack, our_stack],
    ]
}

fn memory(lent: &mut Lent) {
    let rows = [
        "bytes held between rounds",
        "bytes of lists, beside these, within a round; ours are kept by the host",
        "allocations a round",
        "bytes of stack, with the host's",
    ];
    println!("\n| | Rust, 10 tags | Ours | Rust, 60 | Ours | Rust, {MOST} | Ours |\n|---|---|---|---|---|---|---|");
    let columns = [10, 60, MOST].map(|tags| memory_of(lent, tags));
    for (k, what) in rows.iter().enumerate() {
        let row = columns.iter().flat_map(|column| column[k]).map(|n| format!(" {} |", commas(n as f64)));
        println!("| {what} |{}", row.collect::<String>());
    }
}

/// The whole table.
pub(super) fn run(rounds: u64) {
    assert!(rounds >= 100, "100 or more rounds");
    let mut both = Both::new();
    println!("Best of {REPETITIONS} times {rounds} rounds each, by turns; cycle {CYCLE} s, period {PERIOD} s.\n");
    speed(&mut both, rounds);
    host(rounds);
    growth(&mut both, rounds);
    memory(&mut both.lent);
    let [rounds, asked, told] = [both.rounds, both.asked, both.told].map(|n| commas(n as f64));
    println!("\nCompared: {rounds} rounds and writes, {asked} tags asked for, {told} changes told, none differ.");
}

/// Tier calls on one side alone.
fn calls_alone(side: &str, names: &[String], grace: f64, count: usize) -> Duration {
    let head = plain(names, CYCLE, PERIOD, grace);
    let worker = host_rust::worker(&head, host_rust::rules(&head));
    let mut lent = Lent::new();
    lent.create(&Handed::new(&head));
    let begun = used();
    for (tag, tier) in some_calls(names.len(), count) {
        match side {
            "rust" => worker.set_tier(&names[tag], (tier > 0).then_some(tier)),
            _ => lent.set_tier(0.0, tag, tier),
        }
    }
    used() - begun
}

/// One case on one side alone, for a profiler.
pub(super) fn one(side: &str, case: &str, tags: usize, count: u64) {
    if let "calls" | "graces" = case {
        let grace = if case == "graces" { 10.0 } else { 0.0 };
        let took = calls_alone(side, &some_names(tags), grace, count as usize);
        println!("{:.3} µs each", took.as_secs_f64() * 1e6 / count.max(1) as f64);
        return;
    }
    let mut all = ROUNDS.iter().chain([&WRITES, &START]);
    let case = all.find(|c| c.name == case).unwrap_or_else(|| bad("case", case));
    let plan = plan(case, &some_names(tags));
    let desk = Desk::new(&plan, count);
    let desk = match side {
        "rust" => host_rust::run(&plan, desk),
        "ours" => Lent::new().run(&plan, &mut Handed::new(&plan.head), desk),
        _ => bad("side", side),
    };
    let Desk { took, asked, told, .. } = desk;
    println!(
        "{asked} tags asked for, {told} changes told, {:.3} µs each",
        took.as_secs_f64() * 1e6 / count.max(1) as f64
    );
}
