//! `oracle record` writes calls with their answers, for crates/replay. A history is traced by the Rust and through the exported
//! functions; where every line is equal the calls that were made are recorded.

use super::differ::{Met, first_difference, port_text};
use super::tape::Tape;
use super::*;

/// A history with the Rust's trace of it.
fn record(tape: Tape, met: &mut Met, name: &str, rust: &str) -> Tape {
    let mut port = String::new();
    let tape = tape.with(|| port = port_text(rust, met));
    if let Some((number, x, y)) = first_difference(rust, &port) {
        eprintln!("{name} differs in line {number}: nothing is recorded\n    the Rust: {x}\n    here:     {y}");
        std::process::exit(1);
    }
    tape
}

/// `PROFILE:FIRST:COUNT:N`: generated histories.
fn generated(mut tape: Tape, met: &mut Met, profile: &str, first: u64, count: u64, n: u64) -> Tape {
    for seed in first..first + count {
        let (head, source) = generate::new(seed, n, profile);
        let (text, ..) = run_history(head, Box::new(source), Manner::default());
        tape = record(tape, met, &format!("{profile} {seed}"), &text);
    }
    tape
}

/// A file with a history.
fn of_file(tape: Tape, met: &mut Met, file: &str) -> Tape {
    let text = std::fs::read_to_string(file).unwrap_or_else(|e| panic!("{file}: {e}"));
    record(tape, met, file, &replay_text(&text, false))
}

/// A full board: 120 tags, every twelfth in tier 1 and the others in tier 2, over three turns of two rounds and one round more.
/// Each round has more results than tags. After the third, some tags leave tier 1, and their graces run out together; after the
/// sixth the version changes, and the seventh reads what the fifth did, which is told again. Then the connection is lost, and comes back.
fn board() -> String {
    let second = |s: u64| hex(s as f64);
    let mut text = format!("options {} {} {}\n", second(1), second(2), second(2));
    for k in 0..120 {
        let _ = writeln!(text, "name {}{k:03}", if k < 60 { "Line" } else { "line" });
    }
    let settings = (0..120).map(|k| if k % 24 == 5 { " 3fe0000000000000,3:1000,0" } else { " -,-,0" });
    let _ = writeln!(text, "settings{}\ngroup 3 1000\nstart", settings.collect::<String>());
    let tags: String = (0..120).map(|k| format!("{k:02x}")).collect();
    let tiers: String = (0..120).map(|k| if k % 12 == 5 { "01" } else { "02" }).collect();
    let _ = writeln!(text, "call load {} 78{tags}{tiers}", second(0));
    let at = |clock: u64, what: &str| format!("answer {} {} {what}\n", second(clock), 1_700_000_000_000 + 1000 * clock);
    for what in ["begin", "connect ok", "version 4 same", "taken"] {
        text += &at(1, what);
    }
    for round in 1..=7 {
        let results: String = (0..if round == 1 { 120 } else { 70 }).map(|k| board_result(k, round)).collect();
        text += &at(round, &format!("read{results}"));
        text += &at(round, "taken");
        if round == 1 || round == 7 {
            let found: String = (0..120).map(|k| if k % 3 == 0 { " -".into() } else { format!(" {k}") }).collect();
            text += &at(round, &format!("describe{found}"));
            text += &at(round, "taken");
        }
        text += &at(round, if round < 6 { "version 4 same" } else { "version 5 same" });
        if round == 6 {
            text += &at(round, "taken");
        }
        if round == 3 {
            for tag in [5, 17, 29, 41, 53] {
                let _ = writeln!(text, "call tier {} {tag} 3", second(round));
            }
        }
        text += &at(round + 1, "waited");
    }
    for what in ["read lost", "taken", "taken", "waited", "taken", "connect ok", "version 6 same", "taken", "taken"] {
        text += &at(8, what);
    }
    text + "call look all\n"
}

/// The result at a place of a round's list. No value is the one of the round before.
fn board_result(k: u64, round: u64) -> String {
    let round = if round == 7 { 5 } else { round };
    match k % 8 {
        3 => format!(" e{}:{round}", k % 5),
        5 => format!(" f{}", hex(round as f64 + k as f64 / 8.0)),
        6 => format!(" b{}", round % 2),
        _ => format!(" i{}", 1000 * round + k),
    }
}

/// A history of one tag in tier 1, of which the host's lines are given: tier calls by their tier, writes and stops as they are,
/// answers each a second after the last.
fn of_one_tag(lines: &[&str]) -> String {
    let mut text = format!("options {} {} {}\nname A\nsettings -,-,0\nstart\n", hex(1.0), hex(2.0), hex(5.0));
    let _ = writeln!(text, "call tier {} 0 1", hex(0.0));
    for (k, line) in lines.iter().enumerate() {
        let _ = match line.split_once(' ') {
            Some(("tier", tier)) => writeln!(text, "call tier {} 0 {tier}", hex(k as f64)),
            Some(("call", call)) => writeln!(text, "call {call}"),
            _ => writeln!(text, "answer {} {} {line}", hex(k as f64), 1000 * k),
        };
    }
    text + "call look all\n"
}

/// Seven connects that fail, so that the waits between them grow as far as they do; one that works, and a loss at once: the
/// waits begin anew.
fn backoff() -> String {
    let failed = ["connect failed", "taken", "waited", "taken"].repeat(7);
    let lost = ["connect ok", "version 1 same", "taken", "read lost", "taken", "waited", "taken", "connect failed"];
    of_one_tag(&[vec!["begin"], failed, lost.to_vec()].concat())
}

/// A tag that leaves its tiers and comes back: a value that was told is told again.
fn again() -> String {
    let first =
        ["begin", "connect ok", "version 1 same", "taken", "read i5", "taken", "describe -", "taken", "version 1 same"];
    let gone = ["tier 2", "tier 0", "tier 1", "waited", "read i5", "taken"];
    of_one_tag(&[&first[..], &gone[..]].concat())
}

/// As many writes as can be queued, all to the one tag, left at a loss; and after the next connect again, at a stop.
fn left() -> String {
    let writes = ["call write 0 i7"; 33];
    let first = ["begin", "connect ok", "version 1 same", "taken"];
    let lost = ["read lost", "taken", "taken", "waited", "taken", "connect ok", "version 1 same", "taken"];
    of_one_tag(&[&first[..], &writes[..], &lost[..], &writes[..], &["call stop", "read lost"]].concat())
}

/// `oracle record PART ...`: all parts or nothing, to standard output; what was recorded, to standard error.
pub(super) fn run(parts: &[&str]) {
    let (mut tape, mut met) = (Tape::default(), Met::default());
    for part in parts {
        let before = tape.histories;
        tape = match part.split(':').collect::<Vec<_>>()[..] {
            ["refusals"] => tape.with(refusals::run),
            ["board"] => record(tape, &mut met, "the board", &replay_text(&board(), false)),
            ["again"] => record(tape, &mut met, "the tag that comes back", &replay_text(&again(), false)),
            ["backoff"] => record(tape, &mut met, "the backoff", &replay_text(&backoff(), false)),
            ["left"] => record(tape, &mut met, "the writes that are left", &replay_text(&left(), false)),
            [profile, first, count, n] => generated(tape, &mut met, profile, num(first), num(count), num(n)),
            _ => of_file(tape, &mut met, part),
        };
        let name = part.rsplit('/').next().expect("a name");
        eprintln!("histories {} to {}: {name}", before + 1, tape.histories);
    }
    tape.end();
    std::io::stdout().write_all(&tape.frames).expect("standard output");
    for phase in met.not_met() {
        eprintln!("not met: phase {phase}");
    }
    for ((call, refusal, kind), n) in &tape.met {
        match (*refusal, *kind) {
            (0, 0) => eprintln!("{n:>8} {call}"),
            (0, kind) => eprintln!("{n:>8} {call}, kind {kind}"),
            (refusal, _) => eprintln!("{n:>8} {call}, refused with {refusal}"),
        }
    }
    eprintln!("{} histories, {} calls, {} bytes of answers, all as recorded", tape.histories, tape.calls, tape.bytes);
}
