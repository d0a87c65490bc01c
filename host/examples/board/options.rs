//! The command line.

use super::run::{Plan, whole};

pub const HELP: &str = "\
A simulated command station, two engines that poll it, and the operator's board.

  --seconds N  simulated seconds, run at once (default 120)
  --pace       at the pace of the wall clock
  --seed N     another run (default 5); the same seed gives the same run
  --every N    simulated seconds between pictures where the output isn't a terminal (default 30)
  --help       this text

On a terminal one picture is drawn over the other; it needs 100 columns and 40 lines.
";

pub struct Choice {
    pub seconds: u64,
    pub seed: u64,
    pub every: u64,
    pub pace: bool,
    pub help: bool,
}

pub fn parse(words: impl IntoIterator<Item = String>) -> Result<Choice, String> {
    let mut choice = Choice { seconds: 120, seed: 5, every: 30, pace: false, help: false };
    let mut words = words.into_iter();
    while let Some(word) = words.next() {
        match word.as_str() {
            "--seconds" => choice.seconds = number(&word, words.next(), 1, 1_000_000)?,
            "--seed" => choice.seed = number(&word, words.next(), 0, u64::MAX)?,
            "--every" => choice.every = number(&word, words.next(), 1, 1_000_000)?,
            "--pace" => choice.pace = true,
            "--help" | "-h" => choice.help = true,
            _ => return Err(format!("{word}: no such option")),
        }
    }
    Ok(choice)
}

fn number(option: &str, word: Option<String>, least: u64, most: u64) -> Result<u64, String> {
    let word = word.ok_or_else(|| format!("{option}: a number is missing"))?;
    let found = word.parse().ok().filter(|n| (least..=most).contains(n));
    found.ok_or_else(|| format!("{option} {word}: not a whole number from {least} to {most}"))
}

impl Choice {
    /// A terminal gets a picture each second or, at the wall clock's pace, four.
    pub fn plan(&self, terminal: bool) -> Plan {
        let every = match (terminal, self.pace) {
            (true, true) => whole(1) / 4,
            (true, false) => whole(1),
            (false, _) => whole(self.every),
        };
        Plan { end: whole(self.seconds), seed: self.seed, every, pace: self.pace }
    }
}
