//! The operator's board of a club layout: a simulated command station, two engines that poll it, and their board as text.
//! One engine has the station's 120 locomotive slots, the other its blocks, points and boosters.
//! `cargo run --release --example board -- --help`
#![deny(unsafe_code)]

mod board;
mod crew;
mod directory;
pub(crate) mod options;
pub(crate) mod picture;
mod random;
pub(crate) mod run;
mod station;
mod summary;
pub(crate) mod turns;

use options::{Choice, HELP, parse};
use picture::Screen;
use run::{Trouble, run};
use std::io::{self, BufWriter, ErrorKind, IsTerminal, Write};
use std::process::ExitCode;

fn main() -> ExitCode {
    let choice = match parse(std::env::args().skip(1)) {
        Ok(choice) => choice,
        Err(message) => return complain(2, &format!("{message}; --help has them")),
    };
    match show(&choice) {
        Ok(0) => ExitCode::SUCCESS,
        Ok(wrong) => complain(1, &format!("{wrong} wrong turns: a fault of the engine or of this example")),
        // whoever read the output has enough of it
        Err(Trouble::Output(error)) if error.kind() == ErrorKind::BrokenPipe => ExitCode::SUCCESS,
        Err(Trouble::Output(error)) => complain(1, &format!("the output: {error}")),
        Err(Trouble::Refused(refusal)) => complain(1, &format!("the engine {refusal}")),
    }
}

/// Runs, and gives the number of wrong turns.
fn show(choice: &Choice) -> Result<u64, Trouble> {
    let stdout = io::stdout().lock();
    let terminal = stdout.is_terminal();
    let mut out = BufWriter::new(stdout);
    if choice.help {
        out.write_all(HELP.as_bytes())?;
        out.flush()?;
        return Ok(0);
    }
    let mut screen = Screen::new(out, terminal);
    screen.clear()?;
    let boards = run(&choice.plan(terminal), &mut screen)?;
    summary::summary(&mut screen, &boards)?;
    Ok(boards.iter().map(|board| board.totals.turns.wrong).sum())
}

fn complain(code: u8, message: &str) -> ExitCode {
    // nobody may be there to read it
    let _ = writeln!(io::stderr(), "board: {message}");
    ExitCode::from(code)
}
