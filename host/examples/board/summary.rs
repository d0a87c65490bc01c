//! What a run came to.

use super::board::Board;
use super::picture::Screen;
use std::io::{self, Write};
use std::ops::RangeInclusive;

pub fn summary<W: Write>(screen: &mut Screen<W>, boards: &[Board; 2]) -> io::Result<()> {
    for board in boards {
        let (totals, stats) = (&board.totals, board.engine.stats());
        let turns = &totals.turns;
        screen.line(&format!("{}: {} tags", board.title, board.directory.len()))?;
        screen.line(&format!(
            "  rounds       {} seen, {} of them boundaries",
            board.watch.rounds, board.watch.boundaries
        ))?;
        screen.line(&format!(
            "  full turns   {} of {} boundary rounds each",
            turns.full,
            board.watch.turns.slices()
        ))?;
        screen.line(&format!("  in a turn    {} named, of {} in tier 2", range(&turns.named), range(&turns.tier2)))?;
        screen.line(&format!("  wrong turns  {}", turns.wrong))?;
        screen.line(&format!("  changes      {} told, {} of them bad readings", totals.changes, totals.bad))?;
        screen.line(&format!("  descriptions {} asked for, {} found", totals.asked, totals.described))?;
        screen.line(&format!(
            "  writes       {} written, {} refused, {} lost, {} failed with the connection, {} left, {} not taken",
            totals.written, totals.refused, totals.lost, totals.failed, totals.left, totals.not_taken
        ))?;
        screen.line(&format!(
            "  connection   {} lost, {} connects failed, {} reconnects, {} reloads, {} overruns",
            totals.losses, totals.failed_connects, stats.reconnects, stats.reloads, stats.overruns
        ))?;
    }
    screen.flush()
}

fn range(range: &Option<RangeInclusive<usize>>) -> String {
    match range {
        None => "none".to_owned(),
        Some(r) if r.start() == r.end() => r.start().to_string(),
        Some(r) => format!("{} to {}", r.start(), r.end()),
    }
}
