//! What a script does about resets that are refused.

use std::collections::BTreeMap;

use crate::tally::ended_lines;
use model::board::Board;
use model::description::check_board;
use model::fabric::{Entry, Slot, State, Transfer, LOG_LENGTH};
use model::script::Simulator;

/// The cases that scripts are to have. Each is of a refused reset in a state that is not all 0, and of a later line that shows that
/// state, while no number of it is changed.
pub const RESET_CASES: [&str; 20] = [
    // what made the board one that is refused
    "share",
    "count",
    "master",
    "slave",
    // what a state line shows of the state
    "a transfer is held",
    "several transfers are held",
    "an unmapped transfer is held",
    "a slave serves",
    "a slave has passed waits or done accesses",
    "a master is in its latency",
    "the log has entries",
    "the log is marked lost",
    "a transfer that is not held has numbers",
    "a slot after the slaves has numbers",
    "an entry from the count on has numbers",
    // the lines that show it
    "a state line",
    "a state line when the board is put right",
    "a clock is accepted",
    "a clock finishes a transfer",
    "an entry is taken out",
];

/// How often each of the cases happens in a script.
pub type ResetTally = BTreeMap<&'static str, usize>;

/// What a refused reset left.
struct Kept {
    state: State,
    /// The last board that was accepted.
    board: Board,
    /// The word of the line that made it one that is refused.
    word: &'static str,
}

impl Kept {
    fn is_unmapped(&self, master: usize) -> bool {
        let address = self.state.transfers[master].address;
        let board = &self.board;
        (0..board.slave_count as usize).all(|slave| {
            let card = &board.slaves[slave];
            !board.connected(master, slave) || address / card.span != card.base / card.span
        })
    }

    fn held(&self) -> Vec<usize> {
        (0..self.board.master_count as usize)
            .filter(|&master| self.state.transfers[master].held)
            .collect()
    }

    /// What a state line shows of the numbers that count.
    fn counted(&self) -> [(&'static str, bool); 8] {
        let held = self.held();
        let slots = &self.state.slots[..self.board.slave_count as usize];
        let is_unmapped = held.iter().any(|&master| self.is_unmapped(master));
        let is_serving = slots.iter().any(|slot| slot.serving);
        let is_begun = slots.iter().any(|slot| slot.waited > 0 || slot.done > 0);
        let is_late = self.state.transfers.iter().any(|held| held.late > 0);
        [
            ("a transfer is held", !held.is_empty()),
            ("several transfers are held", held.len() > 1),
            ("an unmapped transfer is held", is_unmapped),
            ("a slave serves", is_serving),
            ("a slave has passed waits or done accesses", is_begun),
            ("a master is in its latency", is_late),
            ("the log has entries", self.state.log.count > 0),
            ("the log is marked lost", self.state.log.lost),
        ]
    }

    /// What it shows of those that do not count.
    fn uncounted(&self) -> [(&'static str, bool); 3] {
        let State {
            transfers,
            slots,
            log,
        } = &self.state;
        let is_idle = |transfer: &Transfer| !transfer.held && *transfer != Transfer::default();
        let idle = transfers.iter().any(is_idle);
        let mut unused = slots[self.board.slave_count as usize..].iter();
        let slot = unused.any(|&slot| slot != Slot::default());
        let mut free = log.entries[(log.count as usize).min(LOG_LENGTH)..].iter();
        let entry = free.any(|&entry| entry != Entry::default());
        [
            ("a transfer that is not held has numbers", idle),
            ("a slot after the slaves has numbers", slot),
            ("an entry from the count on has numbers", entry),
        ]
    }
}

/// The word of a line that overwrites the board.
fn word_of(line: &[u8]) -> &'static str {
    RESET_CASES[..4]
        .iter()
        .copied()
        .find(|word| line.starts_with(format!("{word},").as_bytes()))
        .unwrap_or("another line")
}

/// Enters a line that the simulator has run while the state was what a refused reset left.
fn enter(tally: &mut ResetTally, kept: &Kept, simulator: &Simulator, line: &[u8], printed: &[u8]) {
    let mut enter = |case: &'static str, happens: bool| {
        *tally.entry(case).or_default() += usize::from(happens);
    };
    if line == b"state" {
        enter("a state line", true);
        enter(kept.word, true);
        for (case, happens) in kept.counted().into_iter().chain(kept.uncounted()) {
            enter(case, happens);
        }
        let is_right = check_board(&simulator.board).is_ok();
        enter("a state line when the board is put right", is_right);
    }
    let finishes = |master: usize| !simulator.state.transfers[master].held;
    let is_accepted = printed.starts_with(b"clock,0,");
    enter("a clock is accepted", is_accepted);
    enter(
        "a clock finishes a transfer",
        is_accepted && kept.held().into_iter().any(finishes),
    );
    enter("an entry is taken out", printed.starts_with(b"take,0,"));
}

pub fn is_refused_reset(printed: &[u8]) -> bool {
    printed.starts_with(b"reset,") && printed != b"reset,0\n"
}

/// Runs a script on the board of a text, up to a malformed line; one on a refused board does nothing.
pub fn reset_tally(text: &[u8], script: &[u8]) -> ResetTally {
    let mut tally = ResetTally::default();
    let Ok(mut simulator) = Simulator::new(text) else {
        return tally;
    };
    let (mut board, mut word) = (simulator.board, "");
    let mut kept: Option<Kept> = None;
    for line in ended_lines(script) {
        let was_accepted = check_board(&simulator.board).is_ok();
        let mut printed = Vec::new();
        let Ok(Some(())) = simulator.run_line(line, &mut printed) else {
            return tally;
        };
        match check_board(&simulator.board) {
            Ok(()) => board = simulator.board,
            Err(_) if was_accepted => word = word_of(line),
            Err(_) => {}
        }
        if let Some(kept) = &kept {
            enter(&mut tally, kept, &simulator, line, &printed);
        }
        let state = simulator.state;
        kept = kept.filter(|kept| kept.state == state);
        if is_refused_reset(&printed) && state != State::default() {
            kept = Some(Kept { state, board, word });
        }
    }
    tally
}

/// What a script prints if a refused reset does this to the state.
pub fn printed_if(text: &[u8], script: &[u8], after_refusal: fn(&mut State)) -> Vec<u8> {
    let mut printed = Vec::new();
    let Ok(mut simulator) = Simulator::new(text) else {
        return printed;
    };
    for line in ended_lines(script) {
        let start = printed.len();
        let Ok(Some(())) = simulator.run_line(line, &mut printed) else {
            return printed;
        };
        if is_refused_reset(&printed[start..]) {
            after_refusal(&mut simulator.state);
        }
    }
    printed
}
