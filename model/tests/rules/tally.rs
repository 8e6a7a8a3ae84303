//! What a script does about writes that leave words of a card out.

use model::board::Board;
use model::fabric::{self, total_accesses, Slot, State, Transfer, BUFFER_LENGTH};
use model::script::Simulator;

/// Whether a script has such writes, and states of them.
#[derive(Clone, Copy, Default)]
pub struct Tally {
    /// One finishes.
    pub finished: bool,
    /// A call answers 9 that would be taken if every word were accessed.
    pub refused: bool,
    /// A clock is taken in a state that was overwritten so that some accesses of such a write are done, and some are not.
    pub entered: bool,
}

/// Board and state between two lines of a script.
#[derive(Clone, Copy)]
struct Moment {
    board: Board,
    state: State,
}

impl Moment {
    fn of(simulator: &Simulator) -> Moment {
        Moment {
            board: simulator.board,
            state: simulator.state,
        }
    }

    /// The accesses that a transfer has at a slave, and those that it would have if every word were accessed.
    fn totals(&self, master: usize, slave: usize) -> (u64, u64) {
        let transfer: &Transfer = &self.state.transfers[master];
        let most = transfer.beats as u64 * self.board.ratio(master, slave);
        (total_accesses(&self.board, master, slave, transfer), most)
    }

    /// Whether a master holds a write for the slave that leaves words out.
    fn leaves_out(&self, master: usize, slave: usize) -> bool {
        let transfer = &self.state.transfers[master];
        let card = &self.board.slaves[slave];
        let (total, most) = self.totals(master, slave);
        transfer.held
            && transfer.address / card.span == card.base / card.span
            && self.board.connected(master, slave)
            && total < most
    }

    /// The slaves that serve such a write, with the totals of it; none where the board is refused.
    fn serving(&self) -> Vec<(usize, Slot, (u64, u64))> {
        if fabric::reset(&self.board).0 != 0 {
            return Vec::new();
        }
        (0..self.board.slave_count as usize)
            .map(|slave| (slave, self.state.slots[slave]))
            .filter(|(_, slot)| slot.serving && slot.owner < self.board.master_count)
            .filter(|&(slave, slot)| self.leaves_out(slot.owner as usize, slave))
            .map(|(slave, slot)| (slave, slot, self.totals(slot.owner as usize, slave)))
            .collect()
    }

    /// Whether only the accesses done of such writes break a rule.
    fn is_taken_with_every_word(&self) -> bool {
        let mut state = self.state;
        for (slave, slot, (total, most)) in self.serving() {
            if (total..most).contains(&(slot.done as u64)) {
                state.slots[slave].done = 0;
            }
        }
        let mut memory = vec![0; self.board.total_span() as usize];
        let mut buffer = [0; BUFFER_LENGTH];
        fabric::clock(&self.board, &mut state, &mut memory, &mut buffer).number == 0
    }

    /// The slaves in the middle of such a write.
    fn middles(&self) -> Vec<(usize, Slot)> {
        let mut serving = self.serving();
        serving.retain(|(_, slot, (total, _))| (1..*total).contains(&(slot.done as u64)));
        serving
            .into_iter()
            .map(|(slave, slot, _)| (slave, slot))
            .collect()
    }

    /// Whether such a write is held, and in the other moment no longer.
    fn finishes(&self, after: &Moment) -> bool {
        self.board.pairs().any(|(master, slave)| {
            self.leaves_out(master, slave) && !after.state.transfers[master].held
        })
    }
}

impl Tally {
    /// Enters what a line printed; `overwritten` says that a slave came into the middle of such a write by a line before it.
    fn enter(&mut self, printed: &[u8], before: &Moment, after: &Moment, overwritten: bool) {
        if printed.starts_with(b"clock,9,") || printed.starts_with(b"post,9\n") {
            self.refused |= before.is_taken_with_every_word();
        }
        if printed.starts_with(b"clock,0,") {
            self.finished |= before.finishes(after);
            self.entered |= overwritten && !before.middles().is_empty();
        }
    }
}

/// The lines of a script that have their line feed.
pub fn ended_lines(script: &[u8]) -> Vec<&[u8]> {
    script
        .split_inclusive(|&byte| byte == b'\n')
        .filter_map(|line| line.strip_suffix(b"\n"))
        .collect()
}

/// Runs a script on the board of a text, up to a malformed line; one on a refused board does nothing.
pub fn tally(text: &[u8], script: &[u8]) -> Tally {
    let mut tally = Tally::default();
    let Ok(mut simulator) = Simulator::new(text) else {
        return tally;
    };
    let mut overwritten = false;
    for line in ended_lines(script) {
        let before = Moment::of(&simulator);
        let mut printed = Vec::new();
        let Ok(Some(())) = simulator.run_line(line, &mut printed) else {
            return tally;
        };
        let after = Moment::of(&simulator);
        tally.enter(&printed, &before, &after, overwritten);
        if line.starts_with(b"slot,") || line.starts_with(b"transfer,") {
            let already = before.middles();
            let comes_in = |middle| !already.contains(middle);
            overwritten |= after.middles().iter().any(comes_in);
        } else if printed.starts_with(b"clock,0,") || printed == b"reset,0\n" {
            overwritten = false;
        }
    }
    tally
}
