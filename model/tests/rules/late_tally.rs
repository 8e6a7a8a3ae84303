//! What a script does about cards with a latency.

use crate::tally::ended_lines;
use model::board::{Board, LATENCY_LIMIT, MASTER_LIMIT};
use model::description::check_board;
use model::fabric::{self, State, Transfer, BUFFER_LENGTH};
use model::script::Simulator;

/// What only a count of latency clocks, or a latency, is refused for.
#[derive(Clone, Copy, PartialEq, Eq, Debug)]
pub enum Fault {
    /// A count above the card's latency.
    Above,
    /// One of a write, not above it.
    OfWrite,
    /// One of a read that is served, not above it.
    OfServed,
    WithoutTransfer,
    /// The same of a master behind the board's.
    BehindTheMasters,
}

pub const FAULTS: [Fault; 5] = [
    Fault::Above,
    Fault::OfWrite,
    Fault::OfServed,
    Fault::WithoutTransfer,
    Fault::BehindTheMasters,
];

/// How often each of these happens in a script.
#[derive(Clone, Default)]
pub struct LateTally {
    /// A master finishes at the end of its latency.
    pub passed: usize,
    /// The same, of more than 31 clocks.
    pub passed_long: usize,
    /// A write finishes at a card with a latency.
    pub writes: usize,
    /// A card serves another while a master is in its latency there.
    pub others_served: usize,
    /// Another is granted though grants remain to the last owner, which is in its latency.
    pub lost: usize,
    /// Nobody is, and these grants are lost all the same.
    pub lost_alone: usize,
    /// A master posts in its latency and answers 12.
    pub posts: usize,
    /// A clock is taken in a state with a count that was overwritten.
    pub entered: usize,
    /// A call is refused for the latency of a lent board alone.
    pub lent: usize,
    /// A call answers 9 for one of the faults alone.
    pub faults: [usize; FAULTS.len()],
}

/// Board and state before a call.
#[derive(Clone, Copy)]
struct Moment {
    board: Board,
    state: State,
}

impl Moment {
    fn of(simulator: &Simulator) -> Moment {
        Moment {
            board: simulator.board,
            state: simulator.state,
        }
    }

    /// The card that a master's transfer is for, where the board is a good one.
    fn target(&self, master: usize) -> Option<usize> {
        let address = self.state.transfers[master].address;
        (0..self.board.slave_count as usize).find(|&slave| {
            let card = &self.board.slaves[slave];
            self.board.connected(master, slave) && address / card.span == card.base / card.span
        })
    }

    fn is_served(&self, master: usize) -> bool {
        let slots = &self.state.slots[..self.board.slave_count as usize];
        slots
            .iter()
            .any(|slot| slot.serving && slot.owner as usize == master)
    }

    fn has_fault(&self, master: usize, fault: Fault) -> bool {
        let Transfer {
            held, write, late, ..
        } = self.state.transfers[master];
        let of_board = master < self.board.master_count as usize;
        let target = self.target(master);
        let latency = target.map_or(0, |slave| self.board.slaves[slave].latency);
        let is_above = late > latency;
        let is_such = match fault {
            Fault::Above => held && !write && is_above,
            Fault::OfWrite => held && write && !is_above,
            Fault::OfServed => held && !write && !is_above && self.is_served(master),
            Fault::WithoutTransfer => !held && of_board,
            Fault::BehindTheMasters => !held && !of_board,
        };
        late > 0 && is_such
    }

    fn clock_number(&self, mut state: State) -> u8 {
        let mut memory = vec![0; self.board.total_span() as usize];
        let mut buffer = [0; BUFFER_LENGTH];
        fabric::clock(&self.board, &mut state, &mut memory, &mut buffer).number
    }

    /// Whether the state would be taken if the counts with this fault were 0.
    fn is_refused_for(&self, fault: Fault) -> bool {
        let mut state = self.state;
        let faulty: Vec<usize> = (0..MASTER_LIMIT)
            .filter(|&master| self.has_fault(master, fault))
            .collect();
        for &master in &faulty {
            state.transfers[master].late = 0;
        }
        !faulty.is_empty() && self.clock_number(state) == 0
    }

    /// Whether the board would be taken if its latencies were no longer than they may be.
    fn is_refused_for_latency(&self) -> bool {
        let mut board = self.board;
        for slave in &mut board.slaves {
            slave.latency = slave.latency.min(LATENCY_LIMIT as u32);
        }
        board != self.board && check_board(&self.board) == Err(3) && check_board(&board).is_ok()
    }
}

impl LateTally {
    fn enter_refused(&mut self, before: &Moment) {
        if check_board(&before.board).is_err() {
            return;
        }
        for (count, fault) in self.faults.iter_mut().zip(FAULTS) {
            *count += usize::from(before.is_refused_for(fault));
        }
    }

    /// Masters that finish in a clock.
    fn enter_finishes(&mut self, before: &Moment, after: &Moment) {
        for master in 0..before.board.master_count as usize {
            let transfer = &before.state.transfers[master];
            if !transfer.held || after.state.transfers[master].held {
                continue;
            }
            let latency = before
                .target(master)
                .map(|slave| before.board.slaves[slave].latency);
            self.passed += usize::from(transfer.late == 1);
            self.passed_long += usize::from(transfer.late == 1 && latency > Some(31));
            self.writes += usize::from(transfer.write && latency > Some(0));
        }
    }

    /// What a free card does whose last owner is in its latency behind a read of it.
    fn enter_turns(&mut self, before: &Moment, after: &Moment) {
        for slave in 0..before.board.slave_count as usize {
            let (slot, behind) = (before.state.slots[slave], after.state.slots[slave]);
            let owner = slot.owner as usize;
            let is_late = before.state.transfers[owner].late > 0;
            if !is_late || before.target(owner) != Some(slave) {
                continue;
            }
            let is_other = behind.owner != slot.owner;
            self.others_served += usize::from(is_other);
            self.lost += usize::from(is_other && slot.remaining > 0);
            self.lost_alone += usize::from(!is_other && slot.remaining > 0);
        }
    }

    fn enter(&mut self, line: &[u8], printed: &[u8], before: &Moment, after: &Moment) {
        let answers = |number: &str| {
            ["clock", "post", "reset"].into_iter().any(|call| {
                let start = format!("{call},{number}");
                printed.starts_with(format!("{start},").as_bytes())
                    || printed == format!("{start}\n").as_bytes()
            })
        };
        if answers("9") {
            self.enter_refused(before);
        }
        self.lent += usize::from(answers("3") && before.is_refused_for_latency());
        if printed.starts_with(b"clock,0,") {
            self.enter_finishes(before, after);
            self.enter_turns(before, after);
        }
        if printed == b"post,12\n" {
            let master = usize::from(line["post,".len()] - b'0');
            self.posts += usize::from(before.state.transfers[master].late > 0);
        }
    }
}

/// The lines of a script, each of several clocks as so many lines of one.
pub fn single_clocks(script: &[u8]) -> Vec<&[u8]> {
    let times = |line: &[u8]| match line.strip_prefix(b"clock,") {
        Some(count) => String::from_utf8_lossy(count).parse().unwrap_or(1),
        None => 1,
    };
    ended_lines(script)
        .into_iter()
        .flat_map(|line| {
            let line_of_one = if times(line) > 1 { b"clock,1" } else { line };
            vec![line_of_one; times(line)]
        })
        .collect()
}

/// Runs a script on the board of a text, up to a malformed line; one on a refused board does nothing.
pub fn late_tally(text: &[u8], script: &[u8]) -> LateTally {
    let mut tally = LateTally::default();
    let Ok(mut simulator) = Simulator::new(text) else {
        return tally;
    };
    let mut overwritten = [None; MASTER_LIMIT];
    for line in single_clocks(script) {
        let before = Moment::of(&simulator);
        let mut printed = Vec::new();
        let Ok(Some(())) = simulator.run_line(line, &mut printed) else {
            return tally;
        };
        let after = Moment::of(&simulator);
        tally.enter(line, &printed, &before, &after);
        if line.starts_with(b"transfer,") {
            let master = usize::from(line["transfer,".len()] - b'0');
            let transfer = after.state.transfers[master];
            overwritten[master] = (transfer.late > 0).then_some(transfer);
        } else if printed.starts_with(b"clock,0,") {
            let is_overwritten =
                |master: usize| overwritten[master] == Some(before.state.transfers[master]);
            tally.entered += (0..MASTER_LIMIT)
                .filter(|&master| is_overwritten(master))
                .count();
            overwritten = [None; MASTER_LIMIT];
        }
    }
    tally
}
