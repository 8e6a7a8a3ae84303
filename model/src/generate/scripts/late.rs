//! Reads at slaves with a latency: turns that their masters lose, posts while it lasts, and counts of its clocks set by hand.

use super::lines::{slave_line, slot_line, transfer_line};
use super::{slave_at, Author, Style};
use crate::board::{LATENCY_LIMIT, MASTER_LIMIT};
use crate::fabric::Transfer;
use crate::lanes::all_lanes;

/// How a count that is set by hand breaks the rules, or that it does not.
#[derive(Clone, Copy)]
enum Way {
    Legal,
    /// More clocks than the slave's latency has.
    Above,
    OfWrite,
    OfServed,
    WithoutTransfer,
}

const WAYS: [Way; 9] = [
    Way::Legal,
    Way::Legal,
    Way::Above,
    Way::OfWrite,
    Way::OfWrite,
    Way::OfServed,
    Way::OfServed,
    Way::WithoutTransfer,
    Way::WithoutTransfer,
];

impl Author {
    /// The slaves with a latency that some master can read.
    pub fn slaves_with_latency(&self) -> Vec<usize> {
        self.slaves_that(|_, slave| self.board.slaves[slave].latency > 0)
    }

    /// Mostly a slave with a latency at which several masters meet.
    fn slave_with_latency(&mut self) -> Option<usize> {
        let slaves = self.slaves_with_latency();
        let masters_at = |slave: usize| {
            (0..self.masters())
                .filter(|&master| self.board.connected(master, slave))
                .count()
        };
        let is_contested = |&slave: &usize| masters_at(slave) > 1;
        let contested: Vec<usize> = slaves.iter().copied().filter(is_contested).collect();
        if !contested.is_empty() && self.random.chance(7, 8) {
            return Some(self.random.pick(&contested));
        }
        (!slaves.is_empty()).then(|| self.random.pick(&slaves))
    }

    /// The masters that are in their latency.
    fn late_masters(&self) -> Vec<usize> {
        (0..self.masters())
            .filter(|&master| self.simulator.state.transfers[master].late > 0)
            .collect()
    }

    /// A post by a master that is in its latency, where there is one.
    fn post_while_late(&mut self, style: &Style) {
        let late = self.late_masters();
        if late.is_empty() {
            return;
        }
        let master = self.random.pick(&late);
        if let Some(post) = self.good_post(master, style) {
            self.put_post(&post);
        }
    }

    /// A write of the word whose read is in its latency, by an idle master: the read's bytes were taken before.
    fn write_while_late(&mut self) {
        let (late, idle) = (self.late_masters(), self.idle_masters());
        if late.is_empty() || idle.is_empty() {
            return;
        }
        let read = self.simulator.state.transfers[self.random.pick(&late)];
        let master = self.random.pick(&idle);
        let Some(slave) = slave_at(&self.board, read.address) else {
            return;
        };
        if self.board.connected(master, slave) {
            self.put_write(master, read.address);
        }
    }

    /// One clock, or so many that a master passes its latency, or all but the last clock of it.
    fn clocks_while_late(&mut self) {
        let late = self.late_masters();
        let count = match late.is_empty() || self.random.chance(3, 4) {
            true => 1,
            false => self.simulator.state.transfers[self.random.pick(&late)].late,
        };
        let one_less = self.random.chance(1, 3) as u32;
        self.put(&format!("clock,{}", count.saturating_sub(one_less).max(1)));
    }

    /// Singles of all masters at a slave with a latency: a reader is silent for it, and loses the rest of its turn.
    pub fn reads_in_turn(&mut self) {
        let Some(slave) = self.slave_with_latency() else {
            return self.busy();
        };
        let style = Style {
            hot: Some(slave),
            eager: self.random.pick(&[4, 7, 8]),
            bursts: self.random.pick(&[0, 0, 0, 1]),
            unmapped: self.random.pick(&[0, 0, 1]),
            longest_clock: 1,
        };
        for _ in 0..self.random.between(5, 12) {
            self.posts(&style);
            match self.random.below(6) {
                0 | 1 => self.post_while_late(&style),
                2 | 3 => self.write_while_late(),
                4 => self.put("state"),
                _ => {}
            }
            self.clocks_while_late();
            self.look();
        }
    }

    /// The connected pairs, of masters that no slave serves, at slaves that have a latency or, where none does, at any.
    fn late_pairs(&self) -> Vec<(usize, usize)> {
        let board = &self.board;
        let is_free = |&(master, slave): &(usize, usize)| {
            let slot = &self.simulator.state.slots[slave];
            let served_here = slot.serving && slot.owner as usize == master;
            board.connected(master, slave)
                && !served_here
                && !self.is_served_elsewhere(master, slave)
        };
        let pairs: Vec<(usize, usize)> = board.pairs().filter(is_free).collect();
        let has_latency = |&(_, slave): &(usize, usize)| board.slaves[slave].latency > 0;
        match pairs.iter().any(has_latency) {
            true => pairs.into_iter().filter(has_latency).collect(),
            false => pairs,
        }
    }

    /// A count from 1 up to the latency, often at an end; 1 where there is no latency.
    fn legal_count(&mut self, slave: usize) -> u32 {
        let latency = self.board.slaves[slave].latency.max(1);
        let any = self.random.between(1, latency as usize) as u32;
        self.random.pick(&[1, any, latency, latency])
    }

    /// A count above the latency; some are below it when they are cut to fewer bits.
    fn count_above(&mut self, slave: usize) -> u32 {
        let latency = self.board.slaves[slave].latency;
        let any = self.random.draw() as u32;
        let counts = [
            latency + 1,
            latency + 1,
            LATENCY_LIMIT as u32 + 1,
            256,
            257,
            65_536 + latency,
            u32::MAX,
            any,
        ];
        self.random.pick(&counts).max(latency + 1)
    }

    /// One beat of the pair.
    fn held_single(&mut self, master: usize, slave: usize, write: bool, late: u32) -> Transfer {
        let width = self.board.masters[master].width;
        let offset = self.offset(slave, width as usize, width as usize);
        Transfer {
            held: true,
            write,
            address: self.board.slaves[slave].base + offset as u32,
            lanes: all_lanes(width),
            beats: 1,
            late,
        }
    }

    /// A count for a master that holds nothing; the other numbers of its transfer may be anything.
    fn put_late_without_transfer(&mut self, master: usize, slave: usize) {
        let any_master = self.random.between(self.masters() - 1, MASTER_LIMIT - 1);
        let master = self.random.pick(&[master, any_master]);
        let late = self.legal_count(slave);
        let any = self.random.draw() as u32;
        let late = self.random.pick(&[late, late, 1, 256, any.max(1)]);
        let transfer = match self.random.chance(1, 2) && master < self.masters() {
            true => Transfer {
                held: false,
                ..self.held_single(master, slave, false, late)
            },
            false => Transfer {
                late,
                ..Transfer::default()
            },
        };
        self.put(&transfer_line(master, &transfer));
    }

    /// A count for a master that the slave serves.
    fn put_late_of_served(&mut self, master: usize, slave: usize) {
        let late = self.legal_count(slave);
        let transfer = self.held_single(master, slave, false, late);
        let slot = self.slot_with(master, slave, &transfer, 0);
        self.put_shuffled(vec![
            transfer_line(master, &transfer),
            slot_line(slave, &slot),
        ]);
    }

    fn put_late(&mut self, master: usize, slave: usize, way: Way) {
        let (write, late) = match way {
            Way::Legal => (false, self.legal_count(slave)),
            Way::Above => (false, self.count_above(slave)),
            Way::OfWrite => (true, self.legal_count(slave)),
            Way::OfServed => return self.put_late_of_served(master, slave),
            Way::WithoutTransfer => return self.put_late_without_transfer(master, slave),
        };
        let transfer = self.held_single(master, slave, write, late);
        self.put(&transfer_line(master, &transfer));
    }

    /// A latency one below a count that there is, the longest one, or one that is refused.
    fn other_latency(&mut self) -> u32 {
        let late = self.late_masters();
        let below = match late.is_empty() {
            true => 0,
            false => self.simulator.state.transfers[self.random.pick(&late)].late - 1,
        };
        let above = LATENCY_LIMIT as u32 + 1;
        self.random
            .pick(&[below, below, above - 1, above, above, above, 256, u32::MAX])
    }

    /// Gives a slave another latency and calls with that; sometimes, where the board can be used, it stays so.
    fn change_latency(&mut self, style: &Style) {
        let (board, state) = (self.board, self.simulator.state);
        let slave = self.random.below(self.slaves());
        let mut card = board.slaves[slave];
        card.latency = self.other_latency();
        self.put(&slave_line(slave, &card));
        self.put("clock,1");
        self.try_calls(style);
        self.go_on_or_restore(&board, &state);
    }

    /// Sets the counts of masters by hand and calls with that. Where it is refused, the state is put right.
    pub fn late_counts(&mut self) {
        let style = self.style();
        if self.random.chance(1, 2) {
            self.change_latency(&style);
        }
        for _ in 0..self.random.between(2, 4) {
            let pairs = self.late_pairs();
            if pairs.is_empty() {
                return self.busy();
            }
            let (master, slave) = self.random.pick(&pairs);
            let way = self.random.pick(&WAYS);
            let before = self.simulator.state;
            self.put_late(master, slave, way);
            if self.random.chance(1, 2) {
                let post = self.some_post(&style);
                self.put_post(&post);
            }
            if self.usable() {
                self.clocks_while_late();
            } else {
                self.put("clock,1");
                self.put_state(&before);
            }
        }
        self.clocks_while_late();
    }
}
