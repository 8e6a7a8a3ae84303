//! Transfers to addresses that no slave of their master has: posted, held while the board has no mark, and set by hand.

use super::lines::{default_line, slot_line, transfer_line};
use super::posts::Post;
use super::{Author, Style};
use crate::board::{Master, MASTER_LIMIT};
use crate::fabric::{Transfer, PART_LENGTH};
use crate::lanes::all_lanes;

/// The faults of a post that are refused at unmapped addresses too.
const FAULTS: [u8; 8] = [13, 13, 14, 14, 15, 15, 18, 18];

/// Counts of latency clocks; some are 0 when they are cut to fewer bits.
const LATE_EDGES: [u32; 8] = [1, 1, 2, 63, 64, 256, 65_536, u32::MAX];

impl Author {
    /// Whether no slave that is connected with the master has the address.
    fn is_unmapped(&self, master: usize, address: u64) -> bool {
        self.connected_slaves(master).into_iter().all(|slave| {
            let slave = &self.board.slaves[slave];
            let base = slave.base as u64;
            address < base || address >= base + slave.span as u64
        })
    }

    fn unconnected_slaves(&self, master: usize) -> Vec<usize> {
        (0..self.slaves())
            .filter(|&slave| !self.board.connected(master, slave))
            .collect()
    }

    /// An address that may be unmapped: around a slave, within one that is not connected, where only a high bit differs from a
    /// slave's addresses, at an end of all addresses, or anywhere.
    fn unmapped_candidate(&mut self, master: usize) -> u64 {
        let width = self.board.masters[master].width as u64;
        let slave = self.board.slaves[self.random.below(self.slaves())];
        let (base, span) = (slave.base as u64, slave.span as u64);
        let words = self.random.between(1, 4) as u64;
        let unconnected = self.unconnected_slaves(master);
        let address = match self.random.below(10) {
            0 => base + span,
            1 => base + span + (words - 1) * width,
            2 | 3 => base.wrapping_sub(words * width),
            4 | 5 if !unconnected.is_empty() => {
                let slave = self.random.pick(&unconnected);
                let offset = self.offset(slave, width as usize, width as usize) as u64;
                self.board.slaves[slave].base as u64 + offset
            }
            6 => (1 << 32) - words * width,
            7 => (words - 1) * width,
            8 => base ^ (span << self.random.below(32)),
            _ => self.random.draw(),
        };
        address % (1 << 32) / width * width
    }

    fn unmapped_address(&mut self, master: usize) -> Option<u64> {
        let candidates: Vec<u64> = (0..8).map(|_| self.unmapped_candidate(master)).collect();
        let is_unmapped = |&address: &u64| self.is_unmapped(master, address);
        candidates.into_iter().find(is_unmapped)
    }

    /// One beat, or a burst, which may reach into a slave or past the highest address.
    pub fn unmapped_post(&mut self, master: usize, style: &Style) -> Option<Post> {
        let address = self.unmapped_address(master)?;
        let Master { width, burst } = self.board.masters[master];
        let beats = match self.random.chance(style.bursts.max(2), 8) {
            true => self.random.between(1, burst as usize),
            false => 1,
        };
        let write = self.random.chance(1, 2);
        Some(Post {
            master: master as u64,
            write,
            address,
            lanes: self.lanes(width, beats),
            beats,
            length: if write { beats * width as usize } else { 0 },
        })
    }

    /// An unmapped post that is refused all the same, mostly for one fault.
    fn put_damaged_unmapped(&mut self, master: usize, style: &Style) {
        let Some(post) = self.unmapped_post(master, style) else {
            return;
        };
        let mut faults = vec![self.random.pick(&FAULTS)];
        if self.random.chance(1, 4) {
            faults.push(self.random.pick(&FAULTS));
        }
        self.put_post_with(post, &faults);
    }

    /// A burst from one of the last words of a slave on, past its end: it is mapped, and refused.
    fn put_post_past_the_end(&mut self, master: usize, style: &Style) {
        if let Some(post) = self.good_post(master, style) {
            self.put_post_with(post, &[17]);
        }
    }

    /// Random bytes in a master's part, so that zeros show.
    fn fill_part(&mut self, master: usize) {
        let most = self.random.pick(&[16, 64, PART_LENGTH]);
        self.fill("buffer", PART_LENGTH * master, most);
    }

    /// A post of an idle master: mostly a good one to an unmapped address, often behind one that is refused.
    fn post_unmapped(&mut self, master: usize, style: &Style) {
        match self.random.below(8) {
            0 | 1 => self.put_damaged_unmapped(master, style),
            2 => self.put_post_past_the_end(master, style),
            3 | 4 => self.fill_part(master),
            _ => {}
        }
        let post = match self.random.chance(3, 4) {
            true => self.unmapped_post(master, style),
            false => self.good_post(master, style),
        };
        if let Some(post) = post {
            self.put_post(&post);
        }
    }

    /// The idle masters post, in any order, as far as they are eager.
    pub fn unmapped_posts(&mut self, style: &Style) {
        let mut idle = self.idle_masters();
        self.random.shuffle(&mut idle);
        for master in idle {
            if self.random.chance(style.eager, 8) {
                self.post_unmapped(master, style);
            }
        }
    }

    /// The masters that hold an unmapped transfer.
    fn unmapped_masters(&self) -> Vec<usize> {
        (0..self.masters())
            .filter(|&master| {
                let transfer = &self.simulator.state.transfers[master];
                transfer.held && self.is_unmapped(master, transfer.address as u64)
            })
            .collect()
    }

    /// Mostly one clock, and a look at the parts of those that were unmapped.
    pub fn clock_unmapped(&mut self) {
        let unmapped = self.unmapped_masters();
        let before = self.simulator.state.transfers;
        let count = self.random.pick(&[1, 1, 1, 1, 2, 3]);
        self.put(&format!("clock,{count}"));
        for master in unmapped {
            if self.random.chance(1, 2) {
                self.put(&format!(
                    "show,buffer,{},{PART_LENGTH}",
                    PART_LENGTH * master
                ));
            } else {
                self.look_at_finished(master, &before[master]);
            }
        }
    }

    /// Unmapped transfers of several masters beside others, with takes between.
    fn unmapped_in_turn(&mut self, style: &Style) {
        for _ in 0..self.random.between(3, 7) {
            self.unmapped_posts(style);
            if self.random.chance(1, 8) {
                self.put("state");
            }
            self.clock_unmapped();
            self.take_some();
        }
    }

    /// Sets the mark, or takes it away, whatever is held.
    pub fn change_mark(&mut self) {
        let mark = self.simulator.board.default;
        self.put(&default_line(!mark));
    }

    /// The calls that look at the state, in any order.
    pub fn call_each(&mut self, style: &Style) {
        let mut calls = [0, 1, 2, 3];
        self.random.shuffle(&mut calls);
        for call in calls {
            match call {
                0 => self.put("clock,1"),
                1 => self.put("take"),
                2 => {
                    let post = self.some_post(style);
                    self.put_post(&post);
                }
                _ if self.random.chance(1, 4) => self.put("state"),
                _ => {}
            }
        }
    }

    /// Takes the mark away, mostly while unmapped transfers are held, calls with that, and gives it back.
    fn without_the_mark(&mut self, style: &Style) {
        if self.random.chance(7, 8) {
            self.unmapped_posts(style);
        }
        self.put(&default_line(false));
        self.call_each(style);
        let master = self.random.below(self.masters());
        if let Some(post) = self.unmapped_post(master, style) {
            self.put_post(&post);
        }
        self.put(&default_line(true));
        self.clock_unmapped();
        self.take_some();
    }

    /// A transfer as a post would leave it, to an unmapped address.
    fn unmapped_transfer(&mut self, master: usize, style: &Style) -> Option<Transfer> {
        let post = self.unmapped_post(master, style)?;
        Some(Transfer {
            held: true,
            write: post.write,
            address: post.address as u32,
            lanes: post.lanes,
            beats: post.beats as u8,
            late: 0,
        })
    }

    /// Breaks a rule of an unmapped transfer, or none.
    fn break_transfer(&mut self, master: usize, transfer: &mut Transfer) {
        let Master { width, burst } = self.board.masters[master];
        match self.random.below(10) {
            0..=3 => transfer.late = self.random.pick(&LATE_EDGES),
            4 => transfer.beats = self.random.pick(&[0, burst + 1, 255]),
            5 => transfer.address |= self.random.below(width as usize) as u32,
            6 => transfer.lanes = self.random.pick(&[0, 5, 6, 255, all_lanes(width) << 1]),
            _ => {}
        }
    }

    /// The masters whose transfer may be overwritten, because no slave serves them.
    fn unserved_masters(&self) -> Vec<usize> {
        // elsewhere than at the number behind the last slave is anywhere
        let behind = self.slaves();
        (0..self.masters())
            .filter(|&master| !self.is_served_elsewhere(master, behind))
            .collect()
    }

    /// Sets an unmapped transfer by hand: one that breaks a rule, one that a slave serves, or of a master that there is not.
    fn put_unmapped(&mut self, style: &Style) {
        let unserved = self.unserved_masters();
        if unserved.is_empty() {
            return;
        }
        let master = self.random.pick(&unserved);
        let Some(mut transfer) = self.unmapped_transfer(master, style) else {
            return;
        };
        let place = match self.random.chance(1, 10) {
            true => self.random.between(master, MASTER_LIMIT - 1),
            false => master,
        };
        self.break_transfer(master, &mut transfer);
        self.put(&transfer_line(place, &transfer));
        let slaves = self.connected_slaves(master);
        if !slaves.is_empty() && self.random.chance(1, 3) {
            let slave = self.random.pick(&slaves);
            let slot = self.slot_with(master, slave, &transfer, 0);
            self.put(&slot_line(slave, &slot));
        }
    }

    /// Unmapped transfers set by hand, and calls with them. Where they are refused, the state is put right.
    fn unmapped_by_hand(&mut self, style: &Style) {
        for _ in 0..self.random.between(2, 4) {
            let before = self.simulator.state;
            self.put_unmapped(style);
            self.call_each(style);
            if !self.usable() {
                self.put_state(&before);
            }
        }
        self.clock_unmapped();
    }

    /// Transfers to unmapped addresses, on a board that has the mark or, mostly, is given it for a while.
    pub fn unmapped(&mut self) {
        let style = Style {
            eager: self.random.pick(&[4, 7, 8]),
            ..self.style()
        };
        let mut board = self.board;
        if !board.default && self.random.chance(3, 4) {
            board.default = true;
            self.put_board(&board);
        }
        match self.random.below(10) {
            0..=2 => self.unmapped_in_turn(&style),
            3..=5 => self.fill_log(&style),
            6 => self.without_the_mark(&style),
            7 | 8 => self.log_by_hand(&style),
            _ => self.unmapped_by_hand(&style),
        }
        self.leave_unmapped();
    }

    /// The mark stays as the last line left it, or is that of the file again. A transfer that is unmapped is finished before.
    fn leave_unmapped(&mut self) {
        self.board.default = self.simulator.board.default;
        if !self.usable() {
            self.put("reset");
        }
        if self.board.default != self.original.default && self.random.chance(2, 3) {
            self.put("clock,1");
            self.change_mark();
            self.board.default = self.original.default;
        }
    }
}
