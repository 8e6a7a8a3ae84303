//! Slots set by hand, at the edges of what the state may be.

use super::lines::slot_line;
use super::{slave_at, Author};
use crate::board::SLAVE_LIMIT;
use crate::fabric::{total_accesses, Slot};

impl Author {
    /// The masters that hold a transfer for this slave, or for another one.
    fn holders(&self, slave: usize, for_this: bool) -> Vec<usize> {
        (0..self.masters())
            .filter(|&master| {
                let transfer = &self.simulator.state.transfers[master];
                let target = slave_at(&self.board, transfer.address);
                transfer.held && (target == Some(slave)) == for_this
            })
            .collect()
    }

    fn pick_or_any_master(&mut self, masters: &[usize]) -> usize {
        match masters.is_empty() {
            true => self.random.below(self.masters()),
            false => self.random.pick(masters),
        }
    }

    /// A slot of a slave of the board, at the edges of the rules: most of these break one rule or none.
    fn edge_slot(&mut self, slave: usize) -> Slot {
        let masters = self.board.master_count;
        let mut slot = Slot {
            owner: self.random.below(self.masters()) as u8,
            ..Slot::default()
        };
        match self.random.below(17) {
            0 | 1 => slot.owner = masters,
            2 => {
                let any = self.random.byte();
                slot.owner = self.random.pick(&[masters + 1, 7, 8, 9, 255, any]);
            }
            3..=5 => slot.remaining = self.edge_remaining(slot.owner as usize, slave),
            6..=11 => {
                let holders = self.holders(slave, true);
                slot = self.serving_slot(slave, &holders);
                self.edge_progress(slave, &mut slot);
            }
            12 => {
                let holders = self.holders(slave, false);
                slot = self.serving_slot(slave, &holders);
            }
            13 => slot = self.serving_slot(slave, &[]),
            14 => slot.done = 1,
            15 => slot.waited = 1,
            _ => {
                slot = self.simulator.state.slots[slave];
                self.edge_progress(slave, &mut slot);
            }
        }
        slot
    }

    fn serving_slot(&mut self, slave: usize, owners: &[usize]) -> Slot {
        let owner = self.pick_or_any_master(owners);
        let shares = self.board.shares[owner][slave];
        Slot {
            owner: owner as u8,
            remaining: self.random.below(shares.max(1) as usize) as u8,
            serving: true,
            ..Slot::default()
        }
    }

    /// Remaining grants just inside and just outside of the shares.
    fn edge_remaining(&mut self, owner: usize, slave: usize) -> u8 {
        let shares = self.board.shares[owner][slave];
        let low = shares.saturating_sub(1);
        self.random
            .pick(&[0, low, low, shares, shares, shares + 1, 1, 255])
    }

    /// Accesses done near the total, or waits passed near the wait.
    fn edge_progress(&mut self, slave: usize, slot: &mut Slot) {
        let owner = (slot.owner as usize).min(self.masters() - 1);
        let transfer = self.simulator.state.transfers[owner];
        let total = total_accesses(&self.board, owner, slave, &transfer) as u16;
        let wait = self.board.slaves[slave].wait(transfer.write);
        let low = total.saturating_sub(1);
        let any = self.random.between(0, low as usize) as u16;
        let high = wait.saturating_add(1);
        // the last access that there would be with bus sizing and every word accessed
        let (master_width, slave_width) = (
            self.board.masters[owner].width,
            self.board.slaves[slave].width,
        );
        let sized = transfer.beats as u16 * (master_width / slave_width).max(1) as u16;
        let last_sized = sized.saturating_sub(1);
        match self.random.below(5) {
            0 | 1 => {
                let edges = [any, low, total, total, total + 1, last_sized, u16::MAX];
                slot.done = self.random.pick(&edges);
            }
            2 | 3 => slot.waited = self.random.pick(&[0, wait, high, high, 255]),
            _ => {
                slot.done = any;
                slot.waited = self.random.pick(&[0, wait]);
            }
        }
    }

    /// Anything in a slot behind the board's slaves, which does not count.
    pub fn corrupt_unused_slot(&mut self) {
        let slave = self.random.between(self.slaves(), SLAVE_LIMIT - 1);
        let slot = Slot {
            owner: self.random.byte(),
            remaining: self.random.byte(),
            serving: self.random.chance(1, 2),
            done: self.random.draw() as u16,
            waited: self.random.byte(),
        };
        self.put(&slot_line(slave, &slot));
    }

    pub fn corrupt_slot(&mut self) {
        if self.slaves() < SLAVE_LIMIT && self.random.chance(1, 8) {
            return self.corrupt_unused_slot();
        }
        let serving: Vec<usize> = (0..self.slaves())
            .filter(|&slave| self.simulator.state.slots[slave].serving)
            .collect();
        let slave = if !serving.is_empty() && self.random.chance(2, 3) {
            self.random.pick(&serving)
        } else {
            self.random.below(self.slaves())
        };
        let slot = self.edge_slot(slave);
        self.put(&slot_line(slave, &slot));
    }
}
