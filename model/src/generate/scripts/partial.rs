//! Writes that leave words of their slave out, set by hand with few, all or too many of their accesses done.

use super::lines::{slot_line, transfer_line};
use super::{Author, Style};
use crate::fabric::{total_accesses, Slot, Transfer};
use crate::lanes::all_lanes;

impl Author {
    pub fn is_served_elsewhere(&self, master: usize, slave: usize) -> bool {
        let slots = &self.simulator.state.slots[..self.slaves()];
        slots
            .iter()
            .enumerate()
            .any(|(other, slot)| other != slave && slot.serving && slot.owner as usize == master)
    }

    /// The pairs in which a beat covers at least so many words of the slave, of masters whose transfer may be overwritten.
    fn wider_pairs(&self, words: u64) -> Vec<(usize, usize)> {
        let board = &self.board;
        board
            .pairs()
            .filter(|&(master, slave)| board.connected(master, slave))
            .filter(|&(master, slave)| board.ratio(master, slave) >= words)
            .filter(|&(master, slave)| !self.is_served_elsewhere(master, slave))
            .collect()
    }

    /// Mostly a pair in which a write may leave words out and still have several accesses.
    fn wider_pair(&mut self) -> Option<(usize, usize)> {
        let (any, wide) = (self.wider_pairs(2), self.wider_pairs(4));
        if !wide.is_empty() && self.random.chance(7, 8) {
            return Some(self.random.pick(&wide));
        }
        (!any.is_empty()).then(|| self.random.pick(&any))
    }

    /// One beat with some of its lanes, now and then of a read, which accesses every word all the same.
    fn partial_transfer(&mut self, master: usize, slave: usize) -> Transfer {
        let width = self.board.masters[master].width;
        let offset = self.offset(slave, width as usize, width as usize);
        let count = 1 << self.random.below(width.ilog2() as usize);
        let lowest = count * self.random.below((width / count) as usize) as u8;
        Transfer {
            held: true,
            write: self.random.chance(7, 8),
            address: self.board.slaves[slave].base + offset as u32,
            lanes: all_lanes(count) << lowest,
            beats: 1,
            late: 0,
        }
    }

    /// A slot that serves the transfer with so many accesses done.
    pub fn slot_with(
        &mut self,
        master: usize,
        slave: usize,
        transfer: &Transfer,
        done: u16,
    ) -> Slot {
        let shares = self.board.shares[master][slave] as usize;
        let wait = self.board.slaves[slave].wait(transfer.write);
        let any = self.random.between(0, wait as usize) as u8;
        Slot {
            owner: master as u8,
            remaining: self.random.below(shares) as u8,
            serving: true,
            done,
            waited: self.random.pick(&[0, any, wait]),
        }
    }

    /// Accesses done below the total, at it, and above: up to as many as there would be if every word were accessed, and more.
    fn edge_done(&mut self, total: usize, most: usize) -> u16 {
        let below = self.random.below(total);
        let between = self.random.between(total.min(most - 1), most - 1);
        let edges = [
            below,
            below,
            total - 1,
            total - 1,
            total,
            total,
            between,
            most - 1,
            most,
            most + 1,
        ];
        self.random.pick(&edges) as u16
    }

    /// Overwrites transfer and slot of a pair and calls with that. Where it is refused, another slot lets the slave go on.
    fn enter_partial(&mut self, master: usize, slave: usize, style: &Style) {
        let transfer = self.partial_transfer(master, slave);
        let total = total_accesses(&self.board, master, slave, &transfer) as usize;
        let most = self.board.ratio(master, slave) as usize;
        let done = self.edge_done(total, most);
        let slot = self.slot_with(master, slave, &transfer, done);
        self.put_shuffled(vec![
            transfer_line(master, &transfer),
            slot_line(slave, &slot),
        ]);
        if self.random.chance(1, 4) {
            let post = self.some_post(style);
            self.put_post(&post);
        }
        self.put("clock,1");
        if !self.usable() {
            let done = self.random.below(total) as u16;
            let slot = self.slot_with(master, slave, &transfer, done);
            self.put(&slot_line(slave, &slot));
        }
    }

    /// Transfers of some lanes at slaves narrower than their masters, from anywhere in their accesses on, while others post.
    pub fn partial_writes(&mut self) {
        let style = self.style();
        for _ in 0..self.random.between(1, 3) {
            let Some((master, slave)) = self.wider_pair() else {
                return self.busy();
            };
            self.enter_partial(master, slave, &style);
            if self.random.chance(1, 2) {
                self.posts(&style);
            }
            self.clocks(&style);
        }
    }
}
