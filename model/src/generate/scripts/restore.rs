//! Lengths lent wrongly, and board, state and lengths put right. Only what differs is put.

use super::lines::{
    default_line, entry_line, log_line, master_line, slave_line, slot_line, transfer_line,
};
use super::Author;
use crate::board::{Board, MASTER_LIMIT, SLAVE_LIMIT};
use crate::fabric::{State, BUFFER_LENGTH};
use crate::script::LEND_OVER;

impl Author {
    pub fn put_board(&mut self, wanted: &Board) {
        let now = self.simulator.board;
        let Board {
            master_count,
            slave_count,
            ..
        } = wanted;
        if (now.master_count, now.slave_count) != (*master_count, *slave_count) {
            self.put(&format!("count,{master_count},{slave_count}"));
        }
        self.put_masters(&now, wanted);
        self.put_slaves(&now, wanted);
        self.put_shares(&now, wanted);
        if now.default != wanted.default {
            self.put(&default_line(wanted.default));
        }
        self.board = *wanted;
    }

    fn put_masters(&mut self, now: &Board, wanted: &Board) {
        for (index, master) in wanted.masters.iter().enumerate() {
            if now.masters[index] != *master {
                self.put(&master_line(index, master));
            }
        }
    }

    fn put_slaves(&mut self, now: &Board, wanted: &Board) {
        for (index, slave) in wanted.slaves.iter().enumerate() {
            if now.slaves[index] != *slave {
                self.put(&slave_line(index, slave));
            }
        }
    }

    /// A script's share lines overwrite numbers and are no text: no order of them is refused.
    fn put_shares(&mut self, now: &Board, wanted: &Board) {
        let mut pairs: Vec<(usize, usize)> = (0..MASTER_LIMIT)
            .flat_map(|master| (0..SLAVE_LIMIT).map(move |slave| (master, slave)))
            .filter(|&(master, slave)| now.shares[master][slave] != wanted.shares[master][slave])
            .collect();
        self.random.shuffle(&mut pairs);
        for (master, slave) in pairs {
            self.put_share(master, slave, wanted.shares[master][slave]);
        }
    }

    pub fn put_state(&mut self, wanted: &State) {
        let now = self.simulator.state;
        self.put_transfers(&now, wanted);
        self.put_slots(&now, wanted);
        self.put_log(&now, wanted);
    }

    fn put_transfers(&mut self, now: &State, wanted: &State) {
        for (master, transfer) in wanted.transfers.iter().enumerate() {
            if now.transfers[master] != *transfer {
                self.put(&transfer_line(master, transfer));
            }
        }
    }

    fn put_slots(&mut self, now: &State, wanted: &State) {
        for (slave, slot) in wanted.slots.iter().enumerate() {
            if now.slots[slave] != *slot {
                self.put(&slot_line(slave, slot));
            }
        }
    }

    fn put_log(&mut self, now: &State, wanted: &State) {
        if (now.log.count, now.log.lost) != (wanted.log.count, wanted.log.lost) {
            self.put(&log_line(&wanted.log));
        }
        for (index, entry) in wanted.log.entries.iter().enumerate() {
            if now.log.entries[index] != *entry {
                self.put(&entry_line(index, entry));
            }
        }
    }

    pub fn put_lends(&mut self) {
        let total = self.board.total_span() as usize;
        if self.simulator.memory.length != total {
            self.put(&format!("lend,memory,{total}"));
        }
        if self.simulator.buffer.length != BUFFER_LENGTH {
            self.put(&format!("lend,buffer,{BUFFER_LENGTH}"));
        }
    }

    /// The longest that may be lent.
    pub fn lend_limit(&self, name: &str) -> usize {
        match name {
            "memory" => self.simulator.memory.limit(),
            _ => self.simulator.buffer.limit(),
        }
    }

    pub fn wrong_lend(&mut self) {
        let name = self.random.pick(&["memory", "buffer"]);
        let limit = self.lend_limit(name);
        let exact = self.lent(name);
        let wrong = [
            0,
            1,
            exact - 1,
            exact - 1,
            exact + 1,
            exact + 1,
            exact / 2,
            limit,
        ];
        let length = self.random.pick(&wrong).min(limit);
        self.put(&format!("lend,{name},{length}"));
        if length == limit && self.random.chance(1, 2) {
            self.fill(name, limit - LEND_OVER, LEND_OVER);
        }
    }

    /// Lends a wrong length for a while.
    pub fn lend(&mut self) {
        let style = self.style();
        self.wrong_lend();
        self.try_calls(&style);
        for name in ["memory", "buffer"] {
            let (start, count) = self.piece(name, 32);
            self.put(&format!("show,{name},{start},{count}"));
        }
        self.put_lends();
    }
}
