//! Clocks, and looks at what they leave.

use super::lines::hex;
use super::{slave_at, slave_start, Author, Style};
use crate::fabric::{clock, Transfer, PART_LENGTH};

impl Author {
    /// Clocks until a master finishes, at most 20.
    fn clocks_to_finish(&self) -> usize {
        let mut state = self.simulator.state;
        let mut memory = vec![0; self.simulator.memory.length];
        let mut buffer = vec![0; self.simulator.buffer.length];
        (1..20)
            .find(|_| clock(&self.board, &mut state, &mut memory, &mut buffer).mask != 0)
            .unwrap_or(20)
    }

    /// Clocks, and a look at what finished.
    pub fn clocks(&mut self, style: &Style) {
        let before = self.simulator.state.transfers;
        let count = match self.random.chance(style.eager, 12) {
            true => self.clocks_to_finish(),
            false => self.random.between(1, style.longest_clock),
        };
        self.put(&format!("clock,{count}"));
        for (master, transfer) in before.iter().enumerate().take(self.masters()) {
            if transfer.held && !self.holds(master) {
                self.look_at_finished(master, transfer);
            }
        }
    }

    /// Sometimes the words that a finished transfer moved.
    pub fn look_at_finished(&mut self, master: usize, transfer: &Transfer) {
        if self.random.chance(1, 4) {
            self.put(&format!(
                "show,buffer,{},{PART_LENGTH}",
                PART_LENGTH * master
            ));
        }
        if self.random.chance(1, 4) {
            let Some(slave) = slave_at(&self.board, transfer.address) else {
                return;
            };
            let width = self.board.masters[master].width as usize;
            let word = (transfer.address - self.board.slaves[slave].base) as usize / width;
            // the bytes in memory for a word of the master
            let stride = match self.board.slaves[slave].is_native() {
                true => self.board.slaves[slave].width as usize,
                false => width,
            };
            let start = slave_start(&self.board, slave) + word * stride;
            // an unmapped transfer, to a slave that is not connected, may pass its end
            let end = start + transfer.beats as usize * stride;
            let end = end.min(self.lent("memory"));
            if start < end {
                self.put(&format!("show,memory,{start},{}", end - start));
            }
        }
    }

    pub fn lent(&self, name: &str) -> usize {
        match name {
            "memory" => self.simulator.memory.length,
            _ => self.simulator.buffer.length,
        }
    }

    /// A place and a count within what is lent.
    pub fn piece(&mut self, name: &str, most: usize) -> (usize, usize) {
        let lent = self.lent(name);
        let count = self.random.between(0, lent.min(most));
        (self.random.between(0, lent - count), count)
    }

    pub fn fill_line(&mut self, name: &str, start: usize, count: usize) -> String {
        let data = hex(&self.random.bytes(count));
        format!("fill,{name},{start},{data}")
    }

    pub fn fill(&mut self, name: &str, start: usize, count: usize) {
        let line = self.fill_line(name, start, count);
        self.put(&line);
    }

    /// A wait call, mostly for a pair of the board.
    pub fn wait(&mut self) {
        let any = self.random.draw() >> self.random.between(32, 63);
        let masters = [
            self.random.below(self.masters()) as u64,
            self.board.master_count as u64,
            any,
        ];
        let slaves = [
            self.random.below(self.slaves()) as u64,
            self.board.slave_count as u64,
            any,
        ];
        let master = masters[[0, 0, 0, 0, 1, 2][self.random.below(6)]];
        let slave = slaves[[0, 0, 0, 0, 1, 2][self.random.below(6)]];
        self.put(&format!("wait,{master},{slave}"));
    }

    /// Sometimes a call or a look between the clocks.
    pub fn look(&mut self) {
        let name = self.random.pick(&["memory", "buffer"]);
        match self.random.below(40) {
            0 | 1 => self.wait(),
            2 => self.put("state"),
            3 => {
                let (start, count) = self.piece(name, 64);
                self.fill(name, start, count);
            }
            4 => {
                let (start, count) = self.piece(name, 128);
                self.put(&format!("show,{name},{start},{count}"));
            }
            5 => {
                let slave = self.random.below(self.slaves());
                self.fill_slave(slave);
            }
            6 => self.put("take"),
            _ => {}
        }
    }

    /// Random bytes at both ends of a slave's span; of a native slave also where the words of some wider master end.
    pub fn fill_slave(&mut self, slave: usize) {
        let start = slave_start(&self.board, slave);
        let span = self.board.slaves[slave].span as usize;
        let count = span.min(128);
        self.fill("memory", start, count);
        if span > count {
            self.fill("memory", start + span - count, count);
        }
        let end = span / self.random.pick(&[2, 4, 8]);
        if self.board.slaves[slave].is_native() && end > count {
            self.fill("memory", start + end - count, count);
        }
    }
}
