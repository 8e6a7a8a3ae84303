//! The log: filled, taken from, and set by hand.

use super::lines::{entry_line, log_line};
use super::{Author, Style};
use crate::fabric::{Entry, Log, LOG_LENGTH};

/// Half of them are legal, some of the others are when they are cut to fewer bits.
const COUNT_EDGES: [u32; 20] = [
    0,
    0,
    1,
    2,
    4,
    7,
    7,
    8,
    8,
    8,
    9,
    9,
    9,
    10,
    16,
    255,
    256,
    264,
    65_537,
    u32::MAX,
];

impl Author {
    fn log(&self) -> Log {
        self.simulator.state.log
    }

    /// Mostly a take or none, sometimes several.
    pub fn take_some(&mut self) {
        let takes = self.random.pick(&[0, 0, 1, 1, 2, 3]);
        for _ in 0..takes {
            self.put("take");
        }
    }

    /// Takes until the log is empty, and once more.
    pub fn take_all(&mut self) {
        let count = self.log().count.min(LOG_LENGTH as u32);
        for _ in 0..=count {
            self.put("take");
        }
    }

    /// An entry that a clock could enter, or any numbers.
    pub fn any_entry(&mut self) -> Entry {
        let any = self.random.byte();
        let master = self.random.below(self.masters()) as u8;
        Entry {
            master: self.random.pick(&[master, master, 7, 8, 255, any]),
            address: self.random.draw() as u32 >> self.random.below(32),
            write: self.random.chance(1, 2),
        }
    }

    /// Overwrites some places of the log, standing or not.
    pub fn put_entries(&mut self) {
        for index in 0..LOG_LENGTH {
            if self.random.chance(1, 3) {
                let entry = self.any_entry();
                self.put(&entry_line(index, &entry));
            }
        }
    }

    pub fn put_log_line(&mut self, count: u32) {
        let log = Log {
            count,
            lost: self.random.chance(1, 4),
            ..self.log()
        };
        self.put(&log_line(&log));
    }

    /// A count at the edges of the rules, or entries.
    pub fn corrupt_log(&mut self) {
        if self.random.chance(3, 4) {
            let count = self.random.pick(&COUNT_EDGES);
            self.put_log_line(count);
        }
        if self.random.chance(1, 2) {
            self.put_entries();
        }
    }

    /// Unmapped transfers until the log has been full for a while; what is taken meanwhile makes space.
    pub fn fill_log(&mut self, style: &Style) {
        if self.random.chance(1, 2) {
            let count = self.random.between(3, LOG_LENGTH) as u32;
            self.put_log_line(count);
            self.put_entries();
        }
        for _ in 0..12 {
            self.unmapped_posts(style);
            self.clock_unmapped();
            match self.random.below(8) {
                0 => self.put("take"),
                1 => self.put("state"),
                2 if self.log().lost => break,
                _ => {}
            }
        }
        self.empty_log(style);
    }

    /// Takes some or all of the entries, or clears them by a reset.
    fn empty_log(&mut self, style: &Style) {
        match self.random.below(4) {
            0 => self.take_some(),
            1 => self.put("reset"),
            _ => self.take_all(),
        }
        self.unmapped_posts(style);
        self.clock_unmapped();
        let look = self.random.pick(&["take", "state"]);
        self.put(look);
    }

    /// Sets the log by hand and calls with that, mostly while unmapped transfers are held. Where it is refused, the state is put
    /// right.
    pub fn log_by_hand(&mut self, style: &Style) {
        for _ in 0..self.random.between(1, 3) {
            let before = self.simulator.state;
            if self.random.chance(3, 4) {
                self.unmapped_posts(style);
            }
            self.corrupt_log();
            self.call_each(style);
            if self.random.chance(1, 2) {
                self.put("state");
            }
            if self.random.chance(1, 8) {
                self.put("reset");
            }
            if !self.usable() {
                self.put_state(&before);
            }
        }
    }
}
