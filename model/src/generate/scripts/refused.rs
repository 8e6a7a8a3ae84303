//! Resets that are refused for an overwritten board, in a state of which many numbers are not 0. They leave it: it is looked at,
//! and mostly it goes on when the board is put right.

use super::lines::transfer_line;
use super::{Author, Style};
use crate::board::SLAVE_LIMIT;
use crate::description::check_board;
use crate::fabric::{Transfer, LOG_LENGTH};

impl Author {
    fn is_serving(&self) -> bool {
        let slots = &self.simulator.state.slots[..self.slaves()];
        slots.iter().any(|slot| slot.serving)
    }

    /// Good posts of the idle masters, as far as they are eager; some to unmapped addresses, if the board answers them.
    fn good_posts(&mut self, style: &Style) {
        for master in self.idle_masters() {
            if !self.random.chance(style.eager, 8) {
                continue;
            }
            let post = match self.board.default && self.random.chance(1, 4) {
                true => self.unmapped_post(master, style),
                false => self.good_post(master, style),
            };
            if let Some(post) = post {
                self.put_post(&post);
            }
        }
    }

    /// Posts and clocks until a slave serves, at most four times, and mostly further posts.
    fn occupy(&mut self, style: &Style) {
        for _ in 0..4 {
            self.good_posts(style);
            self.put("clock,1");
            if self.is_serving() {
                break;
            }
        }
        if self.random.chance(3, 4) {
            self.good_posts(style);
        }
    }

    /// Anything in a transfer that is not held, which does not count.
    fn put_idle_transfer(&mut self) {
        let idle = self.idle_masters();
        if idle.is_empty() {
            return;
        }
        let master = self.random.pick(&idle);
        let transfer = Transfer {
            held: false,
            write: self.random.chance(1, 2),
            address: self.random.draw() as u32,
            lanes: self.random.byte(),
            beats: self.random.byte(),
            late: 0,
        };
        self.put(&transfer_line(master, &transfer));
    }

    /// Sometimes numbers in each part of the state, such that a clock is still accepted.
    fn put_harmless(&mut self) {
        if self.random.chance(1, 3) {
            self.put_idle_transfer();
        }
        if self.slaves() < SLAVE_LIMIT && self.random.chance(1, 3) {
            self.corrupt_unused_slot();
        }
        if self.random.chance(1, 3) {
            let count = self.random.between(0, LOG_LENGTH) as u32;
            self.put_log_line(count);
            self.put_entries();
        }
    }

    /// Overwrites the board until it is refused; one that is refused before is overwritten once more.
    fn refuse_board(&mut self) {
        loop {
            match self.random.below(8) {
                0 => self.corrupt_share(),
                1 => self.disconnect(),
                2 => self.join_narrow(),
                3 | 4 => self.corrupt_count(),
                5 => self.corrupt_master(),
                _ => self.corrupt_slave(),
            }
            if check_board(&self.simulator.board).is_err() {
                return;
            }
        }
    }

    /// Clocks, and sometimes takes before or after them, that show what was left.
    fn go_on(&mut self, style: &Style) {
        let takes_first = self.random.chance(1, 3);
        if takes_first {
            self.take_some();
        }
        for _ in 0..self.random.between(1, 3) {
            self.clocks(style);
        }
        if !takes_first {
            self.take_some();
        }
    }

    /// Resets that are refused in a state that is not all 0, with a look at it after each.
    pub fn refused_resets(&mut self) {
        let style = self.style();
        let board = self.board;
        self.occupy(&style);
        self.put_harmless();
        for _ in 0..self.random.pick(&[1, 1, 1, 2]) {
            self.refuse_board();
            self.put("reset");
            if self.random.chance(1, 4) {
                self.call_each(&style);
            }
            self.put("state");
        }
        self.put_board(&board);
        self.put_lends();
        match self.random.below(8) {
            0 => self.put("reset"),
            1 | 2 => self.put("state"),
            _ => {}
        }
        self.go_on(&style);
    }
}
