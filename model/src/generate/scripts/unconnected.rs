//! Share lines taken away by a script until a master has none, and given back; counts that such a master comes under.

use super::lines::master_line;
use super::{Author, Style};
use crate::board::{Master, BURSTS, MASTER_LIMIT, SLAVE_LIMIT, WIDTHS};

impl Author {
    /// The first master, the last one or any.
    fn end_or_any_master(&mut self) -> usize {
        let masters = self.masters();
        let any = self.random.below(masters);
        self.random.pick(&[0, masters - 1, any])
    }

    pub fn put_share(&mut self, master: usize, slave: usize, shares: u8) {
        self.put(&format!("share,{master},{slave},{shares}"));
    }

    fn put_count(&mut self, masters: usize, slaves: usize) {
        self.put(&format!("count,{masters},{slaves}"));
    }

    /// Takes away the share lines of a master, in any order.
    fn take_shares(&mut self, master: usize) {
        let board = self.simulator.board;
        let mut slaves: Vec<usize> = (0..SLAVE_LIMIT)
            .filter(|&slave| board.connected(master, slave))
            .collect();
        self.random.shuffle(&mut slaves);
        for slave in slaves {
            self.put_share(master, slave, 0);
        }
    }

    fn take_all_shares(&mut self) {
        for master in 0..self.masters() {
            self.take_shares(master);
        }
    }

    /// Takes away the share lines of one master, sometimes those of all.
    pub fn disconnect(&mut self) {
        if self.random.chance(1, 4) {
            return self.take_all_shares();
        }
        let master = self.end_or_any_master();
        self.take_shares(master);
    }

    /// Most of the calls that look at the board, in any order.
    fn call_most(&mut self, style: &Style) {
        let mut calls = [0, 1, 2, 3, 4, 5];
        self.random.shuffle(&mut calls);
        for call in calls {
            match call {
                0 => self.put("clock,1"),
                1 => {
                    let post = self.some_post(style);
                    self.put_post(&post);
                }
                2 if self.random.chance(1, 2) => {
                    let post = self.some_post(style);
                    self.put_damaged_post(post);
                }
                3 if self.random.chance(1, 3) => self.put("reset"),
                4 if self.random.chance(1, 4) => self.wait(),
                5 if self.random.chance(1, 2) => self.put("take"),
                _ => {}
            }
        }
    }

    /// Takes a master's share lines one after another, with calls between, and gives one back.
    fn take_and_give_back(&mut self, style: &Style) {
        let master = self.end_or_any_master();
        let mut slaves = self.connected_slaves(master);
        self.random.shuffle(&mut slaves);
        for &slave in &slaves {
            self.put_share(master, slave, 0);
            if self.random.chance(1, 4) {
                self.put("clock,1");
            }
        }
        self.call_most(style);
        let slave = self.random.pick(&slaves);
        self.put_share(master, slave, self.board.shares[master][slave]);
        self.call_most(style);
    }

    /// Counts one master more than there are, who has no share line at first.
    fn count_one_more(&mut self, style: &Style) {
        let (masters, slaves) = (self.masters(), self.slaves());
        let added = Master {
            width: self.random.pick(&WIDTHS) as u8,
            burst: self.random.pick(&BURSTS) as u8,
        };
        self.put(&master_line(masters, &added));
        self.put_count(masters + 1, slaves);
        self.call_most(style);
        self.put_missing_share(masters);
        self.call_most(style);
    }

    /// Counts one master fewer, takes that master's share lines, and counts it again.
    fn count_one_fewer(&mut self, style: &Style) {
        let (masters, slaves) = (self.masters(), self.slaves());
        self.put_count(masters - 1, slaves);
        self.call_most(style);
        self.take_shares(masters - 1);
        self.call_most(style);
        self.put_count(masters, slaves);
        self.call_most(style);
        self.put_missing_share(masters - 1);
        self.put("clock,1");
    }

    /// Leaves a master share lines at the last slave alone, and does not count that slave: the lines are outside the counts,
    /// until they are taken too. The memory is lent as before.
    fn count_without_last_slave(&mut self, style: &Style) {
        let master = self.end_or_any_master();
        let (masters, last) = (self.masters(), self.slaves() - 1);
        self.take_shares(master);
        self.put_share(master, last, 1);
        self.put_count(masters, last);
        self.call_most(style);
        for master in 0..masters {
            if self.simulator.board.connected(master, last) {
                self.put_share(master, last, 0);
            }
        }
        self.call_most(style);
    }

    /// No share line, and for a while no slave either.
    fn count_no_slave(&mut self, style: &Style) {
        let (masters, slaves) = (self.masters(), self.slaves());
        self.take_all_shares();
        self.put_count(masters, 0);
        self.call_most(style);
        self.put_count(masters, slaves);
        self.call_most(style);
    }

    /// Leaves a master without a share line in one of several ways and calls with that, sometimes with a wrong length lent.
    pub fn unconnect(&mut self) {
        let style = self.style();
        let board = self.board;
        let state = self.simulator.state;
        if self.random.chance(1, 4) {
            self.wrong_lend();
        }
        match self.random.below(8) {
            0 | 1 if self.masters() < MASTER_LIMIT => self.count_one_more(&style),
            2 if self.masters() > 1 => self.count_one_fewer(&style),
            3 if self.slaves() > 1 => self.count_without_last_slave(&style),
            4 => self.count_no_slave(&style),
            _ => self.take_and_give_back(&style),
        }
        self.go_on_or_restore(&board, &state);
    }
}
