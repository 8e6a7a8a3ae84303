//! Slaves made native, or not, by a script, and native slaves joined to masters narrower than they are.

use super::lines::{master_line, slave_line};
use super::Author;
use crate::generate::boards::{connect_rest, disconnect_narrow, uneven_widths};

impl Author {
    /// Makes a slave native that was not, or the other way round. Masters narrower than a native slave are disconnected from
    /// it, and those that have no share line left get another, so that the board is a good one. Transfers that are under way
    /// go on as far as they can: the slave may have done more accesses than they have now.
    pub fn realign(&mut self) {
        let slave = self.random.below(self.slaves());
        let mut board = self.board;
        board.slaves[slave].native = 1 - board.slaves[slave].native;
        disconnect_narrow(&mut board);
        connect_rest(&mut self.random, &mut board, 3);
        self.put_board(&board);
        if self.random.chance(1, 2) {
            self.put("clock,1");
        }
        if !self.usable() {
            self.put("reset");
        }
    }

    /// Overwrites the board so that a native slave is joined to a master narrower than it: by the line of the master, of the
    /// slave or of their shares, or by several of them in any order.
    pub fn join_narrow(&mut self) {
        let (master, slave) = self.narrow_pair();
        let now = self.simulator.board;
        let (mut wanted_master, mut wanted_slave) = (now.masters[master], now.slaves[slave]);
        if wanted_master.width >= wanted_slave.width {
            (wanted_master.width, wanted_slave.width) = uneven_widths(&mut self.random);
        }
        wanted_slave.native = 1;
        let mut lines = Vec::new();
        if wanted_master != now.masters[master] {
            lines.push(master_line(master, &wanted_master));
        }
        if wanted_slave != now.slaves[slave] {
            lines.push(slave_line(slave, &wanted_slave));
        }
        if !now.connected(master, slave) || self.random.chance(1, 4) {
            // with shares out of range the line has a lower number
            let shares = self.random.pick(&[1, 1, 1, 2, 100, 101]);
            lines.push(format!("share,{master},{slave},{shares}"));
        }
        self.put_shuffled(lines);
    }

    pub fn put_shuffled(&mut self, mut lines: Vec<String>) {
        self.random.shuffle(&mut lines);
        for line in lines {
            self.put(&line);
        }
    }

    /// A pair of the board, often one in which the slave is native and the master narrower.
    fn narrow_pair(&mut self) -> (usize, usize) {
        let narrow: Vec<(usize, usize)> = self
            .board
            .pairs()
            .filter(|&(master, slave)| self.board.too_narrow(master, slave))
            .collect();
        if !narrow.is_empty() && self.random.chance(1, 2) {
            return self.random.pick(&narrow);
        }
        let master = self.random.below(self.masters());
        (master, self.random.below(self.slaves()))
    }
}
