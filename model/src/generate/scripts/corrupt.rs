//! Board and state set by hand to what no call leaves, and calls with that.

use super::lines::{master_line, slave_line, transfer_line};
use super::posts::Post;
use super::{Author, Style};
use crate::board::{Board, Slave, BURSTS, MASTER_LIMIT, SLAVE_LIMIT, WIDTHS};
use crate::description::check_board;
use crate::fabric::{clock, State, Transfer};
use crate::generate::boards::{alignment, free_base};
use crate::lanes::all_lanes;

const WIDTH_EDGES: [u8; 10] = [0, 1, 2, 3, 4, 5, 8, 9, 16, 255];
/// Half of them are legal, some of the others are when they are cut to fewer bits.
const NATIVE_EDGES: [u32; 12] = [0, 0, 1, 1, 1, 1, 2, 7, 256, 257, 65_537, u32::MAX];

/// Legal ones, those just above, and some that are legal when they are cut to fewer bits.
const LATENCY_EDGES: [u32; 16] = [
    0,
    0,
    1,
    2,
    3,
    62,
    63,
    63,
    64,
    64,
    65,
    128,
    255,
    256,
    65_537,
    u32::MAX,
];

fn held_transfer(post: &Post) -> Transfer {
    Transfer {
        held: true,
        write: post.write,
        address: post.address as u32,
        lanes: post.lanes,
        beats: post.beats as u8,
        late: 0,
    }
}

impl Author {
    fn corrupt_transfer(&mut self, style: &Style) {
        let mut master = self.random.below(self.masters());
        let mut transfer = self.simulator.state.transfers[master];
        match self.random.below(6) {
            0 => {
                master = self.random.between(self.masters().min(7), 7);
                transfer = held_transfer(&self.some_post(style));
            }
            1 => {
                master = self.random.below(MASTER_LIMIT);
                transfer = Transfer {
                    held: self.random.chance(1, 4),
                    write: self.random.chance(1, 2),
                    address: self.random.draw() as u32,
                    lanes: self.random.byte(),
                    beats: self.random.byte(),
                    late: self.random.pick(&[0, 0, 1, 64, u32::MAX]),
                };
            }
            2 => {
                let post = self.some_post(style);
                master = post.master as usize;
                transfer = held_transfer(&post);
            }
            3 | 4 => {
                let fault = self.random.between(13, 17) as u8;
                let mut post = self.some_post(style);
                master = post.master as usize;
                self.damage(&mut post, master, fault);
                transfer = held_transfer(&post);
            }
            _ => self.tweak_transfer(master, &mut transfer),
        }
        self.put(&transfer_line(master, &transfer));
    }

    fn tweak_transfer(&mut self, master: usize, transfer: &mut Transfer) {
        let width = self.board.masters[master].width;
        match self.random.below(7) {
            0 => transfer.write = !transfer.write,
            1 => transfer.beats = transfer.beats.wrapping_add(1),
            2 => transfer.beats = transfer.beats.wrapping_sub(1),
            3 => transfer.lanes = self.random.byte() & all_lanes(width),
            4 => transfer.address = transfer.address.wrapping_add(width as u32),
            5 => transfer.late = self.random.pick(&[0, 1, 2, 63, 64]),
            _ => transfer.held = !transfer.held,
        }
    }

    /// A master of the board, or sometimes one behind it.
    fn any_master(&mut self) -> usize {
        match self.random.chance(1, 8) {
            true => self.random.below(MASTER_LIMIT),
            false => self.random.below(self.masters()),
        }
    }

    fn any_slave(&mut self) -> usize {
        match self.random.chance(1, 8) {
            true => self.random.below(SLAVE_LIMIT),
            false => self.random.below(self.slaves()),
        }
    }

    pub fn corrupt_master(&mut self) {
        let index = self.any_master();
        let mut master = self.board.masters[index];
        if self.random.chance(1, 2) {
            master.width = self.random.pick(&WIDTH_EDGES);
        } else {
            let edges = [0, 1, 2, 3, 4, 7, 8, 16, 32, 63, 64, 65, 128, 255];
            master.burst = self.random.pick(&edges);
        }
        self.put(&master_line(index, &master));
    }

    pub fn corrupt_slave(&mut self) {
        let index = self.any_slave();
        let mut slave = self.board.slaves[index];
        let other = self.board.slaves[self.random.below(self.slaves())];
        let any = self.random.draw() as u32;
        match self.random.below(19) {
            0 | 17 | 18 => slave.base = self.edge_base(&slave, &other),
            1 => slave.base = any & !slave.span.saturating_sub(1),
            2 => slave.span = self.edge_span(&slave, any),
            3 => slave.width = self.random.pick(&WIDTH_EDGES),
            4 => {
                slave.burst = self
                    .random
                    .pick(&[0, 1, 2, 3, 4, 8, 16, 32, 63, 64, 65, 128])
            }
            5 => slave.read_wait = self.random.pick(&[0, 1, 2, 3, 255]),
            6 => slave.write_wait = self.random.pick(&[0, 1, 2, 3, 255]),
            7 | 8 => slave.base = other.base & !slave.span.saturating_sub(1),
            9 => {
                slave.base = any & !65_535;
                slave.span = 65_536;
            }
            10..=12 => slave.native = self.random.pick(&NATIVE_EDGES),
            13..=15 => slave.latency = self.random.pick(&LATENCY_EDGES),
            _ if slave.span >= 16 && index < self.slaves() => {
                // a good board with less memory
                slave.span /= 2;
                let length = self.board.total_span() - slave.span as u64;
                self.put(&format!("lend,memory,{length}"));
            }
            _ => {}
        }
        self.put(&slave_line(index, &slave));
    }

    /// A base that overlaps the other slave, is no multiple of the span, or is moved by a span or half of it.
    fn edge_base(&mut self, slave: &Slave, other: &Slave) -> u32 {
        let bases = [
            other.base,
            slave.base.wrapping_add(1),
            slave.base ^ (slave.span / 2),
            slave.base ^ slave.span,
        ];
        self.random.pick(&bases)
    }

    fn edge_span(&mut self, slave: &Slave, any: u32) -> u32 {
        let half = slave.span / 2;
        let double = slave.span.wrapping_mul(2);
        let spans = [0, 4, 8, 12, 16, half, double, 65_536, 131_072, 1 << 31, any];
        self.random.pick(&spans)
    }

    pub fn corrupt_share(&mut self) {
        let (masters, slaves) = match self.random.chance(1, 3) {
            true => (MASTER_LIMIT, SLAVE_LIMIT),
            false => (self.masters(), self.slaves()),
        };
        let master = self.random.below(masters);
        let slave = self.random.below(slaves);
        let shares = self.random.pick(&[0, 0, 1, 1, 2, 3, 100, 101, 255]);
        self.put(&format!("share,{master},{slave},{shares}"));
    }

    pub fn corrupt_count(&mut self) {
        let mut masters = self.board.master_count;
        let mut slaves = self.board.slave_count;
        if self.random.chance(1, 2) {
            masters = self.random.pick(&[0, masters - 1, masters + 1, 8, 9, 255]);
        } else {
            slaves = self.random.pick(&[0, slaves - 1, slaves + 1, 16, 17, 255]);
        }
        self.put(&format!("count,{masters},{slaves}"));
    }

    /// A good board with one master more.
    fn grow_masters(&mut self) {
        let masters = self.masters();
        if masters == MASTER_LIMIT {
            return;
        }
        let width = self.random.pick(&WIDTHS);
        let burst = self.random.pick(&BURSTS);
        self.put(&format!("master,{masters},{width},{burst}"));
        self.put(&format!("count,{},{}", masters + 1, self.slaves()));
        for slave in 0..self.slaves() {
            self.put_new_share(masters, slave);
        }
        self.put_missing_share(masters);
    }

    /// A good board with one slave more, as far as its span can be lent.
    fn grow_slaves(&mut self) {
        let slaves = self.slaves();
        let length = self.board.total_span() as usize + 8;
        if slaves == SLAVE_LIMIT || length > self.simulator.memory.limit() {
            return;
        }
        let base = free_base(&mut self.random, &self.board.slaves[..slaves], 8);
        let masters = &self.board.masters[..self.board.master_count as usize];
        let (width, native) = alignment(&mut self.random, masters);
        let slave = Slave {
            base: base as u32,
            span: 8,
            width,
            burst: self.random.pick(&BURSTS) as u8,
            read_wait: self.random.below(3) as u8,
            write_wait: self.random.below(3) as u8,
            native,
            latency: self.random.pick(&[0, 0, 1, 2, 63]),
        };
        self.put(&slave_line(slaves, &slave));
        self.put(&format!("count,{},{}", self.masters(), slaves + 1));
        self.put(&format!("lend,memory,{length}"));
        for master in 0..self.masters() {
            self.put_new_share(master, slaves);
        }
    }

    /// Shares of a pair that a good board gets, as far as the two can be connected.
    fn put_new_share(&mut self, master: usize, slave: usize) {
        let shares = match self.simulator.board.too_narrow(master, slave) {
            true => 0,
            false => self.random.between(0, 3),
        };
        self.put(&format!("share,{master},{slave},{shares}"));
    }

    /// A share line for a master that has none, as far as it can be connected.
    pub fn put_missing_share(&mut self, master: usize) {
        let board = self.simulator.board;
        let fitting: Vec<usize> = (0..self.slaves())
            .filter(|&slave| !board.too_narrow(master, slave))
            .collect();
        if !board.has_share(master) && !fitting.is_empty() {
            let slave = self.random.pick(&fitting);
            self.put(&format!("share,{master},{slave},1"));
        }
    }

    fn corrupt_line(&mut self, style: &Style) {
        match self.random.below(17) {
            12 => return self.grow_masters(),
            13 => return self.grow_slaves(),
            14 | 15 => return self.join_narrow(),
            16 => return self.disconnect(),
            _ => {}
        }
        match self.random.below(12) {
            0..=2 => self.corrupt_transfer(style),
            3..=6 => self.corrupt_slot(),
            7 => self.corrupt_master(),
            8 | 9 => self.corrupt_slave(),
            10 => self.corrupt_share(),
            _ => self.corrupt_count(),
        }
    }

    /// A few calls with things as they stand.
    pub fn try_calls(&mut self, style: &Style) {
        for _ in 0..self.random.between(1, 4) {
            match self.random.below(12) {
                0..=4 => {
                    let count = self.random.between(1, 3);
                    self.put(&format!("clock,{count}"));
                }
                5 | 6 => {
                    let post = self.some_post(style);
                    self.put_post(&post);
                }
                7 | 8 => {
                    let post = self.some_post(style);
                    self.put_damaged_post(post);
                }
                9 => self.put("state"),
                10 => self.wait(),
                _ => self.put("reset"),
            }
            if self.random.chance(1, 4) {
                self.put("take");
            }
        }
    }

    /// Whether the simulator would clock as things stand.
    pub fn usable(&self) -> bool {
        let board = self.simulator.board;
        let mut state = self.simulator.state;
        let mut memory = vec![0; self.simulator.memory.length];
        let mut buffer = vec![0; self.simulator.buffer.length];
        check_board(&board).is_ok()
            && clock(&board, &mut state, &mut memory, &mut buffer).number == 0
    }

    /// Goes on with board and state as they are where they can be used, or puts things right.
    pub fn go_on_or_restore(&mut self, board: &Board, state: &State) {
        match self.random.below(6) {
            0 | 1 if self.usable() => self.board = self.simulator.board,
            2 => {
                self.put_board(board);
                self.put_lends();
                self.put("reset");
            }
            _ => {
                self.put_board(board);
                self.put_lends();
                self.put_state(state);
            }
        }
    }

    /// Sets board, state or lengths to what they may not be and calls with that.
    pub fn corrupt(&mut self) {
        let style = self.style();
        let board = self.board;
        let state = self.simulator.state;
        if self.random.chance(1, 6) {
            self.wrong_lend();
        }
        for _ in 0..self.random.pick(&[1, 1, 1, 2, 2, 3]) {
            self.corrupt_line(&style);
            match self.random.below(12) {
                0 => self.corrupt_log(),
                1 => self.change_mark(),
                _ => {}
            }
            // every call looks at the board
            if check_board(&self.simulator.board).is_err() && self.random.chance(1, 2) {
                self.call_each(&style);
            }
            if self.random.chance(1, 2) {
                self.try_calls(&style);
            }
        }
        self.try_calls(&style);
        self.go_on_or_restore(&board, &state);
    }
}
