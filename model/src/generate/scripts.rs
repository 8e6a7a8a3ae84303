//! Scripts for the simulator. The author runs each line that it writes, so that it knows who is idle and what has finished.

mod clocks;
mod corrupt;
mod late;
mod lines;
mod log;
mod malformed;
mod native;
mod partial;
mod posts;
mod refused;
mod restore;
mod slots;
mod unconnected;
mod unended;
mod unmapped;

use std::io::{self, Write};

use super::random::Random;
use crate::board::Board;
use crate::fabric::BUFFER_LENGTH;
use crate::script::Simulator;

/// How the masters behave for a while.
struct Style {
    /// The slave that most posts are for, where there is one.
    hot: Option<usize>,
    /// Of eight idle masters, how many post before a clock.
    eager: usize,
    /// Of eight posts, how many are bursts.
    bursts: usize,
    /// Of eight posts, how many are to unmapped addresses, where the board takes them.
    unmapped: usize,
    longest_clock: usize,
}

/// A script under way, and the simulator that has run it so far.
struct Author {
    random: Random,
    simulator: Simulator,
    script: Vec<u8>,
    lines: usize,
    /// The board of the file.
    original: Board,
    /// The board that the simulator has where nothing is corrupted.
    board: Board,
}

/// Where a slave's bytes start in the memory.
fn slave_start(board: &Board, slave: usize) -> usize {
    board.slaves[..slave]
        .iter()
        .map(|slave| slave.span as usize)
        .sum()
}

/// The slave in whose span the address lies, connected or not.
fn slave_at(board: &Board, address: u32) -> Option<usize> {
    (0..board.slave_count as usize).find(|&index| {
        let slave = &board.slaves[index];
        address >= slave.base && address - slave.base < slave.span
    })
}

impl Author {
    fn put(&mut self, line: &str) {
        let result = self.simulator.run_line(line.as_bytes(), &mut io::sink());
        assert!(matches!(result, Ok(Some(()))), "malformed: {line}");
        self.script.extend(line.as_bytes());
        self.script.push(b'\n');
        self.lines += 1;
    }

    fn masters(&self) -> usize {
        self.board.master_count as usize
    }

    fn slaves(&self) -> usize {
        self.board.slave_count as usize
    }

    fn holds(&self, master: usize) -> bool {
        self.simulator.state.transfers[master].held
    }

    /// The slaves that are such for a master that they are connected with.
    fn slaves_that(&self, are_such: impl Fn(usize, usize) -> bool) -> Vec<usize> {
        let is_such = |slave: usize| {
            (0..self.masters())
                .any(|master| self.board.connected(master, slave) && are_such(master, slave))
        };
        (0..self.slaves()).filter(|&slave| is_such(slave)).collect()
    }

    /// Mostly a slave: a native one, one of which a beat covers several words, one with a latency, or any.
    fn hot_slave(&mut self) -> Option<usize> {
        let native = self.slaves_that(|_, slave| self.board.slaves[slave].is_native());
        let narrower = self.slaves_that(|master, slave| self.board.ratio(master, slave) > 1);
        let late = self.slaves_with_latency();
        match self.random.below(5) {
            0 => None,
            1 if !native.is_empty() => Some(self.random.pick(&native)),
            2 if !narrower.is_empty() => Some(self.random.pick(&narrower)),
            3 if !late.is_empty() => Some(self.random.pick(&late)),
            _ => Some(self.random.below(self.slaves())),
        }
    }

    fn style(&mut self) -> Style {
        Style {
            hot: self.hot_slave(),
            eager: self.random.pick(&[2, 5, 7, 8, 8]),
            bursts: self.random.pick(&[0, 1, 2, 4, 6, 8]),
            unmapped: self.random.pick(&[0, 0, 0, 1, 2, 4]),
            longest_clock: self.random.pick(&[1, 1, 2, 3, 6, 20]),
        }
    }

    fn busy(&mut self) {
        let style = self.style();
        for _ in 0..self.random.between(5, 15) {
            self.posts(&style);
            self.clocks(&style);
            self.look();
        }
    }

    /// Nobody posts until nearly all have finished.
    fn quiet(&mut self) {
        let style = Style {
            hot: None,
            eager: 0,
            bursts: 0,
            unmapped: 0,
            longest_clock: 20,
        };
        for _ in 0..self.random.between(2, 6) {
            self.clocks(&style);
        }
    }

    /// A reset, sometimes of the board of the file.
    fn fresh(&mut self) {
        if self.random.chance(1, 2) {
            let original = self.original;
            self.put_board(&original);
            self.put_lends();
        }
        self.put("reset");
    }

    fn opening(&mut self) {
        if self.random.chance(9, 10) {
            self.put("reset");
        }
        for slave in 0..self.slaves() {
            if self.random.chance(3, 4) {
                self.fill_slave(slave);
            }
        }
    }

    /// Some lines that belong together.
    fn stretch(&mut self) {
        match self.random.below(34) {
            0..=12 => self.busy(),
            13 | 14 => self.quiet(),
            15..=20 => self.corrupt(),
            21 | 22 => self.lend(),
            23 => self.realign(),
            24 => self.unconnect(),
            25 | 26 => self.partial_writes(),
            27..=29 => self.reads_in_turn(),
            30..=32 => self.late_counts(),
            _ => self.fresh(),
        }
    }

    /// Sometimes transfers to unmapped addresses, and resets that are refused. They come beside the calls that are asked for, so
    /// that of all else there is as much as without them.
    fn beside(&mut self) {
        let lines = self.lines;
        if self.random.chance(1, 2) {
            self.unmapped();
        }
        if self.random.chance(1, 4) {
            self.refused_resets();
        }
        self.lines = lines;
    }

    fn closing(&mut self) {
        self.put("state");
        if self.random.chance(1, 4) {
            self.take_all();
            self.put("state");
        }
        let lent = self.lent("memory");
        let count = lent.min(2048);
        self.put(&format!("show,memory,0,{count}"));
        self.put(&format!("show,memory,{},{count}", lent - count));
        self.put(&format!("show,buffer,0,{BUFFER_LENGTH}"));
        if self.random.chance(1, 10) {
            self.malformed();
        }
        if self.random.chance(1, 8) {
            self.unended();
        }
    }
}

/// A script of about `calls` lines, and some about unmapped addresses and refused resets, for the board of a text.
pub fn write_script(
    seed: u64,
    calls: usize,
    text: &[u8],
    output: &mut impl Write,
) -> io::Result<()> {
    let mut random = Random::new(seed);
    let Ok(simulator) = Simulator::new(text) else {
        // nothing of it is carried out, so that its end is not looked at
        let end = random.pick(&["state\n", "state\n", "state\n", "state"]);
        return write!(output, "reset\nclock,1\n{end}");
    };
    let board = simulator.board;
    let mut author = Author {
        random,
        simulator,
        script: Vec::new(),
        lines: 0,
        original: board,
        board,
    };
    author.opening();
    while author.lines < calls {
        author.stretch();
        author.beside();
    }
    author.closing();
    output.write_all(&author.script)
}
