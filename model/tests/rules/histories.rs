//! What the rules promise of every history, on random ones: what a read gives, and how long a transfer waits and lasts.

use std::ops::Range;

use crate::fabric::{read_of, Fabric};
use model::board::{Board, MASTER_LIMIT};
use model::fabric::{SlaveLine, Transfer, PART_LENGTH};
use model::generate::boards::{any_size, board};
use model::generate::random::Random;
use model::lanes::{all_lanes, lanes_legal};
use model::wait::wait;

/// A transfer from its post until it finishes.
struct Journey {
    transfer: Transfer,
    data: Vec<u8>,
    slave: usize,
    /// Clocks since the post.
    clocks: u64,
    /// Clocks from the first cycle on up to the last access.
    served: u64,
    /// The clock of the last access, counted from the post.
    last_access: Option<u64>,
    /// Whether the card has served another since then.
    others_served: bool,
    /// What a read has to give.
    given: Vec<u8>,
}

/// Transfers that finished.
#[derive(Default)]
struct Finished {
    all: usize,
    /// Those of masters wider than a native card.
    native: usize,
    /// The writes that have no lane in some word of their beat.
    partial: usize,
    /// The reads that have a latency to pass.
    late: usize,
    /// Those of them whose card served another meanwhile.
    others_served: usize,
}

/// Random posts on a random board, beside a memory in which each transfer is one step, taken whole at its first cycle.
struct History {
    fabric: Fabric,
    random: Random,
    bytes: Vec<u8>,
    journeys: [Option<Journey>; MASTER_LIMIT],
    finished: Finished,
}

/// The places of a card's bytes in the memory.
fn cells(board: &Board, slave: usize) -> Range<usize> {
    let spans = board.slaves[..slave].iter();
    let start: usize = spans.map(|slave| slave.span as usize).sum();
    start..start + board.slaves[slave].span as usize
}

/// Where byte number `place` of a transfer lies in the memory. A native card has a word for each word of the master, and no
/// byte for those of the master's that are above its own width.
fn place_of(board: &Board, master: usize, journey: &Journey, place: usize) -> Option<usize> {
    let slave = &board.slaves[journey.slave];
    let start = cells(board, journey.slave).start;
    let offset = (journey.transfer.address - slave.base) as usize + place;
    if slave.native == 0 {
        return Some(start + offset);
    }
    let master_width = board.masters[master].width as usize;
    let (word, byte) = (offset / master_width, offset % master_width);
    let slave_width = slave.width as usize;
    (byte < slave_width).then_some(start + word * slave_width + byte)
}

/// The accesses of a transfer: a write to a card with bus sizing has them only in the words of its lanes.
fn accesses_of(board: &Board, master: usize, journey: &Journey) -> u64 {
    let (width, slave) = (board.masters[master].width, &board.slaves[journey.slave]);
    if slave.native == 1 || width <= slave.width {
        return journey.transfer.beats as u64;
    }
    let is_accessed =
        |lane: &u8| !journey.transfer.write || journey.transfer.lanes >> lane & 1 == 1;
    let mut words: Vec<u8> = (0..width)
        .filter(is_accessed)
        .map(|lane| lane / slave.width)
        .collect();
    words.dedup();
    journey.transfer.beats as u64 * words.len() as u64
}

impl History {
    fn new(seed: u64) -> History {
        let mut random = Random::new(seed);
        let size = any_size(&mut random);
        let fabric = Fabric::of_board(board(&mut random, size));
        History {
            bytes: fabric.memory.clone(),
            fabric,
            random,
            journeys: Default::default(),
            finished: Finished::default(),
        }
    }

    /// A transfer within the slave: one beat in half of the cases, and then any legal lanes.
    fn transfer(&mut self, master: usize, slave: usize) -> Transfer {
        let slave = self.fabric.board.slaves[slave];
        let master = self.fabric.board.masters[master];
        let width = master.width as usize;
        let words = slave.span as usize / width;
        let most = words.min(master.burst as usize);
        let beats = match self.random.chance(1, 2) {
            true => 1,
            false => self.random.between(1, most),
        };
        let word = self.random.between(0, words - beats);
        let address = slave.base + (word * width) as u32;
        let mut transfer = read_of(address, all_lanes(master.width), beats as u8);
        transfer.write = self.random.chance(1, 2);
        if beats == 1 {
            let legal: Vec<u8> = (1..=255)
                .filter(|&lanes| lanes_legal(lanes, master.width))
                .collect();
            transfer.lanes = self.random.pick(&legal);
        }
        transfer
    }

    fn post(&mut self, master: usize) {
        let slave = self.random.below(self.fabric.board.slave_count as usize);
        if !self.fabric.board.connected(master, slave) || self.journeys[master].is_some() {
            return;
        }
        let transfer = self.transfer(master, slave);
        let width = self.fabric.board.masters[master].width as usize;
        let length = if transfer.write {
            transfer.beats as usize * width
        } else {
            0
        };
        let data = self.random.bytes(length);
        assert_eq!(self.fabric.post(master as u32, transfer, &data), 0);
        self.journeys[master] = Some(Journey {
            transfer,
            data,
            slave,
            clocks: 0,
            served: 0,
            last_access: None,
            others_served: false,
            given: Vec::new(),
        });
    }

    /// A cycle of a transfer: all of it is one step, at the first.
    fn serve(&mut self, master: usize) {
        let board = &self.fabric.board;
        let journey = self.journeys[master]
            .as_mut()
            .expect("a master is served that posted nothing");
        journey.served += 1;
        if journey.served > 1 {
            return;
        }
        let width = board.masters[master].width as usize;
        for place in 0..journey.transfer.beats as usize * width {
            let byte = place_of(board, master, journey, place).map(|at| &mut self.bytes[at]);
            if !journey.transfer.write {
                journey.given.push(byte.map_or(0, |byte| *byte));
            } else if journey.transfer.lanes & (1 << (place % width)) != 0 {
                if let Some(byte) = byte {
                    *byte = journey.data[place];
                }
            }
        }
    }

    fn serve_each(&mut self, lines: &[SlaveLine]) {
        for (slave, line) in lines.iter().enumerate() {
            if line.phase > 0 {
                self.serve(line.owner as usize);
                self.serve_others(slave);
            }
        }
    }

    /// A slave serves while others are in their latency behind a read of it.
    fn serve_others(&mut self, slave: usize) {
        for journey in self.journeys.iter_mut().flatten() {
            journey.others_served |= journey.slave == slave && journey.last_access.is_some();
        }
    }

    /// The clocks that a transfer is served.
    fn own_length(&self, master: usize, journey: &Journey) -> u64 {
        let board = &self.fabric.board;
        let wait = board.slaves[journey.slave].wait(journey.transfer.write) as u64;
        accesses_of(board, master, journey) * (1 + wait)
    }

    /// The clocks from the last access of a transfer to its finish.
    fn latency(&self, journey: &Journey) -> u64 {
        match journey.transfer.write {
            true => 0,
            false => self.fabric.board.slaves[journey.slave].latency as u64,
        }
    }

    /// After the last access of a transfer its card's bytes are as the steps leave them: it serves no other yet.
    fn end_accesses(&mut self, master: usize) {
        let Some(journey) = &self.journeys[master] else {
            return;
        };
        if journey.last_access.is_some() || journey.served < self.own_length(master, journey) {
            return;
        }
        let cells = cells(&self.fabric.board, journey.slave);
        assert_eq!(self.fabric.memory[cells.clone()], self.bytes[cells]);
        if let Some(journey) = &mut self.journeys[master] {
            journey.last_access = Some(journey.clocks);
        }
    }

    /// A read finishes with the words of its one step, exactly its latency behind its last access; a write with that.
    fn finish(&mut self, master: usize) {
        let journey = self.journeys[master]
            .take()
            .expect("a master finishes that posted nothing");
        let part = &self.fabric.buffer[PART_LENGTH * master..];
        assert_eq!(part[..journey.given.len()], journey.given);
        assert_eq!(journey.served, self.own_length(master, &journey));
        let last_access = journey.last_access.expect("it has no access");
        assert_eq!(journey.clocks, last_access + self.latency(&journey));
        self.count(master, &journey);
    }

    fn count(&mut self, master: usize, journey: &Journey) {
        let board = &self.fabric.board;
        let slave = &board.slaves[journey.slave];
        let is_native = slave.is_native() && board.masters[master].width > slave.width;
        let every_word = journey.transfer.beats as u64 * board.ratio(master, journey.slave);
        let is_partial = accesses_of(board, master, journey) < every_word;
        let is_late = self.latency(journey) > 0;
        self.finished.all += 1;
        self.finished.native += usize::from(is_native);
        self.finished.partial += usize::from(is_partial);
        self.finished.late += usize::from(is_late);
        self.finished.others_served += usize::from(journey.others_served);
    }

    /// The first cycle comes at the latest after the quoted wait, the last one as many clocks later as the transfer takes, and
    /// the finish of a read the latency behind it.
    fn hold_to_bounds(&self, master: usize) {
        let Some(journey) = &self.journeys[master] else {
            return;
        };
        let wait = wait(&self.fabric.board, master, journey.slave);
        assert!(journey.served > 0 || journey.clocks <= wait);
        let length = self.own_length(master, journey);
        assert!(journey.last_access.is_some() || journey.clocks < wait + length);
        assert!(journey.clocks < wait + length + self.latency(journey));
    }

    fn clock(&mut self) {
        let answer = self.fabric.clock();
        assert_eq!(answer.number, 0);
        self.serve_each(&answer.lines);
        for master in 0..MASTER_LIMIT {
            if let Some(journey) = &mut self.journeys[master] {
                journey.clocks += 1;
            }
            self.end_accesses(master);
            if answer.mask & (1 << master) != 0 {
                self.finish(master);
            }
            self.hold_to_bounds(master);
        }
    }

    /// Of eight idle masters, `eager` try to post before a clock.
    fn posts(&mut self, eager: usize) {
        for master in 0..self.fabric.board.master_count as usize {
            if self.random.chance(eager, 8) {
                self.post(master);
            }
        }
    }

    fn run(&mut self, clocks: usize) {
        let eager = self.random.between(1, 8);
        for _ in 0..clocks {
            self.posts(eager);
            self.clock();
        }
    }
}

/// What finishes in the histories of these seeds.
fn finished(seeds: Range<u64>) -> Finished {
    let mut finished = Finished::default();
    for seed in seeds {
        // shown only where the test fails
        println!("seed {seed}");
        let mut history = History::new(seed);
        history.run(1000);
        finished.all += history.finished.all;
        finished.native += history.finished.native;
        finished.partial += history.finished.partial;
        finished.late += history.finished.late;
        finished.others_served += history.finished.others_served;
    }
    finished
}

#[test]
fn reads_give_what_was_written_and_nobody_waits_longer_than_quoted() {
    // a test in which hardly anything finishes would hold the model to little
    let Finished {
        all,
        native,
        partial,
        late,
        others_served,
    } = finished(0..100);
    assert!(all > 10_000, "only {all} transfers finished");
    assert!(native > 2_000, "only {native} of them at native cards");
    assert!(
        partial > 1_000,
        "only {partial} of them without a lane in some word"
    );
    assert!(late > 2_000, "only {late} of them behind a latency");
    assert!(
        others_served > 1_000,
        "only {others_served} of them while their card served others"
    );
}
