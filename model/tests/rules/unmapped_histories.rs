//! Random histories with unmapped transfers: the log is what a second count of it says, and all else is as if the unmapped
//! transfers had never been posted.

use std::ops::Range;

use crate::fabric::{read_of, Fabric};
use model::board::{Board, MASTER_LIMIT};
use model::fabric::{self, Answer, Entry, Transfer, PART_LENGTH};
use model::generate::boards::{any_size, board};
use model::generate::random::Random;
use model::lanes::{all_lanes, lanes_legal};

/// What happened in the histories.
#[derive(Default, Debug)]
struct Seen {
    unmapped: usize,
    /// Clocks that finish several of them.
    together: usize,
    /// Clocks that finish some beside a slave that serves.
    beside: usize,
    dropped: usize,
    taken: usize,
    empty: usize,
    resets: usize,
    mapped: usize,
}

/// A fabric with the mark, and one without it in which nobody posts an unmapped transfer.
struct History {
    fabric: Fabric,
    twin: Fabric,
    random: Random,
    /// The unmapped transfers posted since the last clock.
    posted: [Option<Transfer>; MASTER_LIMIT],
    /// The log as this history has it.
    entries: Vec<Entry>,
    lost: bool,
    seen: Seen,
}

/// Whether a card that the master is connected with has the address, from the documents' own words: it agrees with the base in
/// all bits of the span's weight and higher.
fn is_mapped(board: &Board, master: usize, address: u32) -> bool {
    (0..board.slave_count as usize).any(|slave| {
        let card = &board.slaves[slave];
        let above = !(card.span - 1);
        board.shares[master][slave] > 0 && address & above == card.base & above
    })
}

impl History {
    fn new(seed: u64) -> History {
        let mut random = Random::new(seed);
        let size = any_size(&mut random);
        let mut board = board(&mut random, size);
        board.default = true;
        let fabric = Fabric::of_board(board);
        board.default = false;
        History {
            fabric,
            twin: Fabric::of_board(board),
            random,
            posted: Default::default(),
            entries: Vec::new(),
            lost: false,
            seen: Seen::default(),
        }
    }

    /// Near a card of the board, or anywhere.
    fn address(&mut self, width: u32) -> u32 {
        let slave = self.random.below(self.fabric.board.slave_count as usize);
        let card = self.fabric.board.slaves[slave];
        let any = self.random.draw() as u32;
        let places = [
            card.base + any % card.span,
            card.base + any % card.span,
            card.base.wrapping_add(card.span),
            card.base.wrapping_sub(width),
            card.base ^ (card.span << (any % 4)),
            u32::MAX,
            any,
        ];
        self.random.pick(&places) / width * width
    }

    /// Of the twin too, where it is mapped. Refused are only bursts that pass a card's end.
    fn post(&mut self, master: usize) {
        let card = self.fabric.board.masters[master];
        let address = self.address(card.width as u32);
        let beats = match self.random.chance(1, 2) {
            true => 1,
            false => self.random.between(1, card.burst as usize),
        };
        let mut transfer = read_of(address, all_lanes(card.width), beats as u8);
        transfer.write = self.random.chance(1, 2);
        let legal: Vec<u8> = (1..=255)
            .filter(|&lanes| lanes_legal(lanes, card.width))
            .collect();
        if beats == 1 {
            transfer.lanes = self.random.pick(&legal);
        }
        let length = match transfer.write {
            true => beats * card.width as usize,
            false => 0,
        };
        let data = self.random.bytes(length);
        self.post_both(master, transfer, &data);
    }

    fn post_both(&mut self, master: usize, transfer: Transfer, data: &[u8]) {
        let number = self.fabric.post(master as u32, transfer, data);
        let expected = self.twin.post(master as u32, transfer, data);
        if is_mapped(&self.fabric.board, master, transfer.address) {
            assert!([0, 17].contains(&number));
            assert_eq!(number, expected);
            self.seen.mapped += usize::from(number == 0);
        } else {
            assert_eq!((number, expected), (0, 16));
            self.posted[master] = Some(transfer);
            self.twin.buffer[PART_LENGTH * master..][..data.len()].copy_from_slice(data);
        }
    }

    /// Enters what the clock finishes in the log of this history, and puts the zeros.
    fn finish_unmapped(&mut self) -> (u8, [u8; MASTER_LIMIT]) {
        let (mut mask, mut responses) = (0, [0; MASTER_LIMIT]);
        for master in 0..MASTER_LIMIT {
            let Some(transfer) = self.posted[master].take() else {
                continue;
            };
            let length = transfer.beats as usize * self.fabric.board.masters[master].width as usize;
            if !transfer.write {
                self.twin.buffer[PART_LENGTH * master..][..length].fill(0);
            }
            mask += 1 << master;
            responses[master] = 3;
            if self.entries.len() == 8 {
                self.lost = true;
                self.seen.dropped += 1;
                continue;
            }
            self.entries.push(Entry {
                master: master as u8,
                address: transfer.address,
                write: transfer.write,
            });
        }
        (mask, responses)
    }

    fn clock(&mut self) {
        let answer = self.fabric.clock();
        let other = self.twin.clock();
        let (mask, responses) = self.finish_unmapped();
        let expected = Answer {
            mask: other.mask | mask,
            responses,
            ..other
        };
        assert_eq!(answer, expected);
        assert_eq!(other.mask & mask, 0);
        assert_eq!(other.responses, [0; MASTER_LIMIT]);
        let served = other.lines.iter().any(|line| line.phase > 0);
        self.seen.unmapped += mask.count_ones() as usize;
        self.seen.together += usize::from(mask.count_ones() > 1);
        self.seen.beside += usize::from(mask > 0 && served);
    }

    fn take(&mut self) {
        let taken = self.fabric.take();
        if self.entries.is_empty() {
            assert_eq!(taken, (22, Entry::default()));
            self.seen.empty += 1;
        } else {
            assert_eq!(taken, (0, self.entries.remove(0)));
            self.seen.taken += 1;
        }
    }

    fn reset(&mut self) {
        self.fabric.state = fabric::reset(&self.fabric.board).1;
        self.twin.state = fabric::reset(&self.twin.board).1;
        self.posted = Default::default();
        self.entries.clear();
        self.lost = false;
        self.seen.resets += 1;
    }

    /// Calls that are refused, which leave everything.
    fn refused(&mut self) {
        let before = (self.fabric.state, self.fabric.buffer);
        let is_held = self.posted.iter().any(Option::is_some);
        self.fabric.board.default = false;
        if is_held {
            assert_eq!(self.fabric.clock().number, 9);
            assert_eq!(self.fabric.take().0, 9);
        }
        self.fabric.board.default = true;
        assert_eq!(self.fabric.post(8, read_of(0, 1, 1), &[]), 11);
        assert_eq!(
            self.fabric.post(0, read_of(0, 0, 0), &[]),
            if before.0.transfers[0].held { 12 } else { 13 }
        );
        assert_eq!((self.fabric.state, self.fabric.buffer), before);
    }

    /// Places behind the count are 0, as nobody but clocks and takes changed them.
    fn compare(&self) {
        let (state, twin) = (&self.fabric.state, &self.twin.state);
        assert_eq!(state.log.count as usize, self.entries.len());
        let mut entries = self.entries.clone();
        entries.resize(8, Entry::default());
        assert_eq!(state.log.entries[..], entries);
        assert_eq!(state.log.lost, self.lost);
        assert_eq!(state.slots, twin.slots);
        for (master, transfer) in state.transfers.iter().enumerate() {
            let expected = self.posted[master].unwrap_or(twin.transfers[master]);
            assert_eq!(*transfer, expected);
        }
        assert_eq!(self.fabric.buffer, self.twin.buffer);
    }

    /// Of eight idle masters, `eager` post before a clock; of eight clocks, `takes` are followed by a take.
    fn run(&mut self, clocks: usize) {
        let eager = self.random.between(1, 8);
        let takes = self.random.pick(&[0, 1, 4, 7]);
        for _ in 0..clocks {
            for master in 0..self.fabric.board.master_count as usize {
                if !self.fabric.state.transfers[master].held && self.random.chance(eager, 8) {
                    self.post(master);
                }
            }
            self.compare();
            match self.random.below(40) {
                0 => self.refused(),
                1 if takes < 4 => self.reset(),
                _ => {}
            }
            self.clock();
            while self.random.chance(takes, 8) {
                self.take();
            }
            self.compare();
        }
        assert_eq!(self.fabric.memory, self.twin.memory);
    }
}

fn seen(seeds: Range<u64>) -> Seen {
    let mut all = Seen::default();
    for seed in seeds {
        // shown only where the test fails
        println!("seed {seed}");
        let mut history = History::new(seed);
        history.run(300);
        let seen = history.seen;
        all.unmapped += seen.unmapped;
        all.together += seen.together;
        all.beside += seen.beside;
        all.dropped += seen.dropped;
        all.taken += seen.taken;
        all.empty += seen.empty;
        all.resets += seen.resets;
        all.mapped += seen.mapped;
    }
    all
}

#[test]
fn the_log_is_what_clocks_and_takes_give_and_others_see_nothing_of_it() {
    // a test in which hardly anything happens would hold the model to little
    let seen = seen(0..100);
    println!("{seen:?}");
    assert!(seen.unmapped > 5_000, "{seen:?}");
    assert!(seen.together > 1_000, "{seen:?}");
    assert!(seen.beside > 1_000, "{seen:?}");
    assert!(seen.dropped > 1_000, "{seen:?}");
    assert!(seen.taken > 1_000, "{seen:?}");
    assert!(seen.empty > 500, "{seen:?}");
    assert!(seen.resets > 100, "{seen:?}");
    assert!(seen.mapped > 2_000, "{seen:?}");
}
