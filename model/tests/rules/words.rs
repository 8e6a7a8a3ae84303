//! The words of a card that a transfer accesses: with bus sizing a write leaves out those in which it has no lane; a read leaves
//! out none.

use crate::fabric::{read_of, write_of, Fabric};
use model::board::BURSTS;
use model::fabric::{SlaveLine, Slot, Transfer};
use model::lanes::{all_lanes, lanes_legal};
use model::table::table;
use model::wait::wait_call;

const WIDTHS: [u8; 4] = [1, 2, 4, 8];
const BASE: u32 = 4096;
/// Where the transfers of these tests begin: not at the card's start.
const START: u32 = BASE + 8;
/// No two alike, and none like the byte of the memory that it goes to.
const DATA: [u8; 24] = [
    255, 254, 253, 252, 251, 250, 249, 248, 247, 246, 245, 244, 243, 242, 241, 240, 239, 238, 237,
    236, 235, 234, 233, 232,
];

/// A card with one master.
#[derive(Clone, Copy, Debug)]
struct Pair {
    master_width: u8,
    width: u8,
    burst: u8,
    /// Of reads and of writes.
    waits: (u8, u8),
    native: bool,
}

/// A card with bus sizing and no waits.
fn sized(master_width: u8, width: u8, burst: u8) -> Pair {
    Pair {
        master_width,
        width,
        burst,
        waits: (0, 0),
        native: false,
    }
}

/// Every two widths, with bus sizing and, where the two can be connected, native.
fn all_pairs() -> Vec<Pair> {
    let mut pairs = Vec::new();
    for master_width in WIDTHS {
        pairs.extend(WIDTHS.map(|width| sized(master_width, width, 1)));
    }
    let mut native = pairs.clone();
    native.retain(|pair| pair.master_width >= pair.width);
    pairs.extend(native.into_iter().map(|pair| Pair {
        native: true,
        ..pair
    }));
    pairs
}

impl Pair {
    fn fabric(&self) -> Fabric {
        let (read_wait, write_wait) = self.waits;
        Fabric::new(&format!(
            "master,{},4\nslave,{BASE},64,{},{},{read_wait},{write_wait},{},0\nshare,0,0,1\n",
            self.master_width, self.width, self.burst, self.native as u8
        ))
    }

    /// Singles of all legal lanes and bursts of two and three beats, in both directions.
    fn transfers(&self) -> Vec<Transfer> {
        let legal = (1..=255).filter(|&lanes| lanes_legal(lanes, self.master_width));
        let singles = legal.map(|lanes| read_of(START, lanes, 1));
        let bursts = [2, 3].map(|beats| read_of(START, all_lanes(self.master_width), beats));
        let reads: Vec<Transfer> = singles.chain(bursts).collect();
        let writes = reads.iter().map(|&read| Transfer {
            write: true,
            ..read
        });
        writes.chain(reads.iter().copied()).collect()
    }

    /// The lanes of a card word, at this offset, in a beat whose first byte is at the other.
    fn lanes(&self, transfer: &Transfer, first: u32, offset: u32) -> u8 {
        if !transfer.write {
            return all_lanes(self.width);
        }
        let in_beat =
            |lane: &u32| (first..first + self.master_width as u32).contains(&(offset + lane));
        (0..self.width as u32)
            .filter(in_beat)
            .map(|lane| (transfer.lanes >> (offset + lane - first) & 1) << lane)
            .sum()
    }

    /// Offset and lanes of the accesses of a beat, by document 01 and by S-5 of document 02, from the addresses of its bytes.
    fn beat(&self, transfer: &Transfer, beat: u8) -> Vec<(u32, u8)> {
        let (master_width, width) = (self.master_width as u32, self.width as u32);
        let first = transfer.address - BASE + beat as u32 * master_width;
        if self.native {
            let offset = first / master_width * width;
            return vec![(offset, self.lanes(transfer, offset, offset))];
        }
        (first / width * width..first + master_width)
            .step_by(width as usize)
            .map(|offset| (offset, self.lanes(transfer, first, offset)))
            .filter(|&(_, lanes)| lanes != 0)
            .collect()
    }

    fn accesses(&self, transfer: &Transfer) -> Vec<(u32, u8)> {
        (0..transfer.beats)
            .flat_map(|beat| self.beat(transfer, beat))
            .collect()
    }

    /// The lines until the transfer is finished: its accesses in runs, each behind its waits.
    fn lines(&self, transfer: &Transfer) -> Vec<SlaveLine> {
        let burst = match self.master_width < self.width {
            true => 1,
            false => self.burst as usize,
        };
        let wait = match transfer.write {
            true => self.waits.1,
            false => self.waits.0,
        };
        let mut lines = Vec::new();
        for (index, (offset, lanes)) in self.accesses(transfer).into_iter().enumerate() {
            let behind = self.accesses(transfer).len() - index / burst * burst;
            let access = SlaveLine {
                phase: 2,
                owner: 0,
                offset,
                lanes,
                run: behind.min(burst) as u8,
                place: (index % burst) as u8,
            };
            lines.extend((0..wait).map(|_| SlaveLine { phase: 1, ..access }));
            lines.push(access);
        }
        lines
    }

    /// The lines that the clocks give, and the fabric behind them.
    fn run(&self, transfer: Transfer) -> (Vec<SlaveLine>, Fabric) {
        let mut fabric = self.fabric();
        assert_eq!(post(&mut fabric, transfer), 0, "{self:?} {transfer:?}");
        (fabric.clock_until_finished(), fabric)
    }

    /// A fabric that serves the transfer, with so many accesses done.
    fn serving(&self, transfer: Transfer, done: u16) -> Fabric {
        let mut fabric = self.fabric();
        assert_eq!(post(&mut fabric, transfer), 0, "{self:?} {transfer:?}");
        fabric.state.slots[0] = Slot {
            serving: true,
            done,
            ..Slot::default()
        };
        fabric
    }
}

fn post(fabric: &mut Fabric, transfer: Transfer) -> u8 {
    let length = match transfer.write {
        true => transfer.beats as usize * fabric.board.masters[0].width as usize,
        false => 0,
    };
    fabric.post(0, transfer, &DATA[..length])
}

/// Offset behind the transfer's start, lanes, run and place of each access.
fn shown(pair: Pair, transfer: Transfer) -> Vec<(u32, u8, u8, u8)> {
    let (lines, _) = pair.run(transfer);
    lines
        .iter()
        .filter(|line| line.phase == 2)
        .map(|line| (BASE + line.offset - START, line.lanes, line.run, line.place))
        .collect()
}

#[test]
fn a_write_accesses_the_words_that_have_a_lane() {
    let written = |lanes| shown(sized(8, 2, 8), write_of(START, lanes, 1));
    assert_eq!(written(0b0000_1100), [(2, 3, 1, 0)]);
    assert_eq!(written(0b1111_0000), [(4, 3, 2, 0), (6, 3, 2, 1)]);
    assert_eq!(written(0b0100_0000), [(6, 1, 1, 0)]);
    assert_eq!(written(0b0000_0010), [(0, 2, 1, 0)]);
    let all = [(0, 3, 4, 0), (2, 3, 4, 1), (4, 3, 4, 2), (6, 3, 4, 3)];
    assert_eq!(written(0b1111_1111), all);
}

#[test]
fn a_read_of_some_lanes_accesses_every_word() {
    let every = [(0, 3, 4, 0), (2, 3, 4, 1), (4, 3, 4, 2), (6, 3, 4, 3)];
    for lanes in [0b0000_1100, 0b1111_0000, 0b1000_0000] {
        assert_eq!(shown(sized(8, 2, 8), read_of(START, lanes, 1)), every);
    }
}

#[test]
fn runs_are_cut_among_the_words_that_have_a_lane() {
    let written = |burst, lanes| shown(sized(8, 1, burst), write_of(START, lanes, 1));
    let in_twos = [(4, 1, 2, 0), (5, 1, 2, 1), (6, 1, 2, 0), (7, 1, 2, 1)];
    assert_eq!(written(2, 0b1111_0000), in_twos);
    let in_ones = [(4, 1, 1, 0), (5, 1, 1, 0), (6, 1, 1, 0), (7, 1, 1, 0)];
    assert_eq!(written(1, 0b1111_0000), in_ones);
    let whole = [(4, 1, 4, 0), (5, 1, 4, 1), (6, 1, 4, 2), (7, 1, 4, 3)];
    assert_eq!(written(4, 0b1111_0000), whole);
    assert_eq!(written(64, 0b1111_0000), whole);
    assert_eq!(written(4, 0b0010_0000), [(5, 1, 1, 0)]);
}

#[test]
fn a_burst_has_all_lanes_and_every_access() {
    let accesses = shown(sized(4, 2, 4), write_of(START, 15, 3));
    let offsets: Vec<u32> = accesses.iter().map(|access| access.0).collect();
    let runs: Vec<u8> = accesses.iter().map(|access| access.2).collect();
    assert_eq!(offsets, [0, 2, 4, 6, 8, 10]);
    assert_eq!(runs, [4, 4, 4, 4, 2, 2]);
}

#[test]
fn a_native_card_is_accessed_without_a_lane() {
    let native = Pair {
        native: true,
        ..sized(8, 2, 8)
    };
    for (lanes, on_card) in [
        (0b1111_0000, 0),
        (0b0000_1100, 0),
        (0b0000_0010, 2),
        (255, 3),
    ] {
        let (lines, _) = native.run(write_of(START, lanes, 1));
        let line = SlaveLine {
            phase: 2,
            offset: 2,
            lanes: on_card,
            run: 1,
            ..SlaveLine::default()
        };
        assert_eq!(lines, [line]);
    }
}

#[test]
fn only_words_that_have_a_lane_are_waited_for() {
    let pair = Pair {
        waits: (1, 3),
        ..sized(8, 2, 8)
    };
    let phases_and_offsets = |transfer| -> Vec<(u8, u32)> {
        let (lines, _) = pair.run(transfer);
        lines.iter().map(|line| (line.phase, line.offset)).collect()
    };
    let one = [(1, 10), (1, 10), (1, 10), (2, 10)];
    assert_eq!(phases_and_offsets(write_of(START, 0b0000_1100, 1)), one);
    let two = [
        (1, 12),
        (1, 12),
        (1, 12),
        (2, 12),
        (1, 14),
        (1, 14),
        (1, 14),
        (2, 14),
    ];
    assert_eq!(phases_and_offsets(write_of(START, 0b1111_0000, 1)), two);
    let read = [
        (1, 8),
        (2, 8),
        (1, 10),
        (2, 10),
        (1, 12),
        (2, 12),
        (1, 14),
        (2, 14),
    ];
    assert_eq!(phases_and_offsets(read_of(START, 0b0000_1100, 1)), read);
}

#[test]
fn every_pair_of_widths_shows_the_accesses_of_every_transfer() {
    let mut left_out = 0;
    for pair in all_pairs() {
        for transfer in pair.transfers() {
            left_out += usize::from(check_lines(pair, transfer));
        }
    }
    // lanes with fewer words than the beat covers: of 2 lanes 2, of 4 lanes 6 and 6, of 8 lanes 14 for each narrower card
    assert_eq!(left_out, 2 + 2 * 6 + 3 * 14);
}

/// Compares the lines of a transfer with those that the documents give, at cards of all bursts and of some waits. Whether a card
/// with bus sizing is accessed less often than it has words in the beat.
fn check_lines(pair: Pair, transfer: Transfer) -> bool {
    for burst in BURSTS {
        for waits in [(0, 0), (1, 2), (3, 0), (0, 1)] {
            let pair = Pair {
                burst: burst as u8,
                waits,
                ..pair
            };
            let (lines, fabric) = pair.run(transfer);
            assert_eq!(lines, pair.lines(&transfer), "{pair:?} {transfer:?}");
            assert_eq!(fabric.state.slots[0], Slot::default());
            assert_eq!(fabric.state.transfers[0], Transfer::default());
        }
    }
    let words = (pair.master_width / pair.width).max(1) as usize;
    !pair.native && pair.accesses(&transfer).len() < words * transfer.beats as usize
}

#[test]
fn a_write_changes_the_bytes_of_its_lanes_and_no_other() {
    for pair in all_pairs().into_iter().filter(|pair| !pair.native) {
        for transfer in pair.transfers() {
            check_bytes(pair, transfer);
        }
    }
}

fn check_bytes(pair: Pair, transfer: Transfer) {
    let mut expected = pair.fabric().memory;
    let first = (transfer.address - BASE) as usize;
    let width = pair.master_width as usize;
    for byte in 0..transfer.beats as usize * width {
        if transfer.write && transfer.lanes >> (byte % width) & 1 == 1 {
            assert_ne!(expected[first + byte], DATA[byte]);
            expected[first + byte] = DATA[byte];
        }
    }
    let (_, fabric) = pair.run(transfer);
    assert_eq!(fabric.memory, expected, "{pair:?} {transfer:?}");
}

#[test]
fn a_state_has_fewer_accesses_done_than_are_carried_out() {
    for pair in all_pairs() {
        for transfer in pair.transfers() {
            check_done(pair, transfer);
        }
    }
}

/// A state in which all accesses but one are done is taken and finishes; one with more of them done answers 9.
fn check_done(pair: Pair, transfer: Transfer) {
    let total = pair.accesses(&transfer).len() as u16;
    let mut last = pair.serving(transfer, total - 1);
    let answer = last.clock();
    assert_eq!(
        (answer.number, answer.mask),
        (0, 1),
        "{pair:?} {transfer:?}"
    );
    assert_eq!(
        answer.lines[0],
        *pair.lines(&transfer).last().expect("it has an access")
    );
    for done in [total, total + 1, 8 * transfer.beats as u16, u16::MAX] {
        let mut fabric = pair.serving(transfer, done);
        let before = fabric.state;
        assert_eq!(fabric.clock().number, 9, "{pair:?} {transfer:?} {done}");
        assert_eq!(fabric.post(0, transfer, &[]), 9);
        assert_eq!(fabric.state, before);
    }
}

#[test]
fn a_state_in_the_middle_of_a_write_goes_on_with_its_next_word() {
    let pair = Pair {
        waits: (0, 2),
        ..sized(8, 1, 2)
    };
    let transfer = write_of(START, 0b1111_0000, 1);
    for done in 0..4 {
        let mut fabric = pair.serving(transfer, done);
        let lines = fabric.clock_until_finished();
        assert_eq!(lines, pair.lines(&transfer)[3 * done as usize..]);
        // words 4 to 7 of the beat, those behind the accesses done
        let written = START + 4 + done as u32 - BASE..START + 8 - BASE;
        let unwritten = pair.fabric().memory;
        for byte in 0..64 {
            let at = byte as usize;
            let is_written = fabric.memory[at] != unwritten[at];
            assert_eq!(is_written, written.contains(&byte), "{done} {byte}");
        }
    }
}

#[test]
fn the_rows_of_refusal_9() {
    let number = |transfer, done| sized(8, 2, 8).serving(transfer, done).clock().number;
    let one = write_of(START, 0b0000_1100, 1);
    assert_eq!(
        [0, 1, 2, 3, 4].map(|done| number(one, done)),
        [0, 9, 9, 9, 9]
    );
    let two = write_of(START, 0b1111_0000, 1);
    assert_eq!(
        [0, 1, 2, 3, 4].map(|done| number(two, done)),
        [0, 0, 9, 9, 9]
    );
    let all = write_of(START, 255, 1);
    assert_eq!(
        [0, 1, 2, 3, 4].map(|done| number(all, done)),
        [0, 0, 0, 0, 9]
    );
    let read = read_of(START, 0b0000_1100, 1);
    assert_eq!(
        [0, 1, 2, 3, 4].map(|done| number(read, done)),
        [0, 0, 0, 0, 9]
    );
}

#[test]
fn waits_passed_are_those_of_the_next_word_that_has_a_lane() {
    let pair = Pair {
        waits: (0, 2),
        ..sized(8, 2, 8)
    };
    let mut fabric = pair.serving(write_of(START, 0b1111_0000, 1), 1);
    fabric.state.slots[0].waited = 3;
    assert_eq!(fabric.clock().number, 9);
    fabric.state.slots[0].waited = 2;
    let answer = fabric.clock();
    assert_eq!((answer.mask, answer.lines[0].phase), (1, 2));
    assert_eq!(answer.lines[0].offset, 14);
}

/// Two masters, 8 bytes and 1 byte wide, at a card of 2 bytes: an access lasts 2 clocks at most.
const SHARED: &str = "master,8,2\nmaster,1,1\n\
                      slave,4096,64,2,1,0,1,0,0\nshare,0,0,2\nshare,1,0,1\n";

/// The clock of the first cycle of master 1, where master 0 has its turn first: a single and then a transfer of these lanes and
/// beats.
fn first_cycle(single: u8, lanes: u8, beats: u8) -> u64 {
    let mut fabric = Fabric::new(SHARED);
    let length = beats as usize * 8;
    let write = write_of(START, lanes, beats);
    assert_eq!(fabric.post(0, write_of(START, single, 1), &DATA[..8]), 0);
    assert_eq!(fabric.post(1, write_of(BASE, 1, 1), &DATA[..1]), 0);
    let mut posted = false;
    for clock in 1..100 {
        let answer = fabric.clock();
        if answer.lines[0].owner == 1 {
            return clock;
        }
        if answer.mask == 1 && !posted {
            assert_eq!(fabric.post(0, write, &DATA[..length]), 0);
            posted = true;
        }
    }
    panic!("master 1 is not served");
}

#[test]
fn the_slave_is_free_behind_the_last_word_that_has_a_lane() {
    // 1, 2 and 4 accesses of 2 clocks, and 8 of a burst
    assert_eq!(first_cycle(0b0000_1100, 0b0000_0001, 1), 1 + 2 + 2);
    assert_eq!(first_cycle(0b0000_1111, 0b1000_0000, 1), 1 + 4 + 2);
    assert_eq!(first_cycle(0b1111_0000, 0b1111_1111, 1), 1 + 4 + 8);
    assert_eq!(first_cycle(0b1100_0000, 0b1111_1111, 2), 1 + 2 + 16);
}

#[test]
fn the_quoted_figures_are_those_of_all_lanes() {
    // of master 0: single 4 × 2, serve 2 × 8, turn 8 + 16; of master 1: single, serve and turn 2
    let expected = "master,slave,wait,serve\n0,0,2,16\n1,0,24,2\n";
    assert_eq!(table(SHARED.as_bytes()), expected);
    let mut figures = [0; 16];
    assert_eq!(wait_call(SHARED.as_bytes(), 1, 0, &mut figures), 0);
    let waited = first_cycle(255, 255, 2) - 1;
    assert_eq!(figures[..8], waited.to_le_bytes());
}
