//! The accesses of a transfer: which words of the slave a beat goes to, and how many accesses there are.

use super::Transfer;
use crate::board::Board;
use crate::lanes::{all_lanes, word_lanes};

/// A beat covers at most so many words of a slave: the widest master at the narrowest slave.
const WORD_LIMIT: usize = 8;

/// The slave's words that each beat of a transfer accesses, by their number within the beat, lowest address first.
pub struct Words {
    numbers: [u8; WORD_LIMIT],
    pub count: usize,
}

impl Words {
    pub fn number(&self, access: usize) -> usize {
        self.numbers[..self.count][access] as usize
    }
}

/// With bus sizing a beat of a wider master covers several words of the slave, any other beat one. A read accesses all of them, a
/// write those in which it has an enabled lane: the slave may act on any write access. A native slave is accessed once in a beat,
/// by a write without a lane there too.
pub fn accessed_words(board: &Board, master: usize, slave: usize, transfer: &Transfer) -> Words {
    let some_lanes = transfer.lanes != all_lanes(board.masters[master].width);
    match transfer.write && some_lanes && !board.slaves[slave].is_native() {
        true => words_with_a_lane(board, master, slave, transfer.lanes),
        false => Words {
            numbers: [0, 1, 2, 3, 4, 5, 6, 7],
            count: board.ratio(master, slave) as usize,
        },
    }
}

fn words_with_a_lane(board: &Board, master: usize, slave: usize, lanes: u8) -> Words {
    let width = board.slaves[slave].width;
    let mut words = Words {
        numbers: [0; WORD_LIMIT],
        count: 0,
    };
    for number in 0..board.ratio(master, slave) as u8 {
        if word_lanes(lanes, number, width) != 0 {
            words.numbers[words.count] = number;
            words.count += 1;
        }
    }
    words
}

/// The accesses of a transfer at a slave: each beat has the same lanes.
pub fn total_accesses(board: &Board, master: usize, slave: usize, transfer: &Transfer) -> u64 {
    let words = accessed_words(board, master, slave, transfer);
    transfer.beats as u64 * words.count as u64
}
