//! The parts of a description text: its board, its lines and their fields.

use std::ops::Range;

use crate::board::Board;
use crate::generate::boards::{board, Size};
use crate::generate::random::Random;

/// The kinds of lines.
#[derive(Clone, Copy, PartialEq, Eq)]
pub enum Kind {
    Master,
    Slave,
    Share,
    Default,
}

pub const KINDS: [Kind; 4] = [Kind::Master, Kind::Slave, Kind::Share, Kind::Default];

/// The line that a board with the mark ends with.
pub const DEFAULT: &[u8] = b"default";

impl Kind {
    pub fn word(self) -> &'static str {
        match self {
            Kind::Master => "master",
            Kind::Slave => "slave",
            Kind::Share => "share",
            Kind::Default => "default",
        }
    }

    pub fn field_count(self) -> usize {
        match self {
            Kind::Master => 3,
            Kind::Slave => 9,
            Kind::Share => 4,
            Kind::Default => 1,
        }
    }

    /// Where the lines of this kind lie among a board's lines.
    pub fn range(self, board: &Board, line_count: usize) -> Range<usize> {
        let slaves = board.master_count as usize;
        let shares = slaves + board.slave_count as usize;
        let default = line_count - board.default as usize;
        match self {
            Kind::Master => 0..slaves,
            Kind::Slave => slaves..shares,
            Kind::Share => shares..default,
            Kind::Default => default..line_count,
        }
    }
}

/// A board to be damaged.
pub fn damage_board(random: &mut Random) -> Board {
    let size = match random.below(20) {
        0..=3 => Size::Tiny,
        4..=15 => Size::Small,
        16..=18 => Size::Any,
        _ => Size::Largest,
    };
    board(random, size)
}

/// A board that has a line of this kind, to be damaged.
pub fn damage_board_with(random: &mut Random, kind: Kind) -> Board {
    let mut board = damage_board(random);
    board.default |= kind == Kind::Default;
    board
}

pub fn pick_line(random: &mut Random, board: &Board, line_count: usize, kind: Kind) -> usize {
    let range = kind.range(board, line_count);
    random.between(range.start, range.end - 1)
}

pub fn fields_of(line: &[u8]) -> Vec<Vec<u8>> {
    line.split(|&byte| byte == b',')
        .map(<[u8]>::to_vec)
        .collect()
}

pub fn joined_fields(fields: &[Vec<u8>]) -> Vec<u8> {
    fields.join(&b',')
}

pub fn value_of(field: &[u8]) -> u64 {
    String::from_utf8_lossy(field).parse().unwrap_or(0)
}

/// Master and slave of a share line.
pub fn pair_of(line: &[u8]) -> (u64, u64) {
    let fields = fields_of(line);
    let number = |field: usize| fields.get(field).map_or(0, |field| value_of(field));
    (number(1), number(2))
}

/// How many lines stand before the one that ends the text, where it is `default`; else all of them.
pub fn before_default(lines: &[Vec<u8>]) -> usize {
    match lines.last() {
        Some(line) if line == DEFAULT => lines.len() - 1,
        _ => lines.len(),
    }
}

/// Puts a line last of the share lines: behind `default` it would be refused for its place alone.
pub fn push_share(lines: &mut Vec<Vec<u8>>, line: Vec<u8>) {
    lines.insert(before_default(lines), line);
}

/// Where a share line of the pair is put among those from `first` on: in two of three cases in its order, else anywhere.
pub fn place_for(random: &mut Random, lines: &[Vec<u8>], first: usize, pair: (u64, u64)) -> usize {
    let end = before_default(lines);
    match random.chance(2, 3) {
        true => first + lines[first..end].partition_point(|line| pair_of(line) < pair),
        false => random.between(first, end),
    }
}
