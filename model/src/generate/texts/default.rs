//! Texts about the line `default`: in its place, elsewhere, twice, misspelt, and with lines of every kind behind it.

use super::parts::{before_default, damage_board_with, pair_of, place_for, Kind, DEFAULT};
use crate::board::{Board, SLAVE_LIMIT};
use crate::generate::boards::{free_base, joined, lines};
use crate::generate::random::Random;

/// How many of these texts there are.
pub const DEFAULTS: usize = 40;
/// In the last of them nothing is wrong.
pub const FIRST_GOOD: usize = 38;

/// The line with further fields.
const LONGER: [&str; 8] = [
    "default,1",
    "default,1",
    "default,1",
    "default,1",
    "default,1",
    "default,1",
    "default,0",
    "default,",
];

/// Words near the right one.
const MISSPELT: [&str; 12] = [
    "defaul",
    "defaults",
    "Default",
    "DEFAULT",
    "defaulT",
    "default ",
    " default",
    "default\r",
    "default\0",
    "\"default\"",
    "default;",
    "defauIt",
];

/// How often a text is to be there: those that one mistake of a reader is seen in alone are there more often.
pub fn frequency(case: usize) -> usize {
    match case {
        // a further field
        0 => 110,
        // `default` twice
        12 => 85,
        // before the first slave
        15..=17 => 28,
        // a share line behind it
        8 | 9 => 8,
        10 | 11 | 35 => 28,
        // several lines behind it
        18..=21 => 14,
        // a slave behind it, and no share line
        37 => 85,
        // no share line of a master
        23 => 40,
        24 => 30,
        FIRST_GOOD.. => 25,
        _ => 3,
    }
}

/// Lines that are not well formed.
const BROKEN: [&str; 8] = [
    "",
    "share,0,0",
    "share,0,0,01",
    "master,4",
    "slave,0,8,1,1,0,0,0",
    "default,1",
    "default,",
    "end",
];

/// A slave line that would be taken where the slaves stand.
fn free_slave(random: &mut Random, board: &Board) -> Vec<u8> {
    let slaves = &board.slaves[..board.slave_count as usize];
    let base = free_base(random, slaves, 8);
    format!("slave,{base},8,1,1,0,0,0,0").into_bytes()
}

/// A share line of a pair that has none, or, where every pair has one, of the last pair.
fn free_share(random: &mut Random, board: &Board) -> Vec<u8> {
    let is_free = |&(master, slave): &(usize, usize)| {
        !board.connected(master, slave) && !board.too_narrow(master, slave)
    };
    let free: Vec<(usize, usize)> = board.pairs().filter(is_free).collect();
    let last = (
        board.master_count as usize - 1,
        board.slave_count as usize - 1,
    );
    let (master, slave) = match free.is_empty() {
        true => last,
        false => random.pick(&free),
    };
    format!("share,{master},{slave},1").into_bytes()
}

/// A line of each kind, good where its kind stands or with a fault of its own.
fn line_behind(random: &mut Random, board: &Board, case: usize) -> Vec<u8> {
    match case {
        0 => b"master,4,8".to_vec(),
        1 => b"master,3,8".to_vec(),
        2 => free_slave(random, board),
        3 => b"slave,4,8,1,1,0,0,0,0".to_vec(),
        4 => b"slave,0,7,1,1,0,0,0,0".to_vec(),
        5 | 6 => free_share(random, board),
        7 => b"share,0,0,0".to_vec(),
        8 => b"share,8,16,1".to_vec(),
        9 => DEFAULT.to_vec(),
        _ => random.pick(&BROKEN).into(),
    }
}

/// A share line taken out and put behind `default`: without it its master may have none.
fn move_share_behind(random: &mut Random, board: &Board, lines: &mut Vec<Vec<u8>>) {
    let shares = Kind::Share.range(board, lines.len());
    let share = lines.remove(random.between(shares.start, shares.end - 1));
    lines.push(share);
}

/// `default` moved up: before or between the masters, the slaves or the shares, or between two kinds.
fn move_up(random: &mut Random, board: &Board, lines: &mut Vec<Vec<u8>>, case: usize) {
    let slaves = Kind::Slave.range(board, lines.len());
    let shares = Kind::Share.range(board, lines.len());
    let place = match case {
        0 => 0,
        1 => random.between(0, slaves.start),
        2 => slaves.start,
        3 => random.between(slaves.start + 1, slaves.end),
        4 => slaves.end,
        5 => random.between(shares.start, shares.end - 1),
        6 => shares.end - 1,
        _ => random.between(0, shares.end),
    };
    let default = lines.remove(shares.end);
    lines.insert(place, default);
}

/// Texts of which other lines are missing: share lines, slaves, or all.
fn leave_out(random: &mut Random, board: &Board, lines: &mut Vec<Vec<u8>>, case: usize) {
    let slaves = Kind::Slave.range(board, lines.len());
    let shares = Kind::Share.range(board, lines.len());
    match case {
        0 => drop(lines.drain(shares)),
        1 => {
            lines.remove(random.between(shares.start, shares.end - 1));
        }
        2 => drop(lines.drain(slaves.start..shares.end)),
        3 => drop(lines.drain(slaves)),
        4 => drop(lines.drain(..shares.end)),
        _ => drop(lines.drain(..slaves.start)),
    }
}

/// Another fault before `default`, beside a second `default` or one that stands too early.
fn damage_beside(random: &mut Random, board: &Board, lines: &mut Vec<Vec<u8>>, case: usize) {
    let shares = Kind::Share.range(board, lines.len());
    match case {
        0 => lines.insert(shares.end, b"share,0,0,0".to_vec()),
        1 => lines.insert(shares.end, random.pick(&BROKEN).into()),
        2 => lines[0] = b"master,3,8".to_vec(),
        _ => lines.insert(0, DEFAULT.to_vec()),
    }
    lines.push(DEFAULT.to_vec());
}

/// A board on which only the last share line connects a master, so that what is read of the text decides over 20.
fn sparse_board(random: &mut Random) -> Board {
    let mut board = damage_board_with(random, Kind::Default);
    let last = board.master_count as usize - 1;
    let slave = (0..board.slave_count as usize).find(|&slave| board.connected(last, slave));
    let mut row = [0; SLAVE_LIMIT];
    row[slave.unwrap_or(0)] = 1;
    board.shares[last] = row;
    board
}

/// A second `default` among the share lines, or a share line more that is good.
fn add_line(random: &mut Random, board: &Board, lines: &mut Vec<Vec<u8>>, case: usize) {
    let first = Kind::Share.range(board, lines.len()).start;
    match case {
        0 => {
            let place = random.between(first, before_default(lines));
            lines.insert(place, DEFAULT.to_vec());
        }
        _ => {
            let share = free_share(random, board);
            let place = place_for(random, lines, first, pair_of(&share));
            lines.insert(place, share);
        }
    }
}

pub fn default_text(random: &mut Random, case: usize) -> Vec<u8> {
    let board = match random.chance(1, 4) {
        true => sparse_board(random),
        false => damage_board_with(random, Kind::Default),
    };
    let mut lines = lines(&board);
    let last = lines.len() - 1;
    match case {
        0 => lines[last] = random.pick(&LONGER).into(),
        1 | 2 => lines[last] = random.pick(&MISSPELT).into(),
        3..=14 => lines.push(line_behind(random, &board, case - 3)),
        15..=22 => move_up(random, &board, &mut lines, case - 15),
        23..=28 => leave_out(random, &board, &mut lines, case - 23),
        29..=32 => damage_beside(random, &board, &mut lines, case - 29),
        33 | 34 => add_line(random, &board, &mut lines, case - 33),
        35 => move_share_behind(random, &board, &mut lines),
        37 => {
            leave_out(random, &board, &mut lines, 0);
            lines.push(free_slave(random, &board));
        }
        _ => {}
    }
    let mut text = joined(&lines);
    if case == 36 {
        text.pop();
    }
    text
}
