//! Texts whose share lines do not come by master, then slave, with nothing else wrong and beside another fault.

use std::cmp::Reverse;

use super::parts::{before_default, fields_of, joined_fields, pair_of, push_share, Kind};
use crate::board::{Board, SLAVE_LIMIT};
use crate::generate::boards::{
    board, connect_rest, disconnect_narrow, joined, lines, uneven_widths, Size,
};
use crate::generate::random::Random;

/// The orders that share lines are put in.
pub const ORDERS: usize = 10;
/// What is wrong beside; fault 0 is nothing.
pub const FAULTS: usize = 14;

/// The order that compares numbers digit by digit, as text.
const AS_TEXT: usize = 9;
/// The fault that joins a master to a native slave wider than it.
const NARROW: usize = 6;
/// The fault that leaves a master without a share line.
const UNCONNECTED: usize = 12;
/// The fault that leaves the last line without its line feed.
const UNENDED: usize = 13;

/// Lines with a fault of their own, wherever they stand behind a share line.
const BAD_LINES: [&str; 8] = [
    "share,0,0",
    "share,0,0,01",
    "",
    "master,4,8",
    "slave,0,8,1,1,0,0,0,0",
    "share,0,0,0",
    "share,8,0,1",
    "share,0,16,1",
];

fn share_count(board: &Board) -> usize {
    let connected = |&(master, slave): &(usize, usize)| board.connected(master, slave);
    board.pairs().filter(connected).count()
}

fn size_for(random: &mut Random, order: usize) -> Size {
    match random.below(8) {
        // the others hardly have numbers of two digits
        _ if order == AS_TEXT => Size::Any,
        0..=3 => Size::Small,
        4 | 5 => Size::Crowded,
        6 => Size::Any,
        _ => Size::Largest,
    }
}

/// A board of two share lines or more, and with slaves of two digits where they are to be compared as text.
fn unordered_board(random: &mut Random, order: usize, fault: usize) -> Board {
    let least_slaves = if order == AS_TEXT { 11 } else { 1 };
    loop {
        let size = size_for(random, order);
        let mut board = board(random, size);
        if fault == UNCONNECTED {
            let master = random.below(board.master_count as usize);
            board.shares[master] = [0; SLAVE_LIMIT];
        }
        if share_count(&board) >= 2 && board.slave_count >= least_slaves {
            return board;
        }
    }
}

/// Swaps two lines that follow each other: any two, or two of different masters, or two of one master.
fn swap_neighbours(random: &mut Random, shares: &mut [Vec<u8>], order: usize) {
    let is_wanted = |&line: &usize| {
        let same = pair_of(&shares[line]).0 == pair_of(&shares[line + 1]).0;
        order == 0 || same == (order == 2)
    };
    let wanted: Vec<usize> = (0..shares.len() - 1).filter(is_wanted).collect();
    if !wanted.is_empty() {
        let line = random.pick(&wanted);
        shares.swap(line, line + 1);
    }
}

/// Takes one line out and puts it elsewhere.
fn move_line(random: &mut Random, shares: &mut [Vec<u8>]) {
    let from = random.below(shares.len());
    let to = random.below(shares.len());
    if from < to {
        shares[from..=to].rotate_left(1);
    } else {
        shares[to..=from].rotate_right(1);
    }
}

fn reorder(random: &mut Random, shares: &mut [Vec<u8>], order: usize) {
    match order {
        0..=2 => swap_neighbours(random, shares, order),
        3 => shares.sort_by_key(|line| {
            let (master, slave) = pair_of(line);
            (slave, master)
        }),
        4 => shares.reverse(),
        5 => move_line(random, shares),
        6 => shares.sort_by_key(|line| {
            let (master, slave) = pair_of(line);
            (Reverse(master), slave)
        }),
        7 => shares.sort_by_key(|line| {
            let (master, slave) = pair_of(line);
            (master, Reverse(slave))
        }),
        8 => random.shuffle(shares),
        _ => shares.sort(),
    }
}

/// The first share line whose pair comes before the one above; the last share line where there is none.
fn charged(lines: &[Vec<u8>], first: usize) -> usize {
    let comes_before = |&line: &usize| pair_of(&lines[line]) < pair_of(&lines[line - 1]);
    let end = before_default(lines);
    (first + 1..end).find(comes_before).unwrap_or(end - 1)
}

/// The line with another fault, of a lower number.
fn worse_line(random: &mut Random, board: &Board, line: &[u8], fault: usize) -> Vec<u8> {
    let mut fields = fields_of(line);
    let field = random.between(1, 3);
    let (master, _) = pair_of(line);
    match fault {
        1 => fields[3] = random.pick(&["0", "101", "4294967297"]).into(),
        2 => fields[2] = board.slave_count.to_string().into_bytes(),
        3 => fields[1] = ((1u64 << 32) + master).to_string().into_bytes(),
        4 => fields[field].insert(0, b'0'),
        _ => {
            fields.pop();
        }
    }
    joined_fields(&fields)
}

/// A fault in the first line that comes before the one above, in front of it or behind it.
fn damage(random: &mut Random, board: &Board, lines: &mut Vec<Vec<u8>>, fault: usize) {
    let first = Kind::Share.range(board, lines.len()).start;
    let place = charged(lines, first);
    let bad_line = random.pick(&BAD_LINES).into();
    match fault {
        1..=5 => lines[place] = worse_line(random, board, &lines[place], fault),
        7 if place > first => lines[place] = lines[random.between(first, place - 1)].clone(),
        8 if place > first => lines.insert(place, lines[place - 1].clone()),
        9 => lines.insert(random.between(place + 1, before_default(lines)), bad_line),
        10 => lines.insert(random.between(first + 1, place.max(first + 1)), bad_line),
        11 => push_share(lines, lines[place].clone()),
        _ => {}
    }
}

/// The share line of a master at a native slave wider than it stands last, behind all others.
fn narrow_lines(random: &mut Random) -> Vec<Vec<u8>> {
    let mut board = unordered_board(random, 0, NARROW);
    let master = random.below(board.master_count as usize);
    let slave = random.below(board.slave_count as usize);
    let (narrow, wide) = uneven_widths(random);
    board.masters[master].width = narrow;
    board.slaves[slave].width = wide;
    board.slaves[slave].native = 1;
    disconnect_narrow(&mut board);
    // where no slave takes the narrow master, this makes it as wide as one
    connect_rest(random, &mut board, 3);
    let mut lines = lines(&board);
    push_share(&mut lines, format!("share,{master},{slave},1").into_bytes());
    lines
}

pub fn unordered_text(random: &mut Random, order: usize, fault: usize) -> Vec<u8> {
    if fault == NARROW {
        return joined(&narrow_lines(random));
    }
    let board = unordered_board(random, order, fault);
    let mut lines = lines(&board);
    let shares = Kind::Share.range(&board, lines.len());
    reorder(random, &mut lines[shares], order);
    damage(random, &board, &mut lines, fault);
    let mut text = joined(&lines);
    if fault == UNENDED {
        text.pop();
    }
    text
}
