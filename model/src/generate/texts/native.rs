//! Texts with a native slave and a master narrower than it, and texts of another count of numbers in their slave lines.

use super::parts::{damage_board, fields_of, joined_fields, place_for, Kind};
use crate::board::Board;
use crate::generate::boards::{connect_rest, disconnect_narrow, joined, lines, uneven_widths};
use crate::generate::random::Random;

/// How many of these texts there are.
pub const NATIVES: usize = 30;

/// A pair that cannot be connected.
#[derive(Clone, Copy)]
struct Pair {
    master: usize,
    slave: usize,
}

/// A board with a native slave and a master narrower than it. All other masters have a share line; that one may be too narrow
/// for every slave.
fn narrow_board(random: &mut Random) -> (Board, Pair) {
    let mut board = damage_board(random);
    let pair = Pair {
        master: random.below(board.master_count as usize),
        slave: random.below(board.slave_count as usize),
    };
    let (narrow, wide) = uneven_widths(random);
    board.masters[pair.master].width = narrow;
    board.slaves[pair.slave].width = wide;
    board.slaves[pair.slave].native = 1;
    disconnect_narrow(&mut board);
    // the pair's own line, which is put later, connects its master
    board.shares[pair.master][pair.slave] = 1;
    connect_rest(random, &mut board, 3);
    board.shares[pair.master][pair.slave] = 0;
    (board, pair)
}

/// A share line of the pair: with nothing else wrong, or with a lower number.
fn share_line(pair: Pair, case: usize) -> Vec<u8> {
    let Pair { master, slave } = pair;
    let high = 1u64 << 32;
    match case {
        1 => format!("share,{master},{slave},100"),
        2 => format!("share,{master},{slave},0"),
        3 => format!("share,{master},{slave},101"),
        4 => format!("share,{master},{slave},{}", high + 1),
        5 => format!("share,{},{slave},1", master + 256),
        6 => format!("share,{master},{},1", slave + 256),
        7 => format!("share,{},{slave},1", high + master as u64),
        8 => format!("share,{master},{},1", high + slave as u64),
        9 => format!("share,{master},{slave},01"),
        10 => format!("share,{master},{slave}"),
        11 => format!("share,{master},{slave},1,1"),
        12 => format!("share,8,{slave},1"),
        13 => format!("share,{master},16,1"),
        _ => format!("share,{master},{slave},1"),
    }
    .into_bytes()
}

/// Changes the board so that the pair can be connected.
fn widen(board: &mut Board, pair: Pair, case: usize) {
    let slave = &mut board.slaves[pair.slave];
    match case {
        14 => slave.native = 0,
        15 => board.masters[pair.master].width = slave.width,
        16 => board.masters[pair.master].width = 8,
        17 => slave.width = board.masters[pair.master].width,
        18 => slave.width = 1,
        _ => {}
    }
}

/// The field of a slave line that says whether it is native.
const NATIVE_FIELD: usize = 7;

/// The slave line of the time before there were native slaves.
fn old_line(line: &[u8]) -> Vec<u8> {
    joined_fields(&fields_of(line)[..NATIVE_FIELD])
}

fn with_native(line: &[u8], value: &str) -> Vec<u8> {
    let mut fields = fields_of(line);
    fields[NATIVE_FIELD] = value.into();
    joined_fields(&fields)
}

fn longer_line(line: &[u8]) -> Vec<u8> {
    [line, b",0"].concat()
}

/// The slave's line with another end.
fn damage_card(line: &mut Vec<u8>, case: usize) {
    match case {
        19 => *line = with_native(line, "2"),
        20 => *line = old_line(line),
        21 => *line = longer_line(line),
        _ => {}
    }
}

/// Share lines with faults of their own, before or behind the pair's line, which stands at `place`.
fn damage_shares(lines: &mut Vec<Vec<u8>>, first: usize, place: usize, case: usize) {
    let line = lines[place].clone();
    match case {
        22 => lines.insert(place, line),
        23 if place > first => lines.insert(place, lines[first].clone()),
        24 if place > first => lines.insert(place + 1, lines[first].clone()),
        25 => lines.insert(place, b"share,0,0,0".to_vec()),
        26 => lines.insert(place + 1, b"share,0,0,0".to_vec()),
        27 => lines.insert(place + 1, b"share,0,0".to_vec()),
        _ => {}
    }
}

/// A share line of the pair among those of the board.
fn joined_pair(random: &mut Random, case: usize) -> Vec<Vec<u8>> {
    let (mut board, pair) = narrow_board(random);
    widen(&mut board, pair, case);
    disconnect_narrow(&mut board);
    board.shares[pair.master][pair.slave] = 0;
    let mut lines = lines(&board);
    let card = board.master_count as usize + pair.slave;
    damage_card(&mut lines[card], case);
    let first = board.master_count as usize + board.slave_count as usize;
    let numbers = (pair.master as u64, pair.slave as u64);
    let place = place_for(random, &lines, first, numbers);
    lines.insert(place, share_line(pair, case));
    damage_shares(&mut lines, first, place, case);
    lines
}

/// Every slave line with another count of numbers.
pub fn recounted(random: &mut Random, recount: fn(&[u8]) -> Vec<u8>) -> Vec<Vec<u8>> {
    let board = damage_board(random);
    let mut lines = lines(&board);
    let range = Kind::Slave.range(&board, lines.len());
    for line in &mut lines[range] {
        *line = recount(line);
    }
    lines
}

pub fn native_text(random: &mut Random, case: usize) -> Vec<u8> {
    let lines = match case {
        0..=27 => joined_pair(random, case),
        28 => recounted(random, old_line),
        _ => recounted(random, longer_line),
    };
    joined(&lines)
}
