//! Texts in which each line can be right and what they say together is not.

use super::parts::{damage_board, fields_of, pick_line, place_for, value_of, Kind, DEFAULT};
use crate::board::{Slave, MEMORY_LIMIT};
use crate::generate::boards::{connect_rest, free_base, joined, lines, spans_to_the_limit};
use crate::generate::random::Random;

/// How many faults there are in what the lines say together.
pub const MEANINGS: usize = 60;

fn slave_line(base: u64, span: u64) -> Vec<u8> {
    format!("slave,{base},{span},4,8,1,0,0,0").into_bytes()
}

/// The base and the span of a slave line beside the others: near the slave `other`, where 64 KiB are free, or over the room
/// that is left.
fn added_slave(other: &Slave, free: u64, room: u64, case: usize) -> (u64, u64) {
    let base = other.base as u64;
    let span = other.span as u64;
    let double = (span * 2).min(MEMORY_LIMIT);
    let over = (room + 1).next_power_of_two().clamp(8, MEMORY_LIMIT);
    let small = (span / 2).max(8);
    match case {
        0 => (base, span),
        1 => (base, small),
        2 => (base + span - small, small),
        3 => (base / double * double, double),
        4 => (base + span, span),
        5 => (base.saturating_sub(span), span),
        6 => (base + 8, 8),
        7 => (base + 1, span),
        8 => (base + 4, 8),
        9 => (free, over),
        10 => (free, (over / 2).max(8)),
        11 => (free + 4, over),
        12 => (base / MEMORY_LIMIT * MEMORY_LIMIT, MEMORY_LIMIT),
        13 => (free, MEMORY_LIMIT * 2),
        14 => (free + 4, MEMORY_LIMIT + 1),
        15 => (base, 4),
        16 => ((1 << 32) - MEMORY_LIMIT, MEMORY_LIMIT),
        17 => ((1 << 32) - 8, 8),
        18 => (1 << 32, 8),
        _ => ((1 << 32) + base, span),
    }
}

/// Cases about slave lines; the new line stands behind the last slave.
fn slave_meaning(random: &mut Random, case: usize) -> Vec<Vec<u8>> {
    let mut board = damage_board(random);
    board.slave_count = board.slave_count.min(14);
    for row in &mut board.shares {
        row[board.slave_count as usize..].fill(0);
    }
    connect_rest(random, &mut board, 3);
    let mut lines = lines(&board);
    let slaves = &board.slaves[..board.slave_count as usize];
    let other = random.pick(slaves);
    let free = free_base(random, slaves, MEMORY_LIMIT);
    let room = MEMORY_LIMIT - board.total_span();
    let (base, span) = added_slave(&other, free, room, case);
    let behind = board.master_count as usize + slaves.len();
    lines.insert(behind, slave_line(base, span));
    lines
}

/// Memory exactly full, and then one slave more.
fn full_memory(random: &mut Random, case: usize) -> Vec<Vec<u8>> {
    let count = random.between(1, 15);
    let mut lines = vec![b"master,4,8".to_vec()];
    let mut base = 1 << 20;
    for span in spans_to_the_limit(random, count) {
        base = u64::div_ceil(base, span) * span;
        lines.push(slave_line(base, span));
        base += span;
    }
    match case {
        0 => {}
        1 => lines.push(slave_line(0, 8)),
        2 => lines.push(slave_line(0, MEMORY_LIMIT)),
        3 => lines.push(slave_line(4, 8)),
        4 => lines.push(slave_line(base - 8, 8)),
        _ => lines.push(slave_line(0, 7)),
    }
    lines.push(b"share,0,0,1".to_vec());
    lines
}

/// More lines of a kind than there may be; the one too many is good or bad.
fn over_count(case: usize) -> Vec<Vec<u8>> {
    let last = match case % 3 {
        0 => "8",
        1 => "9",
        _ => "08",
    };
    let mut lines = Vec::new();
    if case < 3 {
        lines.extend((0..8).map(|_| b"master,4,8".to_vec()));
        lines.push(format!("master,4,{last}").into_bytes());
        lines.push(slave_line(0, 8));
        lines.extend((0..8).map(|master| format!("share,{master},0,1").into_bytes()));
    } else {
        lines.push(b"master,4,8".to_vec());
        lines.extend((0..16).map(|index| slave_line(8 * index, 8)));
        lines.push(format!("slave,128,{last},4,8,1,0,0,0").into_bytes());
        lines.push(b"share,0,15,1".to_vec());
    }
    lines
}

/// Share lines for pairs that have one, or that there are not.
fn share_meaning(random: &mut Random, case: usize) -> Vec<Vec<u8>> {
    let board = damage_board(random);
    let mut lines = lines(&board);
    let masters = board.master_count as usize;
    let slaves = board.slave_count as usize;
    let old = fields_of(&lines[pick_line(random, &board, lines.len(), Kind::Share)]);
    let master = value_of(&old[1]);
    let slave = value_of(&old[2]);
    let place = place_for(random, &lines, masters + slaves, (master, slave));
    let added = match case {
        0 => format!("share,{master},{slave},{}", value_of(&old[3])),
        1 => format!("share,{master},{slave},1"),
        2 => format!("share,{master},{slave},100"),
        3 => format!("share,{master},{slave},0"),
        4 => format!("share,{masters},{slave},1"),
        5 => format!("share,{master},{slaves},1"),
        6 => format!("share,{masters},{slaves},1"),
        7 => format!("share,{masters},{slave},0"),
        8 => format!("share,{master},{slaves},101"),
        9 => format!("share,{slave},{master},1"),
        _ => format!("share,{},{slave},1", (1u64 << 32) + master),
    };
    lines.insert(place, added.into_bytes());
    lines
}

/// Lines out of order, or none of a kind; the line `default` stands last where the board has it.
fn order_meaning(random: &mut Random, case: usize) -> Vec<Vec<u8>> {
    let board = damage_board(random);
    let lines = lines(&board);
    let masters = lines[Kind::Master.range(&board, lines.len())].to_vec();
    let slaves = lines[Kind::Slave.range(&board, lines.len())].to_vec();
    let shares = lines[Kind::Share.range(&board, lines.len())].to_vec();
    let bad_master = vec![b"master,3,8".to_vec()];
    let bad_share = vec![b"share,99,99,0".to_vec()];
    let free_slave = vec![slave_line(4, 7)];
    let default = vec![DEFAULT.to_vec(); board.default as usize];
    let mut lines = match case {
        0 => masters,
        1 => slaves,
        2 => shares,
        3 => [masters, shares].concat(),
        4 => [slaves, shares].concat(),
        5 => [slaves, masters, shares].concat(),
        6 => [masters, shares, slaves].concat(),
        7 => [shares, masters, slaves].concat(),
        8 => [masters.clone(), slaves, masters, shares].concat(),
        9 => [masters.clone(), slaves, shares, masters].concat(),
        10 => [masters, slaves.clone(), shares, slaves].concat(),
        11 => [masters, slaves, bad_master, shares].concat(),
        12 => [masters, slaves, shares, free_slave].concat(),
        13 => [masters, bad_share, slaves, shares].concat(),
        14 => [masters, slaves].concat(),
        15 => [free_slave, masters, slaves].concat(),
        _ => [masters, slaves, shares, bad_master].concat(),
    };
    lines.extend(default);
    lines
}

pub fn meaning_text(random: &mut Random, case: usize) -> Vec<u8> {
    let lines = match case {
        0..=19 => slave_meaning(random, case),
        20..=25 => full_memory(random, case - 20),
        26..=31 => over_count(case - 26),
        32..=42 => share_meaning(random, case - 32),
        _ => order_meaning(random, case - 43),
    };
    joined(&lines)
}

/// Lines that are refused with 4, 5 or 6.
pub fn slave_fault(random: &mut Random, fault: usize) -> Vec<Vec<u8>> {
    match fault {
        4 => slave_meaning(random, 8),
        5 => slave_meaning(random, 0),
        _ => full_memory(random, 1),
    }
}
