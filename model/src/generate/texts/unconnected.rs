//! Texts in which a master has no share line, with nothing else wrong and beside another fault.

use super::parts::{fields_of, joined_fields, place_for, push_share, Kind};
use crate::board::{Board, SLAVE_LIMIT};
use crate::generate::boards::{
    board, connect_rest, disconnect_narrow, joined, lines, uneven_widths, Size,
};
use crate::generate::random::Random;

/// The ways to choose the masters that have no share line.
const CHOICES: usize = 5;
/// What else is said of them, or is wrong beside.
const FAULTS: usize = 20;
/// How many of these texts there are.
pub const UNCONNECTED: usize = CHOICES * FAULTS;
/// The first of them have nothing else wrong.
pub const ONLY_UNCONNECTED: usize = 2 * CHOICES;

fn any_board(random: &mut Random) -> Board {
    let size = match random.below(16) {
        0 => Size::Tiny,
        1..=7 => Size::Small,
        8..=13 => Size::Crowded,
        14 => Size::Any,
        _ => Size::Largest,
    };
    board(random, size)
}

/// The first master, the last one, one between them where there is one, all, or all but one.
fn chosen_masters(random: &mut Random, count: usize, choice: usize) -> Vec<usize> {
    let last = count - 1;
    match choice {
        0 => vec![0],
        1 => vec![last],
        2 if last > 1 => vec![random.between(1, last - 1)],
        2 => vec![random.below(count)],
        3 => (0..count).collect(),
        _ => {
            let kept = random.below(count);
            (0..count).filter(|&master| master != kept).collect()
        }
    }
}

/// A share line of the master that is refused, so that it has none; lines before and behind are good.
fn own_line(board: &Board, master: usize, slave: usize, fault: usize) -> Vec<u8> {
    let high = 1u64 << 32;
    match fault {
        3 => format!("share,{master},{slave},0"),
        4 => format!("share,{master},{slave},101"),
        5 => format!("share,{master},{slave},01"),
        6 => format!("share,{master},{slave}"),
        7 => format!("share,{},{slave},1", master + 256),
        8 => format!("share,{},{slave},1", high + master as u64),
        9 => format!("share,{master},{},1", board.slave_count),
        // the one that `make_narrow` leaves to be refused
        _ => format!("share,{master},{slave},1"),
    }
    .into_bytes()
}

/// Makes the slave native and wider than the master.
fn make_narrow(random: &mut Random, board: &mut Board, master: usize, slave: usize) {
    let (narrow, wide) = uneven_widths(random);
    board.masters[master].width = narrow;
    board.slaves[slave].width = wide;
    board.slaves[slave].native = 1;
    disconnect_narrow(board);
}

/// A fault in a line of any kind, or in what the text begins or ends with.
fn damage(random: &mut Random, board: &Board, lines: &mut Vec<Vec<u8>>, fault: usize) {
    let slaves = Kind::Slave.range(board, lines.len());
    let shares = Kind::Share.range(board, lines.len());
    match fault {
        11 if !shares.is_empty() => {
            let twice = lines[random.between(shares.start, shares.end - 1)].clone();
            push_share(lines, twice);
        }
        11 => push_share(lines, b"share,8,0,1".to_vec()),
        12 => lines.push(lines[0].clone()),
        13 => lines.insert(slaves.end, lines[slaves.start].clone()),
        14 => lines.insert(slaves.end, b"slave,4,8,1,1,0,0,0,0".to_vec()),
        15 => {
            let line = &mut lines[random.between(slaves.start, slaves.end - 1)];
            let mut fields = fields_of(line);
            // a native field that there is not, or a latency above the most
            let (field, value) = random.pick(&[(7, "2"), (8, "64")]);
            fields[field] = value.into();
            *line = joined_fields(&fields);
        }
        16 => lines.insert(0, b"master,3,8".to_vec()),
        17 => lines.truncate(slaves.start),
        19 => lines.push(Vec::new()),
        _ => {}
    }
}

/// Fault 2 gives each of the masters a share line again, so that the text is taken.
pub fn unconnected_text(random: &mut Random, case: usize) -> Vec<u8> {
    let (choice, fault) = (case % CHOICES, case / CHOICES);
    let mut board = any_board(random);
    let masters = chosen_masters(random, board.master_count as usize, choice);
    for &master in &masters {
        board.shares[master] = [0; SLAVE_LIMIT];
    }
    if fault == 2 {
        connect_rest(random, &mut board, 100);
    }
    let slave = random.below(board.slave_count as usize);
    let master = masters.first().copied().unwrap_or(0);
    if fault == 10 {
        make_narrow(random, &mut board, master, slave);
    }
    let mut lines = lines(&board);
    damage(random, &board, &mut lines, fault);
    if (3..=10).contains(&fault) {
        let shares = Kind::Share.range(&board, lines.len());
        let pair = (master as u64, slave as u64);
        let place = place_for(random, &lines, shares.start, pair);
        lines.insert(place, own_line(&board, master, slave, fault));
    }
    let mut text = joined(&lines);
    if fault == 18 {
        text.pop();
    }
    text
}
