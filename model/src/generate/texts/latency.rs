//! Texts with a latency that is refused, alone and beside another fault, and slave lines that have none or one field more.

use super::native::recounted;
use super::parts::{damage_board, fields_of, joined_fields, pick_line, value_of, Kind};
use crate::board::{Board, LATENCY_LIMIT};
use crate::generate::boards::{joined, lines};
use crate::generate::random::Random;

/// How many of these texts there are.
pub const LATENCIES: usize = 24;
/// In the first of them only a latency is wrong.
pub const ONLY_ABOVE: usize = 3;

const NATIVE_FIELD: usize = 7;
const LATENCY_FIELD: usize = 8;

/// A latency above the most, often by one; some are legal when they are cut to fewer bits.
fn latency_above(random: &mut Random) -> Vec<u8> {
    let above = LATENCY_LIMIT + 1;
    let any = random.between(above as usize, 300) as u64;
    let values = [above, above, above, above, any, 256, (1 << 32) + 1];
    random.pick(&values).to_string().into_bytes()
}

/// A latency above the most, alone or beside something else that is wrong in the same line.
fn damage_latency(random: &mut Random, fields: &mut Vec<Vec<u8>>, case: usize) {
    let base = value_of(&fields[1]);
    fields[LATENCY_FIELD] = latency_above(random);
    match case {
        3 => fields[1] = (base + 1).to_string().into_bytes(),
        4 => fields[2] = b"131072".to_vec(),
        5 => fields[NATIVE_FIELD] = b"2".to_vec(),
        6 => fields[LATENCY_FIELD].insert(0, b'0'),
        7 => fields.push(b"0".to_vec()),
        _ => {}
    }
}

/// The fields behind the waits too few, too many, exchanged or written wrongly.
fn damage_end(random: &mut Random, fields: &mut Vec<Vec<u8>>, case: usize) {
    match case {
        8 => fields.truncate(LATENCY_FIELD),
        9 => fields.truncate(NATIVE_FIELD),
        10 => {
            fields.remove(NATIVE_FIELD);
        }
        11 => fields.push(latency_above(random)),
        12 => fields[LATENCY_FIELD] = Vec::new(),
        13 => fields[LATENCY_FIELD] = b"063".to_vec(),
        14 => fields.swap(NATIVE_FIELD, LATENCY_FIELD),
        // the longest that there is
        _ => fields[LATENCY_FIELD] = b"63".to_vec(),
    }
}

fn damage_line(random: &mut Random, line: &mut Vec<u8>, case: usize) {
    let mut fields = fields_of(line);
    match case {
        0..=7 => damage_latency(random, &mut fields, case),
        _ => damage_end(random, &mut fields, case),
    }
    *line = joined_fields(&fields);
}

/// A line with a latency above the most, and a fault in another line before it or behind it.
fn damage_lines(random: &mut Random, board: &Board, lines: &mut Vec<Vec<u8>>, case: usize) {
    let index = pick_line(random, board, lines.len(), Kind::Slave);
    let good = lines[index].clone();
    damage_line(random, &mut lines[index], 0);
    let slaves = Kind::Slave.range(board, lines.len());
    match case {
        16 => lines[0] = b"master,3,8".to_vec(),
        17 => lines.push(b"share,0,0,0".to_vec()),
        // the slave twice: its second line overlaps the first
        18 => lines.insert(index, good),
        19 => lines.insert(slaves.end, good),
        // the line stands where no slave line may
        20 => lines[index..].rotate_left(1),
        _ => lines[..=index].rotate_right(1),
    }
}

pub fn latency_text(random: &mut Random, case: usize) -> Vec<u8> {
    let lines = match case {
        22 => recounted(random, |line| {
            joined_fields(&fields_of(line)[..LATENCY_FIELD])
        }),
        23 => recounted(random, |line| [line, b",63"].concat()),
        _ => {
            let board = damage_board(random);
            let mut lines = lines(&board);
            if case < 16 {
                let index = pick_line(random, &board, lines.len(), Kind::Slave);
                damage_line(random, &mut lines[index], case);
            } else {
                damage_lines(random, &board, &mut lines, case);
            }
            lines
        }
    };
    joined(&lines)
}
