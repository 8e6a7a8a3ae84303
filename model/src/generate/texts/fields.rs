//! Texts in which one or two fields have another value.

use super::parts::{
    damage_board, damage_board_with, fields_of, joined_fields, pick_line, value_of, Kind, KINDS,
};
use crate::board::{Board, MASTER_LIMIT, SLAVE_LIMIT};
use crate::generate::boards::{joined, lines};
use crate::generate::random::Random;

fn texts_of(values: &[u64]) -> Vec<Vec<u8>> {
    values
        .iter()
        .map(|value| value.to_string().into_bytes())
        .collect()
}

/// Words that are near a line's first one, or another line's.
fn word_values(word: &str) -> Vec<Vec<u8>> {
    let capital = word[..1].to_uppercase() + &word[1..];
    let last_capital = word[..word.len() - 1].to_string() + &word[word.len() - 1..].to_uppercase();
    let mut values: Vec<Vec<u8>> = [
        "", "master", "slave", "share", "default", "masters", "slaves", "shares", "defaults",
        "bus", "#", "0", "-",
    ]
    .iter()
    .map(|value| value.as_bytes().to_vec())
    .collect();
    let made = [
        word.to_uppercase(),
        capital,
        last_capital,
        word[..word.len() - 1].to_string(),
        word[..1].to_string(),
        word[1..].to_string(),
        format!("{word}x"),
        format!("{word}{word}"),
        format!(" {word}"),
        format!("{word} "),
        format!("\t{word}"),
        format!("{word}\r"),
        format!("{word}\0"),
        format!("\0{word}"),
        format!("\"{word}\""),
        format!("\u{feff}{word}"),
        word.chars().rev().collect(),
    ];
    values.extend(made.map(String::into_bytes));
    values
}

/// Ways to spell a number wrongly.
fn misspelt_numbers(value: u64) -> Vec<String> {
    vec![
        String::new(),
        "00".to_string(),
        format!("0{value}"),
        format!("{value:010}"),
        format!("{value:011}"),
        format!("+{value}"),
        format!("-{value}"),
        "-1".to_string(),
        format!(" {value}"),
        format!("{value} "),
        " ".to_string(),
        format!("{value}\r"),
        format!("\t{value}"),
        format!("{value}\0"),
        format!("{value}:"),
        format!("/{value}"),
        format!("{value}a"),
        format!("0x{value:x}"),
        format!("{value}.0"),
        format!("{value}e0"),
        format!("\"{value}\""),
        format!("{value};"),
        format!("{value}_0"),
        "\u{663}".to_string(),
        "x".to_string(),
    ]
}

/// Numbers out of every range, and those that lose their high bits to become the right one.
fn far_numbers(value: u64) -> Vec<String> {
    let big = 1u128 << 64;
    vec![
        "1000000000".to_string(),
        "4294967295".to_string(),
        "4294967296".to_string(),
        ((1u64 << 32) + value).to_string(),
        (2 * (1u64 << 32) + value).to_string(),
        "9999999999".to_string(),
        "10000000000".to_string(),
        "99999999999".to_string(),
        (big + value as u128).to_string(),
        (value + 256).to_string(),
        (value + 65_536).to_string(),
    ]
}

/// Values that are wrong in any field; the last is no UTF-8.
fn generic_values(value: u64) -> Vec<Vec<u8>> {
    let mut made = misspelt_numbers(value);
    made.extend(far_numbers(value));
    let mut values: Vec<Vec<u8>> = made.into_iter().map(String::into_bytes).collect();
    values.push(vec![0xb2]);
    values
}

const WIDTH_EDGES: [u64; 13] = [0, 1, 2, 3, 4, 5, 6, 7, 8, 9, 16, 32, 255];
const BURST_EDGES: [u64; 22] = [
    0, 1, 2, 3, 4, 5, 6, 7, 8, 9, 15, 16, 17, 31, 32, 33, 63, 64, 65, 100, 127, 128,
];
const SPAN_EDGES: [u64; 25] = [
    0,
    1,
    2,
    4,
    7,
    8,
    9,
    12,
    15,
    16,
    17,
    24,
    32,
    48,
    64,
    100,
    512,
    4095,
    4096,
    32_768,
    65_535,
    65_536,
    65_537,
    131_072,
    2_147_483_648,
];
const WAIT_EDGES: [u64; 7] = [0, 1, 127, 128, 254, 255, 256];
const NATIVE_EDGES: [u64; 14] = [
    0,
    1,
    2,
    3,
    7,
    10,
    11,
    128,
    255,
    256,
    257,
    (1 << 32) - 1,
    1 << 32,
    (1 << 32) + 1,
];
const LATENCY_EDGES: [u64; 20] = [
    0,
    1,
    2,
    31,
    32,
    62,
    63,
    64,
    65,
    99,
    100,
    127,
    128,
    255,
    256,
    256 + 63,
    (1 << 32) - 1,
    1 << 32,
    (1 << 32) + 1,
    (1 << 32) + 63,
];
const SHARES_EDGES: [u64; 9] = [0, 1, 2, 99, 100, 101, 127, 128, 255];

/// Bases near the slave's own, near the limits, and near another slave's.
fn base_edges(board: &Board, fields: &[Vec<u8>]) -> Vec<u64> {
    let base = value_of(&fields[1]);
    let span = value_of(&fields[2]);
    let first = &board.slaves[0];
    let last = &board.slaves[board.slave_count as usize - 1];
    vec![
        0,
        1,
        8,
        base + 1,
        base.saturating_sub(1),
        base + span / 2,
        base.saturating_sub(span / 2),
        base + 4,
        base + 8,
        base + span,
        base.saturating_sub(span),
        (1 << 32) - 1,
        (1 << 32) - 8,
        (1 << 32) - span,
        (1 << 31),
        first.base as u64,
        first.base as u64 + first.span as u64,
        last.base as u64,
        last.base as u64 + last.span as u64,
    ]
}

/// Numbers of masters or slaves near the count and near the array's end.
fn index_edges(count: u64, limit: u64) -> Vec<u64> {
    vec![
        0,
        1,
        count - 1,
        count,
        count + 1,
        limit - 1,
        limit,
        limit + 1,
        255,
        256,
        256 + count - 1,
    ]
}

/// The numbers at the edges of what a field may have.
fn edges(board: &Board, kind: Kind, fields: &[Vec<u8>], field: usize) -> Vec<u64> {
    match (kind, field) {
        (Kind::Master, 1) | (Kind::Slave, 3) => WIDTH_EDGES.to_vec(),
        (Kind::Master, _) | (Kind::Slave, 4) => BURST_EDGES.to_vec(),
        (Kind::Slave, 1) => base_edges(board, fields),
        (Kind::Slave, 2) => SPAN_EDGES.to_vec(),
        (Kind::Slave, 5 | 6) => WAIT_EDGES.to_vec(),
        (Kind::Slave, 7) => NATIVE_EDGES.to_vec(),
        (Kind::Slave, _) => LATENCY_EDGES.to_vec(),
        (Kind::Share, 1) => index_edges(board.master_count as u64, MASTER_LIMIT as u64),
        (Kind::Share, 2) => index_edges(board.slave_count as u64, SLAVE_LIMIT as u64),
        (Kind::Share, _) => SHARES_EDGES.to_vec(),
        (Kind::Default, _) => Vec::new(),
    }
}

/// All values that a field is replaced by; how many does not depend on the board.
pub fn field_values(board: &Board, kind: Kind, fields: &[Vec<u8>], field: usize) -> Vec<Vec<u8>> {
    if field == 0 {
        return word_values(kind.word());
    }
    let mut values = texts_of(&edges(board, kind, fields, field));
    values.extend(generic_values(value_of(&fields[field])));
    values
}

fn with_field(board: &Board, line: &[u8], kind: Kind, field: usize, value: usize) -> Vec<u8> {
    let mut fields = fields_of(line);
    let values = field_values(board, kind, &fields, field);
    fields[field] = values[value % values.len()].clone();
    joined_fields(&fields)
}

pub fn field_text(random: &mut Random, kind: Kind, field: usize, value: usize) -> Vec<u8> {
    let board = damage_board_with(random, kind);
    let mut lines = lines(&board);
    let index = pick_line(random, &board, lines.len(), kind);
    lines[index] = with_field(&board, &lines[index], kind, field, value);
    joined(&lines)
}

pub fn two_fields_text(random: &mut Random, kind: Kind) -> Vec<u8> {
    let board = damage_board(random);
    let mut lines = lines(&board);
    let index = pick_line(random, &board, lines.len(), kind);
    let first = random.between(0, kind.field_count() - 1);
    let second = random.between(1, kind.field_count() - 1);
    let undamaged = fields_of(&lines[index]);
    let mut fields = undamaged.clone();
    for field in [second, first] {
        let values = if field > 0 && random.chance(2, 3) {
            texts_of(&edges(&board, kind, &undamaged, field))
        } else {
            field_values(&board, kind, &undamaged, field)
        };
        fields[field] = values[random.below(values.len())].clone();
    }
    lines[index] = joined_fields(&fields);
    joined(&lines)
}

/// Damages a field of one line, whatever its kind.
fn damage_one(random: &mut Random, board: &Board, lines: &mut [Vec<u8>], index: usize) {
    let kind = KINDS
        .into_iter()
        .find(|kind| kind.range(board, lines.len()).contains(&index))
        .unwrap_or(Kind::Share);
    let field = random.below(kind.field_count());
    let value = random.below(1000);
    lines[index] = with_field(board, &lines[index], kind, field, value);
}

pub fn two_lines_text(random: &mut Random) -> Vec<u8> {
    let board = damage_board(random);
    let mut lines = lines(&board);
    let first = random.below(lines.len());
    let second = random.below(lines.len());
    damage_one(random, &board, &mut lines, first);
    if second != first {
        damage_one(random, &board, &mut lines, second);
    }
    let mut text = joined(&lines);
    if random.chance(1, 8) {
        text.pop();
    }
    text
}
