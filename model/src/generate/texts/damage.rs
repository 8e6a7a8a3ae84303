//! Texts whose lines, or whose bytes, are damaged.

use super::parts::{damage_board, damage_board_with, fields_of, joined_fields, pick_line, Kind};
use crate::generate::boards::{joined, lines};
use crate::generate::random::Random;

/// How many ways there are to damage a line.
pub const LINE_DAMAGES: usize = 30;

/// Fields too few, too many or in another order.
fn damage_fields(fields: &mut Vec<Vec<u8>>, place: usize, damage: usize) {
    match damage {
        0 => {
            fields.pop();
        }
        1 => {
            fields.remove(place);
        }
        2 => fields.push(b"0".to_vec()),
        3 => fields.push(b"1".to_vec()),
        4 => fields.push(Vec::new()),
        5 => fields.insert(0, Vec::new()),
        6 => fields.insert(place + 1, Vec::new()),
        7 => fields.insert(place, fields[place].clone()),
        8 => fields.truncate(1),
        9 => fields.reverse(),
        10 => fields[1..].reverse(),
        _ => fields.extend(fields.clone()),
    }
}

/// Bytes at an end of the line, or in place of its commas.
fn damage_bytes(line: &mut Vec<u8>, damage: usize) {
    match damage {
        12 => line.push(b'\r'),
        13 => line.push(b' '),
        14 => line.insert(0, b' '),
        15 => line.insert(0, b'\r'),
        16 => line.push(0),
        17 => line.push(0x0b),
        28 => *line = replaced(line, b",", b";"),
        _ => *line = replaced(line, b",", b", "),
    }
}

/// The line doubled, gone, moved, joined with the next one or cut in two.
fn damage_order(random: &mut Random, lines: &mut Vec<Vec<u8>>, index: usize, damage: usize) {
    let next = index + 1;
    match damage {
        18 => lines.insert(index, Vec::new()),
        19 => lines.insert(next, Vec::new()),
        20 => lines.insert(next, lines[index].clone()),
        21 => {
            lines.remove(index);
        }
        22 => lines[..next].rotate_right(1),
        23 => lines[index..].rotate_left(1),
        24 if next < lines.len() => lines.swap(index, next),
        25 if next < lines.len() => {
            let tail = lines.remove(next);
            lines[index].extend(tail);
        }
        26 if next < lines.len() => {
            let tail = lines.remove(next);
            lines[index].push(b'\r');
            lines[index].extend(tail);
        }
        27 => {
            let cut = random.below(lines[index].len());
            let tail = lines[index].split_off(cut);
            lines.insert(next, tail);
        }
        _ => {}
    }
}

fn damage_line(random: &mut Random, lines: &mut Vec<Vec<u8>>, index: usize, damage: usize) {
    let mut fields = fields_of(&lines[index]);
    let place = random.below(fields.len());
    match damage {
        0..=11 => {
            damage_fields(&mut fields, place, damage);
            lines[index] = joined_fields(&fields);
        }
        12..=17 | 28 | 29 => damage_bytes(&mut lines[index], damage),
        _ => damage_order(random, lines, index, damage),
    }
}

fn replaced(line: &[u8], from: &[u8], to: &[u8]) -> Vec<u8> {
    let parts: Vec<&[u8]> = line.split(|&byte| [byte] == from).collect();
    parts.join(to)
}

/// One line of this kind damaged, or the lines around it.
pub fn line_text(random: &mut Random, kind: Kind, damage: usize) -> Vec<u8> {
    let board = damage_board_with(random, kind);
    let mut lines = lines(&board);
    let index = pick_line(random, &board, lines.len(), kind);
    damage_line(random, &mut lines, index, damage);
    joined(&lines)
}

/// How many ways there are to damage a text without a look at its lines.
pub const WHOLE_DAMAGES: usize = 34;

/// Line feeds too few, too many or of another kind, and bytes at an end of the text.
fn damage_ends(text: &mut Vec<u8>, damage: usize) {
    match damage {
        0..=2 => {
            text.pop();
        }
        3 => text.clear(),
        4 => *text = b"\n".to_vec(),
        5 => *text = b"\n\n".to_vec(),
        6 => text.push(b'\n'),
        7 => text.extend(b"\r\n"),
        8 => text.push(0),
        9 => text.insert(0, b'\n'),
        10 => *text = [b"\xef\xbb\xbf", &text[..]].concat(),
        11 => *text = replaced(text, b"\n", b"\r\n"),
        12 => *text = replaced(text, b"\n", b"\r"),
        13 => *text = replaced(text, b"\n", b"\n\n"),
        _ => *text = replaced(text, b"\n", b""),
    }
}

/// One byte of the text wrong, added or gone, or all from there on gone.
fn damage_place(random: &mut Random, text: &mut Vec<u8>, place: usize, damage: usize) {
    match damage {
        15..=17 => text.truncate(place),
        18 | 19 => text[place] ^= 1 << random.below(8),
        20 | 21 => text.insert(place, random.byte()),
        22 | 23 => {
            text.remove(place);
        }
        24 => text[place] = random.pick(b"0123456789,\n"),
        _ => text.insert(place, random.pick(b"0123456789,\n")),
    }
}

/// A text that comes from no board.
fn foreign_text(random: &mut Random, damage: usize) -> Vec<u8> {
    match damage {
        29 => {
            let length = random.below(200);
            random.bytes(length)
        }
        30 => {
            let length = random.below(200);
            (0..length)
                .map(|_| random.pick(b"masterlvhdfu,0123456789\n"))
                .collect()
        }
        31 => random
            .pick(&["master", "slave", "share", "default", "master,", ",", "0"])
            .into(),
        _ => random
            .pick(&[
                "master\n",
                "slave\n",
                "share\n",
                "default\n",
                "master,\n",
                ",\n",
            ])
            .into(),
    }
}

/// A text damaged without a look at its lines.
pub fn whole_text(random: &mut Random, damage: usize) -> Vec<u8> {
    let board = damage_board(random);
    let mut lines = lines(&board);
    let mut text = joined(&lines);
    let place = random.below(text.len());
    match damage {
        0..=14 => damage_ends(&mut text, damage),
        15..=25 => damage_place(random, &mut text, place, damage),
        26 => {
            lines.reverse();
            text = joined(&lines);
        }
        27 | 28 => {
            random.shuffle(&mut lines);
            text = joined(&lines);
        }
        29..=32 => text = foreign_text(random, damage),
        _ => text.extend(text.clone()),
    }
    text
}
