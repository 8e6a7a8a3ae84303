//! The lines that a script's calls print.

use crate::board::Board;
use crate::fabric::{Answer, Entry, Log, Slot, Transfer};

pub fn put_hex(text: &mut Vec<u8>, bytes: &[u8]) {
    const DIGITS: &[u8; 16] = b"0123456789abcdef";
    for &byte in bytes {
        text.push(DIGITS[(byte / 16) as usize]);
        text.push(DIGITS[(byte % 16) as usize]);
    }
}

fn put_number(text: &mut Vec<u8>, mut value: u32) {
    let mut digits = [0; 10];
    let mut start = digits.len();
    loop {
        start -= 1;
        digits[start] = b'0' + (value % 10) as u8;
        value /= 10;
        if value == 0 {
            break;
        }
    }
    text.extend_from_slice(&digits[start..]);
}

/// A word and numbers parted by commas, and a line feed.
fn put_line(text: &mut Vec<u8>, word: &[u8], values: &[u32]) {
    text.extend_from_slice(word);
    for &value in values {
        text.push(b',');
        put_number(text, value);
    }
    text.push(b'\n');
}

/// A clock's answer; of one that is not refused, a line for each slave of the board and one for each response other than 0.
pub fn put_clock(text: &mut Vec<u8>, board: &Board, answer: &Answer) {
    put_line(text, b"clock", &[answer.number as u32, answer.mask as u32]);
    if answer.number != 0 {
        return;
    }
    for (slave, line) in answer.lines[..board.slave_count as usize]
        .iter()
        .enumerate()
    {
        let values = [
            slave as u32,
            line.phase as u32,
            line.owner as u32,
            line.offset,
            line.lanes as u32,
            line.run as u32,
            line.place as u32,
        ];
        put_line(text, b"slave", &values);
    }
    for (master, &response) in answer.responses.iter().enumerate() {
        if response != 0 {
            put_line(text, b"response", &[master as u32, response as u32]);
        }
    }
}

/// What take answers.
pub fn put_taken(text: &mut Vec<u8>, number: u8, entry: &Entry) {
    let Entry {
        master,
        address,
        write,
    } = *entry;
    let values = [number as u32, master as u32, address, write as u32];
    put_line(text, b"take", &values);
}

pub fn put_transfers(text: &mut Vec<u8>, transfers: &[Transfer]) {
    for (master, transfer) in transfers.iter().enumerate() {
        let values = [
            master as u32,
            transfer.held as u32,
            transfer.write as u32,
            transfer.address,
            transfer.lanes as u32,
            transfer.beats as u32,
            transfer.late,
        ];
        put_line(text, b"transfer", &values);
    }
}

pub fn put_slots(text: &mut Vec<u8>, slots: &[Slot]) {
    for (slave, slot) in slots.iter().enumerate() {
        let values = [
            slave as u32,
            slot.owner as u32,
            slot.remaining as u32,
            slot.serving as u32,
            slot.done as u32,
            slot.waited as u32,
        ];
        put_line(text, b"slot", &values);
    }
}

/// The log's own line, and one for each place of it.
pub fn put_log(text: &mut Vec<u8>, log: &Log) {
    put_line(text, b"log", &[log.count, log.lost as u32]);
    for (index, entry) in log.entries.iter().enumerate() {
        let values = [
            index as u32,
            entry.master as u32,
            entry.address,
            entry.write as u32,
        ];
        put_line(text, b"entry", &values);
    }
}
