//! The fields of a script's lines. None stands for a malformed line.

use crate::description::number;

/// The fields where there are exactly so many.
pub fn exactly<'a, const N: usize>(fields: &[&'a [u8]]) -> Option<[&'a [u8]; N]> {
    fields.try_into().ok()
}

pub fn up_to(field: &[u8], most: u64) -> Option<u64> {
    number(field).filter(|&value| value <= most)
}

pub fn number32(field: &[u8]) -> Option<u32> {
    up_to(field, u32::MAX as u64).map(|value| value as u32)
}

pub fn byte(field: &[u8]) -> Option<u8> {
    up_to(field, u8::MAX as u64).map(|value| value as u8)
}

pub fn flag(field: &[u8]) -> Option<bool> {
    up_to(field, 1).map(|value| value == 1)
}

pub fn index(field: &[u8], limit: usize) -> Option<usize> {
    number(field)
        .filter(|&value| value < limit as u64)
        .map(|value| value as usize)
}

pub fn is_write(field: &[u8]) -> Option<bool> {
    match field {
        b"read" => Some(false),
        b"write" => Some(true),
        _ => None,
    }
}

/// Lower case hex pairs, or `-` for none.
pub fn hex_bytes(field: &[u8]) -> Option<Vec<u8>> {
    if field == b"-" {
        return Some(Vec::new());
    }
    if field.is_empty() || !field.len().is_multiple_of(2) {
        return None;
    }
    field
        .chunks(2)
        .map(|pair| Some(hex_digit(pair[0])? * 16 + hex_digit(pair[1])?))
        .collect()
}

fn hex_digit(digit: u8) -> Option<u8> {
    match digit {
        b'0'..=b'9' => Some(digit - b'0'),
        b'a'..=b'f' => Some(digit - b'a' + 10),
        _ => None,
    }
}
