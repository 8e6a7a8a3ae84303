//! Records: many description texts in one input, each behind a line with its length.

use std::io::{self, Write};

use crate::description::{number, read, read_with_place, write, Place};

/// The first record's text and what follows it.
fn split_record(bytes: &[u8]) -> Option<(&[u8], &[u8])> {
    let end = bytes.iter().position(|&byte| byte == b'\n')?;
    let length = number(&bytes[..end])? as usize;
    bytes[end + 1..].split_at_checked(length)
}

fn each_text(records: &[u8], mut each: impl FnMut(&[u8]) -> io::Result<()>) -> io::Result<()> {
    let mut rest = records;
    while !rest.is_empty() {
        let Some((text, behind)) = split_record(rest) else {
            return Err(io::Error::other("a record is damaged"));
        };
        each(text)?;
        rest = behind;
    }
    Ok(())
}

/// For each record the number that it is read with, and the board as the writer puts it.
pub fn print_boards(records: &[u8], output: &mut impl Write) -> io::Result<()> {
    each_text(records, |text| match read(text) {
        Err(number) => writeln!(output, "read,{number}"),
        Ok(board) => write!(output, "read,0\n{}", write(&board)),
    })
}

/// For each record where it is refused, and with what.
pub fn print_places(records: &[u8], output: &mut impl Write) -> io::Result<()> {
    each_text(records, |text| match read_with_place(text) {
        Err((number, place)) => writeln!(output, "{},{number}", place_name(text, place)),
        Ok(_) => writeln!(output, "read,0"),
    })
}

/// The kind of place at which a text was refused; of a line, its first word.
fn place_name(text: &[u8], place: Place) -> &'static str {
    let index = match place {
        Place::Length => return "length",
        Place::End => return "end",
        Place::Line(index) => index,
    };
    let line = text
        .split(|&byte| byte == b'\n')
        .nth(index)
        .unwrap_or_default();
    match line.split(|&byte| byte == b',').next() {
        Some(b"master") => "master",
        Some(b"slave") => "slave",
        Some(b"share") => "share",
        Some(b"default") => "default",
        _ => "other",
    }
}
