//! The board description: the reader, the writer, and the check of a board that did not come through the reader.

use crate::board::{
    Board, Master, Slave, BURSTS, LATENCY_LIMIT, MASTER_LIMIT, MEMORY_LIMIT, SLAVE_LIMIT, WIDTHS,
};

/// The most bytes of a description.
pub const TEXT_LIMIT: usize = 8_192;
/// The most shares of a pair.
const SHARES_LIMIT: u64 = 100;

/// One line of a description with its numbers, not yet judged.
pub enum Line {
    Master {
        width: u64,
        burst: u64,
    },
    Slave {
        base: u64,
        span: u64,
        width: u64,
        burst: u64,
        read_wait: u64,
        write_wait: u64,
        native: u64,
        latency: u64,
    },
    Share {
        master: u64,
        slave: u64,
        shares: u64,
    },
    Default,
}

/// Where in a text a refusal was found; lines count from 0.
#[derive(Clone, Copy, PartialEq, Eq, Debug)]
pub enum Place {
    Length,
    Line(usize),
    End,
}

/// A number of 1 to 10 decimal digits; only 0 itself starts with a 0.
pub fn number(field: &[u8]) -> Option<u64> {
    if field.is_empty() || field.len() > 10 {
        return None;
    }
    if field.len() > 1 && field[0] == b'0' {
        return None;
    }
    let mut value = 0u64;
    for &byte in field {
        if !byte.is_ascii_digit() {
            return None;
        }
        value = value * 10 + (byte - b'0') as u64;
    }
    Some(value)
}

fn numbers<const N: usize>(fields: &[&[u8]]) -> Option<[u64; N]> {
    if fields.len() != N {
        return None;
    }
    let mut values = [0; N];
    for (value, field) in values.iter_mut().zip(fields) {
        *value = number(field)?;
    }
    Some(values)
}

/// None stands for refusal 1: unknown first word, wrong count of fields, bad number.
fn parse_line(line: &[u8]) -> Option<Line> {
    let fields: Vec<&[u8]> = line.split(|&byte| byte == b',').collect();
    match fields[0] {
        b"master" => {
            let [width, burst] = numbers(&fields[1..])?;
            Some(Line::Master { width, burst })
        }
        b"slave" => {
            let [base, span, width, burst, read_wait, write_wait, native, latency] =
                numbers(&fields[1..])?;
            Some(Line::Slave {
                base,
                span,
                width,
                burst,
                read_wait,
                write_wait,
                native,
                latency,
            })
        }
        b"share" => {
            let [master, slave, shares] = numbers(&fields[1..])?;
            Some(Line::Share {
                master,
                slave,
                shares,
            })
        }
        b"default" => numbers(&fields[1..]).map(|[]| Line::Default),
        _ => None,
    }
}

/// The lines taken so far.
#[derive(Default)]
struct Draft {
    board: Board,
    /// Master and slave of the last share line, where there is one.
    last_pair: Option<(usize, usize)>,
}

impl Draft {
    /// Refusals 2 to 7, 19 and 21 of one line, lowest first; a good line is taken. None is behind the line `default`.
    fn take(&mut self, line: &Line) -> Result<(), u8> {
        if self.board.default {
            return Err(2);
        }
        match *line {
            Line::Master { width, burst } => self.take_master(width, burst),
            Line::Slave {
                base,
                span,
                width,
                burst,
                read_wait,
                write_wait,
                native,
                latency,
            } => self.take_slave([
                base, span, width, burst, read_wait, write_wait, native, latency,
            ]),
            Line::Share {
                master,
                slave,
                shares,
            } => self.take_share(master, slave, shares),
            Line::Default => self.take_default(),
        }
    }

    fn take_master(&mut self, width: u64, burst: u64) -> Result<(), u8> {
        let count = self.board.master_count as usize;
        if self.board.slave_count > 0 || self.last_pair.is_some() || count == MASTER_LIMIT {
            return Err(2);
        }
        if !WIDTHS.contains(&width) || !BURSTS.contains(&burst) {
            return Err(3);
        }
        self.board.masters[count] = Master {
            width: width as u8,
            burst: burst as u8,
        };
        self.board.master_count += 1;
        Ok(())
    }

    fn take_slave(&mut self, values: [u64; 8]) -> Result<(), u8> {
        let [base, span, width, burst, read_wait, write_wait, native, latency] = values;
        let count = self.board.slave_count as usize;
        if self.board.master_count == 0 || self.last_pair.is_some() || count == SLAVE_LIMIT {
            return Err(2);
        }
        if !slave_values_in_range(values) {
            return Err(3);
        }
        if base % span != 0 {
            return Err(4);
        }
        if self.overlaps(base, span) {
            return Err(5);
        }
        if self.board.total_span() + span > MEMORY_LIMIT {
            return Err(6);
        }
        self.board.slaves[count] = Slave {
            base: base as u32,
            span: span as u32,
            width: width as u8,
            burst: burst as u8,
            read_wait: read_wait as u8,
            write_wait: write_wait as u8,
            native: native as u32,
            latency: latency as u32,
        };
        self.board.slave_count += 1;
        Ok(())
    }

    fn overlaps(&self, base: u64, span: u64) -> bool {
        self.board.slaves[..self.board.slave_count as usize]
            .iter()
            .any(|earlier| {
                let earlier_base = earlier.base as u64;
                let earlier_end = earlier_base + earlier.span as u64;
                base < earlier_end && earlier_base < base + span
            })
    }

    fn take_share(&mut self, master: u64, slave: u64, shares: u64) -> Result<(), u8> {
        if self.board.slave_count == 0 {
            return Err(2);
        }
        if !(1..=SHARES_LIMIT).contains(&shares) {
            return Err(3);
        }
        if master >= self.board.master_count as u64 || slave >= self.board.slave_count as u64 {
            return Err(7);
        }
        let (master, slave) = (master as usize, slave as usize);
        if self.board.connected(master, slave) {
            return Err(7);
        }
        if self.board.too_narrow(master, slave) {
            return Err(19);
        }
        // a pair compares by its master, then by its slave
        let pair = (master, slave);
        if self.last_pair.is_some_and(|above| pair < above) {
            return Err(21);
        }
        self.board.shares[master][slave] = shares as u8;
        self.last_pair = Some(pair);
        Ok(())
    }

    /// It stands behind the slaves, and behind the shares where there are any.
    fn take_default(&mut self) -> Result<(), u8> {
        if self.board.slave_count == 0 {
            return Err(2);
        }
        self.board.default = true;
        Ok(())
    }

    /// What only the end shows: a board needs a master and a slave (2), and each of its masters a share line (20).
    fn finish(self) -> Result<Board, u8> {
        if self.board.master_count == 0 || self.board.slave_count == 0 {
            return Err(2);
        }
        let mut masters = 0..self.board.master_count as usize;
        if masters.any(|master| !self.board.has_share(master)) {
            return Err(20);
        }
        Ok(self.board)
    }
}

fn slave_values_in_range(values: [u64; 8]) -> bool {
    let [base, span, width, burst, read_wait, write_wait, native, latency] = values;
    base <= u32::MAX as u64
        && (8..=65_536).contains(&span)
        && span.is_power_of_two()
        && WIDTHS.contains(&width)
        && BURSTS.contains(&burst)
        && read_wait <= 255
        && write_wait <= 255
        && native <= 1
        && latency <= LATENCY_LIMIT
}

/// Refuses the length before any line, and the first bad line with its lowest number; a last line without its line feed is a
/// bad line like any other. What only the end shows is charged to no line.
pub fn read_with_place(text: &[u8]) -> Result<Board, (u8, Place)> {
    if text.len() > TEXT_LIMIT {
        return Err((1, Place::Length));
    }
    let mut draft = Draft::default();
    let mut rest = text;
    let mut index = 0;
    while !rest.is_empty() {
        let place = Place::Line(index);
        let end = rest
            .iter()
            .position(|&byte| byte == b'\n')
            .ok_or((1, place))?;
        let line = parse_line(&rest[..end]).ok_or((1, place))?;
        draft.take(&line).map_err(|number| (number, place))?;
        rest = &rest[end + 1..];
        index += 1;
    }
    draft.finish().map_err(|number| (number, Place::End))
}

pub fn read(text: &[u8]) -> Result<Board, u8> {
    read_with_place(text).map_err(|(number, _)| number)
}

/// A count above the array gives lines too, of zeros: their order is refused before their values matter.
fn master_line(board: &Board, index: usize) -> Line {
    let master = board.masters.get(index).copied().unwrap_or_default();
    Line::Master {
        width: master.width as u64,
        burst: master.burst as u64,
    }
}

fn slave_line(board: &Board, index: usize) -> Line {
    let slave = board.slaves.get(index).copied().unwrap_or_default();
    Line::Slave {
        base: slave.base as u64,
        span: slave.span as u64,
        width: slave.width as u64,
        burst: slave.burst as u64,
        read_wait: slave.read_wait as u64,
        write_wait: slave.write_wait as u64,
        native: slave.native as u64,
        latency: slave.latency as u64,
    }
}

/// All shares count, also those behind the board's masters and slaves: such a line names nobody and is refused.
fn each_share_line(board: &Board, mut each: impl FnMut(Line) -> Result<(), u8>) -> Result<(), u8> {
    for (master, row) in board.shares.iter().enumerate() {
        for (slave, &shares) in row.iter().enumerate() {
            if shares > 0 {
                each(Line::Share {
                    master: master as u64,
                    slave: slave as u64,
                    shares: shares as u64,
                })?;
            }
        }
    }
    Ok(())
}

/// Hands the lines of a board to `each`, in the writer's order. Every post and every clock goes through them, and this is a
/// fifth faster than an iterator of them.
fn each_line(board: &Board, mut each: impl FnMut(Line) -> Result<(), u8>) -> Result<(), u8> {
    for index in 0..board.master_count as usize {
        each(master_line(board, index))?;
    }
    for index in 0..board.slave_count as usize {
        each(slave_line(board, index))?;
    }
    each_share_line(board, &mut each)?;
    match board.default {
        true => each(Line::Default),
        false => Ok(()),
    }
}

/// Refusals 2 to 7, 19 and 20 of a board that did not come through the reader: those of the lines that the writer would put,
/// then those of the end. The writer's share lines are in order, so that 21 is never among them.
pub fn check_board(board: &Board) -> Result<(), u8> {
    let mut draft = Draft::default();
    each_line(board, |line| draft.take(&line))?;
    draft.finish().map(|_| ())
}

fn line_text(line: &Line) -> String {
    match line {
        Line::Master { width, burst } => format!("master,{width},{burst}"),
        Line::Slave {
            base,
            span,
            width,
            burst,
            read_wait,
            write_wait,
            native,
            latency,
        } => format!(
            "slave,{base},{span},{width},{burst},{read_wait},{write_wait},{native},{latency}"
        ),
        Line::Share {
            master,
            slave,
            shares,
        } => format!("share,{master},{slave},{shares}"),
        Line::Default => "default".to_string(),
    }
}

/// The writer's lines, without their line feeds.
pub fn write_lines(board: &Board) -> Vec<String> {
    let mut lines = Vec::new();
    let result = each_line(board, |line| {
        lines.push(line_text(&line));
        Ok(())
    });
    debug_assert!(result.is_ok());
    lines
}

/// For a board that came from a text this is that text again, byte for byte.
pub fn write(board: &Board) -> String {
    write_lines(board)
        .into_iter()
        .map(|line| line + "\n")
        .collect()
}
