//! The simulator: it runs a script line by line and prints the answers.

mod fields;
mod print;

use std::io::{self, BufRead, Write};

use crate::board::{Board, Master, Slave, MASTER_LIMIT, SLAVE_LIMIT};
use crate::description::{number, read};
use crate::fabric::{
    clock, post, reset, take, Entry, Slot, State, Transfer, BUFFER_LENGTH, LOG_LENGTH,
};
use crate::wait::{wait_call, ANSWER_LENGTH};
use fields::{byte, exactly, flag, hex_bytes, index, is_write, number32, up_to};
use print::{put_clock, put_log, put_slots, put_taken, put_transfers};

pub use print::put_hex;

/// How far a lent length may pass the exact one.
pub const LEND_OVER: usize = 8;
/// The most bytes that a post may hand in.
pub const POST_BYTES_LIMIT: usize = 4_096;

/// Bytes of which the first `length` are lent.
#[derive(Clone)]
pub struct Store {
    bytes: Vec<u8>,
    pub length: usize,
}

impl Store {
    fn new(exact: usize) -> Store {
        Store {
            bytes: vec![0; exact + LEND_OVER],
            length: exact,
        }
    }

    /// The longest that may be lent.
    pub fn limit(&self) -> usize {
        self.bytes.len()
    }

    fn lent(&mut self) -> &mut [u8] {
        &mut self.bytes[..self.length]
    }

    /// The lent bytes from `start`, or None when they pass the lent length.
    fn range(&mut self, start: u64, count: u64) -> Option<&mut [u8]> {
        if start + count > self.length as u64 {
            return None;
        }
        Some(&mut self.bytes[start as usize..(start + count) as usize])
    }
}

/// A board with all that a caller of the fabric lends. Board, state and lengths may be set to anything.
#[derive(Clone)]
pub struct Simulator {
    text: Vec<u8>,
    pub board: Board,
    pub state: State,
    pub memory: Store,
    pub buffer: Store,
}

impl Simulator {
    pub fn new(text: &[u8]) -> Result<Simulator, u8> {
        let board = read(text)?;
        Ok(Simulator {
            text: text.to_vec(),
            board,
            state: State::default(),
            memory: Store::new(board.total_span() as usize),
            buffer: Store::new(BUFFER_LENGTH),
        })
    }

    /// Runs one script line; None stands for a malformed line.
    pub fn run_line(&mut self, line: &[u8], output: &mut impl Write) -> io::Result<Option<()>> {
        let fields: Vec<&[u8]> = line.split(|&byte| byte == b',').collect();
        let rest = &fields[1..];
        match fields[0] {
            b"clock" => self.run_clock(rest, output),
            b"state" => self.run_state(rest, output),
            b"show" => self.run_show(rest, output),
            b"reset" => print_answer(self.run_reset(rest), output),
            b"post" => print_answer(self.run_post(rest), output),
            b"take" => self.run_take(rest, output),
            b"wait" => print_answer(self.run_wait(rest), output),
            b"fill" => Ok(self.run_fill(rest)),
            b"lend" => Ok(self.run_lend(rest)),
            b"transfer" => Ok(self.run_transfer(rest)),
            b"slot" => Ok(self.run_slot(rest)),
            b"log" => Ok(self.run_log(rest)),
            b"entry" => Ok(self.run_entry(rest)),
            b"master" => Ok(self.run_master(rest)),
            b"slave" => Ok(self.run_slave(rest)),
            b"share" => Ok(self.run_share(rest)),
            b"count" => Ok(self.run_count(rest)),
            b"default" => Ok(self.run_default(rest)),
            _ => Ok(None),
        }
    }

    /// A reset that is refused leaves the state.
    fn run_reset(&mut self, fields: &[&[u8]]) -> Option<String> {
        let [] = exactly(fields)?;
        let (number, state) = reset(&self.board);
        if number == 0 {
            self.state = state;
        }
        Some(format!("reset,{number}\n"))
    }

    fn run_post(&mut self, fields: &[&[u8]]) -> Option<String> {
        let [master, direction, address, lanes, beats, data] = exactly(fields)?;
        let master = number32(master)?;
        let transfer = Transfer {
            held: true,
            write: is_write(direction)?,
            address: number32(address)?,
            lanes: byte(lanes)?,
            beats: byte(beats)?,
            late: 0,
        };
        let data = hex_bytes(data)?;
        if data.len() > POST_BYTES_LIMIT {
            return None;
        }
        let (board, state, buffer) = (&self.board, &mut self.state, self.buffer.lent());
        let number = post(board, state, buffer, master, transfer, &data);
        Some(format!("post,{number}\n"))
    }

    fn run_clock(&mut self, fields: &[&[u8]], output: &mut impl Write) -> io::Result<Option<()>> {
        let count = exactly(fields).and_then(|[count]| number32(count));
        let Some(count) = count else {
            return Ok(None);
        };
        let mut text = Vec::new();
        for _ in 0..count {
            let memory = self.memory.lent();
            let buffer = self.buffer.lent();
            let answer = clock(&self.board, &mut self.state, memory, buffer);
            text.clear();
            put_clock(&mut text, &self.board, &answer);
            output.write_all(&text)?;
        }
        Ok(Some(()))
    }

    fn run_take(&mut self, fields: &[&[u8]], output: &mut impl Write) -> io::Result<Option<()>> {
        if !fields.is_empty() {
            return Ok(None);
        }
        let (number, entry) = take(&self.board, &mut self.state);
        let mut text = Vec::new();
        put_taken(&mut text, number, &entry);
        output.write_all(&text)?;
        Ok(Some(()))
    }

    fn run_wait(&mut self, fields: &[&[u8]]) -> Option<String> {
        let [master, slave] = exactly(fields)?;
        let master = number32(master)?;
        let slave = number32(slave)?;
        let mut answer = [0; ANSWER_LENGTH];
        let number = wait_call(&self.text, master, slave, &mut answer);
        let (wait, serve) = answer.split_at(8);
        let (wait, serve) = (low_first(wait), low_first(serve));
        Some(format!("wait,{number},{wait},{serve}\n"))
    }

    fn store(&mut self, word: &[u8]) -> Option<&mut Store> {
        match word {
            b"memory" => Some(&mut self.memory),
            b"buffer" => Some(&mut self.buffer),
            _ => None,
        }
    }

    fn run_fill(&mut self, fields: &[&[u8]]) -> Option<()> {
        let [store, start, data] = exactly(fields)?;
        let start = number(start)?;
        let data = hex_bytes(data)?;
        let bytes = self.store(store)?.range(start, data.len() as u64)?;
        bytes.copy_from_slice(&data);
        Some(())
    }

    fn run_show(&mut self, fields: &[&[u8]], output: &mut impl Write) -> io::Result<Option<()>> {
        let Some(bytes) = self.shown(fields) else {
            return Ok(None);
        };
        let mut text = Vec::with_capacity(2 * bytes.len() + 1);
        put_hex(&mut text, bytes);
        text.push(b'\n');
        output.write_all(&text)?;
        Ok(Some(()))
    }

    fn shown(&mut self, fields: &[&[u8]]) -> Option<&[u8]> {
        let [store, start, count] = exactly(fields)?;
        let start = number(start)?;
        let count = number(count)?;
        self.store(store)?.range(start, count).map(|bytes| &*bytes)
    }

    fn run_lend(&mut self, fields: &[&[u8]]) -> Option<()> {
        let [store, length] = exactly(fields)?;
        let store = self.store(store)?;
        store.length = up_to(length, store.limit() as u64)? as usize;
        Some(())
    }

    fn run_state(&mut self, fields: &[&[u8]], output: &mut impl Write) -> io::Result<Option<()>> {
        if !fields.is_empty() {
            return Ok(None);
        }
        let mut text = Vec::new();
        put_transfers(&mut text, &self.state.transfers);
        put_slots(&mut text, &self.state.slots);
        put_log(&mut text, &self.state.log);
        output.write_all(&text)?;
        Ok(Some(()))
    }

    fn run_transfer(&mut self, fields: &[&[u8]]) -> Option<()> {
        let [master, held, write, address, lanes, beats, late] = exactly(fields)?;
        let master = index(master, MASTER_LIMIT)?;
        self.state.transfers[master] = Transfer {
            held: flag(held)?,
            write: flag(write)?,
            address: number32(address)?,
            lanes: byte(lanes)?,
            beats: byte(beats)?,
            late: number32(late)?,
        };
        Some(())
    }

    fn run_slot(&mut self, fields: &[&[u8]]) -> Option<()> {
        let [slave, owner, remaining, serving, done, waited] = exactly(fields)?;
        let slave = index(slave, SLAVE_LIMIT)?;
        self.state.slots[slave] = Slot {
            owner: byte(owner)?,
            remaining: byte(remaining)?,
            serving: flag(serving)?,
            done: up_to(done, u16::MAX as u64)? as u16,
            waited: byte(waited)?,
        };
        Some(())
    }

    fn run_log(&mut self, fields: &[&[u8]]) -> Option<()> {
        let [count, lost] = exactly(fields)?;
        let count = number32(count)?;
        let lost = flag(lost)?;
        self.state.log.count = count;
        self.state.log.lost = lost;
        Some(())
    }

    fn run_entry(&mut self, fields: &[&[u8]]) -> Option<()> {
        let [place, master, address, write] = exactly(fields)?;
        let place = index(place, LOG_LENGTH)?;
        self.state.log.entries[place] = Entry {
            master: byte(master)?,
            address: number32(address)?,
            write: flag(write)?,
        };
        Some(())
    }

    fn run_master(&mut self, fields: &[&[u8]]) -> Option<()> {
        let [master, width, burst] = exactly(fields)?;
        let master = index(master, MASTER_LIMIT)?;
        self.board.masters[master] = Master {
            width: byte(width)?,
            burst: byte(burst)?,
        };
        Some(())
    }

    fn run_slave(&mut self, fields: &[&[u8]]) -> Option<()> {
        let [slave, base, span, width, burst, read_wait, write_wait, native, latency] =
            exactly(fields)?;
        let slave = index(slave, SLAVE_LIMIT)?;
        self.board.slaves[slave] = Slave {
            base: number32(base)?,
            span: number32(span)?,
            width: byte(width)?,
            burst: byte(burst)?,
            read_wait: byte(read_wait)?,
            write_wait: byte(write_wait)?,
            native: number32(native)?,
            latency: number32(latency)?,
        };
        Some(())
    }

    fn run_share(&mut self, fields: &[&[u8]]) -> Option<()> {
        let [master, slave, shares] = exactly(fields)?;
        let master = index(master, MASTER_LIMIT)?;
        let slave = index(slave, SLAVE_LIMIT)?;
        self.board.shares[master][slave] = byte(shares)?;
        Some(())
    }

    fn run_count(&mut self, fields: &[&[u8]]) -> Option<()> {
        let [masters, slaves] = exactly(fields)?;
        let masters = byte(masters)?;
        let slaves = byte(slaves)?;
        self.board.master_count = masters;
        self.board.slave_count = slaves;
        Some(())
    }

    fn run_default(&mut self, fields: &[&[u8]]) -> Option<()> {
        let [mark] = exactly(fields)?;
        self.board.default = flag(mark)?;
        Some(())
    }
}

fn print_answer(answer: Option<String>, output: &mut impl Write) -> io::Result<Option<()>> {
    match answer {
        None => Ok(None),
        Some(text) => output.write_all(text.as_bytes()).map(Some),
    }
}

/// The number of these bytes, lowest byte first.
fn low_first(bytes: &[u8]) -> u64 {
    bytes
        .iter()
        .rev()
        .fold(0, |value, &byte| value * 256 + byte as u64)
}

/// Runs a whole script on the board of a text, up to its first line that is malformed or lacks its line feed.
pub fn simulate(text: &[u8], script: &mut impl BufRead, output: &mut impl Write) -> io::Result<()> {
    let mut simulator = match Simulator::new(text) {
        Err(number) => return writeln!(output, "refused,{number}"),
        Ok(simulator) => simulator,
    };
    let mut line = Vec::new();
    let mut count = 0u64;
    loop {
        line.clear();
        if script.read_until(b'\n', &mut line)? == 0 {
            return Ok(());
        }
        count += 1;
        // the rest of a line that lacks its line feed may be missing: it is not run, whatever it says
        let result = match line.strip_suffix(b"\n") {
            Some(whole) => simulator.run_line(whole, output)?,
            None => None,
        };
        if result.is_none() {
            return writeln!(output, "error,{count}");
        }
    }
}
