//! The fabric: its state, and the calls reset, post, clock and take.

mod access;
mod arbiter;
mod judge;
mod log;
mod words;

use crate::board::{Board, MASTER_LIMIT, SLAVE_LIMIT};
use crate::description::check_board;
use judge::{judge_clock, judge_post, judge_take, Target, Targets};

pub use log::{Entry, Log, LOG_LENGTH};
pub use words::total_accesses;

pub const BUFFER_LENGTH: usize = 4_096;
/// Each master's part of the buffer.
pub const PART_LENGTH: usize = 512;
/// The response to an unmapped transfer (DECODEERROR); every other response is 0 (OKAY).
pub const DECODE_ERROR: u8 = 3;

/// What a master has posted and not finished. Where `held` is false, nothing else counts but that `late` is 0.
#[derive(Clone, Copy, Default, PartialEq, Eq, Debug)]
pub struct Transfer {
    pub held: bool,
    pub write: bool,
    pub address: u32,
    pub lanes: u8,
    pub beats: u8,
    /// Latency clocks that a read still has to pass behind its last access.
    pub late: u32,
}

/// What a slave remembers: its last owner, the grants that remain to it, and how far the transfer that it serves has come.
#[derive(Clone, Copy, Default, PartialEq, Eq, Debug)]
pub struct Slot {
    pub owner: u8,
    pub remaining: u8,
    pub serving: bool,
    /// Accesses carried out.
    pub done: u16,
    /// Waits passed of the access that is next.
    pub waited: u8,
}

#[derive(Clone, Copy, Default, PartialEq, Eq, Debug)]
pub struct State {
    pub transfers: [Transfer; MASTER_LIMIT],
    pub slots: [Slot; SLAVE_LIMIT],
    pub log: Log,
}

/// What a clock shows of a slave.
#[derive(Clone, Copy, Default, PartialEq, Eq, Debug)]
pub struct SlaveLine {
    /// 0 idle, 1 waiting, 2 access.
    pub phase: u8,
    pub owner: u8,
    pub offset: u32,
    pub lanes: u8,
    pub run: u8,
    pub place: u8,
}

/// What a clock answers: its number, the mask of the masters that finished, a line for each slave and a response to each master.
#[derive(Clone, Copy, Default, PartialEq, Eq, Debug)]
pub struct Answer {
    pub number: u8,
    pub mask: u8,
    pub lines: [SlaveLine; SLAVE_LIMIT],
    pub responses: [u8; MASTER_LIMIT],
}

/// Every slave's last owner is the highest master, so that master 0 is tried first; all else is 0. A refused reset hands back
/// zeros.
pub fn reset(board: &Board) -> (u8, State) {
    let mut state = State::default();
    if let Err(number) = check_board(board) {
        return (number, state);
    }
    for slot in &mut state.slots[..board.slave_count as usize] {
        slot.owner = board.master_count - 1;
    }
    (0, state)
}

/// Post: a master hands in a transfer, and a write's words go to the front of its part of the buffer.
pub fn post(
    board: &Board,
    state: &mut State,
    buffer: &mut [u8],
    master: u32,
    transfer: Transfer,
    data: &[u8],
) -> u8 {
    match judge_post(board, state, buffer, master, &transfer, data) {
        Err(number) => number,
        Ok(master) => {
            let part = master_part(buffer, master);
            part[..data.len()].copy_from_slice(data);
            state.transfers[master] = Transfer {
                held: true,
                late: 0,
                ..transfer
            };
            0
        }
    }
}

fn master_part(buffer: &mut [u8], master: usize) -> &mut [u8] {
    &mut buffer[PART_LENGTH * master..PART_LENGTH * (master + 1)]
}

/// One clock less for every master in its latency, which finishes those that have none left: their mask.
fn pass_latencies(state: &mut State) -> u8 {
    let mut mask = 0;
    for (master, transfer) in state.transfers.iter_mut().enumerate() {
        if transfer.late > 0 {
            transfer.late -= 1;
            if transfer.late == 0 {
                *transfer = Transfer::default();
                mask |= 1 << master;
            }
        }
    }
    mask
}

/// Finishes the transfers that no connected slave has, by master number: a read gets zeros, and the log an entry. The mask of
/// their masters.
fn finish_unmapped(
    board: &Board,
    state: &mut State,
    targets: &Targets,
    buffer: &mut [u8],
    responses: &mut [u8; MASTER_LIMIT],
) -> u8 {
    let mut mask = 0;
    for (master, target) in targets.iter().enumerate() {
        if *target != Target::Unmapped {
            continue;
        }
        let transfer = state.transfers[master];
        if !transfer.write {
            let length = transfer.beats as usize * board.masters[master].width as usize;
            master_part(buffer, master)[..length].fill(0);
        }
        state.log.enter(Entry {
            master: master as u8,
            address: transfer.address,
            write: transfer.write,
        });
        state.transfers[master] = Transfer::default();
        responses[master] = DECODE_ERROR;
        mask |= 1 << master;
    }
    mask
}

/// Clock: one cycle of every slave. A slave that is granted has its first cycle in the same clock.
pub fn clock(board: &Board, state: &mut State, memory: &mut [u8], buffer: &mut [u8]) -> Answer {
    let mut answer = Answer::default();
    let targets = match judge_clock(board, state, memory, buffer) {
        Err(number) => {
            answer.number = number;
            return answer;
        }
        Ok(targets) => targets,
    };
    // before the slaves act: a latency that begins in this clock is passed from the next one on
    answer.mask = pass_latencies(state);
    answer.mask |= finish_unmapped(board, state, &targets, buffer, &mut answer.responses);
    // the slaves' bytes lie one after another, by slave number
    let mut start = 0;
    for slave in 0..board.slave_count as usize {
        let span = board.slaves[slave].span as usize;
        let cells = &mut memory[start..start + span];
        start += span;
        if state.slots[slave].serving || arbiter::grant(board, state, &targets, slave) {
            answer.lines[slave] = access::serve(board, state, slave, cells, buffer);
            answer.mask |= access::finish(board, state, slave);
        }
    }
    answer
}

/// Take: the oldest entry of the log, which makes space there. A refused one hands back zeros.
pub fn take(board: &Board, state: &mut State) -> (u8, Entry) {
    match judge_take(board, state) {
        Err(number) => (number, Entry::default()),
        Ok(()) => (0, state.log.take_oldest()),
    }
}
