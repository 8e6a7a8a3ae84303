//! What post, clock and take are refused for.

use super::words::total_accesses;
use super::{State, Transfer, BUFFER_LENGTH, LOG_LENGTH};
use crate::board::{Board, MASTER_LIMIT};
use crate::description::check_board;
use crate::lanes::{all_lanes, lanes_legal};

/// Where a master's transfer goes in a clock.
#[derive(Clone, Copy, Default, PartialEq, Eq, Debug)]
pub enum Target {
    /// Nowhere: the master holds none, or it is in its latency.
    #[default]
    Nowhere,
    /// To the slave that the master requests.
    Slave(usize),
    /// To an address that no connected slave has.
    Unmapped,
}

pub type Targets = [Target; MASTER_LIMIT];

/// The connected slave in whose span the address lies. A base is a multiple of its span, so that address and base agree in what
/// counts whole spans.
fn selected(board: &Board, master: usize, address: u32) -> Option<usize> {
    (0..board.slave_count as usize).find(|&index| {
        let slave = &board.slaves[index];
        address / slave.span == slave.base / slave.span && board.connected(master, index)
    })
}

/// Refusals 13 to 17, in rising order; the slave that the transfer is for, or none where the board takes unmapped transfers. Such
/// a one has no end to pass, also where a later beat of it would lie in a slave.
fn judge_transfer(board: &Board, master: usize, transfer: &Transfer) -> Result<Option<usize>, u8> {
    let width = board.masters[master].width;
    if transfer.beats == 0 || transfer.beats > board.masters[master].burst {
        return Err(13);
    }
    if !transfer.address.is_multiple_of(width as u32) {
        return Err(14);
    }
    if !lanes_legal(transfer.lanes, width) {
        return Err(15);
    }
    if transfer.beats > 1 && transfer.lanes != all_lanes(width) {
        return Err(15);
    }
    let Some(target) = selected(board, master, transfer.address) else {
        return if board.default { Ok(None) } else { Err(16) };
    };
    let slave = &board.slaves[target];
    let length = transfer.beats as u64 * width as u64;
    if transfer.address as u64 + length > slave.base as u64 + slave.span as u64 {
        return Err(17);
    }
    Ok(Some(target))
}

/// Refusal 9: the state breaks a rule.
fn check_state(board: &Board, state: &State) -> Result<Targets, u8> {
    if state.log.count > LOG_LENGTH as u32 {
        return Err(9);
    }
    let targets = check_transfers(board, state)?;
    for slave in 0..board.slave_count as usize {
        check_slot(board, state, &targets, slave)?;
    }
    Ok(targets)
}

/// A held transfer belongs to a master of the board and would be taken by post. Only a read of a slave has latency clocks to
/// pass, and no more of them than the slave gives.
fn check_transfers(board: &Board, state: &State) -> Result<Targets, u8> {
    let mut targets = Targets::default();
    for (master, transfer) in state.transfers.iter().enumerate() {
        if transfer.held {
            if master >= board.master_count as usize {
                return Err(9);
            }
            let slave = judge_transfer(board, master, transfer).map_err(|_| 9)?;
            let latency = |slave: usize| board.slaves[slave].transfer_latency(transfer.write);
            if transfer.late > slave.map_or(0, latency) {
                return Err(9);
            }
            if transfer.late == 0 {
                targets[master] = slave.map_or(Target::Unmapped, Target::Slave);
            }
        } else if transfer.late > 0 {
            return Err(9);
        }
    }
    Ok(targets)
}

fn check_slot(board: &Board, state: &State, targets: &Targets, slave: usize) -> Result<(), u8> {
    let slot = &state.slots[slave];
    if slot.owner >= board.master_count {
        return Err(9);
    }
    // a grant uses one of the owner's shares, so that fewer remain; an unconnected master is never granted
    let owner = slot.owner as usize;
    let shares = board.shares[owner][slave];
    if shares == 0 && slot.remaining != 0 {
        return Err(9);
    }
    if shares > 0 && slot.remaining >= shares {
        return Err(9);
    }
    if !slot.serving {
        // progress belongs to a transfer that is served
        if slot.done > 0 || slot.waited > 0 {
            return Err(9);
        }
        return Ok(());
    }
    // a slave serves a transfer that is for it, and none of whose latency has begun
    if targets[owner] != Target::Slave(slave) {
        return Err(9);
    }
    let transfer = &state.transfers[owner];
    if slot.done as u64 >= total_accesses(board, owner, slave, transfer) {
        return Err(9);
    }
    if slot.waited > board.slaves[slave].wait(transfer.write) {
        return Err(9);
    }
    Ok(())
}

/// The board's 2 to 7, 19 and 20, 8 for the buffer, 9, then 11 to 18, of which 16 and 17 are not asked of a transfer that the
/// board takes unmapped; the master that posts.
pub fn judge_post(
    board: &Board,
    state: &State,
    buffer: &[u8],
    master: u32,
    transfer: &Transfer,
    data: &[u8],
) -> Result<usize, u8> {
    check_board(board)?;
    if buffer.len() != BUFFER_LENGTH {
        return Err(8);
    }
    check_state(board, state)?;
    if master >= board.master_count as u32 {
        return Err(11);
    }
    let master = master as usize;
    if state.transfers[master].held {
        return Err(12);
    }
    judge_transfer(board, master, transfer)?;
    let expected = if transfer.write {
        transfer.beats as usize * board.masters[master].width as usize
    } else {
        0
    };
    if data.len() != expected {
        return Err(18);
    }
    Ok(master)
}

/// The board's 2 to 7, 19 and 20, 8 for memory and buffer, then 9.
pub fn judge_clock(
    board: &Board,
    state: &State,
    memory: &[u8],
    buffer: &[u8],
) -> Result<Targets, u8> {
    check_board(board)?;
    if memory.len() as u64 != board.total_span() || buffer.len() != BUFFER_LENGTH {
        return Err(8);
    }
    check_state(board, state)
}

/// The board's 2 to 7, 19 and 20, 9, then 22 for a log without an entry. Neither memory nor buffer is lent.
pub fn judge_take(board: &Board, state: &State) -> Result<(), u8> {
    check_board(board)?;
    check_state(board, state)?;
    match state.log.count {
        0 => Err(22),
        _ => Ok(()),
    }
}
