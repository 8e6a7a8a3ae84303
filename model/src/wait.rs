//! The quoted wait: the longest that a master waits at a slave, and the longest that it is served there.

use crate::board::Board;
use crate::description::read;

/// The bytes that the wait call writes.
pub const ANSWER_LENGTH: usize = 16;

/// The clocks of an access that waits as long as any at this slave.
fn longest_access(board: &Board, slave: usize) -> u64 {
    let slave = &board.slaves[slave];
    1 + slave.read_wait.max(slave.write_wait) as u64
}

/// The longest transfer of one beat.
fn single(board: &Board, master: usize, slave: usize) -> u64 {
    board.ratio(master, slave) * longest_access(board, slave)
}

/// A burst is no longer than the master's own limit, nor than the span holds words.
fn most_beats(board: &Board, master: usize, slave: usize) -> u64 {
    let width = board.masters[master].width as u64;
    let burst = board.masters[master].burst as u64;
    let span = board.slaves[slave].span as u64;
    burst.min(span / width)
}

/// The longest transfer of the master at the slave, in clocks.
pub fn serve(board: &Board, master: usize, slave: usize) -> u64 {
    most_beats(board, master, slave) * single(board, master, slave)
}

/// The longest transfer of one beat that does not end the turn. Behind a read the master is silent for the slave's latency and
/// loses its turn, so that only writes are left where there is a latency.
fn kept_single(board: &Board, master: usize, slave: usize) -> u64 {
    let card = &board.slaves[slave];
    match card.latency {
        0 => single(board, master, slave),
        _ => board.ratio(master, slave) * (1 + card.write_wait as u64),
    }
}

/// The longest turn: a burst ends it, so that all grants but the last are singles.
fn turn(board: &Board, master: usize, slave: usize) -> u64 {
    let shares = board.shares[master][slave] as u64;
    (shares - 1) * kept_single(board, master, slave) + serve(board, master, slave)
}

/// At worst every other master connected to the slave has its longest turn first.
pub fn wait(board: &Board, master: usize, slave: usize) -> u64 {
    (0..board.master_count as usize)
        .filter(|&other| other != master && board.connected(other, slave))
        .map(|other| turn(board, other, slave))
        .sum()
}

/// The wait call. Wait and serve are written as two numbers of 64 bits, lowest byte first.
pub fn wait_call(text: &[u8], master: u32, slave: u32, output: &mut [u8]) -> u8 {
    match judge_wait(text, master, slave, output.len()) {
        Err(number) => number,
        Ok((wait, serve)) => {
            output[..8].copy_from_slice(&wait.to_le_bytes());
            output[8..16].copy_from_slice(&serve.to_le_bytes());
            0
        }
    }
}

/// Refusals of the text, then 10, 11 and 16.
fn judge_wait(text: &[u8], master: u32, slave: u32, room: usize) -> Result<(u64, u64), u8> {
    let board = read(text)?;
    if room < ANSWER_LENGTH {
        return Err(10);
    }
    if master >= board.master_count as u32 {
        return Err(11);
    }
    let master = master as usize;
    if slave >= board.slave_count as u32 || !board.connected(master, slave as usize) {
        return Err(16);
    }
    let slave = slave as usize;
    Ok((wait(&board, master, slave), serve(&board, master, slave)))
}
