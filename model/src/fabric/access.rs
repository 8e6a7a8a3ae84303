//! A serving slave: its accesses, one after another, until the last one frees it.

use super::words::{accessed_words, total_accesses};
use super::{master_part, SlaveLine, Slot, State, Transfer};
use crate::board::Board;
use crate::lanes::{all_lanes, word_lanes};

/// One access of the transfer that a slave serves.
struct Access {
    /// Where its bytes lie in the master's part.
    from: usize,
    /// Where they lie in the slave's span.
    offset: usize,
    /// How many bytes it covers.
    length: usize,
    /// How many bytes of the master's word behind those have no byte of the slave: a read gets zeros there.
    missing: usize,
    /// Which of them a write writes.
    enabled: u8,
    run: u8,
    place: u8,
}

/// The access after those done.
fn next_access(board: &Board, slave: usize, slot: &Slot, transfer: &Transfer) -> Access {
    match board.slaves[slave].is_native() {
        true => native_access(board, slave, slot, transfer),
        false => sized_access(board, slave, slot, transfer),
    }
}

/// Bus sizing: a beat has an access for each word that it goes to; its bytes lie side by side, as in the master's part.
fn sized_access(board: &Board, slave: usize, slot: &Slot, transfer: &Transfer) -> Access {
    let owner = slot.owner as usize;
    let master_width = board.masters[owner].width as usize;
    let slave_width = board.slaves[slave].width as usize;
    let words = accessed_words(board, owner, slave, transfer);
    let done = slot.done as usize;
    let beat = done / words.count;
    let word = words.number(done % words.count);
    let from = beat * master_width + word * slave_width;
    let total = transfer.beats as usize * words.count;
    let (run, place) = run_and_place(board, slave, slot, total);
    Access {
        from,
        offset: (transfer.address - board.slaves[slave].base) as usize + from,
        length: master_width.min(slave_width),
        missing: 0,
        enabled: word_lanes(transfer.lanes, word as u8, slave_width as u8),
        run,
        place,
    }
}

/// Native alignment: a beat is one access, of the slave's word with the number that the master's word has in the span.
fn native_access(board: &Board, slave: usize, slot: &Slot, transfer: &Transfer) -> Access {
    let master_width = board.masters[slot.owner as usize].width as usize;
    let slave_width = board.slaves[slave].width as usize;
    let beat = slot.done as usize;
    let first_word = (transfer.address - board.slaves[slave].base) as usize / master_width;
    let (run, place) = run_and_place(board, slave, slot, transfer.beats as usize);
    Access {
        from: beat * master_width,
        offset: (first_word + beat) * slave_width,
        length: slave_width,
        missing: master_width - slave_width,
        enabled: transfer.lanes & all_lanes(slave_width as u8),
        run,
        place,
    }
}

/// The length of the access's run, and its place there. The slave's burst length cuts a transfer's accesses, so many in total,
/// into runs, the last one shorter; of a narrower master each access is a run of its own.
fn run_and_place(board: &Board, slave: usize, slot: &Slot, total: usize) -> (u8, u8) {
    let owner = slot.owner as usize;
    if board.masters[owner].width < board.slaves[slave].width {
        return (1, 0);
    }
    let done = slot.done as usize;
    let burst = board.slaves[slave].burst as usize;
    let place = done % burst;
    let run_start = done - place;
    let run = burst.min(total - run_start);
    (run as u8, place as u8)
}

/// One cycle of a serving slave: a wait, or the access itself once its waits have passed.
pub fn serve(
    board: &Board,
    state: &mut State,
    slave: usize,
    cells: &mut [u8],
    buffer: &mut [u8],
) -> SlaveLine {
    let slot = &mut state.slots[slave];
    let transfer = state.transfers[slot.owner as usize];
    let access = next_access(board, slave, slot, &transfer);
    let mut line = slave_line(board, slave, slot, &transfer, &access);
    if slot.waited < board.slaves[slave].wait(transfer.write) {
        slot.waited += 1;
        line.phase = 1;
    } else {
        let part = master_part(buffer, slot.owner as usize);
        carry_out(&access, transfer.write, cells, part);
        slot.waited = 0;
        slot.done += 1;
        line.phase = 2;
    }
    line
}

/// What is shown of an access, in whole slave words: a read shows every lane, a write those that it writes.
fn slave_line(
    board: &Board,
    slave: usize,
    slot: &Slot,
    transfer: &Transfer,
    access: &Access,
) -> SlaveLine {
    let width = board.slaves[slave].width;
    let within_word = access.offset % width as usize;
    let lanes = if transfer.write {
        access.enabled << within_word
    } else {
        all_lanes(width)
    };
    SlaveLine {
        phase: 0,
        owner: slot.owner,
        offset: (access.offset - within_word) as u32,
        lanes,
        run: access.run,
        place: access.place,
    }
}

/// Moves the bytes: a read fetches all that the access covers and zeros for those that are missing, a write stores the enabled
/// ones.
fn carry_out(access: &Access, write: bool, cells: &mut [u8], part: &mut [u8]) {
    for byte in 0..access.length {
        let cell = &mut cells[access.offset + byte];
        let word = &mut part[access.from + byte];
        if !write {
            *word = *cell;
        } else if access.enabled & (1 << byte) != 0 {
            *cell = *word;
        }
    }
    if !write {
        let behind = access.from + access.length;
        part[behind..behind + access.missing].fill(0);
    }
}

/// Frees the slave once all accesses are done, and with it the master, unless it has a latency to pass: the mask of the master
/// that finished, or 0.
pub fn finish(board: &Board, state: &mut State, slave: usize) -> u8 {
    let slot = &mut state.slots[slave];
    let owner = slot.owner as usize;
    let total = total_accesses(board, owner, slave, &state.transfers[owner]);
    if (slot.done as u64) < total {
        return 0;
    }
    slot.serving = false;
    slot.done = 0;
    let transfer = &mut state.transfers[owner];
    let latency = board.slaves[slave].transfer_latency(transfer.write);
    if latency > 0 {
        transfer.late = latency;
        return 0;
    }
    *transfer = Transfer::default();
    1 << owner
}
