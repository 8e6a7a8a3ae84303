//! The arbiter of a slave: who is granted when it is free.

use super::judge::{Target, Targets};
use super::State;
use crate::board::Board;

/// Grants a master that requests the slave, which then serves it; false where none does. A master keeps the slave while it
/// requests and grants remain to it; then the next one upward has its turn.
pub fn grant(board: &Board, state: &mut State, targets: &Targets, slave: usize) -> bool {
    let slot = &mut state.slots[slave];
    let last_owner = slot.owner as usize;
    let requests = |master: usize| targets[master] == Target::Slave(slave);
    if requests(last_owner) && slot.remaining > 0 {
        slot.remaining -= 1;
    } else {
        // round past the highest master, so that the last owner is tried last
        let master_count = board.master_count as usize;
        let mut tried = (1..=master_count).map(|step| (last_owner + step) % master_count);
        match tried.find(|&master| requests(master)) {
            None => {
                // a silent owner loses what remained of its turn
                slot.remaining = 0;
                return false;
            }
            Some(master) => {
                slot.owner = master as u8;
                slot.remaining = board.shares[master][slave] - 1;
            }
        }
    }
    // a burst is the last transfer of a turn
    if state.transfers[slot.owner as usize].beats >= 2 {
        slot.remaining = 0;
    }
    slot.serving = true;
    true
}
