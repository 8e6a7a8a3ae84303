//! The lines of a script.

use crate::board::{Master, Slave};
use crate::fabric::{Entry, Log, Slot, Transfer};
use crate::script::put_hex;

/// Bytes as the script has them; none are a dash.
pub fn hex(bytes: &[u8]) -> String {
    if bytes.is_empty() {
        return "-".to_string();
    }
    let mut text = Vec::new();
    put_hex(&mut text, bytes);
    String::from_utf8_lossy(&text).into_owned()
}

pub fn transfer_line(master: usize, transfer: &Transfer) -> String {
    let held = transfer.held as u8;
    let write = transfer.write as u8;
    let Transfer {
        address,
        lanes,
        beats,
        late,
        ..
    } = transfer;
    format!("transfer,{master},{held},{write},{address},{lanes},{beats},{late}")
}

pub fn slot_line(slave: usize, slot: &Slot) -> String {
    let serving = slot.serving as u8;
    let Slot {
        owner,
        remaining,
        done,
        waited,
        ..
    } = slot;
    format!("slot,{slave},{owner},{remaining},{serving},{done},{waited}")
}

pub fn log_line(log: &Log) -> String {
    let lost = log.lost as u8;
    format!("log,{},{lost}", log.count)
}

pub fn entry_line(index: usize, entry: &Entry) -> String {
    let write = entry.write as u8;
    let Entry {
        master, address, ..
    } = entry;
    format!("entry,{index},{master},{address},{write}")
}

pub fn default_line(mark: bool) -> String {
    format!("default,{}", mark as u8)
}

pub fn slave_line(index: usize, slave: &Slave) -> String {
    let Slave {
        base,
        span,
        width,
        burst,
        read_wait,
        write_wait,
        native,
        latency,
    } = slave;
    format!(
        "slave,{index},{base},{span},{width},{burst},{read_wait},{write_wait},{native},{latency}"
    )
}

pub fn master_line(index: usize, master: &Master) -> String {
    let Master { width, burst } = master;
    format!("master,{index},{width},{burst}")
}
