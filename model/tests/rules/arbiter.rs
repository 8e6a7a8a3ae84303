//! The arbiter: whose turn it is, and what ends it.

use crate::fabric::{read_of, Fabric};

/// A slave that serves a single in one clock, with two masters of these shares.
fn shared_slave(shares: [u8; 2]) -> Fabric {
    let [first, second] = shares;
    Fabric::new(&format!(
        "master,4,8\nmaster,4,8\nslave,0,64,4,1,0,0,0,0\nshare,0,0,{first}\nshare,1,0,{second}\n"
    ))
}

/// Who is granted, clock by clock, while both masters post singles whenever they may.
fn owners(fabric: &mut Fabric, clocks: usize) -> Vec<u8> {
    let mut owners = Vec::new();
    for _ in 0..clocks {
        fabric.post(0, read_of(0, 15, 1), &[]);
        fabric.post(1, read_of(4, 15, 1), &[]);
        owners.push(fabric.clock().lines[0].owner);
    }
    owners
}

#[test]
fn each_master_is_granted_its_shares_in_turn() {
    let mut fabric = shared_slave([3, 4]);
    assert_eq!(owners(&mut fabric, 8), [0, 0, 0, 1, 1, 1, 1, 0]);
}

#[test]
fn a_burst_ends_the_turn() {
    let mut fabric = shared_slave([5, 1]);
    assert_eq!(fabric.post(0, read_of(0, 15, 2), &[]), 0);
    assert_eq!(owners(&mut fabric, 5), [0, 0, 1, 0, 0]);
}

#[test]
fn silence_ends_the_turn() {
    let mut fabric = shared_slave([5, 1]);
    assert_eq!(fabric.post(0, read_of(0, 15, 1), &[]), 0);
    fabric.clock();
    assert_eq!(fabric.state.slots[0].remaining, 4);
    fabric.clock();
    assert_eq!(fabric.state.slots[0].remaining, 0);
    assert_eq!(owners(&mut fabric, 1), [1]);
}
