//! What a post is refused for.

use crate::fabric::{read_of, Fabric};
use crate::BOARD;

/// Posts a read by master 0, whose width is 4 and whose burst is 8, at the slave from 4096 to 8191. A refused post leaves the
/// state.
fn post_of(address: u32, beats: u8) -> u8 {
    let mut fabric = Fabric::new(BOARD);
    let before = fabric.state;
    let number = fabric.post(0, read_of(address, 15, beats), &[]);
    assert_eq!(fabric.state == before, number != 0);
    number
}

#[test]
fn a_transfer_ends_within_its_slave() {
    assert_eq!(post_of(8188, 1), 0);
    assert_eq!(post_of(8188, 2), 17);
    assert_eq!(post_of(8192, 1), 16);
}

#[test]
fn an_address_is_a_multiple_of_the_width() {
    assert_eq!(post_of(8190, 1), 14);
}

#[test]
fn a_burst_has_a_beat_and_no_more_than_the_master_can() {
    assert_eq!(post_of(4096, 8), 0);
    assert_eq!(post_of(4096, 9), 13);
    assert_eq!(post_of(4096, 0), 13);
}
