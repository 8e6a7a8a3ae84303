//! The accesses of a transfer: how many, in which runs, and what they move.

use crate::fabric::{read_of, write_of, Fabric};
use crate::BOARD;
use model::fabric::{Answer, SlaveLine};
use model::lanes::all_lanes;

/// The runs of a read by a master of this width at a slave of the other, read off the lines of its clocks.
fn runs_of(master_width: u8, slave_width: u8, slave_burst: u8, beats: u8) -> Vec<u8> {
    let text = format!(
        "master,{master_width},64\nslave,0,512,{slave_width},{slave_burst},0,0,0,0\nshare,0,0,1\n"
    );
    let mut fabric = Fabric::new(&text);
    let transfer = read_of(0, all_lanes(master_width), beats);
    assert_eq!(fabric.post(0, transfer, &[]), 0);
    let lines = fabric.clock_until_finished();
    lines
        .iter()
        .filter(|line| line.phase == 2 && line.place == 0)
        .map(|line| line.run)
        .collect()
}

#[test]
fn runs_are_cut_at_the_burst_length_of_the_slave() {
    assert_eq!(runs_of(4, 4, 8, 16), [8, 8]);
    assert_eq!(runs_of(4, 4, 8, 14), [8, 6]);
    assert_eq!(runs_of(4, 4, 1, 16), [1; 16]);
}

#[test]
fn every_access_of_a_run_shows_its_length_and_its_own_place() {
    let mut fabric = Fabric::new("master,4,8\nslave,0,64,4,4,0,0,0,0\nshare,0,0,1\n");
    assert_eq!(fabric.post(0, read_of(0, 15, 7), &[]), 0);
    let lines = fabric.clock_until_finished();
    let shown: Vec<(u8, u8)> = lines.iter().map(|line| (line.run, line.place)).collect();
    let expected = [(4, 0), (4, 1), (4, 2), (4, 3), (3, 0), (3, 1), (3, 2)];
    assert_eq!(shown, expected);
}

#[test]
fn a_wider_master_takes_several_accesses_for_a_beat() {
    assert_eq!(runs_of(4, 2, 4, 3), [4, 2]);
}

#[test]
fn each_access_of_a_narrower_master_is_a_run() {
    assert_eq!(runs_of(4, 8, 4, 3), [1, 1, 1]);
}

#[test]
fn a_single_read_waits_before_each_access_and_goes_upward() {
    let mut fabric = Fabric::new(BOARD);
    assert_eq!(fabric.post(0, read_of(4096 + 8, 15, 1), &[]), 0);
    let answers: Vec<Answer> = (0..4).map(|_| fabric.clock()).collect();
    let line = |answer: &Answer| (answer.lines[0].phase, answer.lines[0].offset);
    let lines: Vec<(u8, u32)> = answers.iter().map(line).collect();
    let masks: Vec<u8> = answers.iter().map(|answer| answer.mask).collect();
    assert_eq!(lines, [(1, 8), (2, 8), (1, 10), (2, 10)]);
    assert_eq!(masks, [0, 0, 0, 1]);
    assert_eq!(fabric.buffer[..4], fabric.memory[8..12]);
    assert_eq!(fabric.clock().lines[0], SlaveLine::default());
}

#[test]
fn a_write_of_a_wider_master_stores_only_its_lanes() {
    let mut fabric = Fabric::new(BOARD);
    let before = fabric.memory.clone();
    assert_eq!(fabric.post(0, write_of(4096, 12, 1), &[1, 2, 3, 4]), 0);
    let lines = fabric.clock_until_finished();
    let shown: Vec<(u32, u8)> = lines.iter().map(|line| (line.offset, line.lanes)).collect();
    assert_eq!(shown, [(2, 3)]);
    assert_eq!(fabric.memory[..2], before[..2]);
    assert_eq!(fabric.memory[2..4], [3, 4]);
}

#[test]
fn a_write_of_a_narrower_master_goes_to_its_part_of_the_word() {
    let mut fabric = Fabric::new("master,1,2\nslave,0,8,4,8,0,0,0,0\nshare,0,0,1\n");
    assert_eq!(fabric.post(0, write_of(6, 1, 2), &[8, 9]), 0);
    let lines = fabric.clock_until_finished();
    let shown: Vec<(u32, u8)> = lines.iter().map(|line| (line.offset, line.lanes)).collect();
    assert_eq!(shown, [(4, 4), (4, 8)]);
    assert_eq!(fabric.memory[6..8], [8, 9]);
}
