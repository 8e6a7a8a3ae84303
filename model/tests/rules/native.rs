//! Cards with native alignment: a word of the card for each word of the master.

use crate::fabric::{read_of, write_of, Fabric};
use model::description::{read, write};
use model::fabric::{SlaveLine, BUFFER_LENGTH};
use model::table::table;

/// A native card with a master twice as wide and one as wide as itself.
const NATIVE: &str = "master,4,8\n\
                      master,2,1\n\
                      slave,4096,4096,2,8,1,2,1,0\n\
                      share,0,0,2\n\
                      share,1,0,3\n";

/// The fabric after a reset, with a buffer that has no zeros.
fn native_fabric(text: &str) -> Fabric {
    let mut fabric = Fabric::new(text);
    fabric.buffer = [0xff; BUFFER_LENGTH];
    fabric
}

fn accesses(lines: &[SlaveLine]) -> Vec<&SlaveLine> {
    lines.iter().filter(|line| line.phase == 2).collect()
}

fn offsets(lines: &[SlaveLine]) -> Vec<u32> {
    accesses(lines).iter().map(|line| line.offset).collect()
}

fn runs_and_places(lines: &[SlaveLine]) -> Vec<(u8, u8)> {
    let shown = |line: &&SlaveLine| (line.run, line.place);
    accesses(lines).iter().map(shown).collect()
}

#[test]
fn a_read_of_one_word_is_one_access_and_fills_up_with_zeros() {
    let mut fabric = native_fabric(NATIVE);
    assert_eq!(fabric.post(0, read_of(4096 + 8, 15, 1), &[]), 0);
    let lines = fabric.clock_until_finished();
    let line = SlaveLine {
        phase: 1,
        owner: 0,
        offset: 4,
        lanes: 3,
        run: 1,
        place: 0,
    };
    assert_eq!(lines, [line, SlaveLine { phase: 2, ..line }]);
    let [low, high] = [fabric.memory[4], fabric.memory[5]];
    assert_eq!(fabric.buffer[..6], [low, high, 0, 0, 0xff, 0xff]);
}

#[test]
fn a_read_of_some_lanes_fetches_the_whole_word() {
    let mut fabric = native_fabric(NATIVE);
    assert_eq!(fabric.post(0, read_of(4096 + 4, 12, 1), &[]), 0);
    let lines = fabric.clock_until_finished();
    assert_eq!(lines[1].lanes, 3);
    let [low, high] = [fabric.memory[2], fabric.memory[3]];
    assert_eq!(fabric.buffer[..4], [low, high, 0, 0]);
}

#[test]
fn a_burst_reads_words_of_the_card_that_lie_side_by_side() {
    let mut fabric = native_fabric(NATIVE);
    assert_eq!(fabric.post(0, read_of(4096 + 4, 15, 3), &[]), 0);
    let lines = fabric.clock_until_finished();
    assert_eq!(lines.len(), 6);
    assert_eq!(offsets(&lines), [2, 4, 6]);
    assert_eq!(runs_and_places(&lines), [(3, 0), (3, 1), (3, 2)]);
    for beat in 0..3 {
        let word = &fabric.memory[2 + 2 * beat..][..2];
        let expected = [word[0], word[1], 0, 0];
        assert_eq!(fabric.buffer[4 * beat..][..4], expected);
    }
    assert_eq!(fabric.buffer[12], 0xff);
}

#[test]
fn the_burst_length_of_the_card_cuts_the_beats_into_runs() {
    let text = "master,8,8\nslave,0,64,1,2,0,0,1,0\nshare,0,0,1\n";
    let mut fabric = native_fabric(text);
    assert_eq!(fabric.post(0, read_of(8, 255, 5), &[]), 0);
    let lines = fabric.clock_until_finished();
    assert_eq!(offsets(&lines), [1, 2, 3, 4, 5]);
    let expected = [(2, 0), (2, 1), (2, 0), (2, 1), (1, 0)];
    assert_eq!(runs_and_places(&lines), expected);
    assert_eq!(fabric.buffer[32], fabric.memory[5]);
    assert_eq!(fabric.buffer[33..40], [0; 7]);
}

#[test]
fn a_write_of_all_lanes_stores_those_that_the_card_has() {
    let mut fabric = native_fabric(NATIVE);
    let mut expected = fabric.memory.clone();
    expected[6..10].copy_from_slice(&[1, 2, 5, 6]);
    let data = [1, 2, 3, 4, 5, 6, 7, 8];
    assert_eq!(fabric.post(0, write_of(4096 + 12, 15, 2), &data), 0);
    let lines = fabric.clock_until_finished();
    assert_eq!(offsets(&lines), [6, 8]);
    assert!(lines.iter().all(|line| line.lanes == 3));
    assert_eq!(fabric.memory, expected);
    assert_eq!(fabric.buffer[..8], data);
}

#[test]
fn a_write_of_one_lane_stores_one_byte() {
    let mut fabric = native_fabric(NATIVE);
    let mut expected = fabric.memory.clone();
    expected[7] = 2;
    let data = [1, 2, 3, 4];
    assert_eq!(fabric.post(0, write_of(4096 + 12, 2, 1), &data), 0);
    let lines = fabric.clock_until_finished();
    assert!(lines.iter().all(|line| line.lanes == 2));
    assert_eq!(fabric.memory, expected);
}

#[test]
fn a_write_above_the_width_of_the_card_waits_and_has_its_access() {
    let mut fabric = native_fabric(NATIVE);
    let before = fabric.memory.clone();
    assert_eq!(fabric.post(0, write_of(4096 + 4, 12, 1), &[1, 2, 3, 4]), 0);
    let lines = fabric.clock_until_finished();
    let shown: Vec<(u8, u32, u8)> = lines
        .iter()
        .map(|line| (line.phase, line.offset, line.lanes))
        .collect();
    assert_eq!(shown, [(1, 2, 0), (1, 2, 0), (2, 2, 0)]);
    assert_eq!(runs_and_places(&lines), [(1, 0)]);
    assert_eq!(fabric.memory, before);
}

#[test]
fn a_word_has_the_same_number_for_masters_of_all_widths() {
    let mut fabric = native_fabric(NATIVE);
    assert_eq!(
        fabric.post(0, write_of(4096 + 4 * 5, 3, 1), &[1, 2, 3, 4]),
        0
    );
    fabric.clock_until_finished();
    assert_eq!(fabric.post(1, read_of(4096 + 2 * 5, 3, 1), &[]), 0);
    let lines = fabric.clock_until_finished();
    assert_eq!(offsets(&lines), [10]);
    assert_eq!(fabric.buffer[512..515], [1, 2, 0xff]);
}

#[test]
fn a_transfer_ends_within_the_span_by_its_addresses() {
    let number = |address, beats| Fabric::new(NATIVE).post(0, read_of(address, 15, beats), &[]);
    assert_eq!(number(8188, 1), 0);
    assert_eq!(number(8188, 2), 17);
    assert_eq!(number(8160, 8), 0);
    assert_eq!(number(8164, 8), 17);
    let mut fabric = Fabric::new(NATIVE);
    assert_eq!(fabric.post(0, read_of(8188, 15, 1), &[]), 0);
    assert_eq!(offsets(&fabric.clock_until_finished()), [2046]);
}

#[test]
fn as_many_accesses_are_done_as_there_are_beats() {
    let mut fabric = Fabric::new(NATIVE);
    assert_eq!(fabric.post(0, read_of(4096, 15, 3), &[]), 0);
    fabric.clock();
    fabric.state.slots[0].done = 3;
    assert_eq!(fabric.clock().number, 9);
    fabric.state.slots[0].done = 2;
    let answer = fabric.clock();
    assert_eq!((answer.number, answer.mask), (0, 1));
}

#[test]
fn the_quoted_figures_take_a_beat_for_one_access() {
    // an access lasts 3 clocks: serves of 8 × 3 and 1 × 3, turns of 1 × 3 + 24 and 2 × 3 + 3
    let expected = "master,slave,wait,serve\n0,0,9,24\n1,0,27,3\n";
    assert_eq!(table(NATIVE.as_bytes()), expected);
}

fn number_of(text: &str) -> u8 {
    read(text.as_bytes()).err().unwrap_or(0)
}

/// A master of this width at a card that is 4 bytes wide, with `end` behind its write wait.
fn joined(master_width: u8, end: &str, shares: u8) -> u8 {
    number_of(&format!(
        "master,{master_width},8\nslave,0,8,4,8,1,0{end}\nshare,0,0,{shares}\n"
    ))
}

#[test]
fn a_slave_line_has_eight_numbers() {
    assert_eq!(joined(4, "", 1), 1);
    assert_eq!(joined(4, ",0", 1), 1);
    assert_eq!(joined(4, ",1", 1), 1);
    assert_eq!(joined(4, ",0,0", 1), 0);
    assert_eq!(joined(4, ",1,0", 1), 0);
    assert_eq!(joined(4, ",0,0,0", 1), 1);
}

#[test]
fn the_native_number_of_a_slave_line_is_0_or_1() {
    for native in ["2", "10", "256", "257", "4294967296", "4294967297"] {
        assert_eq!(joined(4, &format!(",{native},0"), 1), 3, "{native}");
    }
    assert_eq!(joined(4, ",01,0", 1), 1);
}

#[test]
fn a_native_card_takes_no_narrower_master() {
    assert_eq!(
        [1, 2, 4, 8].map(|width| joined(width, ",1,0", 1)),
        [19, 19, 0, 0]
    );
    assert_eq!([1, 2, 4, 8].map(|width| joined(width, ",0,0", 1)), [0; 4]);
    let elsewhere = "master,1,1\nslave,0,8,8,1,0,0,1,0\nslave,8,8,8,1,0,0,0,0\nshare,0,1,1\n";
    assert_eq!(number_of(elsewhere), 0);
}

#[test]
fn a_share_line_answers_its_lowest_number() {
    assert_eq!(joined(2, ",1,0", 0), 3);
    assert_eq!(joined(2, ",1,0", 101), 3);
    let shares = |lines: &str| {
        number_of(&format!(
            "master,2,8\nmaster,4,8\nslave,0,8,4,8,1,0,1,0\n{lines}"
        ))
    };
    assert_eq!(shares("share,1,0,1\nshare,1,0,1\nshare,0,0,1\n"), 7);
    assert_eq!(shares("share,1,0,1\nshare,0,0,1\nshare,1,0,1\n"), 19);
    assert_eq!(shares("share,0,0,1\nshare,0,0,1\n"), 19);
    assert_eq!(shares("share,0,1,1\n"), 7);
    assert_eq!(shares("share,0,0,1\nshare,0\n"), 19);
}

#[test]
fn the_writer_puts_the_native_number() {
    let board = read(NATIVE.as_bytes()).expect("the board is refused");
    assert!(board.slaves[0].is_native());
    assert_eq!(write(&board), NATIVE);
}

#[test]
fn a_lent_board_is_judged_by_its_number_as_it_stands() {
    for native in [2, 7, 256, 257, u32::MAX] {
        let mut fabric = Fabric::new(NATIVE);
        fabric.board.slaves[0].native = native;
        assert_eq!(model::fabric::reset(&fabric.board).0, 3, "{native}");
        assert_eq!(fabric.clock().number, 3, "{native}");
    }
}

#[test]
fn a_lent_board_joins_no_narrower_master() {
    let mut fabric = Fabric::new(NATIVE);
    let before = fabric.state;
    fabric.board.masters[1].width = 1;
    assert_eq!(model::fabric::reset(&fabric.board).0, 19);
    assert_eq!(fabric.post(0, read_of(4096, 15, 1), &[]), 19);
    assert_eq!(fabric.clock().number, 19);
    assert_eq!(fabric.state, before);
    // a share line that comes before has a fault of its own
    fabric.board.shares[0][0] = 101;
    assert_eq!(fabric.clock().number, 3);
    fabric.board.shares[0][0] = 1;
    fabric.board.masters[1].width = 2;
    assert_eq!(fabric.clock().number, 0);
}
