//! Masters without a share line: a board that has one is refused.

use crate::fabric::{read_of, Fabric};
use crate::BOARD;
use model::description::{check_board, read, read_with_place, Place};
use model::fabric::{self, SlaveLine};
use model::records::{print_boards, print_places};
use model::script::simulate;
use model::table::table;
use model::wait::wait_call;

/// Three masters at two slaves, with these share lines.
fn three_masters(shares: &[&str]) -> String {
    let lines =
        "master,4,8\nmaster,2,1\nmaster,8,1\nslave,0,8,2,8,1,0,0,0\nslave,8,8,2,8,1,0,0,0\n";
    lines.to_string() + &shares.concat()
}

fn number_of(text: &str) -> u8 {
    read(text.as_bytes()).err().unwrap_or(0)
}

fn number_and_place(text: &str) -> Option<(u8, Place)> {
    read_with_place(text.as_bytes()).err()
}

#[test]
fn each_master_has_a_share_line() {
    let [first, middle, last] = ["share,0,0,1\n", "share,1,1,2\n", "share,2,0,100\n"];
    let number = |shares: &[&str]| number_of(&three_masters(shares));
    assert_eq!(number(&[first, middle, last]), 0);
    assert_eq!(number(&[middle, last]), 20);
    assert_eq!(number(&[first, last]), 20);
    assert_eq!(number(&[first, middle]), 20);
    assert_eq!(number(&[middle]), 20);
    assert_eq!(number(&[]), 20);
}

#[test]
fn the_lines_of_one_master_do_not_stand_for_those_of_another() {
    let shares = ["share,0,0,1\n", "share,0,1,1\n", "share,1,0,1\n"];
    assert_eq!(number_of(&three_masters(&shares)), 20);
}

#[test]
fn one_line_is_enough_at_any_slave() {
    let lines = "master,4,8\nslave,0,8,2,8,1,0,0,0\nslave,8,8,2,8,1,0,0,0\n";
    let number = |share: &str| number_of(&(lines.to_string() + share));
    assert_eq!(number("share,0,0,1\n"), 0);
    assert_eq!(number("share,0,1,1\n"), 0);
    assert_eq!(number(""), 20);
}

#[test]
fn a_slave_needs_no_share_line() {
    let shares = ["share,0,1,1\n", "share,1,1,1\n", "share,2,1,1\n"];
    assert_eq!(number_of(&three_masters(&shares)), 0);
}

#[test]
fn the_end_answers_and_no_line_is_charged() {
    let text = three_masters(&["share,0,0,1\n"]);
    assert_eq!(number_and_place(&text), Some((20, Place::End)));
}

#[test]
fn at_the_end_2_comes_before_20() {
    assert_eq!(number_and_place("master,4,8\n"), Some((2, Place::End)));
    assert_eq!(number_and_place(""), Some((2, Place::End)));
    let eight = "master,4,8\n".repeat(8);
    assert_eq!(number_and_place(&eight), Some((2, Place::End)));
}

#[test]
fn every_line_comes_before_the_end() {
    // the last master has no other line than the one that is refused
    let refused_at = |line: &str| {
        let text = three_masters(&["share,0,0,1\n", "share,1,0,1\n", line]);
        number_and_place(&text)
    };
    let share_line = Place::Line(7);
    assert_eq!(refused_at("share,2,0,01\n"), Some((1, share_line)));
    assert_eq!(refused_at("share,2,0,1"), Some((1, share_line)));
    assert_eq!(refused_at("\n"), Some((1, share_line)));
    assert_eq!(refused_at("master,4,8\n"), Some((2, share_line)));
    assert_eq!(refused_at("share,2,0,0\n"), Some((3, share_line)));
    assert_eq!(refused_at("share,2,2,1\n"), Some((7, share_line)));
    assert_eq!(refused_at("share,0,0,1\n"), Some((7, share_line)));
}

#[test]
fn a_narrow_master_at_a_native_slave_comes_before_the_end() {
    let text = "master,2,8\nmaster,4,8\nslave,0,8,4,8,1,0,1,0\n";
    let joined = text.to_string() + "share,0,0,1\n";
    assert_eq!(number_and_place(&joined), Some((19, Place::Line(3))));
    // no slave takes the narrow master, so that no share line can be put for it
    let left_out = text.to_string() + "share,1,0,1\n";
    assert_eq!(number_of(&left_out), 20);
}

#[test]
fn the_length_of_the_text_comes_before_the_end() {
    let text = three_masters(&[]) + &"x".repeat(8192);
    assert_eq!(number_and_place(&text), Some((1, Place::Length)));
}

#[test]
fn table_and_wait_call_answer_it() {
    let text = three_masters(&["share,0,0,1\n", "share,1,0,1\n"]);
    assert_eq!(table(text.as_bytes()), "refused,20\n");
    // before the room for the answer, the master and the slave are judged
    let mut output = [9; 15];
    assert_eq!(wait_call(text.as_bytes(), 0, 0, &mut output), 20);
    assert_eq!(wait_call(text.as_bytes(), 9, 9, &mut output), 20);
    assert_eq!(output, [9; 15]);
}

#[test]
fn a_refused_text_leaves_nothing_to_the_next() {
    // the share lines of the first two texts together would connect every master
    let texts = [
        three_masters(&["share,0,0,1\n", "share,1,0,1\n"]),
        three_masters(&["share,2,0,1\n"]),
        BOARD.to_string(),
    ];
    let records = texts.map(|text| format!("{}\n{text}", text.len())).concat();
    let (mut boards, mut places) = (Vec::new(), Vec::new());
    print_boards(records.as_bytes(), &mut boards).expect("the records are whole");
    print_places(records.as_bytes(), &mut places).expect("the records are whole");
    let expected = format!("read,20\nread,20\nread,0\n{BOARD}");
    assert_eq!(boards, expected.as_bytes());
    assert_eq!(places, b"end,20\nend,20\nread,0\n");
}

#[test]
fn a_script_is_not_run_on_a_refused_board() {
    let mut output = Vec::new();
    let text = three_masters(&[]);
    simulate(text.as_bytes(), &mut &b"reset\n"[..], &mut output).expect("memory takes all");
    assert_eq!(output, b"refused,20\n");
}

/// A fabric with a transfer under way, and then without the share line of a master.
fn disconnected(master: usize) -> Fabric {
    let mut fabric = Fabric::new(BOARD);
    assert_eq!(fabric.post(0, read_of(4096, 15, 2), &[]), 0);
    assert_eq!(fabric.clock().number, 0);
    fabric.board.shares[master][0] = 0;
    fabric
}

#[test]
fn a_lent_board_is_judged_for_it_by_every_call() {
    for master in [0, 1] {
        let mut fabric = disconnected(master);
        let (state, memory, buffer) = (fabric.state, fabric.memory.clone(), fabric.buffer);
        assert_eq!(fabric::reset(&fabric.board).0, 20);
        assert_eq!(fabric.post(1, read_of(4096, 3, 1), &[]), 20);
        let answer = fabric.clock();
        assert_eq!((answer.number, answer.mask), (20, 0));
        assert_eq!(answer.lines, [SlaveLine::default(); 16]);
        assert_eq!(fabric.state, state);
        assert_eq!(fabric.memory, memory);
        assert_eq!(fabric.buffer, buffer);
    }
}

#[test]
fn a_lent_board_with_the_share_given_back_goes_on() {
    let mut fabric = disconnected(1);
    assert_eq!(fabric.clock().number, 20);
    fabric.board.shares[1][0] = 1;
    assert_eq!(fabric.clock().number, 0);
}

#[test]
fn a_lent_board_without_any_share_is_judged_too() {
    let mut fabric = disconnected(0);
    fabric.board.shares = Default::default();
    assert_eq!(check_board(&fabric.board), Err(20));
    // at the end of its lines too, 2 comes before
    fabric.board.slave_count = 0;
    assert_eq!(check_board(&fabric.board), Err(2));
    fabric.board.master_count = 0;
    assert_eq!(check_board(&fabric.board), Err(2));
}

#[test]
fn a_share_outside_the_counts_of_a_lent_board_comes_before() {
    let mut fabric = disconnected(0);
    fabric.board.shares[0][1] = 1;
    assert_eq!(fabric.clock().number, 7);
    fabric.board.shares[0][1] = 0;
    fabric.board.shares[7][0] = 1;
    assert_eq!(fabric.clock().number, 7);
    fabric.board.shares[7][0] = 0;
    assert_eq!(fabric.clock().number, 20);
}

#[test]
fn every_line_of_a_lent_board_comes_before() {
    let number = |overwrite: fn(&mut Fabric)| {
        let mut fabric = disconnected(0);
        overwrite(&mut fabric);
        fabric.clock().number
    };
    assert_eq!(number(|fabric| fabric.board.master_count = 0), 2);
    assert_eq!(number(|fabric| fabric.board.masters[0].width = 3), 3);
    assert_eq!(number(|fabric| fabric.board.slaves[0].base = 4100), 4);
    assert_eq!(number(|fabric| fabric.board.slaves[0].span = 0), 3);
    assert_eq!(number(|fabric| fabric.board.shares[1][0] = 101), 3);
    let narrow = |fabric: &mut Fabric| {
        fabric.board.slaves[0].native = 1;
        fabric.board.masters[1].width = 1;
    };
    assert_eq!(number(narrow), 19);
}

#[test]
fn a_master_more_needs_a_share_line() {
    let mut board = read(BOARD.as_bytes()).expect("the board is refused");
    board.master_count = 3;
    board.masters[2] = board.masters[1];
    assert_eq!(check_board(&board), Err(20));
    board.shares[2][0] = 1;
    assert_eq!(check_board(&board), Ok(()));
    board.master_count = 2;
    assert_eq!(check_board(&board), Err(7));
}

#[test]
fn a_lent_board_is_judged_before_what_else_is_lent() {
    let mut fabric = disconnected(1);
    fabric.memory.pop();
    assert_eq!(fabric.clock().number, 20);
    fabric.board.shares[1][0] = 1;
    assert_eq!(fabric.clock().number, 8);
    let mut fabric = disconnected(1);
    let buffer = &mut fabric.buffer[..100];
    let transfer = read_of(4096, 15, 1);
    let number = fabric::post(&fabric.board, &mut fabric.state, buffer, 9, transfer, &[]);
    assert_eq!(number, 20);
    // a state that breaks a rule, and a master that there is not
    fabric.state.slots[0].owner = 9;
    assert_eq!(fabric.clock().number, 20);
    assert_eq!(fabric.post(9, transfer, &[]), 20);
    fabric.board.shares[1][0] = 1;
    assert_eq!(fabric.clock().number, 9);
}
