//! The programs' formats: where a script and a file of records end.

use std::io::BufReader;

use crate::BOARD;
use model::records::{print_boards, print_places};
use model::script::simulate;

fn printed_by_script(script: &str) -> String {
    let mut output = Vec::new();
    simulate(BOARD.as_bytes(), &mut script.as_bytes(), &mut output).expect("memory takes all");
    String::from_utf8(output).expect("a script prints ASCII")
}

#[test]
fn a_script_ends_at_its_first_malformed_line() {
    let printed = printed_by_script("reset\nclock,1\nclock,01\nreset\n");
    assert_eq!(
        printed,
        "reset,0\nclock,0,0\nslave,0,0,0,0,0,0,0\nerror,3\n"
    );
}

/// A legal line of each kind.
const LINES: [&str; 18] = [
    "reset",
    "post,1,write,4100,3,1,a1b2",
    "clock,10",
    "take",
    "wait,1,0",
    "fill,memory,0,a1b2",
    "show,buffer,512,10",
    "state",
    "lend,memory,4096",
    "transfer,0,1,0,4096,15,1,0",
    "slot,0,1,2,0,0,0",
    "log,1,0",
    "entry,7,1,4096,1",
    "master,1,2,16",
    "slave,0,4096,4096,2,8,1,0,0,63",
    "share,1,0,10",
    "count,2,1",
    "default,1",
];

#[test]
fn a_last_line_without_its_line_feed_is_an_error() {
    for line in LINES {
        let ended = printed_by_script(&format!("reset\n{line}\n"));
        assert!(!ended.contains("error"), "{line}: {ended}");
        let unended = printed_by_script(&format!("reset\n{line}"));
        assert_eq!(unended, "reset,0\nerror,2\n", "{line}");
    }
}

#[test]
fn a_last_line_is_not_carried_out_however_it_is_cut() {
    for line in LINES {
        for length in 1..line.len() {
            let cut = &line[..length];
            let printed = printed_by_script(&format!("wait,1,0\n{cut}"));
            assert_eq!(printed, "wait,0,36,2\nerror,2\n", "{cut}");
        }
    }
    for cut in ["x", ",", "0", " ", "\r", "clock,1\r", "clock,01", "Reset"] {
        let printed = printed_by_script(&format!("reset\n{cut}"));
        assert_eq!(printed, "reset,0\nerror,2\n", "{cut}");
    }
}

#[test]
fn what_is_printed_before_an_unended_line_stands() {
    let script = "reset\npost,0,read,4096,15,1,-\nclock,2\nclock,1";
    let expected = "reset,0\npost,0\nclock,0,0\nslave,0,1,0,0,3,2,0\n\
                    clock,0,0\nslave,0,2,0,0,3,2,0\nerror,4\n";
    assert_eq!(printed_by_script(script), expected);
}

#[test]
fn an_unended_line_may_be_the_whole_script() {
    for line in ["reset", "clock,1", "x"] {
        assert_eq!(printed_by_script(line), "error,1\n", "{line}");
    }
}

#[test]
fn a_script_that_is_empty_or_ends_in_a_line_feed_has_no_unended_line() {
    assert_eq!(printed_by_script(""), "");
    assert_eq!(printed_by_script("wait,1,0\n"), "wait,0,36,2\n");
    // an empty line is malformed, and has its line feed
    assert_eq!(printed_by_script("\n"), "error,1\n");
    assert_eq!(printed_by_script("wait,1,0\n\n"), "wait,0,36,2\nerror,2\n");
}

#[test]
fn the_first_error_ends_a_script_before_an_unended_line() {
    let printed = printed_by_script("reset\nclock,01\nreset\nreset");
    assert_eq!(printed, "reset,0\nerror,2\n");
}

#[test]
fn an_unended_line_is_found_however_the_script_is_read() {
    let script = b"reset\nwait,1,0\nclock,10";
    for piece in 1..=script.len() {
        let mut lines = BufReader::with_capacity(piece, &script[..]);
        let mut output = Vec::new();
        simulate(BOARD.as_bytes(), &mut lines, &mut output).expect("memory takes all");
        assert_eq!(output, b"reset,0\nwait,0,36,2\nerror,3\n", "{piece}");
    }
}

#[test]
fn the_end_of_a_script_is_not_looked_at_if_the_board_is_refused() {
    let mut output = Vec::new();
    simulate(b"master,4,8\n", &mut &b"reset"[..], &mut output).expect("memory takes all");
    assert_eq!(output, b"refused,2\n");
}

#[test]
fn a_script_sets_the_last_numbers_of_a_card_to_anything() {
    let lines =
        [1, 257, u32::MAX].map(|native| format!("slave,0,4096,4096,2,8,1,0,{native},0\nreset\n"));
    assert_eq!(
        printed_by_script(&lines.concat()),
        "reset,0\nreset,3\nreset,3\n"
    );
    let lines = [63, 64, 257, u32::MAX]
        .map(|latency| format!("slave,0,4096,4096,2,8,1,0,0,{latency}\nreset\n"));
    assert_eq!(
        printed_by_script(&lines.concat()),
        "reset,0\nreset,3\nreset,3\nreset,3\n"
    );
    for end in ["", ",0", ",0,0,0", ",0,4294967296", ",0,00"] {
        let line = format!("slave,0,4096,4096,2,8,1,0{end}\n");
        assert_eq!(printed_by_script(&line), "error,1\n", "{end}");
    }
}

#[test]
fn a_script_sets_the_count_of_a_transfer_to_anything() {
    let lines =
        ["0", "1", "4294967295"].map(|late| format!("transfer,7,0,0,0,0,0,{late}\nclock,1\n"));
    let idle = "clock,0,0\nslave,0,0,0,0,0,0,0\n";
    assert_eq!(
        printed_by_script(&lines.concat()),
        format!("{idle}clock,9,0\nclock,9,0\n")
    );
    for end in ["", ",0,0", ",4294967296", ",00", ",-1"] {
        let line = format!("transfer,7,0,0,0,0,0{end}\n");
        assert_eq!(printed_by_script(&line), "error,1\n", "{end}");
    }
}

#[test]
fn each_record_has_its_answer() {
    let records = format!("{}\n{BOARD}1\n\n0\n", BOARD.len());
    let mut boards = Vec::new();
    print_boards(records.as_bytes(), &mut boards).expect("the records are whole");
    assert_eq!(
        boards,
        format!("read,0\n{BOARD}read,1\nread,2\n").as_bytes()
    );
    let mut places = Vec::new();
    print_places(records.as_bytes(), &mut places).expect("the records are whole");
    assert_eq!(places, b"read,0\nother,1\nend,2\n");
}

#[test]
fn a_record_that_is_cut_off_is_an_error() {
    assert!(print_boards(b"3\nab", &mut Vec::new()).is_err());
    assert!(print_boards(b"x\nab", &mut Vec::new()).is_err());
}
