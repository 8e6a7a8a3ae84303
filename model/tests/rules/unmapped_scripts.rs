//! The lines of a script about unmapped transfers and the log, and what they print.

use crate::{BOARD, MARKED};
use model::script::simulate;

fn printed_on(text: &str, script: &str) -> String {
    let mut output = Vec::new();
    simulate(text.as_bytes(), &mut script.as_bytes(), &mut output).expect("memory takes all");
    String::from_utf8(output).expect("a script prints ASCII")
}

fn printed(script: &str) -> String {
    printed_on(MARKED, script)
}

const IDLE: &str = "slave,0,0,0,0,0,0,0\n";

#[test]
fn responses_stand_behind_the_card_lines() {
    let script =
        "reset\nfill,buffer,0,ffffffffff\npost,0,read,0,15,1,-\npost,1,write,8192,3,1,a1b2\n\
                  clock,2\nshow,buffer,0,6\nshow,buffer,512,3\n";
    let expected = format!(
        "reset,0\npost,0\npost,0\nclock,0,3\n{IDLE}response,0,3\nresponse,1,3\nclock,0,0\n{IDLE}\
         00000000ff00\na1b200\n"
    );
    assert_eq!(printed(script), expected);
}

#[test]
fn of_several_cards_all_lines_come_before_the_responses() {
    let text = "master,4,8\nmaster,4,8\nslave,0,8,4,8,0,0,0,0\nslave,8,8,4,8,0,0,0,0\n\
                share,0,0,1\nshare,1,1,1\ndefault\n";
    let script = "reset\npost,1,read,0,15,1,-\npost,0,write,4,15,1,01020304\nclock,1\ntake\n";
    let expected = "reset,0\npost,0\npost,0\nclock,0,3\nslave,0,2,0,4,15,1,0\n\
                    slave,1,0,0,0,0,0,0\nresponse,1,3\ntake,0,1,0,0\n";
    assert_eq!(printed_on(text, script), expected);
}

#[test]
fn a_take_prints_number_master_address_and_direction() {
    let script =
        "reset\ntake\npost,1,write,4294967294,2,1,a1b2\nclock,1\npost,0,read,4092,15,8,-\n\
                  clock,1\ntake\ntake\ntake\n";
    let expected = format!(
        "reset,0\ntake,22,0,0,0\npost,0\nclock,0,2\n{IDLE}response,1,3\npost,0\nclock,0,1\n{IDLE}\
         response,0,3\ntake,0,1,4294967294,1\ntake,0,0,4092,0\ntake,22,0,0,0\n"
    );
    assert_eq!(printed(script), expected);
}

/// The lines of a state behind its slots.
fn log_lines(printed: &str) -> Vec<&str> {
    printed
        .lines()
        .skip_while(|line| !line.starts_with("log,"))
        .collect()
}

#[test]
fn a_state_prints_the_log_behind_the_slots() {
    let script = "reset\npost,1,write,8192,3,1,a1b2\npost,0,read,0,15,1,-\nclock,1\nstate\n";
    let printed = printed(script);
    let expected = [
        "log,2,0",
        "entry,0,0,0,0",
        "entry,1,1,8192,1",
        "entry,2,0,0,0",
        "entry,3,0,0,0",
        "entry,4,0,0,0",
        "entry,5,0,0,0",
        "entry,6,0,0,0",
        "entry,7,0,0,0",
    ];
    assert_eq!(log_lines(&printed), expected);
    // calls, a card line and two responses, then 8 transfers, 16 slots and the log
    assert_eq!(printed.lines().count(), 4 + 3 + 8 + 16 + 9);
    assert!(printed.contains("slot,15,0,0,0,0,0\nlog,2,0\n"));
}

#[test]
fn what_a_state_prints_overwrites_it() {
    let script = "reset\nlog,4294967295,1\nentry,0,255,4294967295,1\nentry,7,1,8,0\n\
                  entry,3,2,4294967294,1\nstate\n";
    let first = printed(script);
    assert!(first.contains("log,4294967295,1\nentry,0,255,4294967295,1\n"));
    let state = first.strip_prefix("reset,0\n").expect("no reset");
    assert_eq!(printed(&format!("{state}state\n")), state);
}

#[test]
fn a_script_sets_the_log_to_anything() {
    let calls = "post,0,read,4096,15,1,-\nclock,1\ntake\n";
    let refused = "post,9\nclock,9,0\ntake,9,0,0,0\n";
    for count in ["9", "255", "256", "264", "4294967295"] {
        let script = format!("reset\nlog,{count},0\n{calls}");
        assert_eq!(printed(&script), format!("reset,0\n{refused}"));
        assert_eq!(printed_on(BOARD, &script), format!("reset,0\n{refused}"));
    }
    let script =
        "reset\nlog,8,1\nentry,0,255,4294967295,1\nentry,1,8,7,0\ntake\ntake\ntake\nstate\n";
    for text in [BOARD, MARKED] {
        let printed = printed_on(text, script);
        assert!(
            printed.starts_with("reset,0\ntake,0,255,4294967295,1\ntake,0,8,7,0\ntake,0,0,0,0\n")
        );
        assert_eq!(log_lines(&printed)[0], "log,5,1");
    }
}

#[test]
fn a_reset_clears_what_a_script_set() {
    let entries: String = (0..8)
        .map(|index| format!("entry,{index},1,2,1\n"))
        .collect();
    let printed = printed(&format!("log,8,1\n{entries}reset\nstate\n"));
    let lines = log_lines(&printed);
    assert_eq!(lines[0], "log,0,0");
    assert!(lines[1..].iter().all(|line| line.ends_with(",0,0,0")));
}

#[test]
fn a_script_gives_and_takes_the_mark() {
    let script = "reset\npost,0,read,0,15,1,-\ndefault,0\nclock,1\npost,1,read,4096,3,1,-\ntake\n\
                  default,1\nclock,1\ndefault,0\npost,0,read,0,15,1,-\nclock,1\ntake\nwait,0,0\n";
    let expected = format!(
        "reset,0\npost,0\nclock,9,0\npost,9\ntake,9,0,0,0\nclock,0,1\n{IDLE}response,0,3\n\
         post,16\nclock,0,0\n{IDLE}take,0,0,0,0\nwait,0,6,32\n"
    );
    assert_eq!(printed(script), expected);
    let script = format!(
        "default,1\n{}",
        script.replacen("reset\n", "reset\ndefault,1\n", 1)
    );
    assert_eq!(printed_on(BOARD, &script), expected);
}

#[test]
fn a_take_is_refused_for_the_board_and_not_for_what_is_lent() {
    let script = "reset\nlog,1,0\nentry,0,1,2,1\nlend,memory,0\nlend,buffer,0\nshare,1,0,0\ntake\n\
                  share,1,0,1\ntake\nclock,1\n";
    let expected = "reset,0\ntake,20,0,0,0\ntake,0,1,2,1\nclock,8,0\n";
    assert_eq!(printed(script), expected);
}

#[test]
fn lines_that_are_malformed_end_the_script() {
    for line in [
        "take,",
        "take,1",
        "Take",
        "default",
        "default,",
        "default,2",
        "default,01",
        "default,-",
        "default,256",
        "default,1,1",
        "log",
        "log,0",
        "log,0,",
        "log,0,2",
        "log,0,0,0",
        "log,00,0",
        "log,4294967296,0",
        "entry,8,0,0,0",
        "entry,0,256,0,0",
        "entry,0,0,4294967296,0",
        "entry,0,0,0,2",
        "entry,0,0,0",
        "entry,0,0,0,0,0",
        "entry,0,0,0,write",
        "response,0,3",
    ] {
        let script = format!("reset\n{line}\nreset\n");
        assert_eq!(printed(&script), "reset,0\nerror,2\n", "{line}");
    }
}

#[test]
fn numbers_at_the_ends_of_their_ranges_are_taken() {
    for line in [
        "default,0",
        "default,1",
        "log,0,0",
        "log,4294967295,1",
        "entry,0,0,0,0",
        "entry,7,255,4294967295,1",
    ] {
        let script = format!("reset\n{line}\nreset\n");
        assert_eq!(printed(&script), "reset,0\nreset,0\n", "{line}");
    }
}
